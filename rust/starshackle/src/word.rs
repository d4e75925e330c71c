//! Words and decoded stores.

use crate::{decode_fields, encode_fields, Fields, Refusal, WORD};

/// How a 32-bit offset becomes a 64-bit one.
#[derive(Clone, Copy, Debug, PartialEq, Eq, Hash)]
pub enum Extension {
    /// With zeros.
    Uxtw,
    /// With its sign.
    Sxtw,
}

/// A store as its word names it. A field that the class lacks is 0.
///
/// ```
/// use starshackle::{decode, encode, Store};
///
/// let store = Store { class: 12, index: 1, base: 2, register: 3, ..Store::default() };
/// let word = encode(store)?;
/// assert_eq!(word, 0xE421_2043); // st1q { z3.q }, p0, [z2.d, x1]
/// assert_eq!(decode(word), Ok(store));
/// # Ok::<(), starshackle::Refusal>(())
/// ```
#[derive(Clone, Copy, Debug, Default, PartialEq, Eq, Hash)]
pub struct Store {
    /// The class, numbered from 1 to 12 as document 01 does, from 13 to 24 as document 02 (i) does and
    /// from 25 to 36 as document 02 (vii) does.
    pub class: u64,
    /// Zm in classes 1 to 7 and 13 to 24, Rm in 8, 9, 12, 25, 26, 29, 30, 33 and 34.
    pub index: u64,
    /// The offsets' extension, in classes 1, 2, 5, 6, 13, 14, 17 to 20, 23 and 24.
    pub extension: Option<Extension>,
    /// Pg; in classes 8 to 11 and 25 to 36 the counter's register less 8.
    pub predicate: u64,
    /// Rn, 31 for SP; in class 12 Zn.
    pub base: u64,
    /// Zt; in classes 8 to 11 and 25 to 36 the first of the registers.
    pub register: u64,
    /// The immediate in vectors, in classes 10, 11, 27, 28, 31, 32, 35 and 36.
    pub multiple: i64,
}

/// The store that a word names; [`Refusal::Undefined`] when it is of no class. No flag is looked
/// at.
///
/// ```
/// use starshackle::{decode, Refusal};
///
/// let store = decode(0xA16F_6000)?;
/// assert_eq!((store.class, store.multiple), (10, -2));
/// assert_eq!(decode(0xE420_8000), Err(Refusal::Undefined));
/// # Ok::<(), Refusal>(())
/// ```
pub fn decode(word: u32) -> Result<Store, Refusal> {
    let mut fields = [0; 8];
    match decode_fields(word, &mut fields) {
        0 => Ok(Store::from(fields)),
        verdict => Err(Refusal::answered(verdict, [0, 0])),
    }
}

/// The word that names a store; [`Refusal::Fields`] when there is none.
///
/// ```
/// use starshackle::{encode, Refusal, Store};
///
/// let store = |multiple| Store { class: 10, multiple, ..Store::default() };
/// assert_eq!(encode(store(-2)), Ok(0xA16F_6000));
/// assert_eq!(encode(store(-1)), Err(Refusal::Fields));
/// ```
pub fn encode(store: Store) -> Result<u32, Refusal> {
    let mut answer = [0; 5];
    match encode_fields(&Fields::from(store), &mut answer) {
        0 => Ok(u32::try_from(answer[WORD]).expect("a word has 32 bits")),
        verdict => Err(Refusal::answered(verdict, [0, 0])),
    }
}

/// The store of fields that [`decode_fields`] answers.
impl From<Fields> for Store {
    fn from(fields: Fields) -> Store {
        let [class, index, extension, predicate, base, register, multiple, _] = fields;
        let extension = match extension {
            1 => Some(Extension::Uxtw),
            2 => Some(Extension::Sxtw),
            _ => None,
        };
        let multiple = multiple as i64; // two's complement
        Store { class, index, extension, predicate, base, register, multiple }
    }
}

/// The fields that [`encode_fields`] takes.
impl From<Store> for Fields {
    fn from(store: Store) -> Fields {
        let Store { class, index, extension, predicate, base, register, multiple } = store;
        let extension = match extension {
            None => 0,
            Some(Extension::Uxtw) => 1,
            Some(Extension::Sxtw) => 2,
        };
        let multiple = multiple as u64; // two's complement
        [class, index, extension, predicate, base, register, multiple, 0]
    }
}

#[cfg(test)]
mod tests {
    use super::*;

    const STRIDED: Store = Store {
        class: 10,
        index: 0,
        extension: None,
        predicate: 0,
        base: 0,
        register: 0,
        multiple: -2,
    };

    #[test]
    fn a_strided_store() {
        assert_eq!(decode(0xA16F_6000), Ok(STRIDED));
        assert_eq!(encode(STRIDED), Ok(0xA16F_6000));
    }

    #[test]
    fn a_scatter_store() {
        let store = decode(0xE5A0_C3E0).unwrap();
        assert_eq!((store.class, store.base), (1, 31));
        assert_eq!(store.extension, Some(Extension::Sxtw));
        assert_eq!(encode(store), Ok(0xE5A0_C3E0));
    }

    /// Classes 13 to 24 in order: bits 24..23 have the size, 22..21 the element and the scale, and 15..13
    /// the offsets' form.
    #[test]
    fn halfwords_and_words() {
        let unpacked = [0xE4A0_8000, 0xE480_8000];
        let (wide, narrow) = ([0xE4A0_A000, 0xE480_A000], [0xE4E0_8000, 0xE4C0_8000]);
        let halfwords = [unpacked, wide, narrow].concat();
        let words = halfwords.iter().map(|word| word ^ 0x0180_0000);
        let fields = 31 << 16 | 7 << 10 | 31 << 5 | 30;
        for (class, word) in (13..).zip(halfwords.iter().copied().chain(words)) {
            let extended = word & 1 << 13 == 0;
            let extension = extended.then_some(Extension::Uxtw);
            let (index, predicate, base, register) = (31, 7, 31, 30);
            let store = Store { class, index, extension, predicate, base, register, multiple: 0 };
            assert_eq!(decode(word | fields), Ok(store));
            assert_eq!(encode(store), Ok(word | fields));
            if extended {
                let signed = Store { extension: Some(Extension::Sxtw), ..store };
                assert_eq!(decode(word | fields | 1 << 14), Ok(signed));
            }
        }
    }

    /// Classes 25 to 36, and 8 to 11, in order: bits 14..13 have the size, bit 15 whether there are four
    /// registers, bit 22 whether there is an immediate.
    #[test]
    fn strided_stores() {
        for (first, size) in [(25, 0), (29, 1), (33, 2), (8, 3)] {
            for (class, form) in (first..).zip([0xA120_0000, 0xA120_8000, 0xA160_0000, 0xA160_8000])
            {
                let (four, immediate) = (form >> 15 & 1, form >> 22 & 1 == 1);
                let fields = 7 << 10 | 31 << 5 | 1 << 4 | 3 | if immediate { 8 } else { 31 } << 16;
                let (index, multiple) = match immediate {
                    true => (0, if four == 1 { -32 } else { -16 }),
                    false => (31, 0),
                };
                let (predicate, base, register) = (7, 31, 19);
                let extension = None;
                let store = Store { class, index, extension, predicate, base, register, multiple };
                let word = form | size << 13 | fields;
                assert_eq!(decode(word), Ok(store), "{word:08X}");
                assert_eq!(encode(store), Ok(word));
                assert_eq!(decode(word | 8), Err(Refusal::Undefined));
                let refused = [
                    Store { register: 8, ..store },
                    Store { multiple: multiple + 1, ..store },
                    Store { extension: Some(Extension::Uxtw), ..store },
                ];
                assert_eq!(refused.map(encode), [Err(Refusal::Fields); 3]);
            }
        }
    }

    #[test]
    fn refusals() {
        assert_eq!(decode(0xE420_8000), Err(Refusal::Undefined));
        assert_eq!(encode(Store { multiple: 1, ..STRIDED }), Err(Refusal::Fields));
        assert_eq!(encode(Store { class: 37, ..Store::default() }), Err(Refusal::Fields));
    }

    /// Places beside the classes: scaled bytes, doublewords in elements of 32 bits, and 64-bit offsets
    /// with bits 22..21 as 10 and 11.
    #[test]
    fn undefined_beside_the_classes() {
        let bytes = [0xE420_8000, 0xE420_C000, 0xE420_A000, 0xE460_8000, 0xE460_C000];
        let doublewords = [0xE5C0_8000, 0xE5C0_C000, 0xE5E0_8000, 0xE5E0_C000];
        let sizes = [0xE440_A000, 0xE4C0_A000, 0xE540_A000, 0xE5C0_A000];
        let wide = sizes.iter().flat_map(|word| [*word, word | 1 << 21]);
        for word in bytes.into_iter().chain(doublewords).chain(wide) {
            for fields in [0, 0x001F_1FFF] {
                assert_eq!(decode(word | fields), Err(Refusal::Undefined), "{word:08X}");
            }
        }
    }
}
