//! The classes of stores as the scope paper's table lists them; behind it those of halfwords and
//! words, from document 02 (i), and the narrow strided ones, from document 02 (vii).

/// Bits of a word, from the highest to the lowest.
#[derive(Clone, Copy)]
pub struct Field(u32, u32);

/// Zm or Rm.
pub const INDEX: Field = Field(20, 16);
pub const IMM4: Field = Field(19, 16);
pub const XS: Field = Field(14, 14);
/// Pg, or the counter's register less 8.
pub const PREDICATE: Field = Field(12, 10);
/// Rn or Zn.
pub const BASE: Field = Field(9, 5);
pub const ZT: Field = Field(4, 0);
pub const T: Field = Field(4, 4);
pub const ZT3: Field = Field(2, 0);
pub const ZT2: Field = Field(1, 0);

/// The number of the base register that is SP, and of the index register that is zero.
pub const R31: usize = 31;

impl Field {
    pub fn mask(self) -> u32 {
        (self.1..=self.0).fold(0, |mask, bit| mask | 1 << bit)
    }

    pub fn of(self, word: u32) -> usize {
        ((word & self.mask()) >> self.1) as usize
    }
}

/// How a store finds its elements.
#[derive(Clone, Copy, PartialEq, Eq)]
pub enum Form {
    /// A scalar base plus a vector of offsets, of which so many low bits count.
    Scatter { offset: usize, scale: u32 },
    /// From this many registers, one element behind the other; by an immediate or a scalar index.
    Strided { registers: usize, immediate: bool },
    /// A vector of bases plus a scalar offset.
    Quadword,
}

pub struct Class {
    pub base: u32,
    pub fields: &'static [Field],
    pub esize: usize,
    pub msize: usize,
    pub form: Form,
}

const UNPACKED: &[Field] = &[INDEX, XS, PREDICATE, BASE, ZT];
const PLAIN: &[Field] = &[INDEX, PREDICATE, BASE, ZT];
const TWO: &[Field] = &[INDEX, PREDICATE, BASE, T, ZT3];
const FOUR: &[Field] = &[INDEX, PREDICATE, BASE, T, ZT2];
const TWO_IMMEDIATE: &[Field] = &[IMM4, PREDICATE, BASE, T, ZT3];
const FOUR_IMMEDIATE: &[Field] = &[IMM4, PREDICATE, BASE, T, ZT2];

/// The classes in the order of their numbers, which start at 1.
pub const CLASSES: &[Class] = &[
    class(0xE5A0_8000, UNPACKED, 64, 64, Form::Scatter { offset: 32, scale: 3 }),
    class(0xE580_8000, UNPACKED, 64, 64, Form::Scatter { offset: 32, scale: 0 }),
    class(0xE5A0_A000, PLAIN, 64, 64, Form::Scatter { offset: 64, scale: 3 }),
    class(0xE580_A000, PLAIN, 64, 64, Form::Scatter { offset: 64, scale: 0 }),
    class(0xE400_8000, UNPACKED, 64, 8, Form::Scatter { offset: 32, scale: 0 }),
    class(0xE440_8000, UNPACKED, 32, 8, Form::Scatter { offset: 32, scale: 0 }),
    class(0xE400_A000, PLAIN, 64, 8, Form::Scatter { offset: 64, scale: 0 }),
    class(0xA120_6000, TWO, 64, 64, Form::Strided { registers: 2, immediate: false }),
    class(0xA120_E000, FOUR, 64, 64, Form::Strided { registers: 4, immediate: false }),
    class(0xA160_6000, TWO_IMMEDIATE, 64, 64, Form::Strided { registers: 2, immediate: true }),
    class(0xA160_E000, FOUR_IMMEDIATE, 64, 64, Form::Strided { registers: 4, immediate: true }),
    class(0xE420_2000, PLAIN, 128, 128, Form::Quadword),
    class(0xE4A0_8000, UNPACKED, 64, 16, Form::Scatter { offset: 32, scale: 1 }),
    class(0xE480_8000, UNPACKED, 64, 16, Form::Scatter { offset: 32, scale: 0 }),
    class(0xE4A0_A000, PLAIN, 64, 16, Form::Scatter { offset: 64, scale: 1 }),
    class(0xE480_A000, PLAIN, 64, 16, Form::Scatter { offset: 64, scale: 0 }),
    class(0xE4E0_8000, UNPACKED, 32, 16, Form::Scatter { offset: 32, scale: 1 }),
    class(0xE4C0_8000, UNPACKED, 32, 16, Form::Scatter { offset: 32, scale: 0 }),
    class(0xE520_8000, UNPACKED, 64, 32, Form::Scatter { offset: 32, scale: 2 }),
    class(0xE500_8000, UNPACKED, 64, 32, Form::Scatter { offset: 32, scale: 0 }),
    class(0xE520_A000, PLAIN, 64, 32, Form::Scatter { offset: 64, scale: 2 }),
    class(0xE500_A000, PLAIN, 64, 32, Form::Scatter { offset: 64, scale: 0 }),
    class(0xE560_8000, UNPACKED, 32, 32, Form::Scatter { offset: 32, scale: 2 }),
    class(0xE540_8000, UNPACKED, 32, 32, Form::Scatter { offset: 32, scale: 0 }),
    class(0xA120_0000, TWO, 8, 8, Form::Strided { registers: 2, immediate: false }),
    class(0xA120_8000, FOUR, 8, 8, Form::Strided { registers: 4, immediate: false }),
    class(0xA160_0000, TWO_IMMEDIATE, 8, 8, Form::Strided { registers: 2, immediate: true }),
    class(0xA160_8000, FOUR_IMMEDIATE, 8, 8, Form::Strided { registers: 4, immediate: true }),
    class(0xA120_2000, TWO, 16, 16, Form::Strided { registers: 2, immediate: false }),
    class(0xA120_A000, FOUR, 16, 16, Form::Strided { registers: 4, immediate: false }),
    class(0xA160_2000, TWO_IMMEDIATE, 16, 16, Form::Strided { registers: 2, immediate: true }),
    class(0xA160_A000, FOUR_IMMEDIATE, 16, 16, Form::Strided { registers: 4, immediate: true }),
    class(0xA120_4000, TWO, 32, 32, Form::Strided { registers: 2, immediate: false }),
    class(0xA120_C000, FOUR, 32, 32, Form::Strided { registers: 4, immediate: false }),
    class(0xA160_4000, TWO_IMMEDIATE, 32, 32, Form::Strided { registers: 2, immediate: true }),
    class(0xA160_C000, FOUR_IMMEDIATE, 32, 32, Form::Strided { registers: 4, immediate: true }),
];

const fn class(
    base: u32,
    fields: &'static [Field],
    esize: usize,
    msize: usize,
    form: Form,
) -> Class {
    Class { base, fields, esize, msize, form }
}

impl Class {
    /// The bits of the fields.
    pub fn free(&self) -> u32 {
        self.fields.iter().fold(0, |mask, field| mask | field.mask())
    }

    /// How many elements a store has where vectors have `vb` bytes.
    pub fn elements(&self, vb: usize) -> usize {
        let registers = match self.form {
            Form::Strided { registers, .. } => registers,
            _ => 1,
        };
        registers * vb * 8 / self.esize
    }
}

/// The class that a word belongs to, counted from 0.
pub fn class_of(word: u32) -> Option<usize> {
    CLASSES.iter().position(|class| word & !class.free() == class.base)
}

/// Words beside the classes of scatter stores that belong to none: scaled stores of bytes, doublewords
/// out of elements of 32 bits, and 64-bit offsets with bits 22..21 as 10 and 11. Behind them words
/// beside the narrow strided stores: STNT1B, STNT1H and STNT1W (bit 3), bit 2 or 3 where there are four
/// registers, bit 20 with an immediate, and loads (bit 21).
#[cfg(test)]
pub const BESIDE: &[u32] = &[
    0xE420_8000,
    0xE420_C000,
    0xE420_A000,
    0xE460_8000,
    0xE460_C000,
    0xE5C0_8000,
    0xE5C0_C000,
    0xE5E0_8000,
    0xE5E0_C000,
    0xE440_A000,
    0xE460_A000,
    0xE4C0_A000,
    0xE4E0_A000,
    0xE540_A000,
    0xE560_A000,
    0xE5C0_A000,
    0xE5E0_A000,
    0xA120_0008,
    0xA120_2008,
    0xA120_4008,
    0xA160_0008,
    0xA160_2008,
    0xA160_4008,
    0xA120_8004,
    0xA120_A008,
    0xA120_C00C,
    0xA160_8004,
    0xA160_A008,
    0xA160_C00C,
    0xA170_0000,
    0xA170_A000,
    0xA170_4000,
    0xA100_0000,
    0xA140_A000,
];

#[cfg(test)]
mod tests {
    use super::*;

    #[test]
    fn classes_of_words() {
        for (number, class) in CLASSES.iter().enumerate() {
            assert_eq!(class_of(class.base), Some(number));
            assert_eq!(class_of(class.base | class.free()), Some(number));
        }
        for word in [0xA120_E004, 0xA120_6008, 0, !0].iter().chain(BESIDE) {
            assert_eq!(class_of(*word), None);
        }
    }
}
