//! A decoder and an encoder made from the patterns alone.

use crate::patterns::{allows, Class, CLASSES};
use crate::verdicts::{BAD_FIELDS, DONE, UNDEFINED};
use starshackle::{Answer, Fields, WORD};

/// A verdict and the numbers that come with it.
#[derive(Clone, Copy, Debug, PartialEq, Eq)]
pub struct Outcome<const N: usize> {
    pub verdict: u64,
    pub numbers: [u64; N],
}

impl<const N: usize> Outcome<N> {
    /// Equality, number by number: on fresh answers that is much quicker than by `==`.
    #[inline]
    pub fn is(&self, other: &Outcome<N>) -> bool {
        let mut pairs = self.numbers.iter().zip(&other.numbers);
        self.verdict == other.verdict && pairs.all(|(one, other)| one == other)
    }
}

// Entries of the fields.
pub const CLASS: usize = 0;
const INDEX: usize = 1;
const EXTENSION: usize = 2;
const PREDICATE: usize = 3;
const BASE: usize = 4;
const REGISTER: usize = 5;
const MULTIPLE: usize = 6;

/// All classes, ready to decode and encode.
pub struct Reference {
    /// For each byte of a word, the lowest first, and each value of it: the classes that allow
    /// it there, the class of number c as bit c - 1.
    allowed: [[u64; 256]; 4],
    layouts: Vec<Layout>,
}

impl Default for Reference {
    fn default() -> Reference {
        Reference::new()
    }
}

impl Reference {
    pub fn new() -> Reference {
        let mut allowed = [[0; 256]; 4];
        for (number, class) in CLASSES.iter().enumerate() {
            let letters = class.letters();
            for (table, letters) in allowed.iter_mut().zip(letters.chunks(8)) {
                for (value, classes) in table.iter_mut().enumerate() {
                    let bit = |place: usize| (value >> place & 1) as u32;
                    let fits = (0..8).all(|place| allows(letters[place], bit(place)));
                    *classes |= u64::from(fits) << number;
                }
            }
        }
        Reference { allowed, layouts: CLASSES.iter().map(Layout::new).collect() }
    }

    /// Whether a class has words with this top byte.
    pub fn reaches(&self, top: u8) -> bool {
        self.allowed[3][usize::from(top)] != 0
    }

    #[inline]
    pub fn decode(&self, word: u32) -> Outcome<8> {
        let bytes = word.to_le_bytes().map(usize::from);
        let allowed = &self.allowed;
        let lower = allowed[0][bytes[0]] & allowed[1][bytes[1]];
        let classes = lower & allowed[2][bytes[2]] & allowed[3][bytes[3]];
        if classes == 0 {
            return Outcome { verdict: UNDEFINED, numbers: [0; 8] };
        }
        let number = classes.trailing_zeros();
        let mut fields = self.layouts[number as usize].read(word);
        fields[CLASS] = u64::from(number) + 1;
        Outcome { verdict: DONE, numbers: fields }
    }

    pub fn encode(&self, fields: &Fields) -> Outcome<5> {
        let class = usize::try_from(fields[CLASS]).unwrap_or(0);
        let layout = class.checked_sub(1).and_then(|number| self.layouts.get(number));
        match layout.and_then(|layout| layout.write(fields)) {
            Some(word) => Outcome { verdict: DONE, numbers: encoded(word) },
            None => Outcome { verdict: BAD_FIELDS, numbers: [0; 5] },
        }
    }

    /// The word of a class, counted from 0, whose fields have these bits.
    pub fn word(&self, number: usize, bits: u32) -> u32 {
        let layout = &self.layouts[number];
        layout.bits.iter().fold(layout.ones, |word, bit| word | bits & 1 << bit.place)
    }
}

/// The answer that holds a word.
pub fn encoded(word: u32) -> Answer {
    let mut answer = [0; 5];
    answer[WORD] = u64::from(word);
    answer
}

/// Where a class keeps its fields.
struct Layout {
    registers: i64,
    /// The word whose fields are all 0.
    ones: u32,
    bits: Vec<Bit>,
    /// The bits that each entry has places for.
    room: Fields,
}

/// One bit of a field: its place in the word, the entry it belongs to, and its place there.
struct Bit {
    place: u32,
    entry: usize,
    weight: u32,
}

impl Layout {
    fn new(class: &Class) -> Layout {
        let letters = class.letters();
        let mut layout = Layout { registers: class.registers, ones: 0, bits: vec![], room: [0; 8] };
        for (place, &letter) in letters.iter().enumerate() {
            let lower = letters[..place].iter().filter(|&&other| other == letter).count() as u32;
            let (entry, weight) = match letter {
                b'0' => continue,
                b'1' => {
                    layout.ones |= 1 << place;
                    continue;
                }
                b'm' => (INDEX, lower),
                b'x' => (EXTENSION, lower),
                b'g' => (PREDICATE, lower),
                b'n' => (BASE, lower),
                b't' => (REGISTER, lower),
                b'T' => (REGISTER, 4),
                b'i' => (MULTIPLE, lower),
                _ => panic!("{}: no field has the letter {}", class.name, letter as char),
            };
            layout.room[entry] |= 1 << weight;
            layout.bits.push(Bit { place: place as u32, entry, weight });
        }
        layout
    }

    /// The fields of a word, all but its class.
    fn read(&self, word: u32) -> Fields {
        let mut fields = [0; 8];
        for bit in &self.bits {
            fields[bit.entry] |= u64::from(word >> bit.place & 1) << bit.weight;
        }
        if self.room[EXTENSION] != 0 {
            fields[EXTENSION] += 1;
        }
        if self.room[MULTIPLE] != 0 {
            let signed = (fields[MULTIPLE] as i64 ^ 8) - 8;
            fields[MULTIPLE] = (signed * self.registers) as u64;
        }
        fields
    }

    /// The word with these fields, if the class can name them all.
    fn write(&self, fields: &Fields) -> Option<u32> {
        let mut raw = *fields;
        raw[CLASS] = 0;
        if self.room[EXTENSION] != 0 {
            raw[EXTENSION] = fields[EXTENSION].checked_sub(1)?;
        }
        if self.room[MULTIPLE] != 0 {
            raw[MULTIPLE] = self.imm4(fields[MULTIPLE] as i64)?;
        }
        let fits = raw.iter().zip(&self.room).all(|(value, room)| value & !room == 0);
        let bit = |bit: &Bit| (raw[bit.entry] >> bit.weight & 1) as u32;
        fits.then(|| self.bits.iter().fold(self.ones, |word, b| word | bit(b) << b.place))
    }

    fn imm4(&self, multiple: i64) -> Option<u64> {
        let signed = multiple / self.registers;
        let named = multiple % self.registers == 0 && (-8..=7).contains(&signed);
        named.then_some((signed & 15) as u64)
    }
}

#[cfg(test)]
mod tests {
    use super::*;
    use crate::model_decode;
    use crate::storing::classes::BESIDE;

    const NONE: Outcome<8> = Outcome { verdict: UNDEFINED, numbers: [0; 8] };

    fn store(numbers: Fields) -> Outcome<8> {
        Outcome { verdict: DONE, numbers }
    }

    #[test]
    fn cases_at_the_edges() {
        let reference = Reference::new();
        let cases = [
            (0xA16F_6000, store([10, 0, 0, 0, 0, 0, (-2i64) as u64, 0])),
            (0xA168_E000, store([11, 0, 0, 0, 0, 0, (-32i64) as u64, 0])),
            (0xA120_6010, store([8, 0, 0, 0, 0, 16, 0, 0])),
            (0xA120_E004, NONE),
            (0xA120_6008, NONE),
        ];
        for (word, outcome) in cases {
            assert_eq!(reference.decode(word), outcome, "{word:08X}");
        }
        for word in BESIDE {
            assert_eq!(reference.decode(*word), NONE, "{word:08X}");
            assert_eq!(model_decode(*word), NONE, "{word:08X}");
        }
    }

    #[test]
    fn every_field_in_its_place() {
        let reference = Reference::new();
        let cases = [
            (0xE5BE_DC87, [1, 30, 2, 7, 4, 7, 0, 0]),
            (0xE443_87FF, [6, 3, 1, 1, 31, 31, 0, 0]),
            (0xA13F_FFF3, [9, 31, 0, 7, 31, 19, 0, 0]),
            (0xA167_7C37, [10, 0, 0, 7, 1, 23, 14, 0]),
            (0xE421_2443, [12, 1, 0, 1, 2, 3, 0, 0]),
            (0xE4BE_DC87, [13, 30, 2, 7, 4, 7, 0, 0]),
            (0xE4C3_87FF, [18, 3, 1, 1, 31, 31, 0, 0]),
            (0xE53F_BFFF, [21, 31, 0, 7, 31, 31, 0, 0]),
            (0xE57E_DC87, [23, 30, 2, 7, 4, 7, 0, 0]),
            (0xA125_0442, [25, 5, 0, 1, 2, 2, 0, 0]),
            (0xA13F_9FF3, [26, 31, 0, 7, 31, 19, 0, 0]),
            (0xA167_3C37, [31, 0, 0, 7, 1, 23, 14, 0]),
            (0xA130_C011, [34, 16, 0, 0, 0, 17, 0, 0]),
            (0xA168_C000, [36, 0, 0, 0, 0, 0, (-32i64) as u64, 0]),
        ];
        for (word, fields) in cases {
            assert_eq!(reference.decode(word), store(fields), "{word:08X}");
            assert_eq!(reference.encode(&fields).numbers, encoded(word), "{word:08X}");
        }
    }

    #[test]
    fn fields_that_no_word_has() {
        let refused = Outcome { verdict: BAD_FIELDS, numbers: [0; 5] };
        let cases = [
            [0; 8],
            [CLASSES.len() as u64 + 1, 0, 0, 0, 0, 0, 0, 0],
            [1, 0, 0, 0, 0, 0, 0, 0],
            [3, 0, 1, 0, 0, 0, 0, 0],
            [3, 0, 0, 8, 0, 0, 0, 0],
            [8, 0, 0, 0, 0, 8, 0, 0],
            [9, 0, 0, 0, 0, 20, 0, 0],
            [10, 1, 0, 0, 0, 0, 0, 0],
            [10, 0, 0, 0, 0, 0, 16, 0],
            [11, 0, 0, 0, 0, 0, 2, 0],
            [12, 0, 0, 0, 0, 0, 1, 0],
            [12, 0, 0, 0, 0, 0, 0, 1],
            [13, 0, 0, 0, 0, 0, 0, 0],
            [16, 0, 2, 0, 0, 0, 0, 0],
            [18, 0, 3, 0, 0, 0, 0, 0],
            [24, 0, 1, 0, 0, 0, 1, 0],
            [25, 0, 1, 0, 0, 0, 0, 0],
            [25, 0, 0, 0, 0, 0, 2, 0],
            [26, 0, 0, 0, 0, 4, 0, 0],
            [27, 1, 0, 0, 0, 0, 0, 0],
            [29, 0, 0, 0, 0, 8, 0, 0],
            [32, 0, 0, 0, 0, 0, 2, 0],
            [35, 0, 0, 0, 0, 0, 16, 0],
        ];
        for fields in cases {
            assert_eq!(Reference::new().encode(&fields), refused, "{fields:?}");
        }
    }
}
