//! Words and the stores that they name.

use starshackle::{Extension, Store};

/// How a store of a class finds its elements.
#[derive(Clone, Copy, PartialEq, Eq)]
pub enum Form {
    /// Elements of so many bytes, of which so many are stored, at a base plus scaled offsets.
    Scatter { element: usize, stored: usize, scale: u32, extended: bool },
    /// Elements of so many bytes of registers, one behind the other, at a base plus an index or an
    /// immediate.
    Strided { element: usize, registers: usize, immediate: bool },
    /// Quadwords at a vector of bases plus an index.
    Quadword,
}

/// A class of words.
pub struct Class {
    number: u64,
    base: u32,
    /// The bits that are no field's.
    fixed: u32,
    pub form: Form,
}

const fn scatter(number: u64, base: u32, sizes: (usize, usize), scale: u32) -> Class {
    let extended = base & 1 << 13 == 0;
    let fixed = if extended { 0xFFE0_A000 } else { 0xFFE0_E000 };
    let (element, stored) = sizes;
    Class { number, base, fixed, form: Form::Scatter { element, stored, scale, extended } }
}

const fn strided(
    number: u64,
    base: u32,
    element: usize,
    registers: usize,
    immediate: bool,
) -> Class {
    let high = if immediate { 0xFFF0_E000 } else { 0xFFE0_E000 };
    let low = if registers == 2 { 0x8 } else { 0xC };
    Class { number, base, fixed: high | low, form: Form::Strided { element, registers, immediate } }
}

const CLASSES: [Class; 36] = [
    scatter(1, 0xE5A0_8000, (8, 8), 3),
    scatter(2, 0xE580_8000, (8, 8), 0),
    scatter(3, 0xE5A0_A000, (8, 8), 3),
    scatter(4, 0xE580_A000, (8, 8), 0),
    scatter(5, 0xE400_8000, (8, 1), 0),
    scatter(6, 0xE440_8000, (4, 1), 0),
    scatter(7, 0xE400_A000, (8, 1), 0),
    strided(8, 0xA120_6000, 8, 2, false),
    strided(9, 0xA120_E000, 8, 4, false),
    strided(10, 0xA160_6000, 8, 2, true),
    strided(11, 0xA160_E000, 8, 4, true),
    Class { number: 12, base: 0xE420_2000, fixed: 0xFFE0_E000, form: Form::Quadword },
    scatter(13, 0xE4A0_8000, (8, 2), 1),
    scatter(14, 0xE480_8000, (8, 2), 0),
    scatter(15, 0xE4A0_A000, (8, 2), 1),
    scatter(16, 0xE480_A000, (8, 2), 0),
    scatter(17, 0xE4E0_8000, (4, 2), 1),
    scatter(18, 0xE4C0_8000, (4, 2), 0),
    scatter(19, 0xE520_8000, (8, 4), 2),
    scatter(20, 0xE500_8000, (8, 4), 0),
    scatter(21, 0xE520_A000, (8, 4), 2),
    scatter(22, 0xE500_A000, (8, 4), 0),
    scatter(23, 0xE560_8000, (4, 4), 2),
    scatter(24, 0xE540_8000, (4, 4), 0),
    strided(25, 0xA120_0000, 1, 2, false),
    strided(26, 0xA120_8000, 1, 4, false),
    strided(27, 0xA160_0000, 1, 2, true),
    strided(28, 0xA160_8000, 1, 4, true),
    strided(29, 0xA120_2000, 2, 2, false),
    strided(30, 0xA120_A000, 2, 4, false),
    strided(31, 0xA160_2000, 2, 2, true),
    strided(32, 0xA160_A000, 2, 4, true),
    strided(33, 0xA120_4000, 4, 2, false),
    strided(34, 0xA120_C000, 4, 4, false),
    strided(35, 0xA160_4000, 4, 2, true),
    strided(36, 0xA160_C000, 4, 4, true),
];

/// The class of a word, and the store that it names.
pub fn decoded(word: u32) -> Option<(&'static Class, Store)> {
    let class = CLASSES.iter().find(|class| word & class.fixed == class.base)?;
    Some((class, class.store(word)))
}

impl Class {
    fn store(&self, word: u32) -> Store {
        let field = |low: u32, width: u32| u64::from(word >> low & ((1 << width) - 1));
        let mut store = Store {
            class: self.number,
            index: field(16, 5),
            extension: None,
            predicate: field(10, 3),
            base: field(5, 5),
            register: field(0, 5),
            multiple: 0,
        };
        match self.form {
            Form::Scatter { extended: true, .. } => {
                let signed = field(14, 1) == 1;
                store.extension = Some(if signed { Extension::Sxtw } else { Extension::Uxtw });
            }
            Form::Strided { registers, immediate: true, .. } => {
                let imm4 = field(16, 4) as i64;
                let signed = if imm4 < 8 { imm4 } else { imm4 - 16 };
                store.index = 0;
                store.multiple = signed * registers as i64;
            }
            _ => {}
        }
        store
    }
}
