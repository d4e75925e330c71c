//! Words, by one look into a table.

use crate::verdicts::{DONE, UNDEFINED};
use compare::storing::arm::{SME2, SVE, SVE2P1};
use starshackle::Fields;

/// How 32-bit offsets are extended, as [`Fields`] has it.
pub const NONE: u8 = 0;
pub const UXTW: u8 = 1;
pub const SXTW: u8 = 2;

/// The loops that are compiled for stores, by the elements that they take.
#[derive(Clone, Copy)]
pub enum Loop {
    Doubleword,
    DoublewordUxtw,
    DoublewordSxtw,
    Byte,
    ByteUxtw,
    ByteSxtw,
    PackedByteUxtw,
    PackedByteSxtw,
    Halfword,
    HalfwordUxtw,
    HalfwordSxtw,
    PackedHalfwordUxtw,
    PackedHalfwordSxtw,
    Word,
    WordUxtw,
    WordSxtw,
    PackedWordUxtw,
    PackedWordSxtw,
    Quadword,
    StridedByte,
    StridedHalfword,
    StridedWord,
    StridedDoubleword,
}

/// What words of a class have in common.
#[derive(Clone, Copy)]
pub struct Row {
    /// The bits that are no field's.
    fixed: u32,
    /// What these are.
    base: u32,
    pub class: u8,
    pub extension: u8,
    /// The bits of Zm or Rm, from bit 16 on.
    index: u8,
    /// The bits of the first register.
    register: u8,
    /// How many registers an immediate counts, 0 where there is none.
    pub step: u8,
    /// The bit of the flag without which the class is undefined.
    pub feature: u8,
    /// What a store's offsets are shifted by.
    pub scale: u8,
    pub by: Loop,
}

/// No word has these bits.
const EMPTY: Row = Row {
    fixed: 0,
    base: 1,
    class: 0,
    extension: NONE,
    index: 31,
    register: 31,
    step: 0,
    feature: SVE as u8,
    scale: 0,
    by: Loop::StridedDoubleword,
};

const fn scatter(class: u8, base: u32, scale: u8, by: Loop) -> Row {
    Row { class, base, fixed: 0xFFE0_E000, scale, by, ..EMPTY }
}

const fn uxtw(class: u8, base: u32, scale: u8, by: Loop) -> Row {
    Row { extension: UXTW, ..scatter(class, base, scale, by) }
}

const fn sxtw(class: u8, base: u32, scale: u8, by: Loop) -> Row {
    Row { extension: SXTW, ..scatter(class, base | 1 << 14, scale, by) }
}

const fn quadword(class: u8, base: u32) -> Row {
    Row { feature: SVE2P1 as u8, ..scatter(class, base, 0, Loop::Quadword) }
}

const fn strided(class: u8, base: u32, register: u8, by: Loop) -> Row {
    let fixed = 0xFFE0_E000 | !register as u32 & 0x1F;
    Row { class, base, fixed, register, feature: SME2 as u8, by, ..EMPTY }
}

const fn immediate(class: u8, base: u32, register: u8, step: u8, by: Loop) -> Row {
    let strided = strided(class, base, register, by);
    Row { fixed: strided.fixed | 1 << 20, index: 0, step, ..strided }
}

const ROWS: [Row; 48] = [
    uxtw(1, 0xE5A0_8000, 3, Loop::DoublewordUxtw),
    sxtw(1, 0xE5A0_8000, 3, Loop::DoublewordSxtw),
    uxtw(2, 0xE580_8000, 0, Loop::DoublewordUxtw),
    sxtw(2, 0xE580_8000, 0, Loop::DoublewordSxtw),
    scatter(3, 0xE5A0_A000, 3, Loop::Doubleword),
    scatter(4, 0xE580_A000, 0, Loop::Doubleword),
    uxtw(5, 0xE400_8000, 0, Loop::ByteUxtw),
    sxtw(5, 0xE400_8000, 0, Loop::ByteSxtw),
    uxtw(6, 0xE440_8000, 0, Loop::PackedByteUxtw),
    sxtw(6, 0xE440_8000, 0, Loop::PackedByteSxtw),
    scatter(7, 0xE400_A000, 0, Loop::Byte),
    strided(8, 0xA120_6000, 0x17, Loop::StridedDoubleword),
    strided(9, 0xA120_E000, 0x13, Loop::StridedDoubleword),
    immediate(10, 0xA160_6000, 0x17, 2, Loop::StridedDoubleword),
    immediate(11, 0xA160_E000, 0x13, 4, Loop::StridedDoubleword),
    quadword(12, 0xE420_2000),
    uxtw(13, 0xE4A0_8000, 1, Loop::HalfwordUxtw),
    sxtw(13, 0xE4A0_8000, 1, Loop::HalfwordSxtw),
    uxtw(14, 0xE480_8000, 0, Loop::HalfwordUxtw),
    sxtw(14, 0xE480_8000, 0, Loop::HalfwordSxtw),
    scatter(15, 0xE4A0_A000, 1, Loop::Halfword),
    scatter(16, 0xE480_A000, 0, Loop::Halfword),
    uxtw(17, 0xE4E0_8000, 1, Loop::PackedHalfwordUxtw),
    sxtw(17, 0xE4E0_8000, 1, Loop::PackedHalfwordSxtw),
    uxtw(18, 0xE4C0_8000, 0, Loop::PackedHalfwordUxtw),
    sxtw(18, 0xE4C0_8000, 0, Loop::PackedHalfwordSxtw),
    uxtw(19, 0xE520_8000, 2, Loop::WordUxtw),
    sxtw(19, 0xE520_8000, 2, Loop::WordSxtw),
    uxtw(20, 0xE500_8000, 0, Loop::WordUxtw),
    sxtw(20, 0xE500_8000, 0, Loop::WordSxtw),
    scatter(21, 0xE520_A000, 2, Loop::Word),
    scatter(22, 0xE500_A000, 0, Loop::Word),
    uxtw(23, 0xE560_8000, 2, Loop::PackedWordUxtw),
    sxtw(23, 0xE560_8000, 2, Loop::PackedWordSxtw),
    uxtw(24, 0xE540_8000, 0, Loop::PackedWordUxtw),
    sxtw(24, 0xE540_8000, 0, Loop::PackedWordSxtw),
    strided(25, 0xA120_0000, 0x17, Loop::StridedByte),
    strided(26, 0xA120_8000, 0x13, Loop::StridedByte),
    immediate(27, 0xA160_0000, 0x17, 2, Loop::StridedByte),
    immediate(28, 0xA160_8000, 0x13, 4, Loop::StridedByte),
    strided(29, 0xA120_2000, 0x17, Loop::StridedHalfword),
    strided(30, 0xA120_A000, 0x13, Loop::StridedHalfword),
    immediate(31, 0xA160_2000, 0x17, 2, Loop::StridedHalfword),
    immediate(32, 0xA160_A000, 0x13, 4, Loop::StridedHalfword),
    strided(33, 0xA120_4000, 0x17, Loop::StridedWord),
    strided(34, 0xA120_C000, 0x13, Loop::StridedWord),
    immediate(35, 0xA160_4000, 0x17, 2, Loop::StridedWord),
    immediate(36, 0xA160_C000, 0x13, 4, Loop::StridedWord),
];

/// Bits 30, 24..21 and 15..13 tell the rows apart.
const fn key(word: u32) -> usize {
    (word >> 23 & 0x80 | word >> 18 & 0x78 | word >> 13 & 7) as usize
}

static TABLE: [Row; 256] = table();

const fn table() -> [Row; 256] {
    let mut table = [EMPTY; 256];
    let mut number = 0;
    while number < ROWS.len() {
        table[key(ROWS[number].base)] = ROWS[number];
        number += 1;
    }
    table
}

/// The row of a word that has a class.
#[inline(always)]
pub fn row_of(word: u32) -> Option<&'static Row> {
    let row = &TABLE[key(word)];
    (word & row.fixed == row.base).then_some(row)
}

/// A field of a word, from bit `low` on.
#[inline(always)]
pub fn field(word: u32, low: u32, mask: u32) -> usize {
    (word >> low & mask) as usize
}

impl Row {
    /// How many registers a strided store has.
    #[inline(always)]
    pub fn registers(&self) -> usize {
        if self.register == 0x17 {
            2
        } else {
            4
        }
    }

    /// The first register.
    #[inline(always)]
    pub fn register(&self, word: u32) -> usize {
        field(word, 0, self.register.into())
    }

    /// The immediate in vectors.
    #[inline(always)]
    pub fn multiple(&self, word: u32) -> i64 {
        i64::from((word << 12) as i32 >> 28) * i64::from(self.step)
    }
}

/// As the model's.
#[inline(never)]
pub fn decode(word: u32, fields: &mut Fields) -> u64 {
    let row = match row_of(word) {
        None => {
            *fields = [0; 8];
            return UNDEFINED;
        }
        Some(row) => row,
    };
    *fields = [
        row.class.into(),
        field(word, 16, row.index.into()) as u64,
        row.extension.into(),
        field(word, 10, 7) as u64,
        field(word, 5, 31) as u64,
        row.register(word) as u64,
        row.multiple(word) as u64,
        0,
    ];
    DONE
}
