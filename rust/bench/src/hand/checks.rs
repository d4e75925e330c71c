//! What a call is lent, and the checks that all stores share.

use super::decode::{field, row_of, Row};
use crate::verdicts::{FAULT, ILLEGAL, LENGTH, LONGEST, REGISTERS, STACK, UNDEFINED, WINDOW};
use compare::storing::arm::{EARLY, FA64, SME2, SP_CHECK, SP_CHECK_NONE_ACTIVE, STREAMING};

/// The registers, the window's address and length, and the word.
#[derive(Clone, Copy)]
pub struct Lent<'a> {
    pub vb: usize,
    pub flags: u64,
    pub x: &'a [u64; 31],
    pub sp: u64,
    pub z: &'a [u8],
    pub p: &'a [u8],
    pub base: u64,
    pub length: u64,
    pub word: u32,
}

/// What a call may write.
pub struct Buffers<'a> {
    pub memory: &'a mut [u8],
    pub patch: &'a mut [u8],
    pub answer: &'a mut [u64; 6],
}

/// Whether there is no such window.
#[inline(always)]
pub fn bad_window(base: u64, length: u64) -> bool {
    length > LONGEST as u64 || length > 0 && base > u64::MAX - (length - 1)
}

/// The answer to a fault of an element at this offset in the window. Its first byte outside is its
/// first, or else the one behind the window.
#[cold]
pub fn fault(answer: &mut [u64; 6], element: usize, offset: u64, base: u64, length: u64) -> u64 {
    (answer[0], answer[1]) = (element as u64, base.wrapping_add(offset.max(length)));
    FAULT
}

impl<'a> Lent<'a> {
    /// The word's row, or a verdict from 1 to 5.
    #[inline(always)]
    pub fn row(&self) -> Result<&'static Row, u64> {
        let five = matches!(self.vb, 16 | 32 | 64 | 128 | 256);
        if !five && !self.is_other_length() {
            return Err(LENGTH);
        }
        if self.z.len() != 32 * self.vb || self.p.len() != 2 * self.vb {
            return Err(REGISTERS);
        }
        if bad_window(self.base, self.length) {
            return Err(WINDOW);
        }
        let row = row_of(self.word).ok_or(UNDEFINED)?;
        if !self.has(row.feature.into()) {
            return Err(UNDEFINED);
        }
        let legal = match u32::from(row.feature) {
            SME2 => self.has(STREAMING),
            _ => !self.has(STREAMING) || self.has(FA64),
        };
        legal.then_some(row).ok_or(ILLEGAL)
    }

    /// Whether VB is a length of the early edition with streaming off.
    #[cold]
    fn is_other_length(&self) -> bool {
        let multiple = self.vb % 16 == 0 && (16..=256).contains(&self.vb);
        multiple && self.has(EARLY) && !self.has(STREAMING)
    }

    /// Whether the flag with this bit is on.
    #[inline(always)]
    fn has(&self, bit: u32) -> bool {
        self.flags >> bit & 1 == 1
    }

    /// The base register, or the stack's verdict.
    #[inline(always)]
    pub fn base(&self, any_active: impl FnOnce() -> bool) -> Result<u64, u64> {
        match self.x.get(field(self.word, 5, 31)) {
            Some(&register) => Ok(register),
            None if self.sp % 16 == 0 || !self.has(SP_CHECK) => Ok(self.sp),
            None if self.has(SP_CHECK_NONE_ACTIVE) || any_active() => Err(STACK),
            None => Ok(self.sp),
        }
    }

    /// Rm, which is zero for 31.
    #[inline(always)]
    pub fn index(&self) -> u64 {
        self.x.get(field(self.word, 16, 31)).map_or(0, |&index| index)
    }

    #[inline(always)]
    pub fn z(&self, register: usize) -> &'a [u8] {
        &self.z[register * self.vb..][..self.vb]
    }

    #[inline(always)]
    pub fn p(&self, register: usize) -> &'a [u8] {
        &self.p[register * (self.vb / 8)..][..self.vb / 8]
    }
}
