//! The elements of scatter stores, and of quadword stores.

use super::checks::{fault, Lent};
use super::decode::{field, NONE, SXTW};
use starshackle::Flags;

/// Elements of `ESIZE` bytes, of which `SIZE` are stored, at offsets that are extended so. What is
/// cold takes them by value, so that they need not lie in memory where it isn't called.
#[derive(Clone, Copy)]
pub struct Lanes<'a, const ESIZE: usize, const SIZE: usize, const EXTENSION: u8> {
    mask: &'a [u8],
    offsets: &'a [u8],
    pub values: &'a [u8],
    scale: u32,
    /// Where the register's offset 0 lies, counted from the window's start.
    start: u64,
    /// How many offsets of the window an element fits at.
    room: u64,
    pub base: u64,
    pub strict: bool,
}

/// An element: its number, whether it is active, its offset in the window.
pub struct Lane {
    pub e: usize,
    pub active: bool,
    pub offset: u64,
}

impl<'a, const ESIZE: usize, const SIZE: usize, const EXTENSION: u8>
    Lanes<'a, ESIZE, SIZE, EXTENSION>
{
    /// Those at offsets from a base register, or the stack's verdict.
    #[inline(always)]
    pub fn from_base(lent: &Lent<'a>, scale: u32) -> Result<Self, u64> {
        let mut lanes = Lanes::new(lent, lent.z(field(lent.word, 16, 31)), scale);
        lanes.start = lent.base(|| lanes.any_active())?.wrapping_sub(lent.base);
        Ok(lanes)
    }

    /// Those of class 12.
    #[inline(always)]
    pub fn quadword(lent: &Lent<'a>) -> Self {
        let mut lanes = Lanes::new(lent, lent.z(field(lent.word, 5, 31)), 0);
        lanes.start = lent.index().wrapping_sub(lent.base);
        lanes
    }

    #[inline(always)]
    fn new(lent: &Lent<'a>, offsets: &'a [u8], scale: u32) -> Self {
        let mask = lent.p(field(lent.word, 10, 7));
        let values = lent.z(field(lent.word, 0, 31));
        let room = (lent.length + 1).saturating_sub(SIZE as u64);
        let strict = lent.flags & Flags::STRICT.0 != 0;
        Lanes { mask, offsets, values, scale, start: 0, room, base: lent.base, strict }
    }

    /// Calls `take` with each element.
    #[inline(always)]
    pub fn each(&self, mut take: impl FnMut(Lane)) {
        if ESIZE < 8 {
            let mut e = 0;
            for (bits, offsets) in self.mask.iter().zip(self.offsets.chunks_exact(8)) {
                for (k, offset) in offsets.chunks_exact(ESIZE).enumerate() {
                    take(self.lane(e, bits >> (k * ESIZE), offset));
                    e += 1;
                }
            }
        } else {
            let lanes = self.mask.chunks_exact(ESIZE / 8).zip(self.offsets.chunks_exact(ESIZE));
            for (e, (bits, offset)) in lanes.enumerate() {
                take(self.lane(e, bits[0], offset));
            }
        }
    }

    /// An element by its number, the bits of the mask from its own on, and its register's offset.
    #[inline(always)]
    fn lane(&self, e: usize, bits: u8, offset: &[u8]) -> Lane {
        let offset = self.start.wrapping_add(extended::<EXTENSION>(offset) << self.scale);
        Lane { e, active: bits & 1 == 1, offset }
    }

    /// What an element writes.
    #[inline(always)]
    pub fn value(&self, e: usize) -> [u8; SIZE] {
        self.values[e * ESIZE..][..SIZE].try_into().expect("there are so many bytes")
    }

    /// Whether an element doesn't fit into the window at this offset.
    #[inline(always)]
    pub fn is_outside(&self, offset: u64) -> bool {
        offset >= self.room
    }

    #[cold]
    fn any_active(self) -> bool {
        let mut any = false;
        self.each(|lane| any |= lane.active);
        any
    }

    /// Tells the lowest active element outside the window of this length, of which there is one.
    #[cold]
    pub fn fault(self, length: u64, answer: &mut [u64; 6]) -> u64 {
        let mut first = None;
        self.each(|lane| {
            if lane.active && self.is_outside(lane.offset) {
                first = first.or(Some((lane.e, lane.offset)));
            }
        });
        let (e, offset) = first.expect("an element is outside");
        fault(answer, e, offset, self.base, length)
    }
}

#[inline(always)]
fn extended<const EXTENSION: u8>(offset: &[u8]) -> u64 {
    if EXTENSION == NONE {
        return u64::from_le_bytes(offset[..8].try_into().expect("there are eight bytes"));
    }
    let offset = u32::from_le_bytes(offset[..4].try_into().expect("there are four bytes"));
    match EXTENSION {
        SXTW => offset as i32 as u64,
        _ => offset.into(),
    }
}
