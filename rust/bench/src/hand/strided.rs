//! Strided stores: their active elements are one stretch of the window, one step and one run; or, under
//! a counter of a wider size, equally spaced, each a step and a run.

use super::checks::{fault, Buffers, Lent};
use super::compose::{finish, put_head, Counts};
use super::decode::{field, Row};
use crate::verdicts::{HEAD, NO_ROOM, TRAILER};

/// A store of elements of so many bytes.
#[inline(never)]
pub fn strided<const SIZE: usize>(lent: &Lent, row: &Row, buffers: Buffers) -> u64 {
    let elements = match Spaced::<SIZE>::new(lent, row) {
        Err(verdict) => return verdict,
        Ok(elements) => elements,
    };
    if elements.any() && elements.is_outside(lent.length) {
        return elements.fault(*lent, buffers.answer);
    }
    match elements.gap {
        gap if gap == SIZE => stretch(&elements, lent, buffers),
        2 => apart::<SIZE, 2>(&elements, lent, buffers),
        4 => apart::<SIZE, 4>(&elements, lent, buffers),
        _ => apart::<SIZE, 8>(&elements, lent, buffers),
    }
}

/// Writes elements that touch: registers are copied as a whole.
#[inline(always)]
fn stretch<const SIZE: usize>(elements: &Spaced<SIZE>, lent: &Lent, buffers: Buffers) -> u64 {
    let Buffers { memory, patch, answer } = buffers;
    let Spaced { start, low, high, .. } = *elements;
    let (runs, bytes) = (usize::from(low < high), high - low);
    let end = HEAD * runs + bytes;
    if patch.len() < end + TRAILER {
        return NO_ROOM;
    }
    if low < high {
        put_head(patch, 0, lent.base.wrapping_add(start).wrapping_add(low as u64), bytes);
    }
    let mut to = HEAD;
    for (from, source) in elements.parts() {
        let offset = start.wrapping_add(from as u64) as usize;
        memory[offset..][..source.len()].copy_from_slice(source);
        patch[to..][..source.len()].copy_from_slice(source);
        to += source.len();
    }
    let counts = Counts { active: bytes / SIZE, size: SIZE, steps: runs };
    finish(Buffers { memory, patch, answer }, end, runs, counts)
}

/// Writes elements of which one starts in each `GAP` bytes, which are more than its own.
#[inline(always)]
fn apart<const SIZE: usize, const GAP: usize>(
    elements: &Spaced<SIZE>,
    lent: &Lent,
    buffers: Buffers,
) -> u64 {
    let Buffers { memory, patch, answer } = buffers;
    let active = (elements.high - elements.low) / GAP;
    let end = (HEAD + SIZE) * active;
    if patch.len() < end + TRAILER {
        return NO_ROOM;
    }
    let mut runs = &mut patch[..end];
    for (from, source) in elements.parts() {
        let offset = elements.start.wrapping_add(from as u64);
        let (own, rest) = runs.split_at_mut((HEAD + SIZE) * (source.len() / GAP));
        runs = rest;
        let mut address = lent.base.wrapping_add(offset);
        // Behind the last element the window may end.
        let places = memory[offset as usize..].chunks_mut(GAP);
        let pairs = own.chunks_exact_mut(HEAD + SIZE).zip(source.chunks_exact(GAP));
        for ((run, element), place) in pairs.zip(places) {
            let value: [u8; SIZE] = element[..SIZE].try_into().expect("there are so many bytes");
            place[..SIZE].copy_from_slice(&value);
            put_head(run, 0, address, SIZE);
            run[HEAD..].copy_from_slice(&value);
            address = address.wrapping_add(GAP as u64);
        }
    }
    let counts = Counts { active, size: SIZE, steps: active };
    finish(Buffers { memory, patch, answer }, end, active, counts)
}

/// A strided store's active elements: one starts at each multiple of `gap` bytes from `low` up to `high`.
#[derive(Clone, Copy)]
struct Spaced<'a, const SIZE: usize> {
    vb: usize,
    z: &'a [u8],
    /// The first register, and how far the next is.
    first: usize,
    step: usize,
    registers: usize,
    /// Bytes from the start of element 0.
    low: usize,
    high: usize,
    gap: usize,
    /// Where element 0 lies, counted from the window's start.
    start: u64,
}

impl<'a, const SIZE: usize> Spaced<'a, SIZE> {
    /// The elements of a store that is defined and legal, or the stack's verdict.
    #[inline(always)]
    fn new(lent: &Lent<'a>, row: &Row) -> Result<Spaced<'a, SIZE>, u64> {
        let (vb, word, registers) = (lent.vb, lent.word, row.registers());
        let counter = lent.p(8 + field(word, 10, 7));
        let counter = u16::from_le_bytes([counter[0], counter[1]]);
        let (low, high, gap) = active::<SIZE>(counter, vb, registers * vb);
        let displacement = match row.step {
            0 => lent.index().wrapping_mul(SIZE as u64),
            _ => (row.multiple(word) * vb as i64) as u64,
        };
        let base = lent.base(|| low < high)?;
        let start = base.wrapping_add(displacement).wrapping_sub(lent.base);
        let (first, step) = (row.register(word), 16 / registers);
        Ok(Spaced { vb, z: lent.z, first, step, registers, low, high, gap, start })
    }

    #[inline(always)]
    fn any(&self) -> bool {
        self.low < self.high
    }

    /// Whether the bytes from the first active element to the last aren't all in the window.
    #[inline(always)]
    fn is_outside(&self, length: u64) -> bool {
        let offset = self.start.wrapping_add(self.low as u64);
        let bytes = self.high - self.low - self.gap + SIZE;
        offset >= (length + 1).saturating_sub(bytes as u64)
    }

    /// Tells the lowest active element outside the window, of which there is one.
    #[cold]
    fn fault(self, lent: Lent, answer: &mut [u64; 6]) -> u64 {
        let room = (lent.length + 1).saturating_sub(SIZE as u64);
        let offset = |place: usize| self.start.wrapping_add(place as u64);
        let mut places = (self.low..self.high).step_by(self.gap);
        let place = places.find(|&place| offset(place) >= room).expect("an element is outside");
        fault(answer, place / SIZE, offset(place), lent.base, lent.length)
    }

    /// The bytes of each register from the first active element on, with where they lie, counted from
    /// element 0.
    #[inline(always)]
    fn parts(&self) -> impl Iterator<Item = (usize, &'a [u8])> {
        let Spaced { vb, z, first, step, registers, low, high, .. } = *self;
        (0..registers).filter_map(move |r| {
            let (from, to) = (low.max(r * vb), high.min((r + 1) * vb));
            let register = (first + step * r) * vb;
            (from < to).then(|| (from, &z[register + from - r * vb..][..to - from]))
        })
    }
}

/// Where the active elements start and end, of so many bytes, and how far apart they are. VB is a power
/// of two, and the count goes up to bit log2(4 VB).
#[inline(always)]
fn active<const SIZE: usize>(counter: u16, vb: usize, bytes: usize) -> (usize, usize, usize) {
    if counter & 15 == 0 {
        return (0, 0, SIZE);
    }
    let lowest = counter.trailing_zeros();
    let count = (usize::from(counter) & (8 * vb - 1)) >> (lowest + 1);
    let gap = if SIZE == 8 { SIZE } else { SIZE.max(1 << lowest) };
    // Whole elements.
    let border = (((count << lowest) + gap - 1) & !(gap - 1)).min(bytes);
    match counter >> 15 {
        1 => (border, bytes, gap),
        _ => (0, border, gap),
    }
}
