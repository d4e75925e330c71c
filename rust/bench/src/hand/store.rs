//! The call: what all stores have in common, and which loop a store takes.

use super::checks::{Buffers, Lent};
use super::decode::{Loop, NONE, SXTW, UXTW};
use super::lanes::Lanes;
use super::scatter::scatter;
use super::strided::strided;

/// As the model's, with the same arguments.
#[inline(never)]
#[allow(clippy::too_many_arguments)]
pub fn store(
    vb: usize,
    flags: u64,
    x: &[u64; 31],
    sp: u64,
    z: &[u8],
    p: &[u8],
    base: u64,
    memory: &mut [u8],
    word: u32,
    patch: &mut [u8],
    answer: &mut [u64; 6],
) -> u64 {
    *answer = [0; 6];
    let lent = Lent { vb, flags, x, sp, z, p, base, length: memory.len() as u64, word };
    let row = match lent.row() {
        Err(verdict) => return verdict,
        Ok(row) => row,
    };
    let (scale, buffers) = (u32::from(row.scale), Buffers { memory, patch, answer });
    match row.by {
        Loop::Doubleword => from_base::<8, 8, NONE>(&lent, scale, buffers),
        Loop::DoublewordUxtw => from_base::<8, 8, UXTW>(&lent, scale, buffers),
        Loop::DoublewordSxtw => from_base::<8, 8, SXTW>(&lent, scale, buffers),
        Loop::Byte => from_base::<8, 1, NONE>(&lent, scale, buffers),
        Loop::ByteUxtw => from_base::<8, 1, UXTW>(&lent, scale, buffers),
        Loop::ByteSxtw => from_base::<8, 1, SXTW>(&lent, scale, buffers),
        Loop::PackedByteUxtw => from_base::<4, 1, UXTW>(&lent, scale, buffers),
        Loop::PackedByteSxtw => from_base::<4, 1, SXTW>(&lent, scale, buffers),
        Loop::Halfword => from_base::<8, 2, NONE>(&lent, scale, buffers),
        Loop::HalfwordUxtw => from_base::<8, 2, UXTW>(&lent, scale, buffers),
        Loop::HalfwordSxtw => from_base::<8, 2, SXTW>(&lent, scale, buffers),
        Loop::PackedHalfwordUxtw => from_base::<4, 2, UXTW>(&lent, scale, buffers),
        Loop::PackedHalfwordSxtw => from_base::<4, 2, SXTW>(&lent, scale, buffers),
        Loop::Word => from_base::<8, 4, NONE>(&lent, scale, buffers),
        Loop::WordUxtw => from_base::<8, 4, UXTW>(&lent, scale, buffers),
        Loop::WordSxtw => from_base::<8, 4, SXTW>(&lent, scale, buffers),
        Loop::PackedWordUxtw => from_base::<4, 4, UXTW>(&lent, scale, buffers),
        Loop::PackedWordSxtw => from_base::<4, 4, SXTW>(&lent, scale, buffers),
        Loop::Quadword => scatter(Lanes::<16, 16, NONE>::quadword(&lent), buffers),
        Loop::StridedByte => strided::<1>(&lent, row, buffers),
        Loop::StridedHalfword => strided::<2>(&lent, row, buffers),
        Loop::StridedWord => strided::<4>(&lent, row, buffers),
        Loop::StridedDoubleword => strided::<8>(&lent, row, buffers),
    }
}

/// Elements at offsets from a base register.
#[inline(always)]
fn from_base<const ESIZE: usize, const SIZE: usize, const EXTENSION: u8>(
    lent: &Lent,
    scale: u32,
    buffers: Buffers,
) -> u64 {
    match Lanes::<ESIZE, SIZE, EXTENSION>::from_base(lent, scale) {
        Err(verdict) => verdict,
        Ok(lanes) => scatter(lanes, buffers),
    }
}
