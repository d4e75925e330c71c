//! Pieces of a patch, and the answer of a store that is done.

use super::checks::Buffers;
use crate::verdicts::{DONE, HEAD, RUN_MARK, TRAILER, TRAILER_MARK};

/// Puts a run's mark, start and length.
#[inline(always)]
pub fn put_head(patch: &mut [u8], from: usize, start: u64, length: usize) {
    let mark = u16::from_le_bytes(RUN_MARK);
    let head = u128::from(mark) | u128::from(start) << 16 | (length as u128) << 80;
    patch[from..][..HEAD].copy_from_slice(&head.to_le_bytes()[..HEAD]);
}

/// Puts another length into the head of a run.
#[inline(always)]
pub fn put_length(patch: &mut [u8], from: usize, length: usize) {
    patch[from + HEAD - 2..][..2].copy_from_slice(&(length as u16).to_le_bytes());
}

/// What a store that is done counted: its active elements, the bytes of one, its steps.
pub struct Counts {
    pub active: usize,
    pub size: usize,
    pub steps: usize,
}

/// Puts the trailer behind the runs, and answers with these counts.
#[inline(always)]
pub fn finish(buffers: Buffers, end: usize, runs: usize, counts: Counts) -> u64 {
    let Counts { active, size, steps } = counts;
    let [low, high] = (runs as u16).to_le_bytes();
    let trailer = [TRAILER_MARK[0], TRAILER_MARK[1], low, high];
    buffers.patch[end..][..TRAILER].copy_from_slice(&trailer);
    let counted = [active, active * size, end + TRAILER, steps].map(|n| n as u64);
    let [active, moved, length, steps] = counted;
    *buffers.answer = [0, 0, active, moved, length, steps];
    DONE
}
