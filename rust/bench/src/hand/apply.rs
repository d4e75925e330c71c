//! Applying a patch: one pass that judges and one that copies. Runs ascend, so that the first and the
//! last tell whether all are in the window.

use super::checks::bad_window;
use crate::verdicts::{BAD_PATCH, DONE, HEAD, MOST_BYTES, MOST_RUNS, OUTSIDE};
use crate::verdicts::{RUN_MARK, TRAILER_MARK, WINDOW};
use starshackle::Answer;

/// As the model's, with the same arguments.
#[inline(never)]
pub fn apply(base: u64, memory: &mut [u8], patch: &[u8], answer: &mut Answer) -> u64 {
    *answer = [0; 5];
    let length = memory.len() as u64;
    if bad_window(base, length) {
        return WINDOW;
    }
    let judged = match judged(patch) {
        None => return BAD_PATCH,
        Some(judged) => judged,
    };
    if judged.runs > 0 && !(judged.first >= base && judged.last - base < length) {
        return outside(base, length, patch, answer);
    }
    copy(base, memory, patch, judged.runs);
    (answer[2], answer[3]) = (judged.runs as u64, judged.bytes as u64);
    DONE
}

/// What is known of a patch.
pub struct Judged {
    pub runs: usize,
    pub bytes: usize,
    /// The lowest and the highest address, where there is a run.
    first: u64,
    last: u64,
}

/// A run's start and length.
#[inline(always)]
pub fn numbers(head: &[u8]) -> (u64, usize) {
    let start = u64::from_le_bytes(head[2..10].try_into().expect("there are eight bytes"));
    (start, usize::from(u16::from_le_bytes([head[10], head[11]])))
}

/// Reads the string to its end; nothing where it is no patch.
#[inline(always)]
pub fn judged(patch: &[u8]) -> Option<Judged> {
    let (mut runs, mut bytes, mut first, mut last) = (0, 0, 0, 0);
    let mut rest = patch;
    while rest.len() >= HEAD && rest[..2] == RUN_MARK {
        let (start, length) = numbers(&rest[..HEAD]);
        rest = &rest[HEAD..];
        if length == 0 || length > rest.len() {
            return None;
        }
        rest = &rest[length..];
        if runs == 0 {
            first = start;
        } else if start.saturating_sub(last) < 2 {
            return None;
        }
        last = start.checked_add(length as u64 - 1)?;
        runs += 1;
        bytes += length;
    }
    let [low, high] = (runs as u16).to_le_bytes();
    let ended = rest == [TRAILER_MARK[0], TRAILER_MARK[1], low, high];
    let fits = runs <= MOST_RUNS && bytes <= MOST_BYTES;
    (ended && fits).then_some(Judged { runs, bytes, first, last })
}

/// Copies the bytes of a patch that is known to be one and to lie in the window.
#[inline(always)]
fn copy(base: u64, memory: &mut [u8], patch: &[u8], runs: usize) {
    let mut rest = patch;
    for _ in 0..runs {
        let (start, length) = numbers(&rest[..HEAD]);
        let (source, behind) = rest[HEAD..].split_at(length);
        let target = &mut memory[start.wrapping_sub(base) as usize..][..length];
        match length {
            1 => target[0] = source[0],
            8 => target[..8].copy_from_slice(&source[..8]),
            16 => target[..16].copy_from_slice(&source[..16]),
            _ => target.copy_from_slice(source),
        }
        rest = behind;
    }
}

/// Tells the lowest run outside the window, of which there is one.
#[cold]
fn outside(base: u64, window: u64, patch: &[u8], answer: &mut Answer) -> u64 {
    let mut at = 0;
    for run in 0.. {
        let (start, length) = numbers(&patch[at..][..HEAD]);
        if start.wrapping_sub(base) >= (window + 1).saturating_sub(length as u64) {
            (answer[0], answer[1]) = (run, start);
            break;
        }
        at += HEAD + length;
    }
    OUTSIDE
}
