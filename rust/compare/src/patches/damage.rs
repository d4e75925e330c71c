//! Damages of patches: of their runs before they become a string, or of the string.

use super::generate::{few, long, many, string, trailer, Run};
use super::reader::{MOST_BYTES, MOST_RUNS, RUN_MARK, TRAILER_MARK};
use crate::random::Random;

/// Where a run of a string starts; the trailer, where there is no further one.
fn index(runs: &[Run], number: usize) -> usize {
    runs[..number].iter().map(Run::size).sum()
}

/// The number of a run.
fn any(random: &mut Random, runs: &[Run]) -> usize {
    random.below(runs.len())
}

/// The number of a run that has one before it.
fn later(random: &mut Random, runs: &[Run]) -> usize {
    1 + random.below(runs.len() - 1)
}

// Of the runs.

pub fn exchange(random: &mut Random, runs: &mut [Run]) {
    let number = later(random, runs);
    let before = random.below(number);
    runs.swap(before, number);
}

pub fn touch(random: &mut Random, runs: &mut [Run]) {
    let number = later(random, runs);
    runs[number].start = runs[number - 1].end() as u64;
}

/// Puts a run over a part of the one before it, at times with the same bytes.
pub fn overlap(random: &mut Random, runs: &mut [Run]) {
    let number = later(random, runs);
    let before = runs[number - 1].clone();
    let from = random.below(before.bytes.len());
    let run = &mut runs[number];
    run.start = before.start + from as u64;
    if random.one_in(2) {
        run.bytes.iter_mut().zip(&before.bytes[from..]).for_each(|(byte, old)| *byte = *old);
    }
}

pub fn empty(random: &mut Random, runs: &mut Vec<Run>) {
    let number = random.below(runs.len() + 1);
    let behind = number.checked_sub(1).map_or(0, |before| runs[before].end() as u64);
    let next = runs.get(number).map_or(u64::MAX, |run| run.start);
    let start = match random.below(5) {
        0 => behind,
        1 => behind.wrapping_add(1),
        2 => next,
        3 => next.wrapping_sub(1),
        _ => random.number(),
    };
    runs.insert(number, Run { start, bytes: Vec::new() });
}

pub fn too_many_runs(random: &mut Random, runs: &mut Vec<Run>) {
    let over = if random.one_in(4) { 1 + random.below(8) } else { 1 };
    *runs = many(random, MOST_RUNS + over);
}

pub fn too_many_bytes(random: &mut Random, runs: &mut Vec<Run>) {
    let over = if random.one_in(4) { 1 + random.below(2000) } else { 1 };
    *runs = long(random, MOST_BYTES + over);
    if random.one_in(2) {
        let bytes = random.bytes(MOST_BYTES + over);
        *runs = vec![Run { start: random.number() >> 1, bytes }];
    }
}

/// Moves the last run over 2^64, by a byte or more; at times one at a low address follows.
pub fn pass_the_top(random: &mut Random, runs: &mut Vec<Run>) {
    let last = runs.last_mut().expect("there is a run");
    last.bytes.push(1);
    let length = last.bytes.len();
    let over = if random.one_in(2) { 1 } else { 1 + random.below(length - 1) };
    last.start = (length as u64).wrapping_neg() + over as u64;
    if random.one_in(4) {
        let start = (over + random.below(9)) as u64;
        runs.push(Run { start, bytes: vec![2] });
    }
}

// Of the string.

fn change(random: &mut Random, string: &mut [u8], index: usize) {
    string[index] ^= match random.below(3) {
        0 => 1 << random.below(8),
        _ => 1 + random.below(255) as u8,
    };
}

pub fn change_byte(random: &mut Random, _: &[Run], string: &mut [u8]) {
    let index = random.below(string.len());
    change(random, string, index);
}

/// Changes a byte that is no payload.
pub fn change_head(random: &mut Random, runs: &[Run], string: &mut [u8]) {
    let number = random.below(runs.len() + 1);
    let size = if number < runs.len() { 12 } else { 4 };
    let index = index(runs, number) + random.below(size);
    change(random, string, index);
}

/// The bytes behind the cut stay in the buffer, where the model must not read them.
pub fn cut(random: &mut Random, _: &[Run], string: &mut Vec<u8>) {
    let length = random.below(string.len());
    string.truncate(length);
}

/// Cuts in the trailer, or all of it.
pub fn cut_trailer(random: &mut Random, _: &[Run], string: &mut Vec<u8>) {
    let length = string.len() - 1 - random.below(4);
    string.truncate(length);
}

pub fn extend(random: &mut Random, _: &[Run], string: &mut Vec<u8>) {
    match random.below(4) {
        0 => string.push(0),
        _ => {
            let length = 1 + random.below(16);
            string.extend(random.bytes(length));
        }
    }
}

pub fn second_patch(random: &mut Random, _: &[Run], first: &mut Vec<u8>) {
    first.extend(string(&few(random, 0)));
}

pub fn second_trailer(_: &mut Random, runs: &[Run], string: &mut Vec<u8>) {
    string.extend(trailer(runs.len()));
}

/// Puts the trailer before a run.
pub fn early_trailer(random: &mut Random, runs: &[Run], string: &mut Vec<u8>) {
    let number = any(random, runs);
    let at = index(runs, number);
    let count = random.pick(&[number, runs.len()]);
    string.truncate(string.len() - 4);
    string.splice(at..at, trailer(count));
}

pub fn big_endian_length(random: &mut Random, runs: &[Run], string: &mut [u8]) {
    let number = any(random, runs);
    string[index(runs, number) + 10..][..2].reverse();
}

pub fn big_endian_start(random: &mut Random, runs: &[Run], string: &mut [u8]) {
    let number = any(random, runs);
    string[index(runs, number) + 2..][..8].reverse();
}

/// Writes another length than that of the bytes, which stay.
pub fn other_length(random: &mut Random, runs: &[Run], string: &mut [u8]) {
    let number = any(random, runs);
    let length = runs[number].bytes.len() as u16;
    let others = [0, length - 1, length + 1, length + 256, length + 12, u16::MAX];
    let other = random.pick(&others);
    string[index(runs, number) + 10..][..2].copy_from_slice(&other.to_le_bytes());
}

pub fn other_count(random: &mut Random, runs: &[Run], string: &mut [u8]) {
    let count = runs.len() as u16;
    let others = [0, count + 1, count.wrapping_sub(1), count + 256, count.swap_bytes(), u16::MAX];
    let other = match random.pick(&others) {
        same if same == count => 1,
        other => other,
    };
    let at = string.len() - 2;
    string[at..].copy_from_slice(&other.to_le_bytes());
}

/// Writes another mark before a run or the trailer.
pub fn other_mark(random: &mut Random, runs: &[Run], string: &mut [u8]) {
    let number = random.below(runs.len() + 1);
    let (right, other) = match number == runs.len() {
        true => (TRAILER_MARK, RUN_MARK),
        false => (RUN_MARK, TRAILER_MARK),
    };
    let [first, second] = right;
    let any = random.number() as u8 | 0x80;
    let marks =
        [other, [second, first], [first, any], [any, second], [0, 0], [first | 0x20, second]];
    string[index(runs, number)..][..2].copy_from_slice(&random.pick(&marks));
}

/// Bytes at random, often behind a mark.
pub fn noise(random: &mut Random, _: &[Run], string: &mut Vec<u8>) {
    let length = random.below(80);
    *string = random.bytes(length);
    let mark = random.pick(&[RUN_MARK, TRAILER_MARK, [0, 0]]);
    if length >= 12 && mark != [0, 0] {
        string[..2].copy_from_slice(&mark);
        string[11] = 0;
    }
}
