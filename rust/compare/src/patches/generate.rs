//! Random patches: runs of many shapes, and their strings.

use super::reader::{MOST_BYTES, MOST_RUNS, RUN_MARK, TOP, TRAILER_MARK};
use crate::random::Random;

#[derive(Clone, Debug, Default)]
pub struct Run {
    pub start: u64,
    pub bytes: Vec<u8>,
}

impl Run {
    /// The address behind its last.
    pub fn end(&self) -> u128 {
        u128::from(self.start) + self.bytes.len() as u128
    }

    /// How many bytes it has in a string.
    pub fn size(&self) -> usize {
        12 + self.bytes.len()
    }
}

/// The unwritten addresses between runs.
#[derive(Clone, Copy)]
enum Gaps {
    One,
    Near,
    Far,
    Mixed,
}

/// Where runs lie.
#[derive(Clone, Copy)]
enum Place {
    Zero,
    Top,
    Any,
}

/// The string of some runs, which need not be a patch.
pub fn string(runs: &[Run]) -> Vec<u8> {
    let mut string = Vec::new();
    for Run { start, bytes } in runs {
        string.extend(RUN_MARK);
        string.extend(start.to_le_bytes());
        string.extend((bytes.len() as u16).to_le_bytes());
        string.extend(bytes);
    }
    string.extend(trailer(runs.len()));
    string
}

pub fn trailer(runs: usize) -> [u8; 4] {
    let [low, high] = (runs as u16).to_le_bytes();
    [TRAILER_MARK[0], TRAILER_MARK[1], low, high]
}

fn gap(random: &mut Random, gaps: Gaps) -> u64 {
    match gaps {
        Gaps::One => 1,
        Gaps::Near => 1 + random.below(20) as u64,
        Gaps::Far => 1 << random.below(54),
        Gaps::Mixed if random.one_in(8) => gap(random, Gaps::Far),
        Gaps::Mixed if random.one_in(2) => gap(random, Gaps::Near),
        Gaps::Mixed => 1,
    }
}

/// The address of the first of so many, which lie below 2^64.
fn start(random: &mut Random, place: Place, span: u64) -> u64 {
    let highest = (TOP - u128::from(span.max(1))) as u64;
    let near = random.below(64) as u64;
    let start = match (place, random.below(8)) {
        (Place::Zero, _) => 0,
        (Place::Top, _) => highest,
        (_, 0) => near,
        (_, 1) => highest - near.min(highest),
        (_, 2) => (1 << random.below(64)) - near.min(1),
        (_, 3) => 0x1000 + near,
        _ => random.number(),
    };
    start.min(highest)
}

/// Runs with these lengths.
fn runs(random: &mut Random, lengths: &[usize], gaps: Gaps, place: Place) -> Vec<Run> {
    let mut runs = Vec::new();
    let mut span = 0;
    for (number, &length) in lengths.iter().enumerate() {
        if number > 0 {
            span += gap(random, gaps);
        }
        runs.push(Run { start: span, bytes: random.bytes(length) });
        span += length as u64;
    }
    let start = start(random, place, span);
    runs.iter_mut().for_each(|run| run.start += start);
    runs
}

/// So many lengths of at least 1 that are so many bytes together.
fn lengths(random: &mut Random, count: usize, bytes: usize) -> Vec<usize> {
    let mut lengths = vec![1; count];
    let mut left = bytes - count;
    while left > 0 {
        let more = 1 + random.below(left.min(bytes / count + 1));
        lengths[random.below(count)] += more;
        left -= more;
    }
    lengths
}

fn runs_of(random: &mut Random, count: usize, bytes: usize) -> Vec<Run> {
    let lengths = lengths(random, count, bytes);
    let gaps = random.pick(&[Gaps::One, Gaps::Near, Gaps::Near, Gaps::Far, Gaps::Mixed]);
    let place = random.pick(&[Place::Zero, Place::Top, Place::Any, Place::Any, Place::Any]);
    runs(random, &lengths, gaps, place)
}

/// Up to seven short runs, at least so many.
pub fn few(random: &mut Random, least: usize) -> Vec<Run> {
    let count = least + random.below(8 - least);
    let bytes = match count {
        0 => 0,
        _ => count + random.below(5 * count),
    };
    runs_of(random, count, bytes)
}

/// As `few`, but at times long runs or many.
pub fn some(random: &mut Random, least: usize) -> Vec<Run> {
    match random.below(80) {
        0 => most_runs(random),
        1 => hundreds(random),
        2 | 3 => long(random, MOST_BYTES),
        _ => few(random, least),
    }
}

/// Few runs of so many bytes together, of two at least.
pub fn long(random: &mut Random, bytes: usize) -> Vec<Run> {
    let count = 2 + random.below(6);
    runs_of(random, count, bytes)
}

/// So many runs, mostly of few bytes.
pub fn many(random: &mut Random, count: usize) -> Vec<Run> {
    let room = MOST_BYTES - count;
    let most = if random.one_in(8) { room } else { room.min(2 * count) };
    let bytes = count + random.below(most + 1);
    runs_of(random, count, bytes)
}

pub fn most_runs(random: &mut Random) -> Vec<Run> {
    many(random, MOST_RUNS)
}

/// More runs than the scope paper had, before document 02 (vii): 65 to 512.
pub fn hundreds(random: &mut Random) -> Vec<Run> {
    let count = match random.below(8) {
        0 => 65,
        1 => MOST_RUNS - random.below(3),
        _ => 65 + random.below(MOST_RUNS - 64),
    };
    many(random, count)
}

pub fn most_bytes(random: &mut Random) -> Vec<Run> {
    long(random, MOST_BYTES)
}

pub fn one_long(random: &mut Random) -> Vec<Run> {
    runs_of(random, 1, MOST_BYTES)
}

pub fn largest(random: &mut Random) -> Vec<Run> {
    runs_of(random, MOST_RUNS, MOST_BYTES)
}

pub fn none(_: &mut Random) -> Vec<Run> {
    Vec::new()
}

pub fn gaps_of_one(random: &mut Random) -> Vec<Run> {
    let count = 2 + random.below(8);
    let lengths = lengths(random, count, 4 * count);
    runs(random, &lengths, Gaps::One, Place::Any)
}

pub fn from_zero(random: &mut Random) -> Vec<Run> {
    placed(random, Place::Zero)
}

pub fn up_to_the_top(random: &mut Random) -> Vec<Run> {
    placed(random, Place::Top)
}

fn placed(random: &mut Random, place: Place) -> Vec<Run> {
    let count = 1 + random.below(6);
    let lengths = lengths(random, count, 3 * count);
    let gaps = random.pick(&[Gaps::Near, Gaps::Mixed]);
    runs(random, &lengths, gaps, place)
}

/// A run whose bytes are a patch themselves, behind another.
pub fn nested(random: &mut Random) -> Vec<Run> {
    let inner = string(&few(random, 0));
    let lengths = [1 + random.below(4), inner.len()];
    let mut runs = runs(random, &lengths, Gaps::Near, Place::Any);
    runs[1].bytes = inner;
    runs
}
