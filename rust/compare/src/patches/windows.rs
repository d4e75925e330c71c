//! Windows, mostly around the runs of a patch.

use super::generate::Run;
use super::reader::TOP;
use crate::random::Random;
use crate::LONGEST;

pub struct Window {
    pub base: u64,
    pub length: usize,
}

/// A kind of windows, and the verdicts that applying to such has to hit.
pub struct Kind {
    pub name: &'static str,
    pub verdicts: &'static [u64],
    make: Make,
}

/// Makes a window for runs.
struct Make(fn(&mut Random, &[Run]) -> Window);

const fn kind(name: &'static str, verdicts: &'static [u64], make: Make) -> Kind {
    Kind { name, verdicts, make }
}

pub const KINDS: &[Kind] = &[
    kind("exactly around the runs", &[0, 9, 10], Make(|_, runs| taken(low(runs), high(runs)))),
    kind("around the runs", &[0, 9, 10], Make(around)),
    kind(
        "one byte short at the low end",
        &[9, 10],
        Make(|random, runs| taken(low(runs) + 1, high(runs) + small(random))),
    ),
    kind(
        "one byte short at the high end",
        &[0, 9, 10],
        Make(|random, runs| {
            taken(low(runs).saturating_sub(small(random)), high(runs).saturating_sub(1))
        }),
    ),
    kind(
        "up to a run's inside",
        &[0, 9, 10],
        Make(|random, runs| taken(low(runs).saturating_sub(small(random)), inside(random, runs))),
    ),
    kind(
        "from a run's inside",
        &[0, 9, 10],
        Make(|random, runs| taken(inside(random, runs), high(runs) + small(random))),
    ),
    kind(
        "at 0",
        &[0, 9, 10],
        Make(|random, runs| match high(runs) {
            far if far > LONGEST as u128 => taken(0, small(random)),
            near => taken(0, near + small(random)),
        }),
    ),
    kind(
        "up to 2^64",
        &[0, 9, 10],
        Make(|random, runs| match low(runs) {
            far if far < TOP - LONGEST as u128 => taken(TOP - small(random), TOP),
            near => taken(near - small(random), TOP),
        }),
    ),
    kind(
        "one past 2^64",
        &[3],
        Make(|random, _| {
            let most = random.pick(&[LONGEST, 200, 200, 200, 200]);
            let length = 2 + random.below(most - 1);
            Window { base: (length as u64).wrapping_neg() + 1, length }
        }),
    ),
    kind(
        "from 2^64 - 1, two bytes or more",
        &[3],
        Make(|random, _| Window { base: u64::MAX, length: 2 + random.below(200) }),
    ),
    kind(
        "of length 0",
        &[0, 9, 10],
        Make(|random, runs| {
            let bases = [0, low(runs) as u64, high(runs) as u64, u64::MAX, random.number()];
            Window { base: random.pick(&bases), length: 0 }
        }),
    ),
    kind("of length 65,536", &[0, 9, 10], Make(|random, runs| sized(random, runs, LONGEST))),
    kind("of length 65,537", &[3], Make(|random, runs| sized(random, runs, LONGEST + 1))),
    kind(
        "anywhere",
        &[0, 3, 9, 10],
        Make(|random, _| Window {
            base: random.number() | random.pick(&[0, !255]),
            length: random.below(256),
        }),
    ),
];

pub fn window(random: &mut Random, number: usize, runs: &[Run]) -> Window {
    (KINDS[number].make.0)(random, runs)
}

/// From the first address up to the last one's successor, cut to what isn't refused.
fn taken(from: u128, to: u128) -> Window {
    let from = from.min(TOP - 1);
    let to = to.max(from).min(from + LONGEST as u128).min(TOP);
    Window { base: from as u64, length: (to - from) as usize }
}

fn low(runs: &[Run]) -> u128 {
    runs.iter().map(|run| run.start.into()).min().unwrap_or(0x1000)
}

fn high(runs: &[Run]) -> u128 {
    runs.iter().map(Run::end).max().unwrap_or(0x1000)
}

fn small(random: &mut Random) -> u128 {
    random.below(20) as u128
}

fn around(random: &mut Random, runs: &[Run]) -> Window {
    taken(low(runs).saturating_sub(small(random)), high(runs) + small(random))
}

/// The address of a byte of some run, or the one behind its last.
fn inside(random: &mut Random, runs: &[Run]) -> u128 {
    match runs.len() {
        0 => small(random),
        count => {
            let run = &runs[random.below(count)];
            u128::from(run.start) + random.below(run.bytes.len() + 1) as u128
        }
    }
}

/// With this length, around the runs where they fit.
fn sized(random: &mut Random, runs: &[Run], length: usize) -> Window {
    let room = (length as u128).saturating_sub(high(runs) - low(runs));
    let before = random.below(room as usize + 1) as u128;
    let highest = TOP - length as u128;
    Window { base: low(runs).saturating_sub(before).min(highest) as u64, length }
}
