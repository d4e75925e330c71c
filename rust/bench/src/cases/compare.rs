//! Comparing two patches.

use super::{times_hand, Aim, Case, Outcome, Subject, NO_SLOWER};
use crate::sides::Side;
use crate::timing::{repeated, Repeated};
use crate::verdicts::{DONE, MOST_BYTES, MOST_RUNS};
use compare::patches::generate::{string, Run};
use starshackle::{ENTRY_NUMBERS, MOST_DIFFERENCES};

/// The aim of patches of 512 runs.
const MANY: Aim = times_hand(1.5);
const BASE: u64 = 0x4_0000;
/// From the start of a run to that of the next.
const STEP: u64 = 32;

pub fn cases() -> Vec<Case> {
    let most = runs(BASE, MOST_RUNS, 1);
    let aside = runs(BASE + STEP / 2, MOST_RUNS, 1);
    let middle = runs(BASE, 64, 16);
    let long = runs(BASE, 1, MOST_BYTES);
    vec![
        case("512 runs of 1 byte, equal", MANY, [&most, &most]),
        case("512 runs of 1 byte, half of them differ", MANY, [&most, &changed(&most, 2)]),
        case("512 runs of 1 byte each, disjoint", MANY, [&most, &aside]),
        case("64 runs of 16 bytes, 1 byte differs", NO_SLOWER, [&middle, &changed(&middle, 64)]),
        case("1 run of 1024 bytes, 1 byte differs", NO_SLOWER, [&long, &changed(&long, 1)]),
    ]
}

/// So many runs of so many bytes.
fn runs(base: u64, count: usize, bytes: usize) -> Vec<Run> {
    let run = |number: usize| {
        let bytes = (0..bytes).map(|index| (number + index) as u8).collect();
        Run { start: base + STEP * number as u64, bytes }
    };
    (0..count).map(run).collect()
}

/// The runs with another byte in the middle of one in so many.
fn changed(runs: &[Run], every: usize) -> Vec<Run> {
    let mut runs = runs.to_vec();
    for Run { bytes, .. } in runs.iter_mut().skip(every / 2).step_by(every) {
        let middle = bytes.len() / 2;
        bytes[middle] ^= 1;
    }
    runs
}

fn case(name: &str, aim: Aim, [first, second]: [&[Run]; 2]) -> Case {
    let subject = Patches { first: string(first), second: string(second) };
    Case { name: name.to_string(), aim, subject: Box::new(subject) }
}

struct Patches {
    first: Vec<u8>,
    second: Vec<u8>,
}

impl Subject for Patches {
    fn outcome(&self, side: &Side) -> Outcome {
        let (mut answer, mut list) = ([1; 5], vec![1; ENTRY_NUMBERS * MOST_DIFFERENCES]);
        let verdict = (side.compare)(&self.first, &self.second, &mut list, &mut answer);
        (verdict, [&answer[..], &list].concat(), Vec::new())
    }

    fn repeated<'a>(&'a self, side: &'a Side) -> Repeated<'a> {
        let (mut answer, mut list) = ([0; 5], vec![0; ENTRY_NUMBERS * MOST_DIFFERENCES]);
        let Patches { first, second } = self;
        repeated(move || (side.compare)(first, second, &mut list, &mut answer) == DONE)
    }
}
