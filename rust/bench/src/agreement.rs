//! The sides agree: on the random stores and strings that the model is compared on, and on every case
//! that is measured.

use crate::cases::{groups, Outcome};
use crate::sides::{Side, SIDES};
use crate::table::agree;
use compare::comparing;
use compare::patches::{kinds, windows};
use compare::random::Random;
use compare::report::Report;
use compare::storing;
use compare::storing::classes::CLASSES;
use compare::storing::counters;
use compare::storing::generate::other_word;
use compare::GARBAGE;

const STORES: u64 = 40_000;
const STRINGS: u64 = 40_000;
const PAIRS: u64 = 20_000;
const WORDS: u64 = 2_000_000;

/// Calls every side and compares the others with the model; tells what it answers.
fn same(call: impl Fn(&Side) -> Outcome, input: impl Fn() -> String) -> Outcome {
    let [model, others @ ..] = &SIDES;
    let right = call(model);
    for side in others {
        let other = call(side);
        let name = side.name;
        assert!(other == right, "{name} differs: {:?} {:?}\n{}", other.0, other.1, input());
    }
    right
}

/// Counts a verdict.
fn count(verdicts: &mut [u64; 12], verdict: u64) {
    verdicts[verdict as usize] += 1;
}

/// With the independent model, in buffers too short, exact and longer and on several fillings.
#[test]
fn storing() {
    for side in &SIDES {
        let report = Report::default();
        storing::compare(&report, &side.store, STORES, 1);
        assert_eq!(report.differences(), 0, "{}", side.name);
    }
}

/// With the independent model, on every counter at every length. Only the quick one: the other takes
/// its time for the patches, and its counters are among the random stores'.
#[test]
fn counters_of_strided_stores() {
    let hand = SIDES.iter().find(|side| side.name == "hand").expect("a side");
    let report = Report::default();
    counters::compare(&report, &hand.store, 2);
    assert_eq!(report.differences(), 0);
}

#[test]
fn applying_patches() {
    let mut verdicts = [0; 12];
    for number in 0..STRINGS {
        let mut random = Random::new(number);
        let kind = random.below(kinds::KINDS.len());
        let kinds::Case { runs, string } = kinds::case(&mut random, kind);
        let around = random.below(windows::KINDS.len());
        let window = windows::window(&mut random, around, &runs);
        let filling = random.bytes(window.length);
        let apply = |side: &Side| {
            let (mut answer, mut memory) = ([GARBAGE; 5], filling.clone());
            let verdict = (side.apply)(window.base, &mut memory, &string, &mut answer);
            (verdict, answer.to_vec(), memory)
        };
        let text = || format!("{string:02X?} at {:X}h, {}", window.base, window.length);
        count(&mut verdicts, same(apply, text).0);
    }
    assert!([0, 3, 9, 10].iter().all(|&verdict| verdicts[verdict] > 100), "{verdicts:?}");
}

/// With the independent implementation, in lists too short, exact and longer.
#[test]
fn comparing_patches() {
    for side in &SIDES {
        let report = Report::default();
        comparing::compare(&report, &side.compare, PAIRS, 1);
        assert_eq!(report.differences(), 0, "{}", side.name);
    }
}

#[test]
fn decoding() {
    let mut random = Random::new(2);
    for number in 0..WORDS {
        let class = &CLASSES[number as usize % CLASSES.len()];
        let word = class.base | random.number() as u32 & class.free();
        for word in [word, other_word(&mut random, class, word)] {
            let decode = |side: &Side| {
                let mut fields = [GARBAGE; 8];
                let verdict = (side.decode)(word, &mut fields);
                (verdict, fields.to_vec(), Vec::new())
            };
            same(decode, || format!("{word:08X}"));
        }
    }
}

#[test]
fn every_case() {
    for case in groups().iter().flat_map(|group| &group.cases) {
        agree(case);
        for side in &SIDES {
            case.subject.repeated(side)(1);
        }
    }
}
