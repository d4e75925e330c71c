//! Applying patches.

use super::shapes::WINDOW;
use super::{times_hand, Case, Outcome, Subject};
use crate::sides::Side;
use crate::timing::{repeated, Repeated};
use crate::verdicts::DONE;
use compare::patches::generate::{string, Run};

const AIM: f64 = 1.5;
const BASE: u64 = 0x4_0000;

pub fn cases() -> Vec<Case> {
    [(2, 8), (8, 8), (32, 8), (64, 16), (1, 1024), (64, 1)].map(case).into_iter().collect()
}

/// So many runs of so many bytes, spread over the window.
fn case((runs, bytes): (usize, usize)) -> Case {
    let run = |number: usize| {
        let start = BASE + (number * (WINDOW / runs)) as u64;
        Run { start, bytes: (0..bytes).map(|index| (number + index) as u8).collect() }
    };
    let patch = string(&(0..runs).map(run).collect::<Vec<Run>>());
    let text = |count, name| match count {
        1 => format!("1 {name}"),
        _ => format!("{count} {name}s"),
    };
    let name = format!("{} of {}", text(runs, "run"), text(bytes, "byte"));
    Case { name, aim: times_hand(AIM), subject: Box::new(Patch(patch)) }
}

struct Patch(Vec<u8>);

impl Subject for Patch {
    fn outcome(&self, side: &Side) -> Outcome {
        let (mut answer, mut memory) = ([1; 5], vec![0x77; WINDOW]);
        let verdict = (side.apply)(BASE, &mut memory, &self.0, &mut answer);
        (verdict, answer.to_vec(), memory)
    }

    fn repeated<'a>(&'a self, side: &'a Side) -> Repeated<'a> {
        let (mut memory, mut answer) = (vec![0; WINDOW], [0; 5]);
        repeated(move || (side.apply)(BASE, &mut memory, &self.0, &mut answer) == DONE)
    }
}
