//! What is measured.

mod aligned;
mod apply;
mod compare;
mod decode;
mod shapes;
mod store;

use crate::sides::Side;
use crate::timing::Repeated;
use crate::verdicts::DONE;

/// What a call answers and leaves: verdict, numbers, bytes.
pub type Outcome = (u64, Vec<u64>, Vec<u8>);

/// A call with its input.
pub trait Subject {
    /// What the call answers and leaves.
    fn outcome(&self, side: &Side) -> Outcome;

    /// The call, with buffers that aren't cleared between two calls.
    fn repeated<'a>(&'a self, side: &'a Side) -> Repeated<'a>;

    /// The verdict that is due.
    fn verdict(&self) -> u64 {
        DONE
    }

    /// How many times the call does what is measured.
    fn units(&self) -> usize {
        1
    }
}

/// The largest ratios of the model's time to another's that are aimed at.
#[derive(Clone, Copy)]
pub struct Aim {
    pub idiomatic: f64,
    pub hand: Option<f64>,
}

/// A row of the table.
pub struct Case {
    pub name: String,
    pub aim: Aim,
    pub subject: Box<dyn Subject>,
}

/// A table: its call, what a time is the time of, its rows.
pub struct Group {
    pub call: &'static str,
    pub unit: &'static str,
    pub cases: Vec<Case>,
}

/// Everything that is measured.
pub fn groups() -> Vec<Group> {
    let group = |call, unit, cases| Group { call, unit, cases };
    vec![
        group("store", "call", store::cases()),
        group("apply", "call", apply::cases()),
        group("compare", "call", compare::cases()),
        group("decode", "word", decode::cases()),
    ]
}

/// The cases whose call and name have this text in them.
pub fn chosen(text: &str) -> Vec<Group> {
    let mut groups = groups();
    for Group { call, cases, .. } in &mut groups {
        cases.retain(|case| format!("{call} {}", case.name).contains(text));
    }
    groups.retain(|group| !group.cases.is_empty());
    groups
}

/// No slower than idiomatic Rust.
const NO_SLOWER: Aim = Aim { idiomatic: 1.0, hand: None };

/// No slower than idiomatic Rust, and at most so many times the time of Rust written to be quick.
const fn times_hand(hand: f64) -> Aim {
    Aim { hand: Some(hand), ..NO_SLOWER }
}
