//! Stores: run, and made into patches, in one call.

use super::aligned::Aligned;
use super::shapes::{Active, Layout, Shape, SORTED, UNSORTED, WINDOW};
use super::{times_hand, Aim, Case, Outcome, Subject, NO_SLOWER};
use crate::sides::Side;
use crate::timing::{timed, Repeated};
use crate::verdicts::{DONE, FAULT, OVERLAP};
use compare::storing::arm::STRICT;
use compare::storing::classes::{class_of, CLASSES, INDEX};
use compare::storing::input::Input;
use compare::storing::{self, shapes};
use starshackle::{Machine, Window, LARGEST_STORE_PATCH};
use std::cell::RefCell;

/// Doublewords and quadwords.
const WIDE: f64 = 1.2;
const CONTIGUOUS: f64 = 0.9;
const BYTES: f64 = 1.35;
/// Halfwords and words.
const NARROW: f64 = 1.4;
const STRIDED: f64 = 1.6;
/// Strided bytes, halfwords and words.
const STRIDED_NARROW: f64 = 1.8;
/// A run for each element of a strided store.
const SPACED: f64 = 1.1;
const RANDOM: f64 = 1.15;
/// Strict stores, in the place of those of bytes and of words: 1.3 times their time.
const STRICT_BYTES: f64 = 1.75;
const STRICT_NARROW: f64 = 1.8;

/// How many random stores are called in turn.
const STORES: usize = 512;

pub fn cases() -> Vec<Case> {
    let mut cases = Vec::new();
    for vb in [16, 64, 256] {
        doublewords(vb, &mut cases);
    }
    others(&mut cases);
    for class in [8, 9] {
        for vb in [16, 64, 256] {
            cases.push(one(
                format!("class {class}, VB {vb}, whole"),
                STRIDED,
                Shape::new(class, vb),
            ));
        }
    }
    let half = Shape { active: Active::Half, ..Shape::new(9, 256) };
    cases.push(one("class 9, VB 256, half", STRIDED, half));
    for class in [26, 30, 34] {
        let name = format!("class {class}, VB 256, whole");
        cases.push(one(name, STRIDED_NARROW, Shape::new(class, 256)));
    }
    let second = Shape { active: Active::Second, ..Shape::new(26, 256) };
    cases.push(one("class 26, VB 256, halfword counter: 512 runs", SPACED, second));
    cases.push(pairs());
    cases.push(fault());
    strict(&mut cases);
    cases.push(random("classes 1 to 7", 7));
    cases.push(random("all classes", CLASSES.len()));
    cases
}

/// Class 4, as it may lie.
fn doublewords(vb: usize, cases: &mut Vec<Case>) {
    let shape = Shape::new(4, vb);
    for (name, aim, shape) in [
        ("sorted", WIDE, Shape { layout: SORTED, ..shape }),
        ("unsorted", WIDE, Shape { layout: UNSORTED, ..shape }),
        ("unsorted, half of the lanes", WIDE, Shape { active: Active::Half, ..shape }),
        ("contiguous", CONTIGUOUS, Shape { layout: Layout::Ascending(8), ..shape }),
    ] {
        cases.push(one(format!("class 4, VB {vb}, {name}"), aim, shape));
    }
}

/// The longest vectors.
fn others(cases: &mut Vec<Case>) {
    let wide = |class| Shape::new(class, 256);
    let sorted = |class| Shape { layout: SORTED, ..wide(class) };
    let mixed = Layout::Mixed(8);
    for (name, aim, shape) in [
        ("class 4, VB 256, contiguous, unsorted", WIDE, Shape { layout: mixed, ..wide(4) }),
        ("class 4, VB 256, nothing active", WIDE, Shape { active: Active::None, ..wide(4) }),
        ("class 1 UXTW, VB 256, unsorted", WIDE, wide(1)),
        ("class 1 SXTW, VB 256, unsorted", WIDE, Shape { signed: true, ..wide(1) }),
        ("class 6, VB 256, sorted", BYTES, sorted(6)),
        ("class 6, VB 256, unsorted", BYTES, wide(6)),
        ("class 12, VB 256, sorted", WIDE, sorted(12)),
        ("class 12, VB 256, unsorted", WIDE, wide(12)),
        ("class 16, VB 256, sorted", NARROW, sorted(16)),
        ("class 16, VB 256, unsorted", NARROW, wide(16)),
        ("class 18, VB 256, sorted", NARROW, sorted(18)),
        ("class 24, VB 256, sorted", NARROW, sorted(24)),
        ("class 24, VB 256, unsorted", NARROW, wide(24)),
    ] {
        cases.push(one(name, aim, shape));
    }
}

fn one(name: impl Into<String>, hand: f64, shape: Shape) -> Case {
    case(name, times_hand(hand), Stores::new(vec![shape.store()]))
}

fn case(name: impl Into<String>, aim: Aim, stores: Stores) -> Case {
    Case { name: name.into(), aim, subject: Box::new(stores) }
}

/// Elements that touch two by two, in a buffer that has room for their patch and no more.
fn pairs() -> Case {
    let shape = Shape { layout: Layout::Pairs, ..Shape::new(4, 256) };
    let stores = Stores::with_room(vec![shape.store()], 16 * (12 + 16) + 4);
    case("class 4, VB 256, pairs, exact buffer", times_hand(WIDE), stores)
}

/// The last element passes the window's end by a byte.
fn fault() -> Case {
    let mut input = Shape { layout: SORTED, ..Shape::new(4, 256) }.store();
    let behind = (INDEX.of(input.word) + 1) * input.vb;
    input.z[behind - 8..behind].copy_from_slice(&(WINDOW as u64 - 7).to_le_bytes());
    let stores = Stores { verdict: FAULT, ..Stores::new(vec![input]) };
    case("class 4, VB 256, the last element faults", NO_SLOWER, stores)
}

/// Strict stores of 64 elements, which share no byte, or of which the last shares one with the first.
fn strict(cases: &mut Vec<Case>) {
    let store = |class, layout| {
        let mut input = Shape { layout, ..Shape::new(class, 256) }.store();
        input.flags |= 1 << STRICT;
        input
    };
    for (class, hand) in [(6, STRICT_BYTES), (24, STRICT_NARROW)] {
        for (name, layout) in [("sorted", SORTED), ("unsorted", UNSORTED)] {
            let name = format!("class {class}, VB 256, {name}, strict");
            cases.push(case(name, times_hand(hand), Stores::new(vec![store(class, layout)])));
        }
    }
    let mut last = store(24, SORTED);
    let behind = (INDEX.of(last.word) + 1) * last.vb;
    last.z[behind - 4..behind].copy_from_slice(&[3, 0, 0, 0]);
    let stores = Stores { verdict: OVERLAP, ..Stores::new(vec![last]) };
    cases.push(case("class 24, VB 256, the last element overlaps", NO_SLOWER, stores));
}

/// Random stores of the classes up to this one that are done.
fn random(name: &str, last: usize) -> Case {
    let of_class = |input: &Input| class_of(input.word).map_or(false, |class| class < last);
    let done = |input: &Input| storing::Subject::new(0, input.clone()).right.is_ok();
    let inputs = (0..).map(shapes::input).filter(|input| of_class(input) && done(input));
    let stores = Stores::new(inputs.take(STORES).collect());
    case(format!("{STORES} random stores, {name}"), times_hand(RANDOM), stores)
}

/// Stores that are called in turn, each with its Z registers.
struct Stores {
    stores: Vec<(Input, Aligned)>,
    /// The verdict that is due of each.
    verdict: u64,
    /// What every side is lent when it is measured.
    lent: RefCell<Lent>,
}

/// What a call may write.
struct Lent {
    memory: Aligned,
    patch: Aligned,
    answer: [u64; 6],
}

impl Stores {
    /// Stores that are done, with room for every patch.
    fn new(inputs: Vec<Input>) -> Stores {
        Stores::with_room(inputs, LARGEST_STORE_PATCH)
    }

    /// Stores that are done, with a patch buffer of this length.
    fn with_room(inputs: Vec<Input>, room: usize) -> Stores {
        let longest = inputs.iter().map(|input| input.memory.len()).max().unwrap_or(0);
        let (memory, patch) =
            (Aligned::new(&vec![0; longest], 0), Aligned::new(&vec![0; room], 2048));
        let lent = RefCell::new(Lent { memory, patch, answer: [0; 6] });
        let aligned = |(number, input): (usize, Input)| {
            let z = Aligned::new(&input.z, 64 * number);
            (input, z)
        };
        Stores {
            stores: inputs.into_iter().enumerate().map(aligned).collect(),
            verdict: DONE,
            lent,
        }
    }
}

impl Subject for Stores {
    fn outcome(&self, side: &Side) -> Outcome {
        let (mut verdict, mut numbers, mut bytes) = (self.verdict, Vec::new(), Vec::new());
        let room = self.lent.borrow().patch.bytes().len();
        for (input, _) in &self.stores {
            let (mut memory, mut patch) = (input.memory.clone(), vec![0x77; room]);
            let mut answer = [1; 6];
            let window = Window { base: input.base, memory: &mut memory };
            let own = (side.store)(&input.machine(), window, input.word, &mut patch, &mut answer);
            if own != self.verdict {
                verdict = own;
            }
            numbers.push(own);
            numbers.extend(answer);
            bytes.extend([memory, patch].concat());
        }
        (verdict, numbers, bytes)
    }

    fn repeated<'a>(&'a self, side: &'a Side) -> Repeated<'a> {
        let lent = |(input, z): &'a (Input, Aligned)| {
            let machine = Machine { z: z.bytes(), ..input.machine() };
            (machine, input.base, input.memory.len(), input.word)
        };
        let stores: Vec<(Machine, u64, usize, u32)> = self.stores.iter().map(lent).collect();
        Box::new(move |calls| {
            let Lent { memory, patch, answer } = &mut *self.lent.borrow_mut();
            let (memory, patch) = (memory.bytes_mut(), patch.bytes_mut());
            timed(calls, || {
                let mut others = 0;
                for (machine, base, length, word) in &stores {
                    let window = Window { base: *base, memory: &mut memory[..*length] };
                    others |= (side.store)(machine, window, *word, patch, answer) ^ self.verdict;
                }
                others == 0
            })
        })
    }

    fn verdict(&self) -> u64 {
        self.verdict
    }

    fn units(&self) -> usize {
        self.stores.len()
    }
}
