//! The comparison finds wrong implementations: each is the independent model with a mistake in it.

mod answers;
mod buffers;
mod counters;
mod editions;
mod elements;
mod faults;
mod memory;
mod narrow;
mod overlaps;
mod patches;
mod steps;
mod strided;
mod verdicts;

use super::arm::{self, Element};
use super::classes::{class_of, Class, CLASSES};
use super::input::Input;
use super::{compare, Store, Subject};
use crate::report::Report;
use crate::verdicts::DONE;
use starshackle::{Machine, Window};

/// What a call may write.
struct Lent<'a> {
    memory: &'a mut [u8],
    buffer: &'a mut [u8],
    answer: &'a mut [u64; 6],
}

/// The independent model's input.
fn input(machine: &Machine, window: &Window, word: u32) -> Input {
    let Machine { vb, x, sp, z, p, .. } = *machine;
    let (z, p, memory) = (z.to_vec(), p.to_vec(), window.memory.to_vec());
    Input { vb, flags: machine.flag_bits(), x, sp, z, p, base: window.base, memory, word }
}

/// An implementation that gets the store as the independent model judges it, and what it may write.
fn ending(end: impl Fn(Subject, Lent) -> u64 + Sync + 'static) -> Box<Store> {
    Box::new(move |machine, window, word, buffer, answer| {
        let subject = Subject::new(0, input(machine, &window, word));
        end(subject, Lent { memory: window.memory, buffer, answer })
    })
}

/// The right end of a call.
fn end(subject: &Subject, lent: Lent) -> u64 {
    let right = subject.outcome(lent.buffer.len());
    *lent.answer = right.numbers;
    if let (DONE, Ok(effect)) = (right.verdict, &subject.right) {
        arm::write(subject.input.base, subject.elements(), lent.memory);
        lent.buffer[..effect.patch.len()].copy_from_slice(&effect.patch);
    }
    right.verdict
}

pub fn right() -> Box<Store> {
    ending(|subject, lent| end(&subject, lent))
}

/// A right implementation of a subject that is changed beforehand.
fn changed(change: impl Fn(&mut Subject) + Sync + 'static) -> Box<Store> {
    ending(move |mut subject, lent| {
        change(&mut subject);
        end(&subject, lent)
    })
}

/// A right implementation for stores with other elements, of a word that has a class.
fn with_elements(
    change: impl Fn(&Input, &Class, &mut Vec<Element>) + Sync + 'static,
) -> Box<Store> {
    changed(move |subject| {
        if let (Ok(elements), Some(class)) = (&subject.inspected, class_of(subject.input.word)) {
            let mut elements = elements.clone();
            change(&subject.input, &CLASSES[class], &mut elements);
            *subject = Subject::with_elements(0, subject.input.clone(), Ok(elements));
        }
    })
}

/// A right implementation whose outcome is changed afterwards; it gets the verdict too.
fn then(wrong: impl Fn(u64, &Subject, Lent) -> u64 + Sync + 'static) -> Box<Store> {
    ending(move |subject, lent| {
        let Lent { memory, buffer, answer } = lent;
        let verdict = end(&subject, Lent { memory, buffer, answer });
        wrong(verdict, &subject, Lent { memory, buffer, answer })
    })
}

/// The comparison finds something on so many stores.
fn is_found(name: &str, store: &Store) {
    let report = Report::default();
    compare(&report, store, 20_000, 1);
    assert!(report.differences() > 0, "{name}");
}

#[test]
fn a_right_one() {
    let report = Report::default();
    compare(&report, &*right(), 6_000, 2);
    assert_eq!(report.differences(), 0);
}

#[test]
fn what_is_hit() {
    let few = Report::default();
    compare(&few, &starshackle::store_numbers, 1_000, 1).print(&few);
    assert!(few.differences() == 0 && few.misses() > 0);
    let enough = Report::default();
    compare(&enough, &starshackle::store_numbers, 200_000, 2).print(&enough);
    assert_eq!((enough.differences(), enough.misses()), (0, 0));
}
