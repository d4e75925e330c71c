//! Refusals given wrongly.

use super::{arm, changed, end, ending, is_found, then, with_elements, Lent, Subject};
use crate::reference::Outcome;
use crate::storing::arm::{refused, SME2, STREAMING, SVE, SVE2P1};
use crate::storing::Store;
use crate::verdicts::{DONE, FAULT, ILLEGAL, NO_ROOM, STACK, UNDEFINED, WINDOW};
use crate::LONGEST;
use std::slice::from_ref;

/// An implementation that answers this refusal in place of another verdict, where it holds.
fn refusing(
    verdict: u64,
    by: impl Fn(&Subject, usize) -> Option<Outcome<6>> + Sync + 'static,
) -> Box<Store> {
    ending(move |subject, lent| {
        let right = subject.outcome(lent.buffer.len());
        match by(&subject, lent.buffer.len()) {
            Some(other) if right.verdict == verdict => {
                *lent.answer = other.numbers;
                other.verdict
            }
            _ => end(&subject, lent),
        }
    })
}

#[test]
fn wrong_orders() {
    for (name, store) in [
        (
            "8 before 7",
            refusing(FAULT, |subject, room| {
                let least = 4 + subject.active().next().map_or(0, |element| 12 + element.size);
                (room < least).then_some(refused(NO_ROOM))
            }),
        ),
        (
            "7 before 6",
            refusing(STACK, |subject, _| arm::fault(&subject.input, subject.elements())),
        ),
        (
            "5 before 4",
            refusing(UNDEFINED, |subject, _| {
                let mut input = subject.input.clone();
                input.flags |= 1 << SVE | 1 << SME2 | 1 << SVE2P1;
                arm::allowed(&input).err().filter(|&verdict| verdict == ILLEGAL).map(refused)
            }),
        ),
        (
            "4 before 3",
            refusing(WINDOW, |subject, _| {
                let mut input = subject.input.clone();
                (input.base, input.memory) = (0, Vec::new());
                arm::allowed(&input).err().filter(|&verdict| verdict == UNDEFINED).map(refused)
            }),
        ),
    ] {
        is_found(name, &*store);
    }
}

#[test]
fn wrong_windows() {
    for (name, store) in [
        (
            "the last byte is outside",
            changed(|subject| {
                let mut input = subject.input.clone();
                input.memory.pop();
                *subject = Subject::new(0, input);
            }),
        ),
        (
            "a byte behind the last is inside",
            ending(|subject, Lent { memory, buffer, answer }| {
                let mut input = subject.input;
                input.memory.push(0);
                let (subject, mut longer) = (Subject::new(0, input), [&*memory, &[0]].concat());
                let verdict = end(&subject, Lent { memory: &mut longer, buffer, answer });
                memory.copy_from_slice(&longer[..memory.len()]);
                verdict
            }),
        ),
        (
            "of more than 65,536 bytes",
            changed(|subject| {
                let mut input = subject.input.clone();
                if input.end() <= 1 << 64 {
                    input.memory.truncate(LONGEST);
                }
                *subject = Subject::new(0, input);
            }),
        ),
        (
            "none up to 2^64",
            changed(|subject| {
                if subject.input.end() == 1 << 64 && subject.right.is_ok() {
                    subject.right = Err(refused(WINDOW));
                }
            }),
        ),
    ] {
        is_found(name, &*store);
    }
}

#[test]
fn other_refusals() {
    for (name, store) in [
        (
            "everything",
            then(|_, _, lent| {
                *lent.answer = [0; 6];
                UNDEFINED
            }),
        ),
        (
            "done with a fault",
            with_elements(|input, _, elements| {
                for element in elements {
                    element.active &= arm::fault(input, from_ref(element)).is_none();
                }
            }),
        ),
        (
            "strided ones outside streaming mode",
            changed(|subject| {
                let mut input = subject.input.clone();
                input.flags |= u64::from(subject.is_strided()) << STREAMING;
                *subject = Subject::new(0, input);
            }),
        ),
        (
            "nothing active",
            then(|verdict, subject, lent| match verdict {
                DONE if subject.active().next().is_none() => {
                    *lent.answer = [0; 6];
                    UNDEFINED
                }
                _ => verdict,
            }),
        ),
    ] {
        is_found(name, &*store);
    }
}
