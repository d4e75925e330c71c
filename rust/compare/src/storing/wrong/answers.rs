//! Wrong numbers; memory and patch are right.

use super::{is_found, then};
use crate::storing::{Store, Subject};
use crate::verdicts::{DONE, FAULT, NO_ROOM};

/// A right implementation with another answer.
fn answering(change: impl Fn(u64, &Subject, &mut [u64; 6]) + Sync + 'static) -> Box<Store> {
    then(move |verdict, subject, lent| {
        change(verdict, subject, lent.answer);
        verdict
    })
}

/// The same, only with this verdict.
fn with(given: u64, change: impl Fn(&Subject, &mut [u64; 6]) + Sync + 'static) -> Box<Store> {
    answering(move |verdict, subject, answer| {
        if verdict == given {
            change(subject, answer);
        }
    })
}

#[test]
fn wrong_counts() {
    for (name, store) in [
        ("all elements", with(DONE, |s, answer| answer[2] = s.elements().len() as u64)),
        (
            "bytes by the element's register",
            with(DONE, |s, answer| {
                let each = s.elements().windows(2).map(|two| two[1].index.abs_diff(two[0].index));
                answer[3] = answer[2] * each.min().unwrap_or(8) as u64;
            }),
        ),
        (
            "payload for bytes moved",
            with(DONE, |s, answer| {
                let payload = s.right.as_ref().map_or(0, |effect| effect.payload());
                answer[3] = payload as u64;
            }),
        ),
        ("a constant", with(DONE, |_, answer| answer[2] = 2)),
        ("exchanged", with(DONE, |_, answer| answer.swap(2, 3))),
        (
            "without room",
            with(NO_ROOM, |s, answer| {
                answer[3] = s.right.as_ref().map_or(0, |effect| effect.moved as u64);
            }),
        ),
        ("up to a fault", with(FAULT, |_, answer| answer[2] = answer[0])),
        (
            "steps without room",
            with(NO_ROOM, |s, answer| {
                answer[5] = s.right.as_ref().map_or(0, |effect| effect.steps as u64);
            }),
        ),
        ("steps at a fault", with(FAULT, |_, answer| answer[5] = 1)),
        (
            "the last entry left alone",
            then(|verdict, _, lent| {
                lent.answer[5] = crate::GARBAGE;
                verdict
            }),
        ),
    ] {
        is_found(name, &*store);
    }
}

#[test]
fn wrong_lengths() {
    for (name, store) in [
        ("without the trailer", with(DONE, |_, answer| answer[4] -= 4)),
        ("the bytes'", with(DONE, |_, answer| answer[4] = answer[3])),
        (
            "the buffer's",
            then(|verdict, _, lent| {
                lent.answer[4] = if verdict == DONE { lent.buffer.len() as u64 } else { 0 };
                verdict
            }),
        ),
        (
            "what is needed, without room",
            with(NO_ROOM, |s, answer| {
                answer[4] = s.right.as_ref().map_or(0, |effect| effect.patch.len() as u64);
            }),
        ),
    ] {
        is_found(name, &*store);
    }
}

#[test]
fn wrong_details() {
    for (name, store) in [
        ("a fault without its element", with(FAULT, |_, answer| answer[0] = 0)),
        ("a fault without its address", with(FAULT, |_, answer| answer[1] = 0)),
        ("exchanged", with(FAULT, |_, answer| answer.swap(0, 1))),
        ("where it is done", with(DONE, |s, answer| answer[1] = s.input.base)),
        ("without room", with(NO_ROOM, |s, answer| answer[1] = s.input.base)),
    ] {
        is_found(name, &*store);
    }
}
