//! Memory written wrongly; the answer and the patch are right.

use super::{arm, end, ending, is_found, then, Element, Lent};
use crate::storing::{Store, Subject};
use crate::verdicts::{DONE, FAULT, NO_ROOM};
use std::slice::from_ref;

/// A right implementation that writes these elements to memory where it is done.
fn writing(elements: impl Fn(&Subject) -> Vec<Element> + Sync + 'static) -> Box<Store> {
    ending(move |subject, Lent { memory, buffer, answer }| {
        let mut scratch = memory.to_vec();
        let verdict = end(&subject, Lent { memory: &mut scratch, buffer, answer });
        if verdict == DONE {
            arm::write(subject.input.base, &elements(&subject), memory);
        }
        verdict
    })
}

/// The elements, those that aren't active too, where they are in the window and `masked` holds.
fn with_masked(subject: &Subject, masked: bool) -> Vec<Element> {
    let mut elements = subject.elements().to_vec();
    for element in elements.iter_mut().filter(|element| masked && !element.active) {
        element.active = true;
        element.active = arm::fault(&subject.input, from_ref(element)).is_none();
    }
    elements
}

/// The elements of which something holds, by their numbers.
fn only(subject: &Subject, holds: impl Fn(usize) -> bool) -> Vec<Element> {
    let elements = subject.elements().iter().enumerate();
    elements.filter(|(number, _)| holds(*number)).map(|(_, element)| element.clone()).collect()
}

/// The number of the first active element, or of the last.
fn active(subject: &Subject, last: bool) -> Option<usize> {
    let elements = subject.elements();
    match last {
        true => elements.iter().rposition(|element| element.active),
        false => elements.iter().position(|element| element.active),
    }
}

#[test]
fn wrong_elements() {
    for (name, store) in [
        ("a masked lane", writing(|subject| with_masked(subject, !subject.is_strided()))),
        ("a masked lane, strided", writing(|subject| with_masked(subject, subject.is_strided()))),
        ("none", writing(|subject| only(subject, |_| subject.is_strided()))),
        ("none, strided", writing(|subject| only(subject, |_| !subject.is_strided()))),
        (
            "the first alone",
            writing(|subject| only(subject, |e| Some(e) == active(subject, false))),
        ),
        (
            "all but the last",
            writing(|subject| only(subject, |e| Some(e) != active(subject, true))),
        ),
        (
            "the first register's alone",
            writing(|subject| {
                let own = subject.elements().first().map_or(1, |element| element.size);
                let each = subject.input.vb / own;
                only(subject, |e| e < each || !subject.is_strided())
            }),
        ),
        (
            "an earlier one wins",
            writing(|subject| subject.elements().iter().rev().cloned().collect()),
        ),
    ] {
        is_found(name, &*store);
    }
}

/// Writes elements as far as they are in the window.
fn write_inside(subject: &Subject, elements: &[Element], memory: &mut [u8]) {
    for element in elements {
        if arm::fault(&subject.input, from_ref(element)).is_none() {
            arm::write(subject.input.base, from_ref(element), memory);
        }
    }
}

#[test]
fn written_though_refused() {
    for (name, store) in [
        (
            "without room",
            then(|verdict, subject, lent| {
                if verdict == NO_ROOM {
                    arm::write(subject.input.base, subject.elements(), lent.memory);
                }
                verdict
            }),
        ),
        (
            "up to the first fault",
            then(|verdict, subject, lent| {
                if verdict == FAULT {
                    let before = &subject.elements()[..lent.answer[0] as usize];
                    write_inside(subject, before, lent.memory);
                }
                verdict
            }),
        ),
        (
            "but for what faults",
            then(|verdict, subject, lent| {
                if verdict == FAULT {
                    write_inside(subject, subject.elements(), lent.memory);
                }
                verdict
            }),
        ),
    ] {
        is_found(name, &*store);
    }
}

#[test]
fn other_bytes() {
    for (name, store) in [
        (
            "the byte behind an element",
            then(|verdict, subject, lent| {
                let behind = |e: &Element| e.address.wrapping_add(e.size as u64);
                for e in subject.active().filter(|_| verdict == DONE) {
                    let offset = behind(e).wrapping_sub(subject.input.base);
                    if let Some(byte) = lent.memory.get_mut(offset as usize) {
                        *byte = 0;
                    }
                }
                verdict
            }),
        ),
        (
            "the window's last byte",
            then(|verdict, _, lent| {
                if let (DONE, Some(byte)) = (verdict, lent.memory.last_mut()) {
                    *byte ^= 1;
                }
                verdict
            }),
        ),
    ] {
        is_found(name, &*store);
    }
}
