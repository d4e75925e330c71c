//! Patch buffers written wrongly, or with another room.

use super::{end, ending, is_found, then, Lent};
use crate::verdicts::{DONE, FAULT, NO_ROOM};

#[test]
fn wrong_buffers() {
    for (name, store) in [
        (
            "a byte behind the patch changed",
            then(|verdict, _, lent| {
                if let (DONE, Some(byte)) = (verdict, lent.buffer.get_mut(lent.answer[4] as usize))
                {
                    *byte = 0;
                }
                verdict
            }),
        ),
        (
            "the last byte changed",
            then(|verdict, _, lent| {
                if verdict == DONE && lent.buffer.len() as u64 > lent.answer[4] {
                    *lent.buffer.last_mut().unwrap() ^= 1;
                }
                verdict
            }),
        ),
        (
            "cleared behind the patch",
            then(|verdict, _, lent| {
                if verdict == DONE {
                    lent.buffer[lent.answer[4] as usize..].fill(0);
                }
                verdict
            }),
        ),
    ] {
        is_found(name, &*store);
    }
}

#[test]
fn written_though_refused() {
    for (name, store) in [
        (
            "without room",
            then(|verdict, subject, lent| {
                if let (NO_ROOM, Ok(effect)) = (verdict, &subject.right) {
                    lent.buffer.copy_from_slice(&effect.patch[..lent.buffer.len()]);
                }
                verdict
            }),
        ),
        (
            "at a fault",
            then(|verdict, _, lent| {
                if let (FAULT, Some(first)) = (verdict, lent.buffer.first_mut()) {
                    *first = b'P';
                }
                verdict
            }),
        ),
        (
            "at any other refusal",
            then(|verdict, _, lent| {
                if let (1..=6, Some(first)) = (verdict, lent.buffer.first_mut()) {
                    *first = b'P';
                }
                verdict
            }),
        ),
    ] {
        is_found(name, &*store);
    }
}

#[test]
fn wrong_rooms() {
    for (name, store) in [
        (
            "one byte too short and taken",
            ending(|subject, Lent { memory, buffer, answer }| {
                let mut longer = [&*buffer, &[0]].concat();
                let verdict = end(&subject, Lent { memory, buffer: &mut longer, answer });
                buffer.copy_from_slice(&longer[..buffer.len()]);
                verdict
            }),
        ),
        (
            "an exact one refused",
            ending(|subject, Lent { memory, buffer, answer }| {
                let shorter = buffer.len().saturating_sub(1);
                end(&subject, Lent { memory, buffer: &mut buffer[..shorter], answer })
            }),
        ),
        (
            "one for the largest patch asked for",
            ending(|subject, Lent { memory, buffer, answer }| match buffer.len() {
                0..=6_659 => end(&subject, Lent { memory, buffer: &mut [], answer }),
                _ => end(&subject, Lent { memory, buffer, answer }),
            }),
        ),
    ] {
        is_found(name, &*store);
    }
}
