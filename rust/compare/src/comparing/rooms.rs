//! Lengths of lists for so many entries.

use super::merge::ENTRY;
use crate::random::Random;
use crate::verdicts::{BAD_PATCH, DONE, NO_ROOM};

/// Numbers for as many entries as two patches can need.
pub const MOST: usize = ENTRY * 2_048;

/// Numbers that a list has at most beyond what the entries need.
pub const LONGER: usize = 20;

/// A list's length, by a kind of lengths.
pub struct Room {
    pub kind: usize,
    pub length: usize,
}

/// A kind of lengths, and the verdicts that a call with such a list has to hit.
pub struct Kind {
    pub name: &'static str,
    pub verdicts: &'static [u64],
    length: Length,
}

/// How far a list is from what the entries need, in numbers; or its length.
enum Length {
    Short(usize),
    Longer(usize),
    Just(usize),
}

use Length::{Just, Longer, Short};

const fn kind(name: &'static str, verdicts: &'static [u64], length: Length) -> Kind {
    Kind { name, verdicts, length }
}

const SHORT: &[u64] = &[NO_ROOM];
const ENOUGH: &[u64] = &[DONE, BAD_PATCH];

pub const KINDS: [Kind; 9] = [
    kind("of no number", &[DONE, NO_ROOM, BAD_PATCH], Just(0)),
    kind("one entry short", SHORT, Short(ENTRY)),
    kind("two numbers short", SHORT, Short(2)),
    kind("one number short", SHORT, Short(1)),
    kind("exact", ENOUGH, Longer(0)),
    kind("one number longer", ENOUGH, Longer(1)),
    kind("two numbers longer", ENOUGH, Longer(2)),
    kind("some entries longer", ENOUGH, Longer(LONGER)),
    kind("for 2,048 entries", ENOUGH, Just(MOST)),
];

/// Three lists for so many entries: mostly one that is too short, one that is exact, and one that is
/// longer.
pub fn rooms(random: &mut Random, entries: usize) -> impl Iterator<Item = Room> {
    let longer = if random.one_in(8) { 8 } else { 5 + random.below(3) };
    let kinds = [random.below(4), 4, longer];
    kinds.into_iter().filter_map(move |kind| {
        let exact = ENTRY * entries;
        let length = match KINDS[kind].length {
            Short(by) => exact.checked_sub(by)?,
            Longer(by) => exact + by,
            Just(length) => length,
        };
        Some(Room { kind, length })
    })
}
