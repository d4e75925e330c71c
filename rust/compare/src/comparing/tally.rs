//! How often pairs, damages and lists hit what they have to hit.

use super::merge::{Entry, NOT_WRITTEN};
use super::pairs::{is_damage, KINDS};
use super::rooms::{Room, KINDS as LISTS};
use super::Subject;
use crate::counts::Counts;
use crate::patches::kinds::KINDS as STRINGS;
use crate::report::Report;
use crate::verdicts::{BAD_PATCH, DONE, NO_ROOM};

/// Rows that follow those of the kinds of pairs: of each kind of lists one, others, and of each kind of
/// damaged strings one for each side and one for both.
const ROOMS: usize = KINDS.len();
const OTHERS: usize = ROOMS + LISTS.len();
const DAMAGES: usize = OTHERS + ROWS.len();
const SIDES: [&str; 3] = ["first", "second", "both"];
const ROWS: [(&str, &[u64]); 5] = [
    ("verdict of a call", &[DONE, NO_ROOM, BAD_PATCH]),
    ("string that is named", &[0, 1]),
    ("entries: 0, 1, up to 64, 1,024, 2,047, 2,048", &[0, 1, 2, 3, 4, 5]),
    ("written by the first, the second, both", &[1, 2, 3]),
    ("difference at address 0, at 2^64 - 1", &[0, 1]),
];

pub struct Tally {
    pairs: u64,
    counts: Counts,
}

impl Tally {
    pub fn new() -> Tally {
        let kinds = KINDS.iter().map(|kind| (kind.name.to_string(), kind.verdicts));
        let lists = LISTS.iter().map(|kind| (format!("list {}", kind.name), kind.verdicts));
        let others = ROWS.iter().map(|(name, due)| (name.to_string(), *due));
        let damages = STRINGS.iter().filter(|kind| is_damage(kind)).flat_map(|kind| {
            SIDES.map(|side| (format!("{side}: {}", kind.name), &[BAD_PATCH][..]))
        });
        let counts = Counts::new(kinds.chain(lists).chain(others).chain(damages));
        Tally { pairs: 0, counts }
    }

    /// Counts a pair.
    pub fn count(&mut self, subject: &Subject) {
        self.pairs += 1;
        match &subject.right {
            Err(refused) => {
                self.counts.hit(OTHERS + 1, Some(refused.numbers[0]));
                self.damages(subject);
            }
            Ok(entries) => self.entries(entries),
        }
    }

    fn damages(&mut self, subject: &Subject) {
        let [first, second] = subject.pair.damages;
        let mut hit = |kind: Option<usize>, side: usize| {
            if let Some(kind) = kind {
                let row = STRINGS[..kind].iter().filter(|kind| is_damage(kind)).count();
                self.counts.hit(DAMAGES + SIDES.len() * row + side, Some(BAD_PATCH));
            }
        };
        match (first, second) {
            (Some(_), Some(_)) => [first, second].into_iter().for_each(|kind| hit(kind, 2)),
            _ => [first, second].into_iter().zip(0..).for_each(|(kind, side)| hit(kind, side)),
        }
    }

    fn entries(&mut self, entries: &[Entry]) {
        let column = match entries.len() {
            0 => 0,
            1 => 1,
            2..=64 => 2,
            65..=1_024 => 3,
            1_025..=2_047 => 4,
            _ => 5,
        };
        self.counts.hit(OTHERS + 2, Some(column));
        for [address, one, two] in entries {
            let written = [one, two].map(|side| u64::from(*side != NOT_WRITTEN));
            self.counts.hit(OTHERS + 3, Some(written[0] + 2 * written[1]));
            let end = [0, u64::MAX].iter().position(|end| end == address);
            self.counts.hit(OTHERS + 4, end.map(|end| end as u64));
        }
    }

    /// Counts a call.
    pub fn call(&mut self, subject: &Subject, room: &Room, verdict: u64) {
        self.counts.hit(subject.kind, Some(verdict));
        self.counts.hit(ROOMS + room.kind, Some(verdict));
        self.counts.hit(OTHERS, Some(verdict));
    }

    pub fn add(&mut self, other: &Tally) {
        self.pairs += other.pairs;
        self.counts.add(&other.counts);
    }

    /// Prints the counts, and reports what was not hit.
    pub fn print(&self, report: &Report) {
        println!("pairs: {} pairs of strings compared", self.pairs);
        self.counts.print(report);
    }
}
