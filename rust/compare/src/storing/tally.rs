//! How often the random stores, buffers and pairs hit what they have to hit.

use super::faults::KINDS as FAULTS;
use super::groups::{overlaps, Group, GROUPS};
use super::joints::{KINDS, PLACES};
use super::sharing::KINDS as OVERLAPS;
use super::subject::Subject;
use crate::counts::Counts;
use crate::report::Report;
use crate::verdicts::{NO_ROOM, OVERLAP};
use std::cmp::Ordering;

/// Rows that follow the groups': of each kind of faults and of overlaps one by class, of each kind of
/// joints one by class and one by place, then others.
const FAULT: usize = GROUPS.len();
const SHARED: usize = FAULT + FAULTS.len();
const JOINTS: usize = SHARED + OVERLAPS.len();
const CALLS: usize = JOINTS + 2 * KINDS.len();
const ROOMS: usize = CALLS + 1;
const APPLIED: usize = ROOMS + 1;
const PAIRS: usize = APPLIED + 1;
const OVERLAPPING: usize = PAIRS + 1;
const EDITIONS: usize = OVERLAPPING + 1;
const OVERLAP_ROOMS: usize = EDITIONS + 1;
const ROWS: [(&str, &[u64]); 7] = [
    ("verdict of a call", &[0, 1, 2, 3, 4, 5, 6, 7, OVERLAP, NO_ROOM]),
    ("buffer short by one, exact, longer", &[1, 2, 3]),
    ("patch of one filling applied to another", &[1]),
    ("permuted form has another patch, the same", &[0, 1]),
    ("the same where elements overlap", &[0, 1]),
    ("the same where editions differ", &[0, 1]),
    ("overlap, buffer of no byte, short, long", &[1, 2, 3]),
];

pub struct Tally {
    stores: u64,
    counts: Counts,
}

impl Tally {
    pub fn new() -> Tally {
        let groups = GROUPS.iter().map(|Group { name, numbers, .. }| (name.to_string(), *numbers));
        let faults =
            FAULTS.iter().map(|kind| (format!("class, fault, {}", kind.name), kind.classes));
        let overlaps =
            OVERLAPS.iter().map(|kind| (format!("class, overlap, {}", kind.name), kind.classes));
        let kinds = KINDS.iter().flat_map(|kind| {
            let [class, place] = ["class", "place"].map(|by| format!("{by}, {}", kind.name));
            [(class, kind.classes), (place, PLACES)]
        });
        let rows = ROWS.iter().map(|(name, numbers)| (name.to_string(), *numbers));
        Tally {
            stores: 0,
            counts: Counts::new(groups.chain(faults).chain(overlaps).chain(kinds).chain(rows)),
        }
    }

    pub fn count(&mut self, subject: &Subject) {
        self.stores += 1;
        for (row, group) in GROUPS.iter().enumerate() {
            self.counts.hit(row, (group.of)(subject));
        }
        for (number, kind) in FAULTS.iter().enumerate() {
            self.counts.hit(FAULT + number, kind.of(subject));
        }
        for (number, kind) in OVERLAPS.iter().enumerate() {
            self.counts.hit(SHARED + number, kind.of(subject));
        }
        for (number, kind) in KINDS.iter().enumerate() {
            let (row, (hit, places)) = (JOINTS + 2 * number, kind.of(subject));
            self.counts.hit(row, subject.class().filter(|_| hit));
            places.into_iter().for_each(|place| self.counts.hit(row + 1, Some(place)));
        }
    }

    /// Counts a call in a buffer of this length.
    pub fn call(&mut self, subject: &Subject, room: usize) {
        self.counts.hit(CALLS, Some(subject.outcome(room).verdict));
        self.counts.hit(OVERLAP_ROOMS, subject.room_of_overlap(room));
        if let Ok(effect) = &subject.right {
            let exact = effect.patch.len();
            let kind = match room.cmp(&exact) {
                Ordering::Less => (room + 1 == exact).then_some(1),
                Ordering::Equal => Some(2),
                Ordering::Greater => Some(3),
            };
            self.counts.hit(ROOMS, kind);
        }
    }

    /// Counts a patch that was applied.
    pub fn applied(&mut self) {
        self.counts.hit(APPLIED, Some(1));
    }

    /// Counts a store compared with its permuted form.
    pub fn pair(&mut self, subject: &Subject, permuted: &Subject, same: bool) {
        self.counts.hit(PAIRS, Some(same.into()));
        if subject.is_early() != permuted.is_early() {
            self.counts.hit(EDITIONS, Some(same.into()));
        }
        if overlaps(subject) {
            self.counts.hit(OVERLAPPING, Some(same.into()));
        }
    }

    pub fn add(&mut self, other: &Tally) {
        self.stores += other.stores;
        self.counts.add(&other.counts);
    }

    /// Prints the counts, and reports what was not hit.
    pub fn print(&self, report: &Report) {
        println!("stores: {} compared", self.stores);
        self.counts.print(report);
    }
}
