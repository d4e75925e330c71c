//! Comparing two patches, compared with an independent implementation on random pairs of strings.

#[cfg(test)]
mod cases;
mod merge;
mod pairs;
mod rooms;
mod sets;
mod tally;
#[cfg(test)]
mod wrong;

use crate::patches::reader::read;
use crate::random::Random;
use crate::reference::Outcome;
use crate::report::{answers, Report};
use crate::workers::spread;
use crate::GARBAGE;
use merge::{Entry, ENTRY};
use pairs::{Pair, KINDS};
use rooms::{Room, LONGER, MOST};
use starshackle::Answer;
use tally::Tally;

/// An implementation of the call: first string, second string, list, answer.
pub type Compare = dyn Fn(&[u8], &[u8], &mut [u64], &mut Answer) -> u64 + Sync;

/// Pairs that are compared where no number is given.
pub const PAIRS: u64 = 250_000;
/// Numbers on either side of the list, which no call may write.
const MARGIN: usize = 8;

/// Compares the model on so many pairs, which have to hit everything that is counted.
pub fn run(report: &Report, pairs: u64, threads: usize) {
    compare(report, &starshackle::compare_numbers, pairs, threads).print(report);
}

/// Compares an implementation on so many pairs.
pub fn compare(report: &Report, call: &Compare, pairs: u64, threads: usize) -> Tally {
    let work = |first| {
        let mut noise = Random::new(1);
        let noise = (0..2 * MARGIN + MOST + LONGER).map(|_| noise.number()).collect();
        let mut comparison = Comparison { report, call, noise, tally: Tally::new() };
        for number in (first..pairs).step_by(threads) {
            if report.is_full() {
                break;
            }
            comparison.pair(number);
        }
        comparison.tally
    };
    let mut total = Tally::new();
    spread(threads, work).iter().for_each(|tally| total.add(tally));
    total
}

/// Two strings, and what the independent implementation says of them.
pub struct Subject {
    number: u64,
    kind: usize,
    pair: Pair,
    right: Result<Vec<Entry>, Outcome<5>>,
}

struct Comparison<'a> {
    report: &'a Report,
    call: &'a Compare,
    /// Lists and margins before a call.
    noise: Vec<u64>,
    tally: Tally,
}

impl Comparison<'_> {
    fn pair(&mut self, number: u64) {
        let mut random = Random::new(number);
        let kind = pairs::any(&mut random);
        let pair = pairs::pair(&mut random, kind);
        let [first, second] = &pair.strings;
        let right = merge::differences(&read(first), &read(second));
        let subject = Subject { number, kind, pair, right };
        self.tally.count(&subject);
        let strings = subject.pair.strings.clone();
        for room in rooms::rooms(&mut random, subject.right.as_ref().map_or(0, Vec::len)) {
            self.list(&subject, &room);
            if subject.pair.strings != strings {
                self.report.tell(|| format!("bytes lent and changed: {}", subject.text(&room)));
            }
        }
    }

    /// Compares a call with a list of some length, and all that lies around it.
    fn list(&mut self, subject: &Subject, room: &Room) {
        let before = &self.noise[..2 * MARGIN + room.length];
        let lent = MARGIN..MARGIN + room.length;
        let (mut right_list, mut list) = (before.to_vec(), before.to_vec());
        let right = match &subject.right {
            Ok(entries) => merge::fill(entries, &mut right_list[lent.clone()]),
            Err(refused) => *refused,
        };
        let mut numbers = [GARBAGE; 5];
        let [first, second] = &subject.pair.strings;
        let verdict = (self.call)(first, second, &mut list[lent], &mut numbers);
        let model = Outcome { verdict, numbers };
        self.tally.call(subject, room, right.verdict);
        if !model.is(&right) || list != right_list {
            let place = first_place(&list, &right_list);
            self.report.tell(|| subject.text(room) + &answers(&model, &right) + &place);
        }
    }
}

/// Where lists differ first, counted from the number behind the margin; empty where they don't.
fn first_place(model: &[u64], right: &[u64]) -> String {
    match model.iter().zip(right).position(|(model, right)| model != right) {
        None => String::new(),
        Some(index) => {
            let (at, model, right) = (index as i64 - MARGIN as i64, model[index], right[index]);
            let (entry, part) = (at.div_euclid(ENTRY as i64), at.rem_euclid(ENTRY as i64));
            format!("\n  entry {entry}, number {part}: model {model:X}h, right {right:X}h")
        }
    }
}

impl Subject {
    fn text(&self, room: &Room) -> String {
        let hex = |string: &Vec<u8>| {
            let hex: Vec<String> = string.iter().map(|byte| format!("{byte:02X}")).collect();
            hex.join(" ")
        };
        let [first, second] = &self.pair.strings;
        let [first, second] = [first, second].map(hex);
        let (number, kind, length) = (self.number, KINDS[self.kind].name, room.length);
        format!("pair {number} ({kind}), list of {length}:\n  {first}\n  {second}\n")
    }
}
