//! The pairs are of the kinds that their names say, and the comparison hits what it has to hit.

use super::merge::{differences, Entry, NOT_WRITTEN};
use super::pairs::{pair, KINDS};
use super::{compare, read};
use crate::patches::reader::{Read, Runs};
use crate::random::Random;
use crate::report::Report;

/// What two strings are.
struct Facts {
    entries: Vec<Entry>,
    runs: [Runs; 2],
}

impl Facts {
    /// Entries that only one of the two writes, and that both write.
    fn written(&self) -> [usize; 2] {
        let alone = |entry: &&Entry| entry[1] == NOT_WRITTEN || entry[2] == NOT_WRITTEN;
        let alone = self.entries.iter().filter(alone).count();
        [alone, self.entries.len() - alone]
    }

    /// How many runs the two have, the lower number first.
    fn counts(&self) -> [usize; 2] {
        let [one, two] = [&self.runs[0], &self.runs[1]].map(Vec::len);
        [one.min(two), one.max(two)]
    }

    /// Payload bytes of both.
    fn bytes(&self) -> usize {
        self.runs.iter().flatten().map(|(_, bytes)| bytes.len()).sum()
    }

    fn apart(&self) -> bool {
        self.entries.len() == self.bytes()
    }

    /// All runs of the one stand before those of the other.
    fn one_is_behind(&self) -> bool {
        let ends = |runs: &Runs| Some((runs.first()?.0, runs.last()?.0));
        match (ends(&self.runs[0]), ends(&self.runs[1])) {
            (Some(one), Some(two)) => one.1 < two.0 || two.1 < one.0,
            _ => true,
        }
    }

    fn writes(&self, address: u64) -> bool {
        let has = |(start, bytes): &(u64, Vec<u8>)| {
            address.checked_sub(*start).map_or(false, |index| index < bytes.len() as u64)
        };
        self.runs.iter().flatten().any(has)
    }
}

fn facts(kind: &str, strings: &[Vec<u8>; 2]) -> Facts {
    let reads = [&strings[0], &strings[1]].map(|string| read(string));
    let entries = differences(&reads[0], &reads[1]).expect(kind);
    let runs = reads.map(|read| match read {
        Read::Patch { runs, .. } => runs,
        Read::NoPatch { .. } => unreachable!("both are patches"),
    });
    Facts { entries, runs }
}

/// Whether a pair has what the name of its kind says.
fn is_so(kind: &str, facts: &Facts) -> bool {
    let ([alone, both], [fewer, more]) = (facts.written(), facts.counts());
    match kind {
        "equal strings" => facts.entries.is_empty(),
        "no run twice" => facts.entries.is_empty() && more == 0,
        "one byte changed" => (alone, both) == (0, 1),
        "some bytes changed" | "one run of 1,024 bytes each" => alone == 0,
        "all bytes changed" => alone == 0 && 2 * both == facts.bytes(),
        "one address more" => (alone, both) == (1, 0),
        "one run split by a gap" | "two runs joined" => (alone, both, fewer + 1) == (1, 0, more),
        "moved by a few addresses" => fewer == more && alone > 0,
        "disjoint, run by run" | "disjoint, runs touch" => facts.apart(),
        "disjoint, one behind the other" => facts.apart() && facts.one_is_behind(),
        "some bytes missing on either side" | "nothing in common but chance" => true,
        "no run on one side" => fewer == 0 && facts.apart() && more > 0,
        "512 runs each, bytes changed" => (alone, fewer) == (0, 512),
        "512 runs each, disjoint" => facts.apart() && fewer == 512,
        "1,024 bytes each, disjoint" => facts.entries.len() == 2_048,
        "from address 0" => facts.writes(0),
        "up to 2^64" => facts.writes(u64::MAX),
        other => unreachable!("no such kind: {other}"),
    }
}

#[test]
fn pairs_are_as_their_kinds_say() {
    let mut random = Random::new(1);
    for (number, kind) in KINDS.iter().enumerate() {
        for _ in 0..200 {
            let pair = pair(&mut random, number);
            match pair.damages {
                [None, None] => {
                    let facts = facts(kind.name, &pair.strings);
                    assert!(is_so(kind.name, &facts), "{}: {:?}", kind.name, pair.strings);
                    assert_eq!(facts.entries.is_empty(), pair.strings[0] == pair.strings[1]);
                }
                [first, second] => {
                    let named = [first, second].map(|damage| damage.is_some());
                    let sides = ["first damaged", "second damaged", "both damaged"];
                    let name = [[true, false], [false, true], [true, true]];
                    let side = name.iter().position(|sides| *sides == named).expect("a side");
                    assert_eq!(kind.name, sides[side]);
                }
            }
        }
    }
}

#[test]
fn what_is_hit() {
    let few = Report::default();
    compare(&few, &starshackle::compare_numbers, 1_000, 1).print(&few);
    assert!(few.differences() == 0 && few.misses() > 0);
    let enough = Report::default();
    compare(&enough, &starshackle::compare_numbers, 40_000, 2).print(&enough);
    assert_eq!((enough.differences(), enough.misses()), (0, 0));
}
