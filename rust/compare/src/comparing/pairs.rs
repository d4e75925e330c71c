//! Random pairs of strings: patches that differ in one way or another, and damaged ones.

use super::sets as s;
use crate::patches::generate as g;
use crate::patches::kinds;
use crate::patches::reader::{Writes, MOST_RUNS};
use crate::random::Random;
use crate::verdicts::{BAD_PATCH, DONE, NO_ROOM};

/// A kind of pairs, and the verdicts that comparing such has to hit. Of large ones there are fewer.
pub struct Kind {
    pub name: &'static str,
    pub verdicts: &'static [u64],
    large: bool,
    make: Make,
}

/// How a pair is made: two sets, or strings of which some are damaged.
enum Make {
    Sets(fn(&mut Random) -> [Writes; 2]),
    Damaged([bool; 2]),
}

use Make::{Damaged, Sets};

const fn kind(name: &'static str, make: fn(&mut Random) -> [Writes; 2]) -> Kind {
    Kind { name, verdicts: &[DONE, NO_ROOM], large: false, make: Sets(make) }
}

const fn large(name: &'static str, make: fn(&mut Random) -> [Writes; 2]) -> Kind {
    Kind { large: true, ..kind(name, make) }
}

const fn same(name: &'static str, make: fn(&mut Random) -> [Writes; 2]) -> Kind {
    Kind { verdicts: &[DONE], ..kind(name, make) }
}

const fn damaged(name: &'static str, sides: [bool; 2]) -> Kind {
    Kind { name, verdicts: &[BAD_PATCH], large: false, make: Damaged(sides) }
}

pub const KINDS: &[Kind] = &[
    same("equal strings", |random| s::twice(s::set(random))),
    same("no run twice", |_| s::twice(Writes::new())),
    kind("one byte changed", s::one_changed),
    kind("some bytes changed", |random| s::changed(random, 2)),
    kind("all bytes changed", |random| s::changed(random, 1)),
    kind("one address more", s::one_more),
    kind("one run split by a gap", s::split),
    kind("two runs joined", s::joined),
    kind("some bytes missing on either side", s::mixed),
    kind("moved by a few addresses", s::moved),
    kind("disjoint, run by run", |random| s::parted(random, false)),
    kind("disjoint, runs touch", |random| s::parted(random, true)),
    kind("disjoint, one behind the other", s::behind),
    kind("nothing in common but chance", |random| [s::set(random), s::set(random)]),
    kind("no run on one side", |random| [Writes::new(), s::some(random)]),
    large("512 runs each, bytes changed", |random| s::changed_in(random, g::most_runs, 2)),
    large("512 runs each, disjoint", |random| s::alternating(random, MOST_RUNS)),
    large("1,024 bytes each, disjoint", s::all_apart),
    kind("from address 0", |random| s::mixed_in(random, g::from_zero)),
    kind("up to 2^64", |random| s::mixed_in(random, g::up_to_the_top)),
    large("one run of 1,024 bytes each", |random| s::changed_in(random, g::one_long, 64)),
    damaged("first damaged", [true, false]),
    damaged("second damaged", [false, true]),
    damaged("both damaged", [true, true]),
];

/// The number of any kind.
pub fn any(random: &mut Random) -> usize {
    match random.below(KINDS.len()) {
        number if KINDS[number].large && !random.one_in(4) => any(random),
        number => number,
    }
}

/// Two strings, and for each that was damaged, the number of its kind of strings.
pub struct Pair {
    pub strings: [Vec<u8>; 2],
    pub damages: [Option<usize>; 2],
}

/// Whether strings of a kind need not be patches.
pub fn is_damage(kind: &kinds::Kind) -> bool {
    kind.verdicts.contains(&BAD_PATCH)
}

fn damage(random: &mut Random) -> usize {
    let mut any = std::iter::repeat_with(|| random.below(kinds::KINDS.len()));
    any.find(|&kind| is_damage(&kinds::KINDS[kind])).expect("one is found")
}

pub fn pair(random: &mut Random, number: usize) -> Pair {
    match KINDS[number].make {
        Sets(make) => {
            let [one, two] = make(random);
            let pair = if random.one_in(2) { [two, one] } else { [one, two] };
            Pair { strings: pair.map(|set| s::string(&set)), damages: [None, None] }
        }
        Damaged(sides) => {
            let damages = sides.map(|damaged| damaged.then(|| damage(random)));
            let string = |damage: Option<usize>| match damage {
                Some(damage) => kinds::case(random, damage).string,
                None => s::string(&s::set(random)),
            };
            Pair { strings: damages.map(string), damages }
        }
    }
}
