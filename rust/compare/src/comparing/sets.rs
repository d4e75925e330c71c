//! Pairs of sets of byte writes, each within a patch's sizes.

use crate::patches::generate::{self as g, Run};
use crate::patches::reader::{encoding, runs, Writes, MOST_BYTES, MOST_RUNS, SIZES};
use crate::random::Random;

fn within(set: &Writes) -> bool {
    set.len() <= MOST_BYTES && runs(set).len() <= MOST_RUNS
}

pub fn string(set: &Writes) -> Vec<u8> {
    encoding(set, &runs(set), SIZES).expect("the set is within the sizes")
}

/// The bytes of runs, which are those of a patch.
fn writes(runs: &[Run]) -> Writes {
    let bytes = |run: &Run| (run.start..=u64::MAX).zip(run.bytes.clone()).collect::<Vec<_>>();
    runs.iter().flat_map(bytes).collect()
}

/// A set, mostly of few runs.
pub fn set(random: &mut Random) -> Writes {
    let runs = match random.below(32) {
        0 => g::largest(random),
        1 => g::hundreds(random),
        2 => g::most_bytes(random),
        3 => g::nested(random),
        4..=8 => g::gaps_of_one(random),
        9..=11 => g::from_zero(random),
        12..=14 => g::up_to_the_top(random),
        _ => g::few(random, 0),
    };
    writes(&runs)
}

/// A set with a byte at least.
pub fn some(random: &mut Random) -> Writes {
    std::iter::repeat_with(|| set(random)).find(|set| !set.is_empty()).expect("one is found")
}

pub fn twice(set: Writes) -> [Writes; 2] {
    [set.clone(), set]
}

/// A pair made of some set, both within the sizes.
fn both_within(
    random: &mut Random,
    make: impl Fn(&mut Random, Writes) -> Option<[Writes; 2]>,
) -> [Writes; 2] {
    loop {
        let set = some(random);
        if let Some(pair) = make(random, set).filter(|pair| pair.iter().all(within)) {
            return pair;
        }
    }
}

fn other_byte(random: &mut Random, byte: u8) -> u8 {
    byte ^ (1 + random.below(255) as u8)
}

fn any_address(random: &mut Random, set: &Writes) -> u64 {
    *set.keys().nth(random.below(set.len())).expect("there is a byte")
}

pub fn one_changed(random: &mut Random) -> [Writes; 2] {
    let [one, mut two] = twice(some(random));
    let address = any_address(random, &one);
    two.insert(address, other_byte(random, one[&address]));
    [one, two]
}

/// Changes one in so many bytes.
pub fn changed(random: &mut Random, every: usize) -> [Writes; 2] {
    let set = some(random);
    with_changes(random, set, every)
}

pub fn changed_in(
    random: &mut Random,
    shape: fn(&mut Random) -> Vec<Run>,
    every: usize,
) -> [Writes; 2] {
    let set = writes(&shape(random));
    with_changes(random, set, every)
}

fn with_changes(random: &mut Random, set: Writes, every: usize) -> [Writes; 2] {
    let [one, mut two] = twice(set);
    for byte in two.values_mut() {
        if random.one_in(every) {
            *byte = other_byte(random, *byte);
        }
    }
    [one, two]
}

/// Mostly beside a run or near it.
pub fn one_more(random: &mut Random) -> [Writes; 2] {
    both_within(random, |random, set| {
        let [one, mut two] = twice(set);
        let (near, step) = (any_address(random, &one), random.pick(&[1, 1, 2, 3, 20]));
        let address = match random.below(8) {
            0 => random.number(),
            1 => random.pick(&[0, u64::MAX]),
            2..=4 => near.wrapping_sub(step),
            _ => near.wrapping_add(step),
        };
        two.entry(address).or_insert(random.number() as u8);
        (one.len() < two.len()).then_some([one, two])
    })
}

pub fn split(random: &mut Random) -> [Writes; 2] {
    both_within(random, |random, set| {
        let [one, mut two] = twice(set);
        let inner = |address: &&u64| {
            let beside = |other: Option<u64>| other.map_or(false, |other| one.contains_key(&other));
            beside(address.checked_sub(1)) && beside(address.checked_add(1))
        };
        let inner: Vec<u64> = one.keys().filter(inner).copied().collect();
        two.remove(inner.get(random.below(inner.len().max(1)))?);
        Some([one, two])
    })
}

pub fn joined(random: &mut Random) -> [Writes; 2] {
    both_within(random, |random, set| {
        let [one, mut two] = twice(set);
        let runs = runs(&one);
        let behind = |pair: &[(u64, Vec<u8>)]| {
            let end = pair[0].0 + pair[0].1.len() as u64;
            (end + 1 == pair[1].0).then_some(end)
        };
        let gaps: Vec<u64> = runs.windows(2).filter_map(behind).collect();
        let gap = *gaps.get(random.below(gaps.len().max(1)))?;
        two.insert(gap, random.number() as u8);
        Some([one, two])
    })
}

/// Of each byte of a set: on both sides, changed or not, or on one.
fn parts(random: &mut Random, set: Writes) -> [Writes; 2] {
    let [mut one, mut two] = twice(set.clone());
    for (address, byte) in set {
        match random.below(6) {
            0 => drop(one.remove(&address)),
            1 => drop(two.remove(&address)),
            2 => drop(two.insert(address, other_byte(random, byte))),
            _ => {}
        }
    }
    [one, two]
}

pub fn mixed(random: &mut Random) -> [Writes; 2] {
    both_within(random, |random, set| Some(parts(random, set)))
}

pub fn mixed_in(random: &mut Random, shape: fn(&mut Random) -> Vec<Run>) -> [Writes; 2] {
    let set = writes(&shape(random));
    parts(random, set)
}

pub fn moved(random: &mut Random) -> [Writes; 2] {
    both_within(random, |random, set| {
        let step = 1 + random.below(20) as u64;
        let by = |(address, byte): (&u64, &u8)| Some((address.checked_add(step)?, *byte));
        let two: Option<Writes> = set.iter().map(by).collect();
        Some([set, two?])
    })
}

/// Gives each run to the one or the other; or, where runs are to touch, the front to the one and the
/// rest to the other.
pub fn parted(random: &mut Random, touch: bool) -> [Writes; 2] {
    both_within(random, |random, set| {
        let mut pair = [Writes::new(), Writes::new()];
        for (start, bytes) in runs(&set) {
            let (side, cut) = (random.below(2), random.below(bytes.len() + 1));
            for (index, byte) in bytes.into_iter().enumerate() {
                let side = if touch && index >= cut { 1 - side } else { side };
                pair[side].insert(start + index as u64, byte);
            }
        }
        Some(pair)
    })
}

/// Cuts a set at an address.
pub fn behind(random: &mut Random) -> [Writes; 2] {
    both_within(random, |random, mut one| {
        let two = one.split_off(&any_address(random, &one));
        Some([one, two])
    })
}

/// So many runs of a byte on either side, in turn.
pub fn alternating(random: &mut Random, count: usize) -> [Writes; 2] {
    let (start, step) = (random.number() >> 1, 1 + random.below(9) as u64);
    let side = |random: &mut Random, from: u64| {
        let address = |number: usize| start + (from + 2 * number as u64) * step;
        (0..count).map(|number| (address(number), random.number() as u8)).collect()
    };
    [side(random, 0), side(random, 1)]
}

/// As many bytes as two patches can have, none in common.
pub fn all_apart(random: &mut Random) -> [Writes; 2] {
    loop {
        let shape = random.pick(&[g::most_bytes, g::one_long, g::largest]);
        let pair = [writes(&shape(random)), writes(&shape(random))];
        if pair[0].keys().all(|address| !pair[1].contains_key(address)) {
            return pair;
        }
    }
}
