//! The comparison finds wrong implementations: each is the independent one with a mistake in it.

use super::merge::{differences, fill, Entry, ENTRY, NOT_WRITTEN};
use super::{compare, read, Compare};
use crate::patches::generate::trailer;
use crate::patches::reader::{Read, Writes};
use crate::reference::Outcome;
use crate::report::Report;
use crate::verdicts::{BAD_PATCH, DONE, NO_ROOM};

/// Two strings with what is read from them, and the list.
struct Lent<'a> {
    reads: [Read; 2],
    strings: [&'a [u8]; 2],
    list: &'a mut [u64],
}

/// What the call answers, made from what it is lent.
fn answering(wrong: impl Fn(Lent) -> Outcome<5> + Sync + 'static) -> Box<Compare> {
    Box::new(move |first, second, list, answer| {
        let (reads, strings) = ([read(first), read(second)], [first, second]);
        let Outcome { verdict, numbers } = wrong(Lent { reads, strings, list });
        *answer = numbers;
        verdict
    })
}

/// The right answer.
fn right(reads: &[Read; 2], list: &mut [u64]) -> Outcome<5> {
    match differences(&reads[0], &reads[1]) {
        Ok(entries) => fill(&entries, list),
        Err(refused) => refused,
    }
}

/// A right implementation, but for the entries.
fn listing(
    wrong: impl Fn([&Writes; 2], Vec<Entry>) -> Vec<Entry> + Sync + 'static,
) -> Box<Compare> {
    answering(move |lent| match (differences(&lent.reads[0], &lent.reads[1]), &lent.reads) {
        (Ok(entries), [Read::Patch { writes: one, .. }, Read::Patch { writes: two, .. }]) => {
            fill(&wrong([one, two], entries), lent.list)
        }
        _ => right(&lent.reads, lent.list),
    })
}

/// A right implementation without some entries.
fn keeping(kept: impl Fn(&Entry) -> bool + Sync + 'static) -> Box<Compare> {
    listing(move |_, mut entries| {
        entries.retain(|entry| kept(entry));
        entries
    })
}

/// A right implementation, but for its answer or the list behind it.
fn then(wrong: impl Fn(&mut Outcome<5>, Lent) + Sync + 'static) -> Box<Compare> {
    answering(move |lent| {
        let mut outcome = right(&lent.reads, lent.list);
        wrong(&mut outcome, lent);
        outcome
    })
}

fn is_found(name: &str, wrong: &Compare) {
    let report = Report::default();
    compare(&report, wrong, 4_000, 1);
    assert!(report.differences() > 0, "{name}");
}

#[test]
fn a_right_one() {
    let report = Report::default();
    compare(&report, &*answering(|lent| right(&lent.reads, lent.list)), 6_000, 2);
    assert_eq!(report.differences(), 0);
}

/// The entry of an address of either.
fn entry([one, two]: [&Writes; 2], address: u64) -> Entry {
    let side = |writes: &Writes| writes.get(&address).map_or(NOT_WRITTEN, |&byte| byte.into());
    [address, side(one), side(two)]
}

/// Every address that is written, whether or not the two differ.
fn all(patches: [&Writes; 2], _: Vec<Entry>) -> Vec<Entry> {
    let mut addresses: Vec<u64> =
        patches.iter().flat_map(|writes| writes.keys().copied()).collect();
    addresses.sort_unstable();
    addresses.dedup();
    addresses.into_iter().map(|address| entry(patches, address)).collect()
}

/// Looks at addresses alone where they are the same.
fn without_bytes([one, two]: [&Writes; 2], entries: Vec<Entry>) -> Vec<Entry> {
    match one.keys().eq(two.keys()) {
        true => Vec::new(),
        false => entries,
    }
}

/// What is found until one of the two has no further byte.
fn until_one_ends([one, two]: [&Writes; 2], mut entries: Vec<Entry>) -> Vec<Entry> {
    let last = |writes: &Writes| writes.keys().next_back().copied();
    match (last(one), last(two)) {
        (Some(one), Some(two)) => entries.retain(|[address, ..]| *address <= one.min(two)),
        _ => entries.clear(),
    }
    entries
}

#[test]
fn wrong_entries() {
    let exchanged = |[address, one, two]: Entry| [address, two, one];
    let zero = |[address, one, two]: Entry| {
        [address, one, two].map(|number| if number == NOT_WRITTEN { 0 } else { number })
    };
    for (name, wrong) in [
        ("an equal byte is listed", listing(all)),
        ("what the first alone writes is left out", keeping(|entry| entry[2] != NOT_WRITTEN)),
        ("what the second alone writes is left out", keeping(|entry| entry[1] != NOT_WRITTEN)),
        ("other bytes are left out", keeping(|entry| entry[1..].contains(&NOT_WRITTEN))),
        (
            "sides are exchanged",
            listing(move |_, entries| entries.into_iter().map(exchanged).collect()),
        ),
        (
            "0 for what isn't written",
            listing(move |_, entries| entries.into_iter().map(zero).collect()),
        ),
        ("the rest of the longer one is forgotten", listing(until_one_ends)),
        ("nothing where the addresses are the same", listing(without_bytes)),
        (
            "the second's behind the first's",
            listing(|_, mut entries| {
                entries.sort_by_key(|entry| entry[1] == NOT_WRITTEN);
                entries
            }),
        ),
        ("the highest address is left out", keeping(|entry| entry[0] != u64::MAX)),
        ("address 0 is left out", keeping(|entry| entry[0] != 0)),
        ("1,024 entries at most", listing(|_, entries| entries.into_iter().take(1_024).collect())),
        ("2,047 entries at most", listing(|_, entries| entries.into_iter().take(2_047).collect())),
        (
            "addresses of 32 bits",
            listing(|_, mut entries| {
                entries.iter_mut().for_each(|entry| entry[0] &= 0xFFFF_FFFF);
                entries
            }),
        ),
    ] {
        is_found(name, &*wrong);
    }
}

/// The entries of what both strings have up to where they stop being patches.
fn of_fronts(lent: &Lent) -> Vec<Entry> {
    let front = |side: usize| match &lent.reads[side] {
        Read::Patch { .. } => read(lent.strings[side]),
        Read::NoPatch { runs, offset } => {
            read(&[&lent.strings[side][..*offset], &trailer(*runs)].concat())
        }
    };
    differences(&front(0), &front(1)).unwrap_or_default()
}

/// Asks for room before it asks for patches.
fn room_first(lent: Lent) -> Outcome<5> {
    let needed = of_fronts(&lent).len();
    match lent.list.len() < ENTRY * needed {
        true => Outcome { verdict: NO_ROOM, numbers: [0, 0, needed as u64, 0, 0] },
        false => right(&lent.reads, lent.list),
    }
}

/// Lists while it reads.
fn lists_before_it_judges(lent: Lent) -> Outcome<5> {
    fill(&of_fronts(&lent), lent.list);
    right(&lent.reads, lent.list)
}

/// Names the second where neither is a patch.
fn second_named(outcome: &mut Outcome<5>, lent: Lent) {
    if let [Read::NoPatch { .. }, Read::NoPatch { .. }] = lent.reads {
        outcome.numbers[0] = 1;
    }
}

/// Puts what there is room for.
fn fills_what_it_can(outcome: &mut Outcome<5>, lent: Lent) {
    if let (NO_ROOM, Ok(entries)) = (outcome.verdict, differences(&lent.reads[0], &lent.reads[1])) {
        let numbers = entries.concat();
        let whole = lent.list.len() / ENTRY * ENTRY;
        lent.list[..whole].copy_from_slice(&numbers[..whole]);
    }
}

/// Counts a part of an entry as room for it.
fn rounds_up(lent: Lent) -> Outcome<5> {
    match differences(&lent.reads[0], &lent.reads[1]) {
        Ok(entries) if (lent.list.len() + ENTRY - 1) / ENTRY == entries.len() => {
            let length = lent.list.len();
            lent.list.copy_from_slice(&entries.concat()[..length]);
            Outcome { verdict: DONE, numbers: [0, 0, entries.len() as u64, 0, 0] }
        }
        _ => right(&lent.reads, lent.list),
    }
}

#[test]
fn wrong_verdicts() {
    let verdict = |verdict: u64, number: usize, value: fn(u64) -> u64| {
        then(move |outcome, _| {
            if outcome.verdict == verdict {
                outcome.numbers[number] = value(outcome.numbers[number]);
            }
        })
    };
    for (name, wrong) in [
        ("8 before 9", answering(room_first)),
        ("the list is written before 9", answering(lists_before_it_judges)),
        ("the list is written though too short", then(fills_what_it_can)),
        ("room is rounded up", answering(rounds_up)),
        ("the second is named when both are bad", then(second_named)),
        ("the string is named from 1 on", verdict(BAD_PATCH, 0, |string| string + 1)),
        ("one entry more is needed", verdict(NO_ROOM, 2, |needed| needed + 1)),
        ("one entry less is needed", verdict(NO_ROOM, 2, |needed| needed - 1)),
        ("no number of entries with 8", verdict(NO_ROOM, 2, |_| 0)),
        ("numbers in place of entries", verdict(DONE, 2, |entries| 3 * entries)),
        ("an entry of the answer is left", verdict(DONE, 4, |_| 7)),
        ("an entry of the answer is left by 9", verdict(BAD_PATCH, 2, |_| 7)),
        (
            "the rest of the list is cleared",
            then(|outcome, lent| {
                let from = ENTRY * outcome.numbers[2] as usize;
                lent.list.iter_mut().skip(from).for_each(|number| *number = 0);
            }),
        ),
    ] {
        is_found(name, &*wrong);
    }
}
