//! Wrong patches; what is written to memory is right.

use super::{changed, is_found};
use crate::patches::reader::Writes;
use crate::report::Report;
use crate::storing::{compare, Store, Subject};

type Runs = Vec<(u64, Vec<u8>)>;

/// A right implementation but for the patch of done stores.
fn with_patch(patch: impl Fn(&Subject) -> Vec<u8> + Sync + 'static) -> Box<Store> {
    changed(move |subject| {
        let patch = subject.right.is_ok().then(|| patch(subject));
        if let (Ok(effect), Some(patch)) = (&mut subject.right, patch) {
            effect.patch = patch;
        }
    })
}

/// The same, from the patch's runs.
fn with_runs(runs: impl Fn(&Subject) -> Runs + Sync + 'static) -> Box<Store> {
    with_patch(move |subject| string(&runs(subject)))
}

/// Each active element's bytes, in ascending element number.
fn pieces(subject: &Subject) -> Runs {
    let bytes = |size| 0..size;
    subject.active().map(|e| (e.address, bytes(e.size).map(|k| e.byte(k)).collect())).collect()
}

/// The set that pieces write; a later one writes over an earlier.
fn set<'a>(pieces: impl IntoIterator<Item = &'a (u64, Vec<u8>)>) -> Writes {
    let each = |(start, bytes): &'a (u64, Vec<u8>)| (*start..=u64::MAX).zip(bytes.iter().copied());
    pieces.into_iter().flat_map(each).collect()
}

/// The runs of a set, where `joined` tells whether an address goes on with the run that ends at
/// another, and `between` what then stands at the addresses between.
fn runs(set: &Writes, joined: impl Fn(u64, u64) -> bool, between: impl Fn(u64) -> u8) -> Runs {
    let mut runs = Runs::new();
    let mut last = 0;
    for (&address, &byte) in set {
        match runs.last_mut() {
            Some((_, bytes)) if joined(last, address) => {
                bytes.extend((last + 1..address).map(&between));
                bytes.push(byte);
            }
            _ => runs.push((address, vec![byte])),
        }
        last = address;
    }
    runs
}

fn touching(last: u64, address: u64) -> bool {
    address - last == 1
}

/// The runs of a set as they have to be.
fn right_runs(set: &Writes) -> Runs {
    runs(set, touching, |_| 0)
}

/// The runs of a set, joined across one unwritten byte.
fn across_a_gap(subject: &Subject, between: impl Fn(u64) -> u8) -> Runs {
    runs(&set(&pieces(subject)), |last, at| at - last <= 2, between)
}

/// The byte that the window held before.
fn old(subject: &Subject, address: u64) -> u8 {
    subject.input.memory[(address - subject.input.base) as usize]
}

fn string(runs: &Runs) -> Vec<u8> {
    let mut string = Vec::new();
    for (start, bytes) in runs {
        string.extend(b"PR");
        string.extend(start.to_le_bytes());
        string.extend((bytes.len() as u16).to_le_bytes());
        string.extend(bytes);
    }
    string.extend(b"PE");
    string.extend((runs.len() as u16).to_le_bytes());
    string
}

/// Runs that end where an element starts, touching or not.
fn apart(subject: &Subject) -> Runs {
    let pieces = pieces(subject);
    let starts: Vec<u64> = pieces.iter().map(|(start, _)| *start).collect();
    let joined = |last, address| touching(last, address) && !starts.contains(&address);
    runs(&set(&pieces), joined, |_| 0)
}

/// A run for each element that starts inside the one before it by address; others are joined.
fn overlapping_twice(subject: &Subject) -> Runs {
    let mut pieces = pieces(subject);
    let set = set(&pieces);
    pieces.sort();
    let mut runs = Runs::new();
    for (start, bytes) in pieces {
        let last = start + (bytes.len() as u64 - 1);
        let bytes = (start..=last).map(|address| set[&address]);
        match runs.last_mut() {
            Some((first, joined)) if start - *first == joined.len() as u64 => joined.extend(bytes),
            _ => runs.push((start, bytes.collect())),
        }
    }
    runs
}

/// The runs in the order of the first elements that write to them.
fn by_element(subject: &Subject) -> Runs {
    let pieces = pieces(subject);
    let first = |run: &(u64, Vec<u8>)| {
        let within = |start: u64| start >= run.0 && start - run.0 < run.1.len() as u64;
        pieces.iter().position(|(start, _)| within(*start))
    };
    let mut runs = right_runs(&set(&pieces));
    runs.sort_by_key(first);
    runs
}

/// Touching elements are joined only when they follow one another.
fn in_sequence(subject: &Subject) -> Runs {
    let pieces = pieces(subject);
    let follows = |last: u64, address: u64| {
        let ends = |(start, bytes): &(u64, Vec<u8>)| start + (bytes.len() as u64 - 1) == last;
        let mut pairs = pieces.windows(2);
        let starts = pieces.iter().any(|piece| piece.0 == address);
        !starts || pairs.any(|two| ends(&two[0]) && two[1].0 == address)
    };
    let joined = |last, address| touching(last, address) && follows(last, address);
    runs(&set(&pieces), joined, |_| 0)
}

/// The run at the end of the longest window goes on with the one at its start, where an element at
/// the end is followed by one at the start.
fn around_the_end(subject: &Subject) -> Runs {
    let mut runs = right_runs(&set(&pieces(subject)));
    if subject.goes_round() {
        let (_, first) = runs.remove(0);
        runs.last_mut().expect("there are two runs").1.extend(first);
    }
    runs
}

#[test]
fn right_runs_are_right() {
    let report = Report::default();
    let store = with_runs(|subject| right_runs(&set(&pieces(subject))));
    compare(&report, &*store, 2_000, 2);
    assert_eq!(report.differences(), 0);
}

#[test]
fn wrong_runs() {
    for (name, store) in [
        ("joined across a gap", with_runs(|subject| across_a_gap(subject, |_| 0))),
        ("touching ones apart", with_runs(apart)),
        ("overlapping elements as two", with_runs(overlapping_twice)),
        ("joined only in sequence", with_runs(in_sequence)),
        ("in the order of elements", with_runs(by_element)),
        ("joined around the window's end", with_runs(around_the_end)),
        (
            "the first length in one byte",
            with_patch(|subject| {
                let mut patch = string(&right_runs(&set(&pieces(subject))));
                if patch.len() > 4 {
                    patch[11] = 0;
                }
                patch
            }),
        ),
        ("none", with_runs(|_| Runs::new())),
    ] {
        is_found(name, &*store);
    }
}

#[test]
fn wrong_bytes() {
    for (name, store) in [
        (
            "an earlier element wins",
            with_runs(|subject| right_runs(&set(pieces(subject).iter().rev()))),
        ),
        (
            "the first element alone",
            with_runs(|subject| right_runs(&set(pieces(subject).iter().take(1)))),
        ),
        (
            "without the byte at 2^64 - 1",
            with_runs(|subject| {
                let mut set = set(&pieces(subject));
                set.remove(&u64::MAX);
                right_runs(&set)
            }),
        ),
        (
            "a gap's old byte",
            with_runs(|subject| across_a_gap(subject, |address| old(subject, address))),
        ),
        (
            "the first byte as it was",
            with_runs(|subject| {
                let mut set = set(&pieces(subject));
                if let Some((&address, byte)) = set.iter_mut().next() {
                    *byte = old(subject, address);
                }
                right_runs(&set)
            }),
        ),
        (
            "without bytes that memory had already",
            with_runs(|subject| {
                let mut set = set(&pieces(subject));
                set.retain(|&address, byte| *byte != old(subject, address));
                right_runs(&set)
            }),
        ),
        (
            "all bytes as they were",
            with_runs(|subject| {
                let mut set = set(&pieces(subject));
                set.iter_mut().for_each(|(&address, byte)| *byte = old(subject, address));
                right_runs(&set)
            }),
        ),
    ] {
        is_found(name, &*store);
    }
}
