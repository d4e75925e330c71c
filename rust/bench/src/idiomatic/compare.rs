//! Comparing two patches.

use super::patch::{read, Runs};
use crate::verdicts::{BAD_PATCH, DONE, NO_ROOM};
use starshackle::{Answer, ENTRY_NUMBERS, NOT_WRITTEN};
use std::collections::BTreeMap;

/// Which string is no patch, or how many entries there are and the list has no room for.
enum Refusal {
    BadPatch { string: u64 },
    NoRoom { needed: usize },
}

/// As the model's, with the same arguments.
#[inline(never)]
pub fn compare(first: &[u8], second: &[u8], list: &mut [u64], answer: &mut Answer) -> u64 {
    let (verdict, string, entries) = match try_compare(first, second, list) {
        Ok(entries) => (DONE, 0, entries),
        Err(Refusal::NoRoom { needed }) => (NO_ROOM, 0, needed),
        Err(Refusal::BadPatch { string }) => (BAD_PATCH, string, 0),
    };
    *answer = [string, 0, entries as u64, 0, 0];
    verdict
}

fn try_compare(first: &[u8], second: &[u8], list: &mut [u64]) -> Result<usize, Refusal> {
    let patches = [first, second];
    for (string, patch) in (0..).zip(patches) {
        read(patch).ok_or(Refusal::BadPatch { string })?;
    }
    let mut written: BTreeMap<u64, [u64; 2]> = BTreeMap::new();
    for (side, patch) in patches.into_iter().enumerate() {
        for run in (Runs { rest: patch }) {
            for (address, &byte) in (run.start..=u64::MAX).zip(run.bytes) {
                written.entry(address).or_insert([NOT_WRITTEN; 2])[side] = byte.into();
            }
        }
    }
    written.retain(|_, [one, two]| one != two);
    let needed = written.len();
    if list.len() / ENTRY_NUMBERS < needed {
        return Err(Refusal::NoRoom { needed });
    }
    for (entry, (&address, &[one, two])) in list.chunks_exact_mut(ENTRY_NUMBERS).zip(&written) {
        entry.copy_from_slice(&[address, one, two]);
    }
    Ok(needed)
}
