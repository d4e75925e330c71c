//! Comparing two patches, made from the words of document 02 (v): both are sets of byte writes, and
//! each address of either is looked up in both.

use crate::patches::reader::{Read, Writes};
use crate::reference::Outcome;
use crate::verdicts::{BAD_PATCH, DONE, NO_ROOM};
use std::collections::BTreeSet;

/// Numbers of an entry: the address, the first's byte and the second's.
pub const ENTRY: usize = 3;
/// "for each side 'not written' or the byte": what stands for the former.
pub const NOT_WRITTEN: u64 = 256;

pub type Entry = [u64; ENTRY];

/// "list, by ascending address, each address where they differ, and for each side 'not written' or
/// the byte"
pub fn entries(first: &Writes, second: &Writes) -> Vec<Entry> {
    let addresses: BTreeSet<u64> = first.keys().chain(second.keys()).copied().collect();
    let entry = |address| [address, side(first, address), side(second, address)];
    let differs = |[_, one, two]: &Entry| one != two;
    addresses.into_iter().map(entry).filter(differs).collect()
}

fn side(writes: &Writes, address: u64) -> u64 {
    writes.get(&address).map_or(NOT_WRITTEN, |&byte| byte.into())
}

/// "refuse with 9 if either isn't a patch, and say which (the first when both are bad)"; else the
/// entries.
pub fn differences(first: &Read, second: &Read) -> Result<Vec<Entry>, Outcome<5>> {
    match (first, second) {
        (Read::NoPatch { .. }, _) => Err(refused(0)),
        (_, Read::NoPatch { .. }) => Err(refused(1)),
        (Read::Patch { writes: one, .. }, Read::Patch { writes: two, .. }) => Ok(entries(one, two)),
    }
}

fn refused(string: u64) -> Outcome<5> {
    Outcome { verdict: BAD_PATCH, numbers: [string, 0, 0, 0, 0] }
}

/// "No refusal writes to the caller's difference list; too short a list gets 8, here with the number
/// of entries needed. Done reports the number of entries, and those behind the last are unchanged."
pub fn fill(entries: &[Entry], list: &mut [u64]) -> Outcome<5> {
    let numbers = [0, 0, entries.len() as u64, 0, 0];
    match list.get_mut(..ENTRY * entries.len()) {
        None => Outcome { verdict: NO_ROOM, numbers },
        Some(front) => {
            front.copy_from_slice(&entries.concat());
            Outcome { verdict: DONE, numbers }
        }
    }
}

#[cfg(test)]
mod tests {
    use super::*;
    use crate::patches::reader::read;

    /// A1 A3 at 1000h, A4 at 1005h; the first two bytes alone, the second another one.
    const FIRST: &[u8] =
        b"PR\0\x10\0\0\0\0\0\0\x02\0\xA1\xA3PR\x05\x10\0\0\0\0\0\0\x01\0\xA4PE\x02\0";
    const SECOND: &[u8] = b"PR\0\x10\0\0\0\0\0\0\x02\0\xA1\xA7PE\x01\0";

    #[test]
    fn by_hand() {
        let found = differences(&read(FIRST), &read(SECOND)).unwrap();
        assert_eq!(found, [[0x1001, 0xA3, 0xA7], [0x1005, 0xA4, 256]]);
        assert_eq!(differences(&read(FIRST), &read(FIRST)), Ok(vec![]));
        let found = differences(&read(b"PE\0\0"), &read(SECOND)).unwrap();
        assert_eq!(found, [[0x1000, 256, 0xA1], [0x1001, 256, 0xA7]]);
    }

    #[test]
    fn refusals() {
        let named = |first, second| differences(&read(first), &read(second)).unwrap_err();
        assert_eq!(named(b"PE", SECOND), refused(0));
        assert_eq!(named(FIRST, b"PE"), refused(1));
        assert_eq!(named(b"PE", b""), refused(0));
    }

    #[test]
    fn lists() {
        let entries = [[1, 2, 3], [4, 5, 6]];
        let filled = |room| {
            let mut list = vec![7; room];
            (fill(&entries, &mut list), list)
        };
        let outcome = |verdict| Outcome { verdict, numbers: [0, 0, 2, 0, 0] };
        assert_eq!(filled(5), (outcome(NO_ROOM), vec![7; 5]));
        assert_eq!(filled(7), (outcome(DONE), vec![1, 2, 3, 4, 5, 6, 7]));
    }
}
