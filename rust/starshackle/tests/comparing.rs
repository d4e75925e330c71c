//! Comparing two patches: request (v) of document 02.

use starshackle::{apply, compare, compare_into, judge, store, Difference, Flags, Machine};
use starshackle::{NotAPatch, NotCompared, Patch, Refusal, Verdict, Window};
use starshackle::{ENTRY_NUMBERS, LARGEST_STORE_PATCH, MOST_DIFFERENCES};

/// Document 01's patch: A1 A3 at 1000h, A4 at 1005h.
const EXAMPLE: &[u8] =
    b"PR\x00\x10\0\0\0\0\0\0\x02\0\xA1\xA3PR\x05\x10\0\0\0\0\0\0\x01\0\xA4PE\x02\0";
const EMPTY: &[u8] = b"PE\0\0";

/// A number of the list before the call.
const OLD: u64 = 0x7777_7777_7777_7777;

/// The string of runs by start.
fn patch(runs: &[(u64, &[u8])]) -> Vec<u8> {
    let mut patch = Vec::new();
    for (start, bytes) in runs {
        patch.extend(*b"PR");
        patch.extend(start.to_le_bytes());
        patch.extend((bytes.len() as u16).to_le_bytes());
        patch.extend(*bytes);
    }
    patch.extend(*b"PE");
    patch.extend((runs.len() as u16).to_le_bytes());
    patch
}

fn difference(address: u64, first: Option<u8>, second: Option<u8>) -> Difference {
    Difference { address, first, second }
}

/// The differences of two patches, which are those of the exchanged ones exchanged, and which a list
/// takes that has just room for them.
fn differences(first: &[u8], second: &[u8]) -> Vec<Difference> {
    let found = compare(first, second).unwrap();
    let exchanged = |one: &Difference| difference(one.address, one.second, one.first);
    let exchanged: Vec<Difference> = found.iter().map(exchanged).collect();
    assert_eq!(compare(second, first).unwrap(), exchanged);
    let [one, two] = [first, second].map(|bytes| Patch::read(bytes).unwrap());
    assert_eq!(one.differences(&two), found);
    assert_eq!(found.is_empty(), first == second);
    in_lists(first, second, &found);
    found
}

/// Calls with lists too short, exact and longer.
fn in_lists(first: &[u8], second: &[u8], found: &[Difference]) {
    let exact = ENTRY_NUMBERS * found.len();
    for room in exact.saturating_sub(3)..=exact + 4 {
        let mut list = vec![OLD; room];
        let outcome = compare_into(first, second, &mut list);
        if room < exact {
            assert_eq!(outcome, Err(NotCompared::NoRoom { needed: found.len() }));
            assert!(list.iter().all(|number| *number == OLD));
            continue;
        }
        assert_eq!(outcome, Ok(found.len()));
        let entries = list[..exact].chunks(ENTRY_NUMBERS);
        let entries: Vec<Difference> =
            entries.map(|entry| Difference::listed([entry[0], entry[1], entry[2]])).collect();
        assert_eq!(entries, found);
        assert!(list[exact..].iter().all(|number| *number == OLD));
    }
}

#[test]
fn nothing_differs() {
    for patch in [EXAMPLE, EMPTY] {
        let copy = patch.to_vec();
        assert_eq!(differences(patch, patch), []);
        assert_eq!(differences(patch, &copy), []);
    }
}

#[test]
fn one_byte() {
    for byte in [0, 0xA2, 0xFF] {
        let other = patch(&[(0x1000, &[0xA1, byte]), (0x1005, &[0xA4])]);
        let wanted = [difference(0x1001, Some(0xA3), Some(byte))];
        assert_eq!(differences(EXAMPLE, &other), wanted);
    }
}

#[test]
fn one_address() {
    let all = patch(&[(0x1000, &[0xA1, 0xA3]), (0x1005, &[0xA4]), (0x1007, &[0])]);
    assert_eq!(differences(EXAMPLE, &all), [difference(0x1007, None, Some(0))]);
    let longer = patch(&[(0x1000, &[0xA1, 0xA3, 0xA5]), (0x1005, &[0xA4])]);
    assert_eq!(differences(EXAMPLE, &longer), [difference(0x1002, None, Some(0xA5))]);
    let before = patch(&[(0xFFF, &[7, 0xA1, 0xA3]), (0x1005, &[0xA4])]);
    assert_eq!(differences(EXAMPLE, &before), [difference(0xFFF, None, Some(7))]);
}

#[test]
fn runs_joined_and_split() {
    let joined = patch(&[(0x1000, &[0xA1, 0xA3, 1, 2, 3, 0xA4])]);
    let gap = [(0x1002, 1), (0x1003, 2), (0x1004, 3)];
    let gap = gap.map(|(address, byte)| difference(address, None, Some(byte)));
    assert_eq!(differences(EXAMPLE, &joined), gap);
    let split = patch(&[(0x1000, &[0xA1]), (0x1002, &[1, 2, 3, 0xA4])]);
    assert_eq!(differences(&joined, &split), [difference(0x1001, Some(0xA3), None)]);
}

#[test]
fn runs_that_touch() {
    let behind = patch(&[(0x1002, &[1, 2, 3])]);
    let found = differences(EXAMPLE, &behind);
    let addresses: Vec<u64> = found.iter().map(|one| one.address).collect();
    assert_eq!(addresses, [0x1000, 0x1001, 0x1002, 0x1003, 0x1004, 0x1005]);
    assert!(found.iter().all(|one| one.first.is_none() != one.second.is_none()));
}

#[test]
fn both_ends_of_the_addresses() {
    let (low, high) = (patch(&[(0, &[1])]), patch(&[(u64::MAX, &[2])]));
    let [first, last] = [difference(0, Some(1), None), difference(u64::MAX, None, Some(2))];
    assert_eq!(differences(&low, &high), [first, last]);
    let whole = patch(&[(0, &[1, 5]), (u64::MAX - 1, &[6, 2])]);
    let inner = [difference(1, Some(5), None), difference(u64::MAX - 1, Some(6), None)];
    let found = differences(&whole, &patch(&[(0, &[1]), (u64::MAX, &[2])]));
    assert_eq!(found, inner);
}

#[test]
fn as_many_as_there_can_be() {
    let bytes: Vec<u8> = (0..1_024).map(|index| index as u8).collect();
    let (first, second) = (patch(&[(0, &bytes)]), patch(&[(2_048, &bytes)]));
    let found = differences(&first, &second);
    assert_eq!(found.len(), MOST_DIFFERENCES);
    assert_eq!(found[1_023], difference(1_023, Some(255), None));
    assert_eq!(found[1_024], difference(2_048, None, Some(0)));
}

#[test]
fn strings_that_are_no_patch() {
    let bad = &EXAMPLE[..30];
    assert!(judge(bad).is_err());
    assert_eq!(compare(bad, EXAMPLE), Err(NotAPatch::First));
    assert_eq!(compare(EXAMPLE, bad), Err(NotAPatch::Second));
    assert_eq!(compare(bad, bad), Err(NotAPatch::First));
    for room in 0..8 {
        let mut list = vec![OLD; room];
        for (first, second, which) in [
            (bad, EMPTY, NotAPatch::First),
            (EMPTY, bad, NotAPatch::Second),
            (bad, &[], NotAPatch::First),
        ] {
            let refused = Err(NotCompared::BadPatch(which));
            assert_eq!(compare_into(first, second, &mut list), refused);
        }
        assert!(list.iter().all(|number| *number == OLD));
    }
}

/// The differences are those of what the patches leave.
#[test]
fn beside_applying() {
    let other = patch(&[(0x1001, &[0xA3, 0xA5]), (0x1005, &[0xA6]), (0x1007, &[0x00])]);
    let applied = |patch: &[u8], filling: u8| {
        let mut memory = [filling; 8];
        apply(Window { base: 0x1000, memory: &mut memory }, patch).unwrap();
        memory
    };
    let found = differences(EXAMPLE, &other);
    for filling in [0x00, 0x77] {
        let (one, two) = (applied(EXAMPLE, filling), applied(&other, filling));
        for (index, (one, two)) in one.into_iter().zip(two).enumerate() {
            let listed = found.iter().find(|entry| entry.address == 0x1000 + index as u64);
            let sides = listed.map(|entry| [entry.first, entry.second]);
            let [first, second] =
                sides.map_or([one, two], |sides| sides.map(|side| side.unwrap_or(filling)));
            assert_eq!((first, second), (one, two), "{index}");
            assert!(listed.is_some() || one == two);
        }
    }
}

/// Two builds of a store: one element goes elsewhere.
#[test]
fn patches_of_stores() {
    let made = |offsets: [u32; 4]| {
        let (mut z, mut x) = ([0; 512], [0; 31]);
        let vector = |elements: [u32; 4]| elements.map(u32::to_le_bytes).concat();
        z[16..32].copy_from_slice(&vector([0xA1, 0xA2, 0xA3, 0xA4]));
        z[32..48].copy_from_slice(&vector(offsets));
        x[0] = 0x1000;
        let p = [0xFF; 32];
        let machine = Machine { vb: 16, flags: Flags::SVE, x, z: &z, p: &p, ..Machine::default() };
        let (mut memory, mut buffer) = ([0; 8], [0; LARGEST_STORE_PATCH]);
        let window = Window { base: 0x1000, memory: &mut memory };
        let length = store(&machine, window, 0xE442_8001, &mut buffer).unwrap().length;
        buffer[..length].to_vec()
    };
    assert_eq!(differences(&made([0, 1, 1, 5]), EXAMPLE), []);
    let moved = [difference(0x1005, Some(0xA4), None), difference(0x1006, None, Some(0xA4))];
    assert_eq!(differences(&made([0, 1, 1, 5]), &made([0, 1, 1, 6])), moved);
}

#[test]
fn refusals_by_verdict() {
    let verdict = |problem: NotCompared| Refusal::from(problem).verdict();
    assert_eq!(verdict(NotCompared::NoRoom { needed: 1 }), Verdict::NoRoom);
    assert_eq!(verdict(NotCompared::BadPatch(NotAPatch::Second)), Verdict::BadPatch);
    let text = NotCompared::BadPatch(NotAPatch::First).to_string();
    assert_eq!(text, "bad patch (verdict 9): the first string is not a patch");
}
