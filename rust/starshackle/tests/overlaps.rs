//! Stores that hit a byte twice: request (viii) of document 02.

use starshackle::{element, elements, store, Edition, Flags, Machine, Refusal, Stored, Window};

const ST1D: u32 = 0xE582_A001; // st1d { z1.d }, p0, [x0, z2.d]
const ST1Q: u32 = 0xE420_2041; // st1q { z1.q }, p0, [z2.d, x0]
const STRIDED: u32 = 0xA120_E000; // st1d { z0.d, z4.d, z8.d, z12.d }, pn8, [x0, x0, lsl #3]

/// The words of the scatter classes and of class 12 with Zt 1, Pg 0, Rn 0, Zm or Zn 2 and UXTW: an
/// element's bytes in its register and in memory, and its scale.
const WORDS: [(u32, usize, u64, u32); 20] = [
    (0xE5A2_8001, 8, 8, 3),
    (0xE582_8001, 8, 8, 0),
    (0xE5A2_A001, 8, 8, 3),
    (ST1D, 8, 8, 0),
    (0xE402_8001, 8, 1, 0),
    (0xE442_8001, 4, 1, 0),
    (0xE402_A001, 8, 1, 0),
    (ST1Q, 16, 16, 0),
    (0xE4A2_8001, 8, 2, 1),
    (0xE482_8001, 8, 2, 0),
    (0xE4A2_A001, 8, 2, 1),
    (0xE482_A001, 8, 2, 0),
    (0xE4E2_8001, 4, 2, 1),
    (0xE4C2_8001, 4, 2, 0),
    (0xE522_8001, 8, 4, 2),
    (0xE502_8001, 8, 4, 0),
    (0xE522_A001, 8, 4, 2),
    (0xE502_A001, 8, 4, 0),
    (0xE562_8001, 4, 4, 2),
    (0xE542_8001, 4, 4, 0),
];

const VB: usize = 256;
const BASE: u64 = 0x1000;

/// A byte of memory and of the buffer before the call.
const OLD: u8 = 0x77;

/// A store of elements at these offsets from `BASE`, of which some are off, over a window of 4,096
/// bytes there, with so much room. With a refusal nothing is written.
fn scatter(
    flags: Flags,
    word: u32,
    offsets: &[(usize, u64)],
    room: usize,
) -> Result<Stored, Refusal> {
    let (_, step, _, scale) = *WORDS.iter().find(|(other, ..)| *other == word).unwrap();
    let (mut z, mut p, mut x) = (vec![0; 32 * VB], vec![0; 2 * VB], [0; 31]);
    x[0] = BASE;
    for (number, offset) in offsets {
        let at = number * step;
        z[2 * VB + at..][..4].copy_from_slice(&((offset >> scale) as u32).to_le_bytes());
        p[at / 8] |= 1 << (at % 8);
    }
    let flags = flags | Flags::SVE | Flags::SVE2P1;
    let machine = Machine { vb: VB, edition: Edition::Late, flags, x, sp: 0, z: &z, p: &p };
    for (number, offset) in offsets {
        let element = element(&machine, word, *number as u64).unwrap().unwrap();
        assert_eq!((element.active, element.address), (true, BASE + offset));
    }
    let (mut memory, mut patch) = (vec![OLD; 4_096], vec![OLD; room]);
    let window = Window { base: BASE, memory: &mut memory };
    let outcome = store(&machine, window, word, &mut patch);
    if outcome.is_err() {
        assert!(memory.iter().chain(&patch).all(|byte| *byte == OLD));
    }
    outcome
}

fn strict(word: u32, offsets: &[(usize, u64)]) -> Result<Stored, Refusal> {
    let outcome = scatter(Flags::STRICT, word, offsets, 1_040);
    let lenient = scatter(Flags::default(), word, offsets, 1_040);
    match outcome {
        // Nothing but 12 is another answer.
        Err(Refusal::Overlap { .. }) => assert!(lenient.is_ok()),
        other => assert_eq!(other, lenient),
    }
    outcome
}

fn overlap(element: u64, offset: u64) -> Result<Stored, Refusal> {
    Err(Refusal::Overlap { element, address: BASE + offset })
}

#[test]
fn every_class() {
    for (word, _, size, scale) in WORDS {
        let unit = 1 << scale;
        assert_eq!(strict(word, &[(0, 64), (1, 64)]), overlap(1, 64), "{word:X}");
        let touching = strict(word, &[(0, 64), (1, 64 + size)]).unwrap();
        assert_eq!((touching.elements, touching.bytes), (2, 2 * size));
        assert!(strict(word, &[(0, 64 + size), (1, 64)]).is_ok());
        for distance in (unit..size).step_by(unit as usize) {
            let (low, high) = (64, 64 + distance); // by one byte too
            assert_eq!(strict(word, &[(0, low), (1, high)]), overlap(1, high), "{word:X}");
            assert_eq!(strict(word, &[(0, high), (1, low)]), overlap(1, low), "{word:X}");
        }
    }
}

#[test]
fn the_lowest_is_named() {
    let far = |number| (number, 16 * number as u64);
    let mut offsets: Vec<(usize, u64)> = (0..32).map(far).collect();
    assert!(strict(ST1D, &offsets).is_ok());
    offsets[31].1 = 7; // the first element's last byte
    assert_eq!(strict(ST1D, &offsets), overlap(31, 7));
    offsets[20].1 = 19 * 16 - 7; // and a neighbour's first byte
    assert_eq!(strict(ST1D, &offsets), overlap(20, 19 * 16 - 7));
    offsets[3].1 = 2 * 16;
    assert_eq!(strict(ST1D, &offsets), overlap(3, 2 * 16));
    offsets.reverse();
    offsets.iter_mut().enumerate().for_each(|(number, element)| element.0 = number);
    assert_eq!(strict(ST1D, &offsets), overlap(12, 19 * 16));
}

#[test]
fn inactive_elements_share_nothing() {
    let all: Vec<(usize, u64)> = (0..4).map(|number| (number, 8)).collect();
    assert_eq!(strict(ST1D, &all), overlap(1, 8));
    assert_eq!(strict(ST1D, &all[1..]), overlap(2, 8));
    assert!(strict(ST1D, &all[3..]).is_ok());
    assert_eq!(strict(ST1D, &[]).unwrap().elements, 0);
}

/// A fault comes before 12, also where the element that shares a byte is lower; 12 before 8.
#[test]
fn its_place() {
    let offsets = [(0, 0), (1, 4), (2, 4_090)];
    let fault = Err(Refusal::Fault { element: 2, address: BASE + 4_096 });
    assert_eq!(strict(ST1D, &offsets), fault);
    assert_eq!(strict(ST1D, &offsets[..2]), overlap(1, 4));
    for room in [0, 27, 28] {
        assert_eq!(scatter(Flags::STRICT, ST1D, &offsets[..2], room), overlap(1, 4));
        let lenient = scatter(Flags::default(), ST1D, &offsets[..2], room);
        assert_eq!(lenient.is_err(), room < 28);
    }
    let no_room = scatter(Flags::STRICT, ST1D, &[(0, 0), (1, 8)], 31);
    assert_eq!(no_room, Err(Refusal::NoRoom));
}

/// Bits above strict mean nothing here, and without it nothing changes.
#[test]
fn other_bits() {
    for bit in (0..64).filter(|bit| ![3, 7].contains(bit)) {
        assert!(scatter(Flags(1 << bit), ST1D, &[(0, 0), (1, 4)], 1_040).is_ok(), "{bit}");
    }
}

#[test]
fn strided_stores() {
    let (z, mut p) = (vec![1; 32 * VB], vec![0; 2 * VB]);
    for counter in [0x0001u16, 0x8001, 0x8008, 0x0418, 0x0013, 0x8000, 0x7FFF, 0xFFFF] {
        p[8 * VB / 8..][..2].copy_from_slice(&counter.to_le_bytes());
        let flags = Flags::SME2 | Flags::STREAMING | Flags::STRICT;
        let mut machine = Machine { vb: VB, flags, z: &z, p: &p, ..Machine::default() };
        for base in [0, 0x1000u64, 0xFFFF_FFFF_FFFF_FC00, 0xFFFF_FFFF_FFFF_FFF0] {
            machine.x[0] = base / 9; // nine times X0: base plus eight times
            let first = element(&machine, STRIDED, 0).unwrap().unwrap().address;
            let (mut memory, mut patch) = (vec![OLD; 2_048], vec![OLD; 1_040]);
            let window = Window { base: first.min(u64::MAX - 2_047), memory: &mut memory };
            let outcome = store(&machine, window, STRIDED, &mut patch);
            assert!(!matches!(outcome, Err(Refusal::Overlap { .. })));
            assert_eq!(elements(&machine, STRIDED), Ok(128));
        }
    }
}
