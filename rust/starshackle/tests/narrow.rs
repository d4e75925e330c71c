//! Halfwords and words: request (i) of document 02.

use starshackle::{element, store, Flags, Machine, Refusal, Stored, Window, LARGEST_STORE_PATCH};

const VB: usize = 32;

/// What is stored: the low part of each of these is written.
const DATA: [u64; 4] = [0x0706_0504_0302_0100, 0x1716_1514_1312_1110, 0x2726_2524_2322_2120, !0];

/// A store of VB bytes out of Z1, at offsets in Z2 from X0, 1000h, over 64 bytes at 0FE0h; all elements
/// are active.
fn stored(word: u32, offsets: [u64; 4], flags: Flags) -> (Result<Stored, Refusal>, Vec<u8>) {
    let bytes = |elements: [u64; 4]| elements.map(u64::to_le_bytes).concat();
    let (mut z, p, mut x) = ([0; 32 * VB], [0xFF; 2 * VB], [0; 31]);
    z[VB..2 * VB].copy_from_slice(&bytes(DATA));
    z[2 * VB..3 * VB].copy_from_slice(&bytes(offsets));
    x[0] = 0x1000;
    let machine = Machine { vb: VB, flags, x, z: &z, p: &p, ..Machine::default() };
    let (mut memory, mut patch) = (vec![0x77; 64], [0; LARGEST_STORE_PATCH]);
    let window = Window { base: 0xFE0, memory: &mut memory };
    let outcome = store(&machine, window, word, &mut patch);
    if let Ok(Stored { elements, .. }) = outcome {
        assert!(element(&machine, word, elements - 1).unwrap().is_some());
        assert!(element(&machine, word, elements).unwrap().is_none());
    }
    (outcome, memory)
}

/// Memory with these bytes from 0FE0h on, and 77h where there is none.
fn written(runs: &[(usize, &[u8])]) -> Vec<u8> {
    let mut memory = vec![0x77; 64];
    for (from, bytes) in runs {
        memory[*from..][..bytes.len()].copy_from_slice(bytes);
    }
    memory
}

#[test]
fn halfwords() {
    let word = 0xE4A2_C001; // st1h { z1.d }, p0, [x0, z2.d, sxtw #1]
    let (outcome, memory) = stored(word, [0, 0xDEAD_FFFF_FFFF, 3, 4], Flags::SVE);
    assert_eq!(outcome, Ok(Stored { elements: 4, bytes: 8, length: 36, steps: 3 }));
    let (low, high) = ([0x10, 0x11, 0x00, 0x01], [0x20, 0x21, 0xFF, 0xFF]);
    assert_eq!(memory, written(&[(30, &low), (38, &high)]));
}

#[test]
fn words() {
    let word = 0xE522_A001; // st1w { z1.d }, p0, [x0, z2.d, lsl #2]
    let offsets = [0, 0xC000_0000_0000_0001, 0u64.wrapping_sub(8), 3];
    let (outcome, memory) = stored(word, offsets, Flags::SVE);
    assert_eq!(outcome, Ok(Stored { elements: 4, bytes: 16, length: 56, steps: 3 }));
    let two = [0, 1, 2, 3, 0x10, 0x11, 0x12, 0x13];
    let (one, last) = ([0x20, 0x21, 0x22, 0x23], [0xFF; 4]);
    assert_eq!(memory, written(&[(0, &one), (32, &two), (44, &last)]));
}

/// Elements of 32 bits, with an offset of 32 bits each.
#[test]
fn out_of_words() {
    let pair = |low: u32, high: u32| u64::from(low) | u64::from(high) << 32;
    let offsets = [pair(0, 1), pair(2, 3), pair(4, 5), pair(6, !0)];
    let word = 0xE4E2_C001; // st1h { z1.s }, p0, [x0, z2.s, sxtw #1]
    let (outcome, memory) = stored(word, offsets, Flags::SVE);
    assert_eq!(outcome, Ok(Stored { elements: 8, bytes: 16, length: 32, steps: 2 }));
    let ascending = [0, 1, 4, 5, 0x10, 0x11, 0x14, 0x15, 0x20, 0x21, 0x24, 0x25, 0xFF, 0xFF];
    assert_eq!(memory, written(&[(30, &[0xFF, 0xFF]), (32, &ascending)]));

    let word = 0xE562_8001; // st1w { z1.s }, p0, [x0, z2.s, uxtw #2]
    let (outcome, _) = stored(word, offsets, Flags::SVE);
    assert_eq!(outcome, Err(Refusal::Fault { element: 7, address: 0x4_0000_0FFC }));
}

#[test]
fn flags() {
    for word in [0xE4A2_C001, 0xE4C2_8001, 0xE522_A001, 0xE562_C001] {
        let outcome = |flags| stored(word, [0; 4], flags).0.map(|stored| stored.elements > 0);
        assert_eq!(outcome(Flags::SVE), Ok(true));
        assert_eq!(outcome(Flags::SME2 | Flags::SVE2P1), Err(Refusal::Undefined));
        assert_eq!(outcome(Flags::SVE | Flags::STREAMING), Err(Refusal::Illegal));
        assert_eq!(outcome(Flags::SVE | Flags::STREAMING | Flags::FA64), Ok(true));
    }
}
