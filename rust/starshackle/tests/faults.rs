//! The byte that a fault names: request (ii) of document 02.

use starshackle::{element, store, Flags, Machine, Refusal, Window};

const ST1B: u32 = 0xE402_A001; // st1b { z1.d }, p0, [x0, z2.d]
const ST1H: u32 = 0xE4C2_8001; // st1h { z1.s }, p0, [x0, z2.s, uxtw]
const ST1W: u32 = 0xE502_A001; // st1w { z1.d }, p0, [x0, z2.d]
const ST1D: u32 = 0xE582_A001; // st1d { z1.d }, p0, [x0, z2.d]
const STRIDED: u32 = 0xA160_6000; // st1d { z0.d, z8.d }, pn8, [x0]
const ST1Q: u32 = 0xE43F_2041; // st1q { z1.q }, p0, [z2.d]

/// The words, with the bytes of an element.
const WORDS: [(u32, u64); 6] =
    [(ST1B, 1), (ST1H, 2), (ST1W, 4), (ST1D, 8), (STRIDED, 8), (ST1Q, 16)];

/// A byte of memory and of the buffer before the call.
const OLD: u8 = 0x77;

/// A store of element 0 alone, which lies at `first`, over the window at `base` of so many bytes: the
/// address that its fault names, or nothing where it is done.
fn fault(word: u32, first: u64, base: u64, length: u64) -> Option<u64> {
    let (mut z, mut p, mut x) = ([0; 32 * 16], [0; 2 * 16], [0; 31]);
    (p[0], p[8 * 2]) = (0x01, 0x18); // the mask and the counter
    match word {
        ST1Q => z[2 * 16..][..8].copy_from_slice(&first.to_le_bytes()),
        _ => x[0] = first,
    }
    let features = Flags::SVE | Flags::SME2 | Flags::SVE2P1;
    let flags = features | Flags::STREAMING | Flags::FA64;
    let machine = Machine { vb: 16, flags, x, z: &z, p: &p, ..Machine::default() };
    let (mut memory, mut patch) = (vec![OLD; length as usize], [OLD; 12 + 16 + 4]);
    let window = Window { base, memory: &mut memory };
    let outcome = store(&machine, window, word, &mut patch);
    // Whatever the fault names, the element has its first address.
    assert_eq!(element(&machine, word, 0).unwrap().unwrap().address, first);
    match outcome {
        Ok(_) => None,
        Err(Refusal::Fault { element: 0, address }) => {
            assert!(memory.iter().chain(&patch).all(|byte| *byte == OLD));
            Some(address)
        }
        Err(other) => panic!("{other}"),
    }
}

/// The request's own example.
#[test]
fn address_0() {
    for word in [ST1D, STRIDED] {
        let (first, base) = (0xFFFF_FFFF_FFFF_FFFC, 0xFFFF_FFFF_FFFF_FFF0);
        assert_eq!(fault(word, first, base, 16), Some(0));
    }
}

#[test]
fn places() {
    for (word, size) in WORDS {
        let at = |first, base, length| fault(word, first, base, length).unwrap();
        let below_2_64 = |distance: u64| distance.wrapping_neg();
        for base in [0, 0x1000] {
            assert_eq!(at(base + 64, base, 64), base + 64); // behind the window
            assert_eq!(at(base + 65, base, 64), base + 65);
            assert_eq!(at(base, base, 0), base); // no window
            assert_eq!(at(base + 3, base, 0), base + 3);
        }
        assert_eq!(at(0, below_2_64(64), 64), 0);
        assert_eq!(at(0x1000 - size, 0x1000, 64), 0x1000 - size); // below it
        for k in 1..size {
            assert_eq!(at(0x1000 - k, 0x1000, 64), 0x1000 - k); // from below into it
            assert_eq!(at(0x1040 - k, 0x1000, 64), 0x1040); // from inside out of it
            assert_eq!(at(64 - k, 0, 64), 64);
            assert_eq!(at(below_2_64(k), below_2_64(64), 64), 0); // and past 2^64
            assert_eq!(at(below_2_64(k), 0, 64), below_2_64(k)); // past 2^64 into it
            for length in 1..size - k {
                assert_eq!(at(0x1000 - k, 0x1000, length), 0x1000 - k); // over both its ends
            }
        }
    }
}

/// Every place around windows of up to two elements and more, looked through byte by byte.
#[test]
fn every_place() {
    for (word, size) in WORDS {
        for length in 0..2 * size + 2 {
            let highest = length.wrapping_neg();
            for base in [0, 1, 0x1000, highest.wrapping_sub(1), highest] {
                for n in 0..length + 4 * size {
                    let first = base.wrapping_add(n).wrapping_sub(2 * size);
                    let mut bytes = (0..size).map(|k| first.wrapping_add(k));
                    let outside = bytes.find(|byte| byte.wrapping_sub(base) >= length);
                    let named = fault(word, first, base, length);
                    assert_eq!(named, outside, "{word:X} at {first:X}: {length} at {base:X}");
                }
            }
        }
    }
}
