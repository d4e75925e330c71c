//! Counters on short vectors: request (iii) of document 02.

use starshackle::{element, elements, store, Flags, Machine, Window, LARGEST_STORE_PATCH};

const TWO: u32 = 0xA160_6000; // st1d { z0.d, z8.d }, pn8, [x0]
const FOUR: u32 = 0xA160_E000; // st1d { z0.d, z4.d, z8.d, z12.d }, pn8, [x0]

/// The active elements of a store at this length; running it writes those and no other.
fn active(vb: usize, word: u32, counter: u16) -> Vec<u64> {
    let (z, mut p) = (vec![0xA5; 32 * vb], vec![0; 2 * vb]);
    p[vb..vb + 2].copy_from_slice(&counter.to_le_bytes());
    let flags = Flags::SME2 | Flags::STREAMING;
    let machine = Machine { vb, flags, z: &z, p: &p, ..Machine::default() };
    let count = elements(&machine, word).unwrap();
    let is_active = |e: &u64| element(&machine, word, *e).unwrap().unwrap().active;
    let active: Vec<u64> = (0..count).filter(is_active).collect();
    let (mut memory, mut patch) = (vec![0; 8 * count as usize], [0; LARGEST_STORE_PATCH]);
    let window = Window { base: 0, memory: &mut memory };
    let stored = store(&machine, window, word, &mut patch).unwrap();
    assert_eq!(stored.elements, active.len() as u64);
    let written = (0..count).filter(|e| memory[8 * *e as usize] == 0xA5);
    assert_eq!(written.collect::<Vec<u64>>(), active);
    active
}

/// The request's own example: "0418h over two doubleword registers makes element 0 active and no
/// other".
#[test]
fn counter_0418() {
    assert_eq!(active(16, TWO, 0x0418), [0]);
    assert_eq!(active(16, TWO, 0x8418), [1, 2, 3]);
    assert_eq!(active(256, TWO, 0x0418), (0..64).collect::<Vec<u64>>());
}

/// Document 01's cases stay.
#[test]
fn other_counters() {
    let cases: [(u16, &[u64]); 6] = [
        (0x0018, &[0]),
        (0x8038, &[3]),
        (0x8000, &[]),
        (0x0013, &[0, 1]),
        (0x8008, &[0, 1, 2, 3]),
        (0x8058, &[]),
    ];
    for (counter, elements) in cases {
        assert_eq!(active(16, TWO, counter), elements, "{counter:04X}");
    }
}

/// "Bit log2(4·VB) as the count's highest, which is bit 6 at VB 16 and bit 10 at VB 256; the bits above
/// it up to 14 are ignored."
#[test]
fn highest_bits() {
    for (vb, highest) in [(16, 6), (32, 7), (64, 8), (128, 9), (256, 10)] {
        let all = vb as u64 / 2;
        let (low, high): (Vec<u64>, Vec<u64>) = (0..all).partition(|e| *e < all / 2);
        for size in [1, 2, 4, 8] {
            let counter = 1 << highest | size;
            assert_eq!(active(vb, TWO, counter), low);
            assert_eq!(active(vb, FOUR, counter), low);
            assert_eq!(active(vb, FOUR, counter | 0x8000), high);
            for above in highest + 1..15 {
                assert_eq!(active(vb, FOUR, counter | 1 << above), low);
                assert_eq!(active(vb, FOUR, counter | 1 << above | 0x8000), high);
                assert_eq!(active(vb, TWO, size | 1 << above), []);
            }
        }
    }
}
