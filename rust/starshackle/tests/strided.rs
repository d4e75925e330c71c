//! Narrow strided stores, and patches of up to 512 runs: request (vii) of document 02.

use starshackle::patch::Run;
use starshackle::{
    apply, element, judge, store, Applied, Flags, Judged, Machine, NoPatch, Patch, Refusal, Stored,
    Window, LARGEST_PATCH, LARGEST_STORE_PATCH,
};

const VB: usize = 256;

/// Byte `index` of the Z registers.
fn data(index: usize) -> u8 {
    (index % 251) as u8
}

/// What a store from four registers of `VB` bytes does under a counter in P8, in a buffer of this
/// length, over 1,024 bytes 77h at 1000h, where X0 points.
fn stored(word: u32, counter: u16, room: usize) -> (Result<Stored, Refusal>, Vec<u8>, Vec<u8>) {
    let z: Vec<u8> = (0..32 * VB).map(data).collect();
    let (mut p, mut x) = ([0; 2 * VB], [0; 31]);
    p[VB..VB + 2].copy_from_slice(&counter.to_le_bytes());
    x[0] = 0x1000;
    let flags = Flags::SME2 | Flags::STREAMING;
    let machine = Machine { vb: VB, flags, x, z: &z, p: &p, ..Machine::default() };
    let (mut memory, mut patch) = (vec![0x77; 1024], vec![0; room]);
    let window = Window { base: 0x1000, memory: &mut memory };
    let outcome = store(&machine, window, word, &mut patch);
    if let Ok(Stored { elements, .. }) = outcome {
        let each = (0..1024).map_while(|e| element(&machine, word, e).unwrap());
        assert_eq!(each.filter(|element| element.active).count() as u64, elements);
    }
    (outcome, memory, patch)
}

/// The byte that four registers, 0, 4, 8 and 12, have at this place.
fn of_registers(place: usize) -> u8 {
    data(place / VB * 4 * VB + place % VB)
}

const BYTES: u32 = 0xA160_8000; // st1b { z0.b, z4.b, z8.b, z12.b }, pn8, [x0]
const HALFWORDS: u32 = 0xA160_A000;
const WORDS: u32 = 0xA160_C000;

#[test]
fn whole_registers() {
    for (word, size) in [(BYTES, 1), (HALFWORDS, 2), (WORDS, 4)] {
        // Counters of the element's size and of narrower ones: inverted, with a count of none.
        for unit in [1, 2, 4].into_iter().filter(|unit| *unit <= size) {
            let (outcome, memory, patch) = stored(word, 0x8000 | unit, 1_040);
            let elements = 1024 / u64::from(size);
            assert_eq!(outcome, Ok(Stored { elements, bytes: 1024, length: 1_040, steps: 1 }));
            assert!(memory.iter().enumerate().all(|(at, byte)| *byte == of_registers(at)));
            assert_eq!(judge(&patch), Ok(Judged { runs: 1, bytes: 1024 }));
        }
    }
}

/// "A byte store under a halfword counter writes every second byte, so 512 runs can occur."
#[test]
fn every_second_byte() {
    let (outcome, memory, patch) = stored(BYTES, 0x8002, LARGEST_STORE_PATCH);
    assert_eq!(LARGEST_STORE_PATCH, 6_660);
    assert_eq!(outcome, Ok(Stored { elements: 512, bytes: 512, length: 6_660, steps: 512 }));
    for (at, byte) in memory.iter().enumerate() {
        assert_eq!(*byte, if at % 2 == 0 { of_registers(at) } else { 0x77 });
    }
    let patch = Patch::read(&patch).unwrap();
    assert_eq!(patch.runs().count(), 512);
    for (number, run) in patch.runs().enumerate() {
        let (offset, address) = (13 * number, 0x1000 + 2 * number as u64);
        assert_eq!(run, Run { offset, address, bytes: &[of_registers(2 * number)] });
    }
    let mut patched = vec![0x77; 1024];
    let applied = patch.apply(Window { base: 0x1000, memory: &mut patched });
    assert_eq!((applied, patched), (Ok(Applied { runs: 512, bytes: 512 }), memory));
}

/// What was enough before isn't any more.
#[test]
fn buffers_too_short() {
    for room in [0, 1_040, LARGEST_STORE_PATCH - 1] {
        let (outcome, memory, patch) = stored(BYTES, 0x8002, room);
        assert_eq!(outcome, Err(Refusal::NoRoom));
        assert!(memory == [0x77; 1024] && patch == vec![0; room]);
    }
}

/// Gaps under each wider counter: elements, bytes and runs.
#[test]
fn gaps() {
    for (word, size) in [(BYTES, 1), (HALFWORDS, 2), (WORDS, 4)] {
        for unit in [2, 4, 8].into_iter().filter(|unit| *unit > size) {
            let (outcome, memory, _) = stored(word, 0x8000 | unit as u16, LARGEST_STORE_PATCH);
            let elements = 1024 / unit;
            let length = (4 + elements * (12 + size)) as usize;
            let bytes = elements * size;
            assert_eq!(outcome, Ok(Stored { elements, bytes, length, steps: elements }));
            for (at, byte) in memory.iter().enumerate() {
                let written = at as u64 % unit < size;
                assert_eq!(*byte, if written { of_registers(at) } else { 0x77 }, "{at}");
            }
        }
    }
}

/// A patch of so many runs of a byte, and of so many bytes more in the last.
fn patch(runs: usize, more: usize) -> Vec<u8> {
    let mut patch = Vec::new();
    for number in 0..runs {
        let length = if number + 1 == runs { 1 + more } else { 1 };
        patch.extend(b"PR");
        patch.extend((0x1000 + 2 * number as u64).to_le_bytes());
        patch.extend((length as u16).to_le_bytes());
        patch.extend(vec![0xA5; length]);
    }
    patch.extend(b"PE");
    patch.extend((runs as u16).to_le_bytes());
    patch
}

#[test]
fn sizes_of_patches() {
    for runs in [64, 65, 256, 511, 512] {
        let bytes = runs as u64;
        assert_eq!(judge(&patch(runs, 0)), Ok(Judged { runs: bytes, bytes }));
    }
    let largest = patch(512, 512);
    assert_eq!(largest.len(), LARGEST_PATCH);
    assert_eq!(judge(&largest), Ok(Judged { runs: 512, bytes: 1024 }));
    let refused = NoPatch { runs: 512, offset: 13 * 512 };
    assert_eq!(judge(&patch(513, 0)), Err(refused));
    assert_eq!(judge(&patch(512, 513)), Err(NoPatch { runs: 511, offset: 13 * 511 }));
    let mut memory = [0; 2048];
    let window = Window { base: 0x1000, memory: &mut memory };
    assert_eq!(apply(window, &patch(513, 0)), Err(Refusal::BadPatch));
}

#[test]
fn flags() {
    let (z, p) = ([0; 32 * 16], [0; 2 * 16]);
    let outcome = |word, flags| {
        let machine = Machine { vb: 16, flags, z: &z, p: &p, ..Machine::default() };
        let window = Window { base: 0, memory: &mut [] };
        store(&machine, window, word, &mut [0; 4]).map(|stored| stored.elements)
    };
    let forms = [0xA120_0000, 0xA120_8000, 0xA160_0000, 0xA160_8000];
    for word in (0..3).flat_map(|size| forms.map(|form| form | size << 13)) {
        assert_eq!(outcome(word, Flags::SME2 | Flags::STREAMING), Ok(0), "{word:08X}");
        let others = Flags::SVE | Flags::SVE2P1 | Flags::STREAMING | Flags::FA64;
        assert_eq!(outcome(word, others), Err(Refusal::Undefined));
        assert_eq!(outcome(word, Flags::SME2), Err(Refusal::Illegal));
        assert_eq!(outcome(word, Flags::SME2 | Flags::FA64), Err(Refusal::Illegal));
    }
}
