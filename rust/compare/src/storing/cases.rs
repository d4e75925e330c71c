//! The scope paper's cases, asked of the independent model and of the library.

use super::arm::*;
use super::classes::{Class, Form, BESIDE, CLASSES, INDEX};
use super::input::Input;
use super::wrong::right;
use super::Store;
use crate::reference::Outcome;
use crate::verdicts::*;
use crate::{GARBAGE, LONGEST};
use starshackle::Window;

const EXAMPLE: [u8; 31] = [
    0x50, 0x52, 0x00, 0x10, 0x00, 0x00, 0x00, 0x00, 0x00, 0x00, 0x02, 0x00, 0xA1, 0xA3, //
    0x50, 0x52, 0x05, 0x10, 0x00, 0x00, 0x00, 0x00, 0x00, 0x00, 0x01, 0x00, 0xA4, //
    0x50, 0x45, 0x02, 0x00,
];

/// What a call answers and leaves.
#[derive(Clone, Debug, PartialEq)]
struct Left {
    verdict: u64,
    numbers: [u64; 6],
    memory: Vec<u8>,
    buffer: Vec<u8>,
}

/// What both implementations answer and leave, in a buffer of this length.
fn left(input: &Input, room: usize) -> Left {
    let ask = |store: &Store| {
        let (mut memory, mut buffer) = (input.memory.clone(), vec![0x77; room]);
        let (mut numbers, machine) = ([GARBAGE; 6], input.machine());
        let window = Window { base: input.base, memory: &mut memory };
        let verdict = store(&machine, window, input.word, &mut buffer, &mut numbers);
        Left { verdict, numbers, memory, buffer }
    };
    let (right, model) = (ask(&*right()), ask(&starshackle::store_numbers));
    assert_eq!(right, model);
    model
}

/// The answer in a buffer with room for every patch, of a store that leaves both buffers as they came
/// where it is refused.
fn answer(input: &Input) -> Outcome<6> {
    let Left { verdict, numbers, memory, buffer } = left(input, 6_660);
    assert!(verdict == DONE || memory == input.memory && buffer == [0x77; 6_660]);
    Outcome { verdict, numbers }
}

fn done(elements: u64, bytes: u64, length: u64, steps: u64) -> Outcome<6> {
    Outcome { verdict: DONE, numbers: [0, 0, elements, bytes, length, steps] }
}

fn faulting(element: u64, address: u64) -> Outcome<6> {
    Outcome { verdict: FAULT, numbers: [element, address, 0, 0, 0, 0] }
}

/// What both implementations say of an element: whether it is active, its address, its index in the Z
/// buffer, its bytes, and how many elements there are.
fn inspected(input: &Input, e: u64) -> (u64, [u64; 5]) {
    let Outcome { verdict, numbers } = element(&elements(input), e);
    let mut answer = [GARBAGE; 5];
    let model = starshackle::element_numbers(&input.machine(), input.word, e, &mut answer);
    assert_eq!((verdict, numbers), (model, answer));
    (model, answer)
}

fn address(input: &Input, e: u64) -> u64 {
    inspected(input, e).1[1]
}

/// The numbers of the active elements.
fn active(input: &Input) -> Vec<u64> {
    (0..1_024).filter(|&e| inspected(input, e).1[0] == 1).collect()
}

/// A machine with VB 16, all features, X0 = 1000h, every predicate and other register 0, and 256
/// bytes of memory around 1000h.
fn input(word: u32) -> Input {
    let mut x = [0; 31];
    x[0] = 0x1000;
    let flags = 1 << SVE | 1 << SME2 | 1 << SVE2P1;
    let (z, p) = (vec![0; 512], vec![0; 32]);
    Input { vb: 16, flags, x, sp: 0, z, p, base: 0xF80, memory: vec![0; 256], word }
}

/// The same in streaming mode, with a counter in P8.
fn strided(word: u32, counter: u16) -> Input {
    let mut input = input(word);
    input.flags |= 1 << STREAMING;
    input.p[16..18].copy_from_slice(&counter.to_le_bytes());
    input
}

/// A scatter from Z1 with offsets in Z2, element 0 active.
fn scatter(word: u32, offset: u64) -> Input {
    let mut input = input(word | 2 << 16 | 1);
    input.p[0] = 1;
    input.z[16..24].fill(0xEE);
    input.z[32..40].copy_from_slice(&offset.to_le_bytes());
    input
}

/// Class 6 from Z1 with the offsets in Z2, all active, over a window at 1000h.
fn bytes_at(vb: usize, offsets: &[u32], bytes: &[u8]) -> Input {
    let (z, p) = (vec![0; 32 * vb], vec![0xFF; 2 * vb]);
    let mut input = Input { vb, z, p, base: 0x1000, ..input(0xE442_8001) };
    for (e, (offset, byte)) in offsets.iter().zip(bytes).enumerate() {
        input.z[vb + 4 * e] = *byte;
        input.z[2 * vb + 4 * e..][..4].copy_from_slice(&offset.to_le_bytes());
    }
    input
}

/// The store over a window with this many bytes 77h.
fn over(length: usize, input: &Input) -> Input {
    Input { memory: vec![0x77; length], ..input.clone() }
}

#[test]
fn words() {
    assert_eq!(address(&strided(0xA16F_6000, 0), 0), 0xFE0);
    assert_eq!(address(&strided(0xA168_E000, 0), 0), 0x1000 - 32 * 16);
    let indices = [0, 1, 2, 3].map(|e| inspected(&input(0xA120_6010), e).1[2]);
    assert_eq!(indices, [16 * 16, 16 * 16 + 8, 24 * 16, 24 * 16 + 8]);
    for word in [0xA120_E004, 0xA120_6008].iter().chain(BESIDE) {
        assert_eq!(answer(&strided(*word, 0x8008)), refused(UNDEFINED));
        assert_eq!(answer(&input(*word)), refused(UNDEFINED));
        assert_eq!(inspected(&input(*word), 0), (UNDEFINED, [0; 5]));
    }
}

#[test]
fn addresses() {
    let offset = 0x1234_5678_FFFF_FFF8;
    assert_eq!(address(&scatter(0xE580_C000, offset), 0), 0xFF8);
    assert_eq!(address(&scatter(0xE580_8000, offset), 0), 0x1_0000_0FF8);
    assert_eq!(address(&scatter(0xE5A0_8000, offset), 0), 0x8_0000_0FC0);
    assert_eq!(address(&scatter(0xE5A0_A000, 0x2000_0000_0000_0001), 0), 0x1008);
}

/// Document 02 (i): "the scale is 1 or 2"; in the .S forms the offsets are elements of 32 bits.
#[test]
fn addresses_of_halfwords_and_words() {
    let offset = 0x1234_5678_FFFF_FFF8;
    let signed = [
        (0xE4A0_C000, 0xFF0),
        (0xE480_C000, 0xFF8),
        (0xE4E0_C000, 0xFF0),
        (0xE4C0_C000, 0xFF8),
        (0xE520_C000, 0xFE0),
        (0xE500_C000, 0xFF8),
        (0xE560_C000, 0xFE0),
        (0xE540_C000, 0xFF8),
    ];
    let unsigned = [
        (0xE4A0_8000, 0x2_0000_0FF0),
        (0xE480_8000, 0x1_0000_0FF8),
        (0xE4E0_8000, 0x2_0000_0FF0),
        (0xE4C0_8000, 0x1_0000_0FF8),
        (0xE520_8000, 0x4_0000_0FE0),
        (0xE500_8000, 0x1_0000_0FF8),
        (0xE560_8000, 0x4_0000_0FE0),
        (0xE540_8000, 0x1_0000_0FF8),
    ];
    for (word, first) in signed.into_iter().chain(unsigned) {
        assert_eq!(address(&scatter(word, offset), 0), first, "{word:08X}");
    }
    for (word, second) in [
        (0xE4E0_8000, 0x2468_BCF0),
        (0xE4C0_C000, 0x1234_6678),
        (0xE560_C000, 0x48D1_69E0),
        (0xE540_8000, 0x1234_6678),
    ] {
        assert_eq!(address(&scatter(word, offset), 1), second, "{word:08X}");
    }
    assert_eq!(address(&scatter(0xE4A0_A000, 0x8000_0000_0000_0001), 0), 0x1002);
    assert_eq!(address(&scatter(0xE480_A000, 0x8000_0000_0000_0001), 0), 0x8000_0000_0000_1001);
    assert_eq!(address(&scatter(0xE520_A000, 0xC000_0000_0000_0001), 0), 0x1004);
    assert_eq!(address(&scatter(0xE500_A000, 0xC000_0000_0000_0001), 0), 0xC000_0000_0000_1001);
}

/// Stores of the low part of each element of Z1, which holds 00h to 0Fh, the offsets being 0 and 1.
#[test]
fn halfwords_and_words() {
    let cases: [(u32, u64, &[u8]); 12] = [
        (0xE4A0_8000, 2, &[0, 1, 8, 9]),
        (0xE480_8000, 2, &[0, 8, 9]),
        (0xE4A0_A000, 2, &[0, 1, 8, 9]),
        (0xE480_A000, 2, &[0, 8, 9]),
        (0xE4E0_8000, 4, &[12, 13, 8, 9]),
        (0xE4C0_8000, 4, &[12, 13, 9]),
        (0xE520_8000, 2, &[0, 1, 2, 3, 8, 9, 10, 11]),
        (0xE500_8000, 2, &[0, 8, 9, 10, 11]),
        (0xE520_A000, 2, &[0, 1, 2, 3, 8, 9, 10, 11]),
        (0xE500_A000, 2, &[0, 8, 9, 10, 11]),
        (0xE560_8000, 4, &[12, 13, 14, 15, 8, 9, 10, 11]),
        (0xE540_8000, 4, &[12, 13, 14, 15, 11]),
    ];
    for (number, (word, count, written)) in cases.into_iter().enumerate() {
        let class = &CLASSES[12 + number];
        assert_eq!(class.base, word);
        let mut store = input(word | 2 << 16 | 1);
        store.base = 0x1000;
        store.p.fill(0xFF);
        (0..16).for_each(|byte| store.z[16 + byte] = byte as u8);
        // Of doublewords 0 and 1; of words 0, 1, 1 and 0.
        match count {
            2 => store.z[32..48].copy_from_slice(&[0, 0, 0, 0, 0, 0, 0, 0, 1, 0, 0, 0, 0, 0, 0, 0]),
            _ => store.z[32..48].copy_from_slice(&[0, 0, 0, 0, 1, 0, 0, 0, 1, 0, 0, 0, 0, 0, 0, 0]),
        }
        let Left { verdict, numbers, memory, .. } = left(&over(16, &store), 1_040);
        assert_eq!((verdict, numbers[2]), (DONE, count));
        assert_eq!(numbers[3], count * class.msize as u64 / 8);
        assert_eq!(memory[..written.len()], *written, "{word:08X}");
        assert_eq!(memory[written.len()..], vec![0x77; 16 - written.len()], "{word:08X}");
    }
}

/// Those of classes 13 to 24 need the SVE flag, and FA64 in streaming mode; SP is checked.
#[test]
fn refusals_of_halfwords_and_words() {
    for class in &CLASSES[12..24] {
        let store = over(256, &input(class.base | 31 << 5));
        let with = |flags: u32, sp| {
            let mut store = store.clone();
            (store.flags, store.sp) = (flags.into(), sp);
            store.p[0] = 1;
            store.base = sp;
            answer(&store).verdict
        };
        let [sve, streaming, fa64, checked] = [SVE, STREAMING, FA64, SP_CHECK].map(|bit| 1 << bit);
        assert_eq!(with(sve, 0x1000), DONE);
        assert_eq!(with(1 << SME2 | 1 << SVE2P1, 0x1000), UNDEFINED);
        assert_eq!(with(sve | streaming, 0x1000), ILLEGAL);
        assert_eq!(with(streaming, 0x1000), UNDEFINED);
        assert_eq!(with(sve | streaming | fa64, 0x1000), DONE);
        assert_eq!(with(sve | checked, 0x1000), DONE);
        assert_eq!(with(sve | checked, 0x1008), STACK);
        assert_eq!(with(sve | streaming | checked, 0x1008), ILLEGAL);
    }
}

#[test]
fn counters_over_two_registers() {
    let cases: [(u16, &[u64]); 6] = [
        (0x0018, &[0]),
        (0x8038, &[3]),
        (0x8000, &[]),
        (0x0013, &[0, 1]),
        (0x8008, &[0, 1, 2, 3]),
        (0x8058, &[]),
    ];
    for (counter, elements) in cases {
        assert_eq!(active(&strided(0xA120_6000, counter)), elements, "{counter:04X}");
    }
}

/// The same at another length, whose memory is long enough.
fn strided_at(vb: usize, word: u32, counter: u16) -> Input {
    let (z, mut p) = (vec![0; 32 * vb], vec![0; 2 * vb]);
    p[vb..vb + 2].copy_from_slice(&counter.to_le_bytes());
    over(1_024, &Input { vb, z, p, base: 0x1000, ..strided(word, 0) })
}

/// Document 02 (iii): "0418h over two doubleword registers makes element 0 active and no other", and
/// so with each of the bits above bit 6 up to 14.
#[test]
fn counters_on_short_vectors() {
    for counter in (7..15).map(|bit| 0x0018 | 1 << bit).chain([0x0418, 0x7F98]) {
        let store = strided(0xA13F_6000, counter);
        assert_eq!((active(&store), answer(&store)), (vec![0], done(1, 8, 24, 1)), "{counter:04X}");
        let inverted = strided(0xA13F_6000, counter | 0x8000);
        assert_eq!((active(&inverted), answer(&inverted)), (vec![1, 2, 3], done(3, 24, 40, 1)));
    }
    // Without an element size nothing is active, whatever the bits are.
    assert_eq!(active(&strided(0xA13F_6000, 0xFFF0)), []);
}

/// "Bit 6 at VB 16 and bit 10 at VB 256": the highest bit counts, and those above it don't.
#[test]
fn the_counts_highest_bit() {
    for (vb, highest) in LENGTHS.into_iter().zip(6..) {
        let two = |counter| answer(&strided_at(vb, 0xA13F_6000, counter)).numbers[2];
        let four = |counter| answer(&strided_at(vb, 0xA13F_E000, counter)).numbers[2];
        let (half, all) = (vb as u64 / 4, vb as u64 / 2);
        for lowest in [1, 2, 4, 8] {
            // The highest bit alone is a count of half of the mask's elements: two registers.
            let counter = 1 << highest | lowest;
            assert_eq!([two(counter), four(counter)], [half, half], "{counter:04X}");
            assert_eq!([two(counter | 0x8000), four(counter | 0x8000)], [0, half]);
            // All bits up to it are a count of all elements but the last, which is a doubleword, or
            // starts none.
            let most = ((2 << highest) - 1) & !(lowest - 1);
            assert_eq!(four(most), all - u64::from(lowest == 8), "{most:04X}");
            for above in highest + 1..15 {
                assert_eq!(four(1 << above | lowest), 0);
                assert_eq!(four(1 << above | lowest | 0x8000), all);
                assert_eq!(four(1 << above | counter), half);
            }
        }
    }
}

#[test]
fn the_whole_example() {
    let first = bytes_at(16, &[0, 1, 1, 5], &[0xA1, 0xA2, 0xA3, 0xA4]);
    let second = bytes_at(16, &[1, 0, 5, 5], &[0xA3, 0xA1, 0x00, 0xA4]);
    for (input, steps) in [(first, 3), (second, 4)] {
        let input = over(8, &input);
        let memory = vec![0xA1, 0xA3, 0x77, 0x77, 0x77, 0xA4, 0x77, 0x77];
        let Outcome { verdict, numbers } = done(4, 4, 31, steps);
        let exact = Left { verdict, numbers, memory, buffer: EXAMPLE.to_vec() };
        assert_eq!(left(&input, 31), exact);
        let buffer = [&EXAMPLE[..], &[0x77; 9]].concat();
        assert_eq!(left(&input, 40), Left { buffer, ..exact });
        for room in [30, 0] {
            let (memory, buffer) = (input.memory.clone(), vec![0x77; room]);
            let refused = Left { verdict: NO_ROOM, numbers: [0; 6], memory, buffer };
            assert_eq!(left(&input, room), refused);
        }
        assert_eq!(answer(&over(LONGEST, &input)), done(4, 4, 31, steps));
        assert_eq!(answer(&over(LONGEST + 1, &input)), refused(WINDOW));
    }
}

#[test]
fn a_fault_has_written_nothing() {
    let input = bytes_at(16, &[0, 1, 8, 9], &[1; 4]);
    assert_eq!(answer(&over(8, &input)), faulting(2, 0x1008));
}

#[test]
fn nothing_active_and_no_memory() {
    let none = over(0, &input(0xE580_A000));
    assert_eq!(answer(&none), done(0, 0, 4, 0));
    assert_eq!(left(&none, 4).buffer, [0x50, 0x45, 0, 0]);
    assert_eq!(left(&none, 3).verdict, NO_ROOM);
}

/// Four registers of VB 256 under a counter, of the class with this base word.
fn four_registers(word: u32, counter: u16) -> Input {
    let (z, p) = ((0..32 * 256).map(|index| (index / 7) as u8).collect(), vec![0xFF; 2 * 256]);
    let mut four = Input { vb: 256, z, p, base: 0x1000, ..strided(word | 31 << 16, 0) };
    four.p[256..258].copy_from_slice(&counter.to_le_bytes());
    four
}

/// Four whole registers are one run.
#[test]
fn the_largest_run_of_a_store() {
    let four = four_registers(0xA120_E000, 0x8008);
    let registers = [0, 4, 8, 12].map(|register| &four.z[register * 256..][..256]).concat();
    let head = [0x50, 0x52, 0x00, 0x10, 0, 0, 0, 0, 0, 0, 0x00, 0x04];
    let patch = [&head[..], &registers, &[0x50, 0x45, 1, 0]].concat();
    assert_eq!(patch.len(), 1_040);
    let whole = over(1_024, &four);
    assert_eq!(answer(&whole), done(128, 1_024, 1_040, 1));
    assert_eq!((left(&whole, 1_040).memory, left(&whole, 1_040).buffer), (registers, patch));
    assert_eq!(left(&whole, 1_039).verdict, NO_ROOM);
    assert_eq!(answer(&over(1_023, &four)), faulting(127, 0x13FF));
    for (word, size) in [(0xA120_8000, 1), (0xA120_A000, 2), (0xA120_C000, 4)] {
        for unit in [1, 2, 4].into_iter().filter(|&unit| unit <= size) {
            let narrow = over(1_024, &four_registers(word, 0x8000 | unit as u16));
            assert_eq!(answer(&narrow), done(1_024 / size, 1_024, 1_040, 1), "{word:08X}");
            let Left { memory, buffer, .. } = left(&narrow, 1_040);
            assert_eq!((memory, buffer), (left(&whole, 1_040).memory, left(&whole, 1_040).buffer));
        }
        let short = over(1_023, &four_registers(word, 0x8001));
        assert_eq!(answer(&short), faulting(1_024 / size - 1, 0x13FF));
    }
}

/// Document 02 (vii): "A byte store under a halfword counter writes every second byte, so 512 runs can
/// occur. .. the largest store patch is 6,660 bytes".
#[test]
fn the_largest_patch_of_a_store() {
    let four = four_registers(0xA120_8000, 0x8002);
    let registers = [0, 4, 8, 12].map(|register| &four.z[register * 256..][..256]).concat();
    let mut patch = Vec::new();
    for (at, byte) in registers.iter().enumerate().step_by(2) {
        patch.extend([
            0x50,
            0x52,
            at as u8,
            0x10 + (at / 256) as u8,
            0,
            0,
            0,
            0,
            0,
            0,
            1,
            0,
            *byte,
        ]);
    }
    patch.extend([0x50, 0x45, 0x00, 0x02]);
    assert_eq!(patch.len(), 6_660);
    let every_second = over(1_023, &four);
    assert_eq!(answer(&every_second), done(512, 512, 6_660, 512));
    let Left { memory, buffer, .. } = left(&every_second, 6_660);
    assert_eq!(buffer, patch);
    for (at, byte) in memory.iter().enumerate() {
        assert_eq!(*byte, if at % 2 == 0 { registers[at] } else { 0x77 });
    }
    for room in [0, 1_040, 6_659] {
        assert_eq!(left(&every_second, room).verdict, NO_ROOM);
    }
    assert_eq!(answer(&over(1_022, &four)), faulting(1_022, 0x13FE));
    // A count of 511 halfwords leaves the last out.
    assert_eq!(
        answer(&over(1_023, &four_registers(0xA120_8000, 0x07FE))),
        done(511, 511, 6_647, 511)
    );
}

/// Bytes under counters of 16, 32 and 64 bits, halfwords under 32 and 64, words under 64: elements, and
/// runs of one each.
#[test]
fn gaps() {
    for (word, size) in [(0xA120_8000, 1), (0xA120_A000, 2), (0xA120_C000, 4)] {
        for unit in [2, 4, 8].into_iter().filter(|&unit| unit > size) {
            let store = over(1_024, &four_registers(word, 0x8000 | unit as u16));
            let count = 1_024 / unit;
            assert_eq!(answer(&store), done(count, count * size, 4 + count * (12 + size), count));
            let step = (unit / size) as usize;
            let numbers: Vec<u64> = (0..1024 / size).step_by(step).collect();
            assert_eq!(active(&store), numbers);
        }
    }
}

/// Counters over two registers of VB 16, for each element size: the mask bit of an element is its
/// number times its bytes.
#[test]
fn narrow_counters_over_two_registers() {
    let cases: [(u32, u16, &[u64]); 14] = [
        (0xA120_0000, 0x0003, &[0]),
        (0xA120_0000, 0x0007, &[0, 1, 2]),
        (0xA120_0000, 0x0006, &[0]),
        (0xA120_0000, 0x000A, &[0, 2]),
        (0xA120_0000, 0x0018, &[0]),
        (0xA120_0000, 0x8038, &[24]),
        (0xA120_0000, 0x0014, &[0, 4]),
        (0xA120_0000, 0x8000, &[]),
        (0xA120_2000, 0x0003, &[0]),
        (0xA120_2000, 0x0005, &[0]),
        (0xA120_2000, 0x0007, &[0, 1]),
        (0xA120_2000, 0x8038, &[12]),
        (0xA120_4000, 0x0013, &[0, 1, 2]),
        (0xA120_4000, 0x8018, &[2, 4, 6]),
    ];
    for (word, counter, elements) in cases {
        assert_eq!(active(&strided(word, counter)), elements, "{word:08X}, {counter:04X}");
    }
    // "The bits above it up to 14 are ignored."
    assert_eq!(active(&strided(0xA120_0000, 0x0405)), [0, 1]);
    assert_eq!(active(&strided(0xA120_0000, 0xFF80)), []);
}

/// "The scalar index and the step from element to element are the element's bytes", "the immediate
/// displacement is unchanged".
#[test]
fn addresses_of_narrow_strided_stores() {
    for (form, size) in [(0x0000, 1), (0x2000, 2), (0x4000, 4), (0x6000, 8)] {
        for four in [0, 0x8000] {
            let mut scalar = strided(0xA122_0000 | form | four, 0);
            scalar.x[2] = 3;
            assert_eq!(
                [0, 1, 3].map(|e| address(&scalar, e)),
                [3, 4, 6].map(|k| 0x1000 + k * size)
            );
            scalar.x[2] = 0u64.wrapping_sub(2);
            assert_eq!(address(&scalar, 0), 0x1000 - 2 * size);
            scalar.x[2] = (1 << 63) + 1;
            let top = if size == 1 { 1 << 63 } else { 0 };
            assert_eq!(address(&scalar, 0), 0x1000 + top + size);
            let registers = if four == 0 { 2 } else { 4 };
            let immediate = strided(0xA16F_0000 | form | four, 0);
            assert_eq!(address(&immediate, 0), 0x1000 - registers * 16);
            assert_eq!(address(&immediate, 3), 0x1000 - registers * 16 + 3 * size);
            let each = 16 / size;
            let indices = [0, each - 1, each].map(|e| inspected(&immediate, e).1[2]);
            assert_eq!(indices, [0, 16 - size, 16 * 16 / registers]);
            assert_eq!(inspected(&immediate, 0).1[3..], [size, registers * each]);
        }
    }
}

/// Those of classes 25 to 36 need the SME2 flag and streaming mode; SP is checked.
#[test]
fn refusals_of_narrow_strided_stores() {
    for class in &CLASSES[24..] {
        let with = |flags: u32, sp| {
            let index = INDEX.mask() & !class.free() == 0;
            let zero = if index { INDEX.mask() } else { 0 };
            let word = class.base | zero | 31 << 5;
            let mut store = over(256, &strided(word, 0x0003));
            (store.flags, store.sp, store.base) = (flags.into(), sp, sp);
            answer(&store).verdict
        };
        let [sme2, streaming, checked] = [SME2, STREAMING, SP_CHECK].map(|bit| 1 << bit);
        assert_eq!(with(sme2 | streaming, 0x1000), DONE);
        assert_eq!(with(1 << SVE | 1 << SVE2P1 | streaming, 0x1000), UNDEFINED);
        assert_eq!(with(sme2, 0x1000), ILLEGAL);
        assert_eq!(with(sme2 | 1 << FA64, 0x1000), ILLEGAL);
        assert_eq!(with(0, 0x1000), UNDEFINED);
        assert_eq!(with(sme2 | streaming | checked, 0x1000), DONE);
        assert_eq!(with(sme2 | streaming | checked, 0x1008), STACK);
        assert_eq!(with(sme2 | checked, 0x1008), ILLEGAL);
    }
}

#[test]
fn most_runs() {
    let offsets: Vec<u32> = (0..64).map(|e| (e * 27 + 5) % 64 * 2).collect();
    let bytes: Vec<u8> = offsets.iter().map(|&offset| offset as u8).collect();
    let input = over(127, &bytes_at(256, &offsets, &bytes));
    assert_eq!(answer(&input), done(64, 64, 836, 64));
    let patch = left(&input, 836).buffer;
    for (number, run) in patch[..832].chunks(13).enumerate() {
        let offset = 2 * number as u8;
        assert_eq!(run, [0x50, 0x52, offset, 0x10, 0, 0, 0, 0, 0, 0, 1, 0, offset]);
    }
    assert_eq!(patch[832..], [0x50, 0x45, 64, 0]);
}

#[test]
fn most_runs_of_halfwords_and_words() {
    for (word, size, length) in [(0xE4C2_8001, 2, 900), (0xE542_8001, 4, 1_028)] {
        let offsets: Vec<u32> = (0..64).map(|e| (e * 27 + 5) % 64 * (size + 1)).collect();
        let input = Input { word, ..bytes_at(256, &offsets, &[0xA5; 64]) };
        let input = over(64 * (size + 1) as usize - 1, &input);
        assert_eq!(answer(&input), done(64, 64 * u64::from(size), length, 64));
        assert_eq!(left(&input, length as usize - 1).verdict, NO_ROOM);
    }
}

/// The steps of doublewords at these offsets from the window's start, those in the mask active.
fn steps_of(offsets: &[u64], mask: u64, base: u64, length: usize) -> u64 {
    let vb = 8 * offsets.len();
    let (z, p) = (vec![0; 32 * vb], vec![0; 2 * vb]);
    let mut input = over(length, &Input { vb, z, p, base, ..input(0xE582_A001) });
    input.x[0] = base;
    for (e, offset) in offsets.iter().enumerate() {
        input.z[2 * vb + 8 * e..][..8].copy_from_slice(&offset.to_le_bytes());
        input.p[e] = (mask >> e & 1) as u8;
    }
    let Outcome { verdict, numbers } = answer(&input);
    assert_eq!((verdict, numbers[2]), (DONE, u64::from(mask.count_ones())));
    numbers[5]
}

/// "One for a whole register that is contiguous and active", and none where nothing is active.
#[test]
fn a_whole_register() {
    for vb in LENGTHS {
        let (count, all) = (vb as u64 / 8, !0 >> (64 - vb / 8));
        let up: Vec<u64> = (0..count).map(|e| 8 * e).collect();
        let down: Vec<u64> = up.iter().rev().copied().collect();
        for base in [0, 0x1000, (vb as u64).wrapping_neg()] {
            assert_eq!(steps_of(&up, all, base, vb), 1);
            assert_eq!(steps_of(&up, 0, base, vb), 0);
            assert_eq!(steps_of(&down, all, base, vb), count);
        }
        for (word, registers) in [(0xA13F_6000, 2), (0xA160_E000, 4)] {
            let (z, p, bytes) = (vec![0; 32 * vb], vec![0; 2 * vb], registers * vb);
            let mut whole = over(bytes, &Input { vb, z, p, base: 0x1000, ..strided(word, 0) });
            whole.p[vb..vb + 2].copy_from_slice(&0x8008u16.to_le_bytes());
            let bytes = bytes as u64;
            assert_eq!(answer(&whole), done(bytes / 8, bytes, bytes + 16, 1));
            whole.p[vb..vb + 2].copy_from_slice(&0x8000u16.to_le_bytes());
            assert_eq!(answer(&whole), done(0, 0, 4, 0));
        }
    }
}

#[test]
fn stretches_that_are_broken() {
    let top = 0u64.wrapping_sub(64);
    for base in [0, 0x1000, top] {
        let steps = |offsets: [u64; 4], mask| steps_of(&offsets, mask, base, 64);
        assert_eq!(steps([0, 8, 17, 25], 15), 2); // a gap of one byte
        assert_eq!(steps([0, 8, 15, 23], 15), 2); // an overlap of one byte
        assert_eq!(steps([8, 16, 0, 8], 15), 2); // a descending element
        assert_eq!(steps([16, 8, 0, 24], 15), 4);
        assert_eq!(steps([56, 0, 8, 16], 15), 2); // from the window's end to its start
        assert_eq!(steps([32, 40, 48, 56], 15), 1); // up to the window's end
        assert_eq!(steps([0, 8, 16, 24], 13), 2); // an inactive lane
        assert_eq!(steps([0, 48, 8, 16], 13), 1); // one inside a stretch that goes on
        assert_eq!(steps([0, 8, 16, 24], 6), 1);
    }
}

#[test]
fn the_ends_of_windows() {
    let at = |offset| over(16, &Input { base: 0x1000, ..scatter(0xE580_A000, offset) });
    assert_eq!(answer(&at(8)), done(1, 8, 24, 1));
    assert_eq!(answer(&at(9)), faulting(0, 0x1010));
    let last = 0x10_0000 + LONGEST as u64 - 1;
    let around = bytes_at(16, &[LONGEST as u32 - 1, 0, 7, 7], &[1, 2, 3, 3]);
    let mut around = over(LONGEST, &Input { base: 0x10_0000, ..around });
    around.x[0] = around.base;
    assert_eq!(answer(&around), done(4, 4, 43, 4));
    let patch = left(&around, 43).buffer;
    assert_eq!(patch[..13], [0x50, 0x52, 0, 0, 0x10, 0, 0, 0, 0, 0, 1, 0, 2]);
    assert_eq!(patch[28..36], last.to_le_bytes());
}

#[test]
fn the_top_of_the_address_space() {
    let mut top = scatter(0xE580_A000, (-0x1008i64) as u64);
    (top.base, top.memory) = (0xFFFF_FFFF_FFFF_FFF0, vec![0; 16]);
    assert_eq!(answer(&top), done(1, 8, 24, 1));
    let head = [0x50, 0x52, 0xF8, 255, 255, 255, 255, 255, 255, 255, 8, 0];
    assert_eq!(left(&top, 24).buffer[..12], head);
    top.x[0] += 1;
    assert_eq!(answer(&top), faulting(0, 0));
    top.memory.push(0);
    assert_eq!(answer(&top), refused(WINDOW));
}

/// Stores of element 0 alone, which lies at `first`, over a window at `base` of so many bytes; each
/// with its element's bytes.
fn at(first: u64, base: u64, length: usize) -> [(Input, u64); 8] {
    let scalar = |word| scatter(word, first.wrapping_sub(0x1000));
    let mut two = strided(0xA160_6000, 0x0018);
    two.x[0] = first;
    let mut quadword = input(0xE43F_2041); // st1q { z1.q }, p0, [z2.d]
    quadword.p[0] = 1;
    quadword.z[32..40].copy_from_slice(&first.to_le_bytes());
    let words = [scalar(0xE500_A000), in_words(0xE540_8000, first)];
    let halfwords = [scalar(0xE480_A000), in_words(0xE4C0_8000, first)];
    let ([word, word_s], [halfword, halfword_s]) = (words, halfwords);
    let stores = [
        (scalar(0xE400_A000), 1),
        (halfword, 2),
        (halfword_s, 2),
        (word, 4),
        (word_s, 4),
        (scalar(0xE580_A000), 8),
        (two, 8),
        (quadword, 16),
    ];
    stores.map(|(input, size)| (over(length, &Input { base, ..input }), size))
}

/// The same with an element of 32 bits, at offset 0 from X0.
fn in_words(word: u32, first: u64) -> Input {
    let mut input = scatter(word, 0);
    input.x[0] = first;
    input
}

/// Document 02 (ii): a doubleword at FFFFFFFFFFFFFFFCh over a 16-byte window ending at 2^64.
#[test]
fn a_fault_at_address_0() {
    let [.., doubleword, strided, quadword] = at(!3, !15, 16);
    for (store, _) in [doubleword, strided, quadword] {
        assert_eq!(answer(&store), faulting(0, 0));
        assert_eq!(address(&store, 0), 0xFFFF_FFFF_FFFF_FFFC);
    }
}

/// Each place of an element to a window, and the address of the byte that faults there; of elements of
/// more than `k` bytes.
#[test]
fn the_byte_that_faults() {
    let faults = |k: u64, first, base, length, byte| {
        for (store, size) in at(first, base, length) {
            if k < size {
                assert_eq!(answer(&store), faulting(0, byte), "{size} bytes at {first:X}");
                assert_eq!(address(&store, 0), first);
            }
        }
    };
    faults(0, 0x1000, 0x1100, 64, 0x1000); // below the window
    faults(0, 0x1040, 0x1000, 64, 0x1040); // behind it
    faults(0, 0x1000, 0x1000, 0, 0x1000); // no window
    faults(0, 64, 0, 64, 64); // a window at 0
    faults(0, 0, 0, 0, 0);
    faults(0, 0, !63, 64, 0); // a window up to 2^64
    for k in 1..16 {
        faults(k, 0x1000 - k, 0x1000, 64, 0x1000 - k); // from below into the window
        faults(k, 0x1040 - k, 0x1000, 64, 0x1040); // from inside out of it
        faults(k, 64 - k, 0, 64, 64);
        faults(k, k.wrapping_neg(), !63, 64, 0); // and past 2^64
        faults(k, k.wrapping_neg(), 0, 64, k.wrapping_neg()); // past 2^64 into it
        faults(k + 1, 0x1000 - k, 0x1000, 1, 0x1000 - k); // over both its ends
        faults(k, 0x1000 - k, 0x1000, 0, 0x1000 - k);
    }
}

/// Document 02 (viii): a strict store of classes 1 to 7, 12 and 13 to 24, element 0 at this offset from
/// 1000h and a later one at another, with its number; and the store that isn't strict.
fn strict(class: usize, e: usize, [first, second]: [u64; 2]) -> [Input; 2] {
    let (Class { base, esize, .. }, vb) = (&CLASSES[class - 1], 256);
    let (z, p) = (vec![0; 32 * vb], vec![0; 2 * vb]);
    let word = base | if class == 12 { 2 << 5 } else { 2 << 16 } | 1;
    let mut store = Input { vb, z, p, base: 0xF00, memory: vec![0x77; 1_024], ..input(word) };
    for (e, offset) in [(0, first), (e, second)] {
        let at = e * esize / 8;
        store.z[2 * vb + at..][..4].copy_from_slice(&(offset as u32).to_le_bytes());
        store.p[at / 8] |= 1 << (at % 8);
    }
    let lenient = store.clone();
    store.flags |= 1 << STRICT;
    [store, lenient]
}

fn overlapping(element: u64, address: u64) -> Outcome<6> {
    Outcome { verdict: OVERLAP, numbers: [element, address, 0, 0, 0, 0] }
}

#[test]
fn stores_that_hit_a_byte_twice() {
    let classes = (1..25).filter(|class| !(8..12).contains(class));
    for (class, e) in classes.flat_map(|class| [1, 2, 15].map(|e| (class, e))) {
        let size = CLASSES[class - 1].msize as u64 / 8;
        let unit = match CLASSES[class - 1].form {
            Form::Scatter { scale, .. } => 1 << scale,
            _ => 1,
        };
        for (distance, below) in (0..size / unit + 2).flat_map(|n| [(n, true), (n, false)]) {
            let offsets = if below { [16 + distance, 16] } else { [16, 16 + distance] };
            let [strict, lenient] = strict(class, e, offsets);
            let address = 0x1000 + offsets[1] * unit;
            let right = match distance * unit < size {
                true => overlapping(e as u64, address),
                false => answer(&lenient),
            };
            assert_eq!((answer(&strict), answer(&lenient).verdict), (right, DONE), "{class}");
            assert_eq!(left(&strict, 0).verdict, if distance * unit < size { 12 } else { 8 });
        }
    }
}

/// "It stands after 7 and before 8", also where the elements that share a byte are lower.
#[test]
fn where_12_stands() {
    let [mut store, lenient] = strict(4, 1, [0, 7]);
    assert_eq!(answer(&store), overlapping(1, 0x1007));
    assert_eq!((left(&store, 0).verdict, left(&lenient, 0).verdict), (OVERLAP, NO_ROOM));
    store.z[2 * 256 + 16..][..4].copy_from_slice(&0x2FFu32.to_le_bytes());
    store.p[2] |= 1;
    assert_eq!(answer(&store), faulting(2, 0x1300));
    store.flags |= 1 << STREAMING;
    assert_eq!(answer(&store), refused(ILLEGAL));
}

#[test]
fn strided_stores_share_no_byte() {
    for (vb, counter) in LENGTHS.into_iter().flat_map(|vb| (0..=u16::MAX).map(move |c| (vb, c))) {
        if counter % 97 < 2 {
            let mut store = strided_at(vb, 0xA13F_E000, counter);
            let lenient = answer(&store);
            store.flags |= 1 << STRICT;
            assert_eq!(answer(&store), lenient);
        }
    }
}

#[test]
fn only_the_stores_own_elements_let_sp_be_checked() {
    let from_sp = 31 << 5;
    let mut none = strided(0xA120_6000 | from_sp, 0x8058);
    (none.sp, none.flags) = (0x1008, none.flags | 1 << SP_CHECK);
    assert_eq!(answer(&none), done(0, 0, 4, 0));
    let both = Input { flags: none.flags | 1 << SP_CHECK_NONE_ACTIVE, ..none.clone() };
    assert_eq!(answer(&both), refused(STACK));
    let second_alone = Input { flags: both.flags & !(1 << SP_CHECK), ..both };
    assert_eq!(answer(&second_alone), done(0, 0, 4, 0));
    let four = Input { word: 0xA120_E000 | from_sp, ..none };
    assert_eq!(answer(&four), refused(STACK));
}

#[test]
fn register_31() {
    let (rm, rn) = (31 << 16, 31 << 5);
    let mut both = strided(0xA120_6000 | rm | rn, 0x8008);
    both.sp = 0x1010;
    assert_eq!(address(&both, 0), 0x1010);
    let mut quadword = input(0xE420_2000 | rm | rn);
    quadword.flags |= 1 << SP_CHECK | 1 << SP_CHECK_NONE_ACTIVE;
    (quadword.p[0], quadword.sp) = (1, 0x1001);
    quadword.z[31 * 16..][..8].copy_from_slice(&0x1002u64.to_le_bytes());
    assert_eq!(address(&quadword, 0), 0x1002);
    assert_eq!(answer(&quadword), done(1, 16, 32, 1));
}

#[test]
fn refusals_in_their_order() {
    let verdict = |input: &Input| left(input, 0).verdict;
    let mut several = over(LONGEST, &input(0));
    assert_eq!(verdict(&several), UNDEFINED);
    several.memory.push(0);
    assert_eq!(verdict(&several), WINDOW);
    several.p.pop();
    assert_eq!(verdict(&several), REGISTERS);
    several.vb = 48;
    assert_eq!(verdict(&several), LENGTH);
}

#[test]
fn undefined_before_illegal_and_fault_before_no_room() {
    let mut store = input(0xA120_6000);
    assert_eq!(answer(&store), refused(ILLEGAL));
    store.flags = 0;
    assert_eq!(answer(&store), refused(UNDEFINED));
    let outside = over(16, &Input { base: 0x1000, ..scatter(0xE580_A000, 9) });
    assert_eq!(left(&outside, 0).verdict, FAULT);
}
