//! Both rules for the vector length, asked of the independent model and of the library: every length
//! up to 600, both editions, streaming on and off, each class.

use super::arm::{self, EARLY, FA64, LENGTHS, SME2, STREAMING, SVE, SVE2P1};
use super::classes::{class_of, Form, CLASSES};
use super::input::Input;
use super::wrong::right;
use super::Store;
use crate::verdicts::{DONE, ILLEGAL, LENGTH, REGISTERS, UNDEFINED};
use crate::GARBAGE;
use starshackle::Window;

/// A store with every element active, from X0 = 1000h on, over 4,096 bytes there.
fn whole(vb: usize, flags: u64, word: u32) -> Input {
    let mut x = [0; 31];
    x[0] = 0x1000;
    let z = (0..32 * vb).map(|at| at as u8 & 0x3F).collect();
    let memory = vec![0x77; 4096];
    Input { vb, flags, x, sp: 0, z, p: vec![0xFF; 2 * vb], base: 0x1000, memory, word }
}

/// What both implementations answer: the verdict of the store, and the count of active elements.
fn answer(input: &Input) -> (u64, u64) {
    let ask = |store: &Store| {
        let (mut memory, mut buffer) = (input.memory.clone(), vec![0x77; 6_660]);
        let (mut numbers, machine) = ([GARBAGE; 6], input.machine());
        let window = Window { base: input.base, memory: &mut memory };
        let verdict = store(&machine, window, input.word, &mut buffer, &mut numbers);
        (verdict, numbers, memory, buffer)
    };
    let (right, model) = (ask(&*right()), ask(&starshackle::store_numbers));
    assert_eq!(right, model, "{}", input.text());
    (model.0, model.1[2])
}

/// What both implementations say of an element.
fn inspected(input: &Input, e: u64) -> (u64, [u64; 5]) {
    let right = arm::element(&arm::elements(input), e);
    let mut answer = [GARBAGE; 5];
    let model = starshackle::element_numbers(&input.machine(), input.word, e, &mut answer);
    assert_eq!((right.verdict, right.numbers), (model, answer), "{}", input.text());
    (model, answer)
}

const FEATURES: u64 = 1 << SVE | 1 << SME2 | 1 << SVE2P1;

/// Words of each class, and one of none.
fn words() -> impl Iterator<Item = u32> {
    CLASSES.iter().map(|class| class.base).chain([0])
}

fn is_strided(word: u32) -> bool {
    class_of(word).map_or(false, |class| matches!(CLASSES[class].form, Form::Strided { .. }))
}

#[test]
fn every_length() {
    for vb in (0..600).chain([65_552, 1 << 32 | 16, usize::MAX, usize::MAX - 15]) {
        for bits in 0..8 {
            let (early, streaming, fa64) = (bits & 1, bits >> 1 & 1, bits >> 2);
            let flags = FEATURES | early << EARLY | streaming << STREAMING | fa64 << FA64;
            let (five, multiple) = (LENGTHS.contains(&vb), (1..=16).any(|n| 16 * n == vb));
            let allowed = if early == 1 && streaming == 0 { multiple } else { five };
            let lent = if vb < 600 { vb } else { 16 };
            for word in words() {
                let input = Input { vb, ..whole(lent, flags, word) };
                let (verdict, _) = answer(&input);
                assert_eq!(verdict == LENGTH, !allowed, "{}", input.text());
                let (element, _) = inspected(&input, 0);
                let also = is_strided(word) && !five;
                assert_eq!(element == LENGTH, !allowed || also, "{}", input.text());
            }
        }
    }
}

/// Flags other than streaming, bits that mean nothing and lent buffers play no part in verdict 1.
#[test]
fn nothing_else_counts() {
    for vb in (0..=17).map(|number| 16 * number) {
        for flags in 0..1 << 11 {
            let (early, streaming) = (flags >> EARLY & 1 == 1, flags >> STREAMING & 1 == 1);
            let five = LENGTHS.contains(&vb);
            let allowed = if early && !streaming { (16..=256).contains(&vb) } else { five };
            for (number, word) in [0, 0xE440_8000, 0xE420_2000, 0xA160_6000].into_iter().enumerate()
            {
                let mut input = whole(vb, flags, word);
                if flags % 3 == 0 {
                    input.z.push(0);
                }
                if (flags / 8 + number as u64) % 5 == 0 {
                    input.base = u64::MAX;
                }
                assert_eq!(answer(&input).0 == LENGTH, !allowed, "{}", input.text());
                let also = is_strided(word) && !five;
                assert_eq!(inspected(&input, 1).0 == LENGTH, !allowed || also);
            }
        }
    }
}

/// "Three quadwords at VB 48": registers, predicates and elements at each of the sixteen lengths.
#[test]
fn sixteen_lengths() {
    let flags = FEATURES | 1 << EARLY;
    for vb in (1..=16).map(|number| 16 * number) {
        for class in CLASSES.iter().filter(|class| !is_strided(class.base)) {
            // Zt 2, offsets or addresses in Z3, P5; X0 is the base, or with class 12 added.
            let of_z3 = if class.form == Form::Quadword { 3 << 5 } else { 3 << 16 };
            let mut input = whole(vb, flags, class.base | of_z3 | 5 << 10 | 2);
            let (count, bytes) = (vb * 8 / class.esize, class.esize / 8);
            for e in 0..count {
                // At distances that no scale takes out of the window.
                let offset = (8 * e).to_le_bytes();
                input.z[3 * vb + e * bytes..][..4].copy_from_slice(&offset[..4]);
                input.z[3 * vb + e * bytes + 4..][..bytes - 4].fill(0);
            }
            let (verdict, active) = answer(&input);
            assert_eq!((verdict, active), (DONE, count as u64), "{}", input.text());
            for e in 0..count as u64 {
                let (_, [active, _, index, size, elements]) = inspected(&input, e);
                let right = [1, (2 * vb) as u64 + e * bytes as u64, class.msize as u64 / 8];
                assert_eq!([active, index, size], right);
                assert_eq!(elements, count as u64);
            }
            // Each element by its own bit of P5.
            for e in 0..count {
                let mut one = input.clone();
                one.p[5 * vb / 8..6 * vb / 8].fill(0);
                one.p[5 * vb / 8 + e * bytes / 8] = 1 << (e * bytes % 8);
                assert_eq!(answer(&one), (DONE, 1), "{}", one.text());
                assert_eq!(inspected(&one, e as u64).1[0], 1);
            }
            // Registers of another size are refused.
            for (z, p) in [(32 * vb - 1, 2 * vb), (32 * vb, 2 * vb + 1), (32 * 16, 2 * 16)] {
                let mut other = input.clone();
                other.z.resize(z, 0);
                other.p.resize(p, 0);
                if (z, p) != (32 * vb, 2 * vb) {
                    assert_eq!(answer(&other).0, REGISTERS);
                    assert_eq!(inspected(&other, 0), (REGISTERS, [0; 5]));
                }
            }
        }
    }
}

/// At a length that is none of the five a strided word gets one of 1 to 5, and its elements 1.
#[test]
fn strided_words() {
    for vb in (1..=16).map(|number| 16 * number).filter(|vb| !LENGTHS.contains(vb)) {
        for flags in (0..1 << 7).map(|flags| flags | 1 << EARLY) {
            for class in CLASSES.iter().filter(|class| is_strided(class.base)) {
                let input = whole(vb, flags, class.base);
                let right = match (flags >> STREAMING & 1, flags >> SME2 & 1) {
                    (1, _) => LENGTH,
                    (_, 0) => UNDEFINED,
                    _ => ILLEGAL,
                };
                assert_eq!(answer(&input).0, right, "{}", input.text());
                assert_eq!(inspected(&input, 0), (LENGTH, [0; 5]));
                assert_eq!(inspected(&Input { z: Vec::new(), ..input }, 0), (LENGTH, [0; 5]));
            }
        }
    }
}

/// "Demand 3 spans two stores of different editions": VB 48 under the early one and VB 16 under the late
/// one have the scope paper's patch, and each leaves what applying it leaves.
#[test]
fn two_editions() {
    let mut early = whole(48, FEATURES | 1 << EARLY, 0xE442_8001);
    let mut late = whole(16, FEATURES, 0xE442_8001);
    for (input, numbers) in [(&mut early, [0, 1, 2, 11]), (&mut late, [0, 1, 2, 3])] {
        let (vb, elements) = (input.vb, [(0, 0xA1), (1, 0xA2), (1, 0xA3), (5, 0xA4)]);
        input.p[..vb / 8].fill(0);
        for (e, (offset, byte)) in numbers.into_iter().zip(elements) {
            input.p[e / 2] |= 1 << (4 * (e % 2));
            input.z[vb + 4 * e] = byte;
            input.z[2 * vb + 4 * e..][..4].copy_from_slice(&[offset, 0, 0, 0]);
        }
    }
    let patch = |input: &Input| {
        assert_eq!(answer(input), (DONE, 4));
        let (mut memory, mut buffer, mut numbers) = (input.memory.clone(), [0; 6_660], [0; 6]);
        let window = Window { base: input.base, memory: &mut memory };
        starshackle::store_numbers(&input.machine(), window, input.word, &mut buffer, &mut numbers);
        (buffer[..numbers[4] as usize].to_vec(), memory)
    };
    assert_eq!(patch(&early), patch(&late));
    assert_eq!(patch(&early).0.len(), 31);
    early.flags &= !(1 << EARLY);
    assert_eq!(answer(&early), (LENGTH, 0));
}
