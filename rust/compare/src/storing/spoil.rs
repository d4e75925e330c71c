//! Inputs that are to be refused, for one cause or several.

use super::arm::{EARLY, FA64, LENGTHS, SP_CHECK, STREAMING};
use super::classes::{Class, Form, BASE};
use super::generate::{bad_window, feature, other_word};
use super::input::Input;
use crate::random::Random;

type Cause = fn(&mut Random, &Class, &mut Input);

/// In the order in which they are checked.
const CAUSES: [Cause; 9] =
    [length, edition, z_length, p_length, window, no_class, feature_off, illegal, stack];

/// Vector lengths that there aren't, some of which a cut or a narrower test would take.
const NO_LENGTHS: [usize; 16] =
    [0, 1, 2, 8, 15, 17, 24, 40, 255, 257, 264, 272, 288, 512, 4096, 65_552];

/// Gives the input a cause of a refusal, and often others that are checked later. Some lengths are
/// one under another edition or in another mode only.
pub fn spoil(random: &mut Random, class: &Class, input: &mut Input) {
    let first = random.below(CAUSES.len());
    for (number, cause) in CAUSES.iter().enumerate() {
        if number == first || number > first && random.one_in(4) {
            cause(random, class, input);
        }
    }
}

fn length(random: &mut Random, _: &Class, input: &mut Input) {
    input.vb = match random.below(8) {
        0 => random.pick(&LENGTHS) + (1 << 32),
        1 => usize::MAX,
        2 => random.number() as usize | 1,
        3 => 16 * (1 + random.below(16)),
        _ => random.pick(&NO_LENGTHS),
    };
    if random.one_in(2) {
        input.flags = input.flags & !(1 << STREAMING) | 1 << EARLY;
    }
    if input.vb <= 512 && random.one_in(2) {
        input.z = random.bytes(32 * input.vb);
        input.p = random.bytes(2 * input.vb);
    }
}

/// The other edition, or streaming mode where it was off, at a length that only the early one has.
fn edition(random: &mut Random, _: &Class, input: &mut Input) {
    let vb = 16 * (1 + random.below(16));
    (input.vb, input.z, input.p) = (vb, random.bytes(32 * vb), random.bytes(2 * vb));
    match random.below(3) {
        0 => input.flags &= !(1 << EARLY),
        1 => input.flags |= 1 << EARLY | 1 << STREAMING,
        _ => input.flags = input.flags & !(1 << STREAMING) | 1 << EARLY,
    }
}

/// Another length: near, far, or that of another vector length with so many registers' bytes.
fn other(random: &mut Random, length: usize, registers: usize) -> usize {
    let other = match random.below(6) {
        0 => 0,
        1 => length.saturating_sub(1),
        2 => length + 1,
        3 => length * 2,
        4 => random.below(length + 1),
        _ => random.pick(&LENGTHS) * registers,
    };
    if other == length {
        length + 16
    } else {
        other
    }
}

fn z_length(random: &mut Random, _: &Class, input: &mut Input) {
    let length = other(random, input.z.len(), 32);
    input.z.resize(length, 0xA5);
}

fn p_length(random: &mut Random, _: &Class, input: &mut Input) {
    let length = other(random, input.p.len(), 2);
    input.p.resize(length, 0xA5);
}

fn window(random: &mut Random, _: &Class, input: &mut Input) {
    let window = bad_window(random);
    input.base = window.base;
    input.memory = random.bytes(window.length);
}

fn no_class(random: &mut Random, class: &Class, input: &mut Input) {
    input.word = other_word(random, class, input.word);
}

fn feature_off(_: &mut Random, class: &Class, input: &mut Input) {
    input.flags &= !(1 << feature(class));
}

fn illegal(_: &mut Random, class: &Class, input: &mut Input) {
    match class.form {
        Form::Strided { .. } => input.flags &= !(1 << STREAMING),
        _ => input.flags = input.flags & !(1 << FA64) | 1 << STREAMING,
    }
}

fn stack(random: &mut Random, _: &Class, input: &mut Input) {
    input.word |= BASE.mask();
    input.flags |= 1 << SP_CHECK;
    input.sp = random.number() | 1 << random.below(4);
}
