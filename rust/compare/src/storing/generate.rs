//! Random stores: words, registers, windows and flags.

use super::aim::{aim, Window};
use super::arm::{any_multiple, EARLY, FA64, LENGTHS, SME2, STREAMING, STRICT, SVE, SVE2P1};
use super::classes::{Class, Form, BASE, CLASSES, INDEX};
use super::input::Input;
use super::spoil::spoil;
use crate::random::Random;
use crate::LONGEST;

/// The input with this number: the same in every run.
pub fn input(number: u64) -> Input {
    let mut random = Random::new(number + 1);
    let class = &CLASSES[random.below(CLASSES.len())];
    let mut input = allowed(&mut random, class);
    if random.one_in(3) {
        spoil(&mut random, class, &mut input);
    }
    input
}

/// A store of the class that none of the refusals 1 to 5 is due for.
pub fn allowed(random: &mut Random, class: &Class) -> Input {
    let flags = flags(random, class);
    let vb = length(random, flags);
    let window = window(random, vb * 4);
    let mut input = Input {
        vb,
        flags,
        x: [(); 31].map(|()| random.number()),
        sp: random.number(),
        z: random.bytes(32 * vb),
        p: random.bytes(2 * vb),
        base: window.base,
        memory: random.bytes(window.length),
        word: word(random, class),
    };
    aim(random, class, &window, &mut input);
    input
}

/// A vector length under these flags: often one of the five where there are others too.
fn length(random: &mut Random, flags: u64) -> usize {
    match any_multiple(flags) && !random.one_in(3) {
        true => 16 * (1 + random.below(16)),
        false => random.pick(&LENGTHS),
    }
}

/// A word of the class; registers are often number 31.
fn word(random: &mut Random, class: &Class) -> u32 {
    let mut word = class.base | random.number() as u32 & class.free();
    for field in [BASE, INDEX] {
        if random.one_in(4) {
            word |= field.mask() & class.free();
        }
    }
    word
}

/// A word that differs from the class's by some fixed bits, or any word.
pub fn other_word(random: &mut Random, class: &Class, word: u32) -> u32 {
    let any = random.number() as u32;
    match random.below(5) {
        0 => any,
        1 => word ^ any & 0x0000_600C & !class.free(),
        2 => word ^ any & 0x01E0_0000 & !class.free(),
        _ => word ^ 1 << random.below(32),
    }
}

/// Flags under which stores of the class are defined and legal, all others at random; one store in
/// four is strict.
fn flags(random: &mut Random, class: &Class) -> u64 {
    let mut flags = random.number();
    if random.one_in(2) {
        flags &= 0xFF | 1 << EARLY;
    }
    if random.one_in(2) {
        flags &= !(1 << STRICT);
    }
    flags |= 1 << feature(class);
    match class.form {
        Form::Strided { .. } => flags | 1 << STREAMING,
        _ if random.one_in(2) => flags & !(1 << STREAMING),
        _ => flags | 1 << FA64,
    }
}

/// The flag without which the class is undefined.
pub fn feature(class: &Class) -> u32 {
    match class.form {
        Form::Scatter { .. } => SVE,
        Form::Strided { .. } => SME2,
        Form::Quadword => SVE2P1,
    }
}

/// A window that is taken, for stores of up to about `span` bytes.
fn window(random: &mut Random, span: usize) -> Window {
    let length = match random.below(64) {
        0 | 1 => 0,
        2 => LONGEST,
        3..=9 => random.below(24),
        10..=24 => random.below(span),
        25..=50 => span + random.below(64),
        _ => random.below(4096),
    };
    Window { base: base(random, length), length }
}

/// Where a window of this length lies: often at an end of the address space.
pub fn base(random: &mut Random, length: usize) -> u64 {
    let highest = u64::MAX - (length as u64).saturating_sub(1);
    let near = random.below(64) as u64;
    let base = match random.below(8) {
        0 => 0,
        1 => near,
        2 | 3 => highest,
        4 => highest - near,
        5 => (1 << random.below(64)) - near.min(1),
        6 => 0x1000 + near,
        _ => random.number(),
    };
    base.min(highest)
}

/// A window that is refused.
pub fn bad_window(random: &mut Random) -> Window {
    let length = match random.below(20) {
        0..=3 => LONGEST + 1,
        4 => LONGEST + 2 + random.below(64),
        5 => 2 * LONGEST + random.below(64),
        6 | 7 => LONGEST,
        _ => 2 + random.below(300),
    };
    let over = 1 + random.below(length - 1) as u64;
    let last = (length as u64).wrapping_neg() + over.min(8);
    match (length > LONGEST, random.below(3)) {
        (true, 0) => Window { base: 0, length },
        (_, 1) => Window { base: u64::MAX, length },
        _ => Window { base: last, length },
    }
}
