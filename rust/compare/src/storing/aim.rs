//! Registers under which a store writes into a window, over its ends or beside it.

use super::arm::counter_to_predicate;
use super::classes::{Class, Form, BASE, IMM4, INDEX, PREDICATE, R31, XS};
use super::input::Input;
use crate::random::Random;

/// An address and a number of bytes.
pub struct Window {
    pub base: u64,
    pub length: usize,
}

/// Sets the registers that the word names; what they don't decide stays as it is.
pub fn aim(random: &mut Random, class: &Class, window: &Window, input: &mut Input) {
    match class.form {
        Form::Strided { .. } => {
            let active = counter(random, class, input);
            let start = start(random, window, &active, class.esize as u64 / 8);
            strided(random, class, start, input);
        }
        _ => {
            let targets = targets(random, class, window, input);
            point(random, class, &targets, input);
        }
    }
}

/// Sets the registers by which the elements of a store that isn't strided lie at the targets.
pub fn point(random: &mut Random, class: &Class, targets: &[u64], input: &mut Input) {
    match class.form {
        Form::Scatter { offset, scale } => {
            scatter(random, class, (offset, scale), targets, input);
        }
        Form::Quadword => quadword(targets, input),
        Form::Strided { .. } => unreachable!("a strided store has no targets"),
    }
}

/// Gives the predicate register bits of which so many in eight are set, and tells which elements are
/// active by it.
pub fn predicate(
    random: &mut Random,
    class: &Class,
    density: usize,
    input: &mut Input,
) -> Vec<bool> {
    let step = class.esize / 8;
    let from = PREDICATE.of(input.word) * input.vb / 8;
    let firsts: Vec<bool> = (0..input.vb / step).map(|_| random.below(8) < density).collect();
    for (e, &first) in firsts.iter().enumerate() {
        let (byte, bit) = (from + e * step / 8, e * step % 8);
        input.p[byte] = input.p[byte] & !(1 << bit) | u8::from(first) << bit;
    }
    firsts
}

/// Sets the predicate and tells where the elements are wanted. Active ones are in the window, often
/// close together; in half of the stores only up to a stray element, which is often a late one.
fn targets(random: &mut Random, class: &Class, window: &Window, input: &mut Input) -> Vec<u64> {
    let density = random.pick(&[0, 1, 4, 7, 7, 8]);
    let active = predicate(random, class, density, input);
    let (count, size) = (active.len(), class.msize / 8);
    let room = (window.length + 1).saturating_sub(size);
    let spread = if random.one_in(2) { room } else { room.min(4 * size) };
    let home = random.below(room - spread + 1);
    let stray = match random.below(6) {
        0 => random.below(count),
        1 | 2 => count - 1 - random.below(count.min(3)),
        _ => count,
    };
    let mut target = |(e, &active): (usize, &bool)| {
        let strays = e == stray || e > stray && random.one_in(2) || !active && random.one_in(2);
        if strays || spread == 0 {
            beside(random, window, size)
        } else {
            window.base.wrapping_add((home + random.below(spread)) as u64)
        }
    };
    active.iter().enumerate().map(&mut target).collect()
}

/// An address at one of the window's ends, or anywhere.
fn beside(random: &mut Random, window: &Window, size: usize) -> u64 {
    let end = window.base.wrapping_add(window.length as u64);
    let near = (random.below(2 * size + 2) as u64).wrapping_sub(size as u64 + 1);
    match random.below(8) {
        0 => random.number(),
        1 => window.base ^ 1 << random.below(64),
        2..=4 => window.base.wrapping_add(near),
        _ => end.wrapping_add(near),
    }
}

/// Sets the base register, where it is SP often to a multiple of 16, and tells its value.
fn set_base(random: &mut Random, value: u64, input: &mut Input) -> u64 {
    match BASE.of(input.word) {
        R31 if random.one_in(2) => input.sp = value & !15,
        R31 => input.sp = value,
        register => input.x[register] = value,
    }
    *input.x.get(BASE.of(input.word)).unwrap_or(&input.sp)
}

/// Puts bytes into a register, from so many bytes behind its first on.
fn put(register: usize, from: usize, bytes: &[u8], input: &mut Input) {
    input.z[register * input.vb + from..][..bytes.len()].copy_from_slice(bytes);
}

/// A base at a random distance that offsets of so many bits reach, and the offsets from there.
fn scatter(
    random: &mut Random,
    class: &Class,
    (offset, scale): (usize, u32),
    targets: &[u64],
    input: &mut Input,
) {
    let narrow = offset == 32;
    let any = random.number() >> random.pick(&[0, 0, 32, 33, 60]);
    let distance = match (narrow, XS.of(input.word)) {
        (false, _) => any,
        (true, 0) => u64::from(any as u32),
        (true, _) => any as u32 as i32 as u64,
    };
    let first = targets[random.below(targets.len())];
    let base = set_base(random, first.wrapping_sub(distance << scale), input);
    for (e, target) in targets.iter().enumerate() {
        let dropped = if narrow { 0 } else { (random.number() as u128) << (64 - scale) };
        let offset = (target.wrapping_sub(base) as i64 >> scale) as u64 ^ dropped as u64;
        let bytes = offset.to_le_bytes();
        let kept = if narrow { &bytes[..4] } else { &bytes[..] };
        put(INDEX.of(input.word), e * class.esize / 8, kept, input);
    }
}

fn quadword(targets: &[u64], input: &mut Input) {
    let index = *input.x.get(INDEX.of(input.word)).unwrap_or(&0);
    for (e, target) in targets.iter().enumerate() {
        let base = target.wrapping_sub(index).to_le_bytes();
        put(BASE.of(input.word), 16 * e, &base, input);
    }
}

/// Sets the counter and tells where the active elements start, counted from the first element's first
/// byte.
pub fn counter(random: &mut Random, class: &Class, input: &mut Input) -> Vec<u64> {
    let (count, size) = (class.elements(input.vb), class.esize / 8);
    let border = match random.below(8) {
        0 => random.below(4 * input.vb / size + 1),
        1 => count,
        _ => random.below(count + 1),
    };
    let inverted = random.one_in(2);
    let value = counter_value(random, border * size, size, inverted, input.vb);
    set_counter(value, class, input)
}

/// Sets the counter to this value and tells where the active elements start.
pub fn set_counter(value: u16, class: &Class, input: &mut Input) -> Vec<u64> {
    let (vb, size) = (input.vb, class.esize / 8);
    let from = (8 + PREDICATE.of(input.word)) * vb / 8;
    input.p[from..from + 2].copy_from_slice(&value.to_le_bytes());
    let mask = counter_to_predicate(&value.to_le_bytes(), vb);
    let bytes = (0..class.elements(vb) * size).step_by(size);
    bytes.filter(|&byte| mask[byte]).map(|byte| byte as u64).collect()
}

/// A counter, of any element size, by which the elements of so many bytes are active that start below
/// a border, or those from it on, where they start an element of the counter; sometimes another one.
/// In many of them bits above the count's highest are set.
fn counter_value(
    random: &mut Random,
    border: usize,
    size: usize,
    inverted: bool,
    vb: usize,
) -> u16 {
    let lowest = random.below(4);
    let each = size >> lowest;
    let count = match each {
        0 => border >> lowest,
        _ => (border >> lowest).saturating_sub(random.below(each)),
    } as u16;
    // A count of the mask's elements, all of them, has no room, and is said by the inverse of none.
    let (count, inverted) = match usize::from(count) << lowest {
        bytes if bytes == 4 * vb => (0, !inverted),
        _ => (count, inverted),
    };
    let top = u16::from(inverted) << 15;
    let ignored = match random.below(4) {
        0 => random.number() as u16,
        1 => 1 << random.below(16),
        _ => 0,
    };
    match random.below(16) {
        0 => random.number() as u16 & 0x7FF0 | top,
        1 => random.number() as u16,
        _ => (count << 1 | 1) << lowest | ignored & 0x7FFF & !(8 * vb as u16 - 1) | top,
    }
}

/// Where a store starts whose active elements, of so many bytes, are to lie in the window, or nearly.
fn start(random: &mut Random, window: &Window, active: &[u64], size: u64) -> u64 {
    let length = window.length as u64;
    let low = active.first().map_or(0, |first| *first);
    let high = active.last().map_or(low, |last| last + size);
    let at_base = window.base.wrapping_sub(low);
    let at_end = window.base.wrapping_add(length).wrapping_sub(high);
    let near = random.pick(&[0, 0, 0, 1, size - 1, size]);
    match random.below(8) {
        0 => at_base.wrapping_add(near),
        1 => at_base.wrapping_sub(near),
        2 => at_end.wrapping_sub(near),
        3 => at_end.wrapping_add(near),
        4 if high > low => at_end.wrapping_add(high - random.pick(active)),
        5 => at_base.wrapping_add(near).wrapping_add(random.below(3) as u64),
        _ if length >= high - low => {
            at_base.wrapping_add(random.below((length - (high - low)) as usize + 1) as u64)
        }
        _ => beside(random, window, size as usize),
    }
}

/// A register with which a base and an index of so many bytes, both of them this register, make an
/// address; of an odd one and an index of bytes the address below.
fn both(random: &mut Random, address: u64, size: u64) -> u64 {
    match size {
        1 => address >> 1 | random.number() & 1 << 63,
        // What is odd has an inverse modulo 2^64: each step doubles its right bits.
        _ => {
            let odd = size + 1;
            let step = |inverse: u64, _| {
                inverse.wrapping_mul(2u64.wrapping_sub(odd.wrapping_mul(inverse)))
            };
            address.wrapping_mul((0..6).fold(1, step))
        }
    }
}

/// Sets the registers by which a strided store starts there.
pub fn strided(random: &mut Random, class: &Class, start: u64, input: &mut Input) {
    let (registers, immediate) = match class.form {
        Form::Strided { registers, immediate } => (registers, immediate),
        _ => unreachable!("only a strided store has a start"),
    };
    let (m, n) = (INDEX.of(input.word), BASE.of(input.word));
    let size = class.esize as u64 / 8;
    let base = match immediate {
        true => {
            let imm4 = (IMM4.of(input.word) as i64 ^ 8) - 8;
            start.wrapping_sub((imm4 * (registers * input.vb) as i64) as u64)
        }
        false if m == n && m < R31 => both(random, start, size),
        false => {
            if m < R31 {
                input.x[m] >>= random.pick(&[0, 0, 32, 52, 60]);
            }
            start.wrapping_sub(input.x.get(m).unwrap_or(&0).wrapping_mul(size))
        }
    };
    set_base(random, base, input);
}
