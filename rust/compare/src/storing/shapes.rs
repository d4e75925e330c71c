//! Stores whose elements lie as is wanted, and permuted forms of stores.

use super::aim::{point, predicate};
use super::arm::{length_allowed, Element, EARLY, LENGTHS};
use super::classes::{class_of, Class, Form, BASE, CLASSES, INDEX, PREDICATE, ZT};
use super::generate;
use super::input::Input;
use crate::random::Random;
use crate::LONGEST;

/// The input with this number, in half of the cases arranged: the same in every run.
pub fn input(number: u64) -> Input {
    let mut input = generate::input(number);
    // Others than the input's numbers.
    let mut random = Random::new(Random::new(number).number());
    if random.one_in(2) {
        arrange(&mut random, &mut input);
    }
    input
}

/// The class of a store whose registers are there and that isn't strided.
fn scattered(input: &Input) -> Option<&'static Class> {
    let there =
        length_allowed(input) && (input.z.len(), input.p.len()) == (32 * input.vb, 2 * input.vb);
    let class = &CLASSES[class_of(input.word).filter(|_| there)?];
    (!matches!(class.form, Form::Strided { .. })).then_some(class)
}

/// Lets the elements lie at steps of a kind, in an order, in a window that mostly has them all.
fn arrange(random: &mut Random, input: &mut Input) {
    let class = match scattered(input) {
        Some(class) => class,
        None => return,
    };
    if random.one_in(4) {
        alike(random, input);
    }
    let size = class.msize / 8;
    let (offsets, length) = match random.one_in(48) {
        true => around_the_end(random, class.elements(input.vb), size),
        false => in_order(random, class.elements(input.vb), size, unit(class)),
    };
    input.base = generate::base(random, length);
    input.memory = random.bytes(length);
    let target = |offset: &usize| input.base.wrapping_add(*offset as u64);
    let targets: Vec<u64> = offsets.iter().map(target).collect();
    let density = random.pick(&[1, 4, 7, 8, 8, 8]);
    predicate(random, class, density, input);
    point(random, class, &targets, input);
}

/// Offsets at steps of a kind, in an order, and the length of a window that mostly has them all.
fn in_order(random: &mut Random, count: usize, size: usize, unit: usize) -> (Vec<usize>, usize) {
    let mut offsets = ascending(random, count, size, unit);
    let span = offsets.last().map_or(0, |last| last + size);
    reorder(random, &mut offsets);
    let length = match random.below(8) {
        0 | 1 => span,
        2 => span - 1,
        3 if random.one_in(6) => LONGEST,
        _ => span + random.below(64),
    };
    let first = random.below(length.saturating_sub(span) + 1);
    offsets.iter_mut().for_each(|offset| *offset += first);
    (offsets, length)
}

/// Offsets in the longest window: element behind element, up to its end and on from its start.
fn around_the_end(random: &mut Random, count: usize, size: usize) -> (Vec<usize>, usize) {
    let first = LONGEST - size * (1 + random.below(count));
    ((0..count).map(|e| (first + e * size) % LONGEST).collect(), LONGEST)
}

/// The least distance of addresses.
pub fn unit(class: &Class) -> usize {
    match class.form {
        Form::Scatter { scale, .. } => 1 << scale,
        _ => 1,
    }
}

/// Fills the data's register with few different bytes.
fn alike(random: &mut Random, input: &mut Input) {
    let byte = random.number() as u8;
    let from = ZT.of(input.word) * input.vb;
    for one in &mut input.z[from..from + input.vb] {
        *one = byte ^ u8::from(random.one_in(8));
    }
}

/// Offsets from 0 on, each with its distance from the one before.
fn ascending(random: &mut Random, count: usize, size: usize, unit: usize) -> Vec<usize> {
    let kind = random.below(8);
    let mut offset = 0;
    let mut offsets = vec![offset];
    while offsets.len() < count {
        let kind = match kind {
            6 => random.below(6),
            7 if random.one_in(32) => 0,
            7 => 2,
            kind => kind,
        };
        let step = match kind {
            0 | 1 => size,
            2 => size + 1,
            3 => size + 1 + random.below(24),
            4 => random.below(size + 1),
            _ => random.below(4) / 3 * size,
        };
        offset += (step + unit - 1) / unit * unit;
        offsets.push(offset);
    }
    offsets
}

fn reorder(random: &mut Random, offsets: &mut [usize]) {
    let count = offsets.len();
    match random.below(6) {
        0 | 1 => {}
        2 => offsets.reverse(),
        3 => offsets.swap(random.below(count), random.below(count)),
        4 => offsets.rotate_left(random.below(count)),
        _ => shuffle(random, offsets),
    }
}

fn shuffle<T>(random: &mut Random, values: &mut [T]) {
    for last in (1..values.len()).rev() {
        values.swap(last, random.below(last + 1));
    }
}

/// The store with its elements permuted; of a strided one, two elements' bytes exchanged. Where both
/// editions have the length, it is often under the other one.
pub fn permuted(random: &mut Random, input: &Input, elements: &[Element]) -> Input {
    let mut other = input.clone();
    if LENGTHS.contains(&input.vb) && random.one_in(2) {
        other.flags ^= 1 << EARLY;
    }
    match scattered(input) {
        Some(class) => permute(random, class, input, &mut other),
        None => {
            let size = elements[0].size;
            let [one, two] = [(); 2].map(|()| elements[random.below(elements.len())].index);
            other.z[one..one + size].copy_from_slice(&input.z[two..two + size]);
            other.z[two..two + size].copy_from_slice(&input.z[one..one + size]);
        }
    }
    other
}

/// Gives each element the address, the bit and the data of another.
fn permute(random: &mut Random, class: &Class, input: &Input, other: &mut Input) {
    let (word, bytes) = (input.word, class.esize / 8);
    let addresses = if class.form == Form::Quadword { BASE } else { INDEX };
    let mask = PREDICATE.of(word) * input.vb / 8;
    let count = class.elements(input.vb);
    let mut order: Vec<usize> = (0..count).collect();
    match random.below(2) {
        0 => order.swap(0, random.below(count)),
        _ => shuffle(random, &mut order),
    }
    for (to, from) in order.into_iter().enumerate() {
        for register in [ZT.of(word), addresses.of(word)] {
            let element = |e| register * input.vb + e * bytes;
            let source = &input.z[element(from)..][..bytes];
            other.z[element(to)..][..bytes].copy_from_slice(source);
        }
        let bit = |e: usize| (mask + e * bytes / 8, e * bytes % 8);
        let ((from_byte, from_bit), (to_byte, to_bit)) = (bit(from), bit(to));
        let active = input.p[from_byte] >> from_bit & 1;
        other.p[to_byte] = other.p[to_byte] & !(1 << to_bit) | active << to_bit;
    }
}
