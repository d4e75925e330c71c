//! Strided stores of all elements or nearly, and of those that a wider counter leaves, in a window that
//! often ends where they do.

use super::aim::{set_counter, strided};
use super::classes::{Class, CLASSES};
use super::counters::STRIDED;
use super::generate;
use super::input::Input;
use crate::random::Random;
use crate::LONGEST;

/// The input with this number: the same in every run.
pub fn input(number: u64) -> Input {
    let mut random = Random::new(number + 1);
    let class = &CLASSES[random.pick(STRIDED) as usize - 1];
    let mut input = generate::allowed(&mut random, class);
    let value = counter_value(&mut random, class, input.vb);
    let active = set_counter(value, class, &mut input);
    let low = active.first().map_or(0, |first| *first);
    let high = active.last().map_or(low, |last| last + class.esize as u64 / 8);
    let [before, behind] = [(); 2].map(|()| random.below(2) * random.below(40));
    let span = (high - low) as usize + before + behind;
    let length = match random.below(16) {
        0 => span.saturating_sub(1),
        1 => LONGEST,
        _ => span,
    };
    input.base = generate::base(&mut random, length);
    input.memory = random.bytes(length);
    let start = input.base.wrapping_add(before as u64).wrapping_sub(low);
    strided(&mut random, class, start, &mut input);
    input
}

/// A counter of any element size, by which all elements of that size in the store's registers are
/// active, all but few, or few.
fn counter_value(random: &mut Random, class: &Class, vb: usize) -> u16 {
    let lowest = random.below(4);
    let whole = (class.elements(vb) * class.esize / 8) >> lowest;
    let kept = match random.below(8) {
        0..=2 => whole,
        3..=5 => whole - random.below(whole.min(4)),
        6 => random.below(4),
        _ => random.below(whole + 1),
    };
    let inverted = random.one_in(2) || kept << lowest == 4 * vb;
    let count = if inverted { whole - kept } else { kept } as u16;
    u16::from(inverted) << 15 | (count << 1 | 1) << lowest
}
