//! Stores that fault: an element lies over an end of the window or beside it. Windows are often
//! shorter than an element.

use super::aim::{counter, point, predicate, strided, Window};
use super::classes::{Class, Form, CLASSES};
use super::generate;
use super::input::Input;
use super::shapes::unit;
use crate::random::Random;
use crate::LONGEST;

/// The input with this number: the same in every run.
pub fn input(number: u64) -> Input {
    let mut random = Random::new(number + 1);
    let class = &CLASSES[random.below(CLASSES.len())];
    let mut input = generate::allowed(&mut random, class);
    let window = window(&mut random, class, input.vb);
    (input.base, input.memory) = (window.base, random.bytes(window.length));
    let wanted = wanted(&mut random, class, &window);
    match class.form {
        Form::Strided { .. } => {
            let active = counter(&mut random, class, &mut input);
            // In half of the stores it is the first active element.
            let number = random.below(2) * random.below(active.len().max(1));
            let start = wanted.wrapping_sub(*active.get(number).unwrap_or(&0));
            strided(&mut random, class, start, &mut input);
        }
        _ => {
            let targets = targets(&mut random, class, &window, wanted, &mut input);
            point(&mut random, class, &targets, &mut input);
        }
    }
    input
}

/// A window of no byte, of up to an element's bytes, or longer.
fn window(random: &mut Random, class: &Class, vb: usize) -> Window {
    let length = match random.below(32) {
        0..=2 => 0,
        3..=13 => 1 + random.below(class.msize / 8),
        14 | 15 => LONGEST,
        _ => 1 + random.below(4 * vb),
    };
    Window { base: generate::base(random, length), length }
}

/// Where the element lies that is to fault.
fn wanted(random: &mut Random, class: &Class, window: &Window) -> u64 {
    let size = class.msize / 8;
    let end = window.base.wrapping_add(window.length as u64);
    match random.below(8) {
        0..=2 => window.base.wrapping_sub(1 + random.below(size + 1) as u64),
        3..=5 => end.wrapping_sub(random.below(size) as u64),
        6 => end,
        _ => end.wrapping_add(1 + random.below(size + 1) as u64),
    }
}

/// Sets the predicate and tells where the elements lie: an active one where it is wanted, those before
/// it in the window where there is room, those behind it either way.
fn targets(
    random: &mut Random,
    class: &Class,
    window: &Window,
    wanted: u64,
    input: &mut Input,
) -> Vec<u64> {
    let density = random.pick(&[1, 4, 7, 8, 8]);
    let active = predicate(random, class, density, input);
    let numbers: Vec<usize> = (0..active.len()).filter(|&e| active[e]).collect();
    let stray = if numbers.is_empty() { 0 } else { random.pick(&numbers) };
    // Addresses that the same base reaches.
    let (size, unit) = (class.msize / 8, unit(class));
    let first = wanted.wrapping_sub(window.base) as usize % unit;
    let places = (window.length + unit).saturating_sub(first + size) / unit;
    let target = |e: usize| {
        if e == stray || places == 0 || e > stray && random.one_in(2) {
            wanted
        } else {
            window.base.wrapping_add((first + unit * random.below(places)) as u64)
        }
    };
    (0..active.len()).map(target).collect()
}
