//! Stores whose active elements lie in stretches, each element where the active one before it ends;
//! and stretches that are broken in the ways that there are.

use super::aim::{point, predicate};
use super::classes::{Class, CLASSES};
use super::generate;
use super::groups::SCATTER;
use super::input::Input;
use super::shapes::unit;
use crate::random::Random;
use crate::LONGEST;

/// The input with this number: the same in every run.
pub fn input(number: u64) -> Input {
    let mut random = Random::new(number + 1);
    let class = &CLASSES[random.pick(SCATTER) as usize - 1];
    let mut input = generate::allowed(&mut random, class);
    stretch(&mut random, class, &mut input);
    input
}

/// Lets the elements lie in stretches, in a window that mostly has all active ones.
fn stretch(random: &mut Random, class: &Class, input: &mut Input) {
    let density = random.pick(&[8, 8, 8, 7, 7, 6, 4, 1]);
    let active = predicate(random, class, density, input);
    let size = class.msize as i64 / 8;
    let (offsets, length) = match random.below(6) {
        0 => around(random, active.len() as i64, size),
        _ => {
            let mut offsets = in_a_row(random, &active, size, unit(class) as i64);
            let length = framed(random, &active, size, &mut offsets);
            (offsets, length)
        }
    };
    input.base = generate::base(random, length);
    input.memory = random.bytes(length);
    let target = |offset: &i64| input.base.wrapping_add(*offset as u64);
    let targets: Vec<u64> = offsets.iter().map(target).collect();
    point(random, class, &targets, input);
}

/// Offsets of element behind element, up to the end of a window that few more would fill, and on from
/// its start; and the window's length.
fn around(random: &mut Random, count: i64, size: i64) -> (Vec<i64>, usize) {
    let room = count + random.below(4) as i64;
    let first = random.below(room as usize) as i64;
    ((0..count).map(|e| (first + e) % room * size).collect(), (room * size) as usize)
}

/// Offsets of elements most of which start where the one before them ends: the active one before, or
/// an inactive one that fills its place.
fn in_a_row(random: &mut Random, active: &[bool], size: i64, unit: i64) -> Vec<i64> {
    // One element in so many is apart, one inactive lane in so many fills no place.
    let (broken, passed) = (random.pick(&[2, 4, 16, 64, 1_000]), random.pick(&[1, 2, 1_000]));
    let (mut start, mut end) = (0, 0);
    let mut offset = |active: &bool| {
        let own = match random.one_in(broken) {
            true => apart(random, start, end, size).div_euclid(unit) * unit,
            false => end,
        };
        if *active || !random.one_in(passed) {
            (start, end) = (own, own + size);
        }
        own
    };
    active.iter().map(&mut offset).collect()
}

/// Where an element lies that doesn't go on from one with this start and end.
fn apart(random: &mut Random, start: i64, end: i64, size: i64) -> i64 {
    match random.below(8) {
        0 | 1 => end - 1,
        2 | 3 => end + 1,
        4 => start - size,
        5 => start,
        6 => start - random.below(40) as i64,
        _ => end + random.below(40) as i64,
    }
}

/// Moves the offsets into a window whose ends are often those of the active elements, and tells its
/// length.
fn framed(random: &mut Random, active: &[bool], size: i64, offsets: &mut [i64]) -> usize {
    let own = || offsets.iter().zip(active).filter(|(_, &active)| active).map(|(offset, _)| offset);
    let (low, last) = (own().min().map_or(0, |low| *low), own().max().map(|last| last + size));
    let [before, behind] = [(); 2].map(|()| random.below(2) * random.below(40));
    let span = (last.unwrap_or(low) - low) as usize + before + behind;
    let length = match random.below(32) {
        0 => span.saturating_sub(1),
        1 => LONGEST,
        _ => span,
    };
    let spare = random.below(2) * length.saturating_sub(span);
    let first = (before + spare) as i64 - low;
    offsets.iter_mut().for_each(|offset| *offset += first);
    length
}
