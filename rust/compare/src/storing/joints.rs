//! Active elements and the active ones before them: what steps are counted by, and what the stores
//! have to hit of it.

use super::arm::Element;
use super::groups::{APART, CLASS, ONE_APART, SCATTER, UNSCALED};
use super::subject::Subject;

/// An active element and the active one before it.
pub struct Joint<'a> {
    pub one: &'a Element,
    pub next: &'a Element,
    /// The elements between them, none of which is active.
    pub between: &'a [Element],
}

/// The joints of a store's elements, in ascending number.
pub fn joints(elements: &[Element]) -> impl Iterator<Item = Joint<'_>> {
    let numbers = elements.iter().enumerate().filter(|(_, element)| element.active);
    let numbers = numbers.map(|(number, _)| number);
    numbers.clone().zip(numbers.skip(1)).map(|(one, next)| Joint {
        one: &elements[one],
        next: &elements[next],
        between: &elements[one + 1..next],
    })
}

impl Joint<'_> {
    /// Whether the element starts where the one before it ends.
    pub fn touches(&self) -> bool {
        self.distance() == 0
    }

    /// Where the element starts, counted from the end of the one before it.
    pub fn distance(&self) -> i128 {
        i128::from(self.next.address) - self.one.end() as i128
    }

    /// Whether each starts where the one before it ends once those between count too.
    fn is_filled(&self) -> bool {
        let (mut end, mut filled) = (self.one.end(), true);
        for element in self.between.iter().chain([self.next]) {
            filled &= u128::from(element.address) == end;
            end = element.end();
        }
        filled
    }

    /// Whether the one before ends where the window does, and the element starts where it starts.
    pub fn goes_round(&self, subject: &Subject) -> bool {
        self.one.end() == subject.input.end() && self.next.address == subject.input.base
    }
}

/// A kind of joints, and the classes that have it.
pub struct Kind {
    pub name: &'static str,
    pub classes: &'static [u64],
    holds: fn(&Subject, &Joint) -> bool,
}

pub const KINDS: &[Kind] = &[
    kind("next touches", CLASS, |_, joint| joint.touches()),
    kind("next touches across inactive lanes", SCATTER, |_, joint| {
        joint.touches() && !joint.between.is_empty()
    }),
    kind("next is apart across inactive lanes", APART, |_, joint| {
        !joint.touches() && !joint.between.is_empty()
    }),
    kind("apart by inactive lanes alone", APART, |_, joint| {
        !joint.between.is_empty() && joint.is_filled()
    }),
    kind("next overlaps by one byte", UNSCALED, |_, joint| joint.distance() == -1),
    kind("next behind a gap of one byte", ONE_APART, |_, joint| joint.distance() == 1),
    kind("next descends", SCATTER, |_, joint| joint.next.address < joint.one.address),
    kind("next ends where the one before starts", SCATTER, |_, joint| {
        joint.next.end() == u128::from(joint.one.address)
    }),
    kind("from the window's end to its start", SCATTER, |subject, joint| joint.goes_round(subject)),
    kind("within a whole contiguous register", CLASS, |subject, _| subject.is_whole()),
];

const fn kind(
    name: &'static str,
    classes: &'static [u64],
    holds: fn(&Subject, &Joint) -> bool,
) -> Kind {
    Kind { name, classes, holds }
}

/// Where an element of a joint may lie: at the window's first byte, at its last, at address 0, at
/// 2^64 - 1.
pub const PLACES: &[u64] = &[1, 2, 3, 4];

fn is_at(place: u64, element: &Element, subject: &Subject) -> bool {
    match place {
        1 => element.address == subject.input.base,
        2 => element.end() == subject.input.end(),
        3 => element.address == 0,
        _ => element.end() == 1 << 64,
    }
}

impl Kind {
    /// Whether a done store has such a joint, and the places of such joints.
    pub fn of(&self, subject: &Subject) -> (bool, Vec<u64>) {
        if subject.right.is_err() {
            return (false, Vec::new());
        }
        let such = || joints(subject.elements()).filter(|joint| (self.holds)(subject, joint));
        let at = |place, joint: &Joint| {
            is_at(place, joint.one, subject) || is_at(place, joint.next, subject)
        };
        let hit = |place: &u64| such().any(|joint| at(*place, &joint));
        (such().next().is_some(), PLACES.iter().copied().filter(hit).collect())
    }
}
