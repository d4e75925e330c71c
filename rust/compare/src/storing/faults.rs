//! Elements that fault, by how they lie to the window: what the stores have to hit of it.

use super::arm::Element;
use super::groups::CLASS;
use super::input::Input;
use super::subject::Subject;
use crate::verdicts::FAULT;
use crate::LONGEST;

/// What a fault names.
pub struct Fault<'a> {
    pub number: u64,
    pub element: &'a Element,
    /// The address of its first byte outside.
    pub address: u64,
}

impl Fault<'_> {
    /// The number of that byte in the element.
    pub fn byte(&self) -> u64 {
        self.address.wrapping_sub(self.element.address)
    }
}

impl Subject {
    /// The fault that is right.
    pub fn fault(&self) -> Option<Fault<'_>> {
        let refusal = self.right.as_ref().err().filter(|outcome| outcome.verdict == FAULT)?;
        let [number, address, ..] = refusal.numbers;
        Some(Fault { number, element: &self.elements()[number as usize], address })
    }
}

/// A kind of elements that fault, and the classes that have it.
pub struct Kind {
    pub name: &'static str,
    pub classes: &'static [u64],
    holds: fn(&Input, &Element) -> bool,
}

/// Classes whose elements have several bytes.
const WIDE: &[u64] = &[
    1, 2, 3, 4, 8, 9, 10, 11, 12, 13, 14, 15, 16, 17, 18, 19, 20, 21, 22, 23, 24, 29, 30, 31, 32,
    33, 34, 35, 36,
];
/// Those of them whose elements have more than two.
const LONG: &[u64] = &[1, 2, 3, 4, 8, 9, 10, 11, 12, 19, 20, 21, 22, 23, 24, 33, 34, 35, 36];

pub const KINDS: &[Kind] = &[
    kind("below the window", CLASS, |input, element| element.end() <= start(input)),
    kind("from below into it", WIDE, |input, element| {
        let last = element.end() - 1;
        first(element) < start(input) && (start(input)..input.end()).contains(&last)
    }),
    kind("from below to behind it", LONG, |input, element| {
        let covers = first(element) < start(input) && input.end() < element.end();
        covers && !input.memory.is_empty()
    }),
    kind("from inside out of it", WIDE, starts_inside),
    kind("from inside the longest", WIDE, |input, element| {
        starts_inside(input, element) && input.memory.len() == LONGEST
    }),
    kind("from inside one at 0", WIDE, |input, element| {
        starts_inside(input, element) && input.base == 0
    }),
    kind("from inside past 2^64", WIDE, |input, element| {
        starts_inside(input, element) && element.end() > 1 << 64
    }),
    kind("past 2^64 into one at 0", WIDE, |input, element| {
        element.end() > 1 << 64 && input.base == 0 && !input.memory.is_empty()
    }),
    kind("just behind it", CLASS, |input, element| first(element) == input.end()),
    kind("behind it", CLASS, |input, element| first(element) > input.end()),
    kind("at 0, window up to 2^64", CLASS, |input, element| {
        element.address == 0 && input.end() == 1 << 64
    }),
    kind("window at 0", CLASS, |input, _| input.base == 0),
    kind("no window", CLASS, |input, _| input.memory.is_empty()),
    kind("no window, element there", CLASS, |input, element| {
        input.memory.is_empty() && element.address == input.base
    }),
    kind("no window, inside an element", WIDE, |input, element| {
        let inside = first(element) < start(input) && start(input) < element.end();
        input.memory.is_empty() && inside
    }),
];

const fn kind(
    name: &'static str,
    classes: &'static [u64],
    holds: fn(&Input, &Element) -> bool,
) -> Kind {
    Kind { name, classes, holds }
}

fn first(element: &Element) -> u128 {
    element.address.into()
}

fn start(input: &Input) -> u128 {
    input.base.into()
}

/// Whether the first byte is in the window.
fn starts_inside(input: &Input, element: &Element) -> bool {
    (start(input)..input.end()).contains(&first(element))
}

impl Kind {
    /// The class of a store by whose fault the kind is hit.
    pub fn of(&self, subject: &Subject) -> Option<u64> {
        let fault = subject.fault().filter(|fault| (self.holds)(&subject.input, fault.element));
        fault.and_then(|_| subject.class())
    }
}
