//! Elements that share a byte with a lower one, by how they lie to it: what the stores have to hit of
//! it.

use super::arm::{fault, twice, Element, STRICT};
use super::effect::Effect;
use super::groups::{CLASS, OVERLAPPING, SCATTER, UNSCALED};
use super::subject::Subject;
use crate::verdicts::{FAULT, OVERLAP};

/// What a refusal with 12 names, and the lowest active element with which it shares a byte.
pub struct Overlap<'a> {
    pub number: usize,
    pub element: &'a Element,
    pub lower: usize,
    pub other: &'a Element,
}

/// How many bytes two elements share.
pub fn shared(one: &Element, other: &Element) -> usize {
    one.addresses().filter(|byte| other.addresses().any(|own| own == *byte)).count()
}

impl Overlap<'_> {
    fn bytes(&self) -> usize {
        shared(self.element, self.other)
    }
}

impl Subject {
    pub fn is_strict(&self) -> bool {
        self.input.flags >> STRICT & 1 == 1
    }

    /// The overlap that is right to refuse.
    pub fn overlap(&self) -> Option<Overlap<'_>> {
        let refusal = self.right.as_ref().err().filter(|outcome| outcome.verdict == OVERLAP)?;
        let number = refusal.numbers[0] as usize;
        let (elements, element) = (self.elements(), &self.elements()[number]);
        let shares =
            |lower: &usize| elements[*lower].active && shared(&elements[*lower], element) > 0;
        let lower = (0..number).find(shares)?;
        Some(Overlap { number, element, lower, other: &elements[lower] })
    }

    /// Whether a buffer of this length has no byte (1), has too few for the patch that the store would
    /// have were it not strict (2), or has room for it (3), where 12 is right.
    pub fn room_of_overlap(&self, room: usize) -> Option<u64> {
        self.overlap()?;
        let length = Effect::of(self.elements()).patch.len();
        Some(match room {
            0 => 1,
            _ if room < length => 2,
            _ => 3,
        })
    }

    /// Whether an inactive element shares a byte with an active one.
    fn shares_inactive(&self) -> bool {
        let mut inactive = self.elements().iter().filter(|element| !element.active);
        inactive.any(|one| self.active().any(|other| shared(one, other) > 0))
    }

    /// Whether active elements that share a byte are lower than the one that faults.
    fn shares_below_fault(&self) -> bool {
        let fault = match self.right.as_ref().err().filter(|outcome| outcome.verdict == FAULT) {
            Some(fault) => fault.numbers[0] as usize,
            None => return false,
        };
        twice(&self.elements()[..fault]).is_some()
    }

    /// Whether active elements share a byte only where one of them lies outside the window.
    fn shares_outside(&self) -> bool {
        let outside =
            |element: &Element| fault(&self.input, std::slice::from_ref(element)).is_some();
        let inside = self.elements().iter().filter(|element| !outside(element));
        let inside: Vec<Element> = inside.cloned().collect();
        twice(self.elements()).is_some() && twice(&inside).is_none()
    }
}

/// A kind of strict stores, and the classes that have it.
pub struct Kind {
    pub name: &'static str,
    pub classes: &'static [u64],
    holds: fn(&Subject) -> bool,
}

pub const KINDS: &[Kind] = &[
    kind("refused", SCATTER, |s| s.overlap().is_some()),
    kind("at the same address", SCATTER, |s| refused(s, |o| o.element.address == o.other.address)),
    kind("by one byte of several", OVERLAPPING, |s| refused(s, |o| o.bytes() == 1)),
    kind("by all bytes but one", OVERLAPPING, |s| refused(s, |o| o.bytes() + 1 == o.element.size)),
    kind("from above", OVERLAPPING, |s| refused(s, |o| o.element.address > o.other.address)),
    kind("from below", OVERLAPPING, |s| refused(s, |o| o.element.address < o.other.address)),
    kind("with its neighbour", SCATTER, |s| refused(s, |o| o.lower + 1 == o.number)),
    kind("with one far apart in number", SCATTER, |s| refused(s, |o| o.lower + 2 < o.number)),
    kind("across inactive lanes alone", SCATTER, |s| {
        let active = |s: &Subject, o: &Overlap| {
            s.elements()[o.lower + 1..o.number].iter().any(|element| element.active)
        };
        s.overlap().map_or(false, |o| o.lower + 1 < o.number && !active(s, &o))
    }),
    kind("of element 1", SCATTER, |s| refused(s, |o| o.number == 1)),
    kind("of the last element", SCATTER, |s| {
        s.overlap().map_or(false, |o| o.number + 1 == s.elements().len())
    }),
    kind("of others behind it", SCATTER, |s| {
        s.overlap().map_or(false, |o| twice(&s.elements()[o.number..]).is_some())
    }),
    kind("at the window's first byte", SCATTER, |s| {
        s.overlap().map_or(false, |o| o.element.address.min(o.other.address) == s.input.base)
    }),
    kind("at the window's last byte", SCATTER, |s| {
        s.overlap().map_or(false, |o| o.element.end().max(o.other.end()) == s.input.end())
    }),
    kind("below one that faults", SCATTER, |s| s.is_strict() && s.shares_below_fault()),
    kind("with one that faults", OVERLAPPING, |s| {
        s.is_strict() && s.fault().is_some() && s.shares_outside()
    }),
    kind("none, done", CLASS, |s| s.is_strict() && s.right.is_ok()),
    kind("none, touching, done", CLASS, |s| done(s, touches)),
    kind("none, one byte between, done", UNSCALED, |s| done(s, is_near)),
    kind("of inactive ones, done", SCATTER, |s| done(s, Subject::shares_inactive)),
    kind("in a store that isn't strict", SCATTER, |s| {
        !s.is_strict() && s.right.is_ok() && twice(s.elements()).is_some()
    }),
];

const fn kind(name: &'static str, classes: &'static [u64], holds: fn(&Subject) -> bool) -> Kind {
    Kind { name, classes, holds }
}

/// Whether something holds of an overlap that is refused.
fn refused(subject: &Subject, holds: fn(&Overlap) -> bool) -> bool {
    subject.overlap().map_or(false, |overlap| holds(&overlap))
}

/// Whether something holds of a strict store that is done.
fn done(subject: &Subject, holds: fn(&Subject) -> bool) -> bool {
    subject.is_strict() && subject.right.is_ok() && holds(subject)
}

/// The gaps between active elements by address.
fn gaps(subject: &Subject) -> Vec<u128> {
    let mut places: Vec<(u128, u128)> =
        subject.active().map(|element| (element.address.into(), element.end())).collect();
    places.sort_unstable();
    places.windows(2).map(|two| two[1].0 - two[0].1).collect()
}

fn touches(subject: &Subject) -> bool {
    gaps(subject).contains(&0)
}

fn is_near(subject: &Subject) -> bool {
    gaps(subject).contains(&1)
}

impl Kind {
    /// The class of a store by which the kind is hit.
    pub fn of(&self, subject: &Subject) -> Option<u64> {
        subject.class().filter(|_| (self.holds)(subject))
    }
}
