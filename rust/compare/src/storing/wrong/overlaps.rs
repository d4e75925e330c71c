//! Stores that hit a byte twice, refused wrongly; all else is right.

use super::{changed, is_found, Element};
use crate::reference::Outcome;
use crate::report::Report;
use crate::storing::arm::{self, fault, refused, twice, STRICT};
use crate::storing::effect::Effect;
use crate::storing::sharing::shared;
use crate::storing::{compare, Store, Subject};
use crate::verdicts::{FAULT, NO_ROOM, OVERLAP};

/// A right implementation, but for which element is refused with 12 where none before it is due.
fn named_by(named: impl Fn(&Subject) -> Option<usize> + Sync + 'static) -> Box<Store> {
    changed(move |subject| {
        let passed = match &subject.right {
            Ok(_) => true,
            Err(refusal) => refusal.verdict == OVERLAP,
        };
        if passed {
            subject.right = match named(subject) {
                Some(e) => Err(naming(e, subject.elements()[e].address)),
                None => Ok(Effect::of(subject.elements())),
            };
        }
    })
}

fn naming(e: usize, address: u64) -> Outcome<6> {
    Outcome { verdict: OVERLAP, numbers: [e as u64, address, 0, 0, 0, 0] }
}

/// The lowest active element of a strict store that shares, in this sense, with a lower active one.
fn lowest(shares: impl Fn(&Element, &Element) -> bool + Sync + 'static) -> Box<Store> {
    named_by(move |subject| {
        let active = numbers(subject.elements(), |element| element.active);
        let with = |e: usize, d: usize| shares(&subject.elements()[d], &subject.elements()[e]);
        let lower = |e: &usize| active.iter().take_while(|d| *d < e).any(|d| with(*e, *d));
        active.iter().copied().find(|e| lower(e)).filter(|_| subject.is_strict())
    })
}

/// An element of those of a strict store that share a byte with a lower active one.
fn of_those(one: fn(&[usize]) -> Option<&usize>) -> Box<Store> {
    named_by(move |subject| {
        let elements = subject.elements();
        let shares = |e: usize| {
            let lower = elements[..e].iter().filter(|element| element.active);
            elements[e].active && lower.clone().any(|other| shared(&elements[e], other) > 0)
        };
        let those: Vec<usize> = (0..elements.len()).filter(|e| shares(*e)).collect();
        one(&those).copied().filter(|_| subject.is_strict())
    })
}

/// A right implementation with other numbers in its refusals with 12.
fn with(numbers: impl Fn(&Subject) -> [u64; 2] + Sync + 'static) -> Box<Store> {
    changed(move |subject| {
        let other = subject.overlap().map(|_| numbers(subject));
        if let (Err(refusal), Some(other)) = (&mut subject.right, other) {
            refusal.numbers[..2].copy_from_slice(&other);
        }
    })
}

/// A right implementation that takes other flags for strict.
fn strict_if(strict: impl Fn(u64) -> bool + Sync + 'static) -> Box<Store> {
    named_by(move |subject| twice(subject.elements()).filter(|_| strict(subject.input.flags)))
}

/// The numbers of the elements of which something holds.
fn numbers(elements: &[Element], holds: fn(&Element) -> bool) -> Vec<usize> {
    (0..elements.len()).filter(|e| holds(&elements[*e])).collect()
}

fn touches(one: &Element, other: &Element) -> bool {
    one.end() == other.address.into() || other.end() == one.address.into()
}

#[test]
fn right_ones_are_right() {
    for store in [
        lowest(|one, other| shared(one, other) > 0),
        of_those(|those| those.first()),
        strict_if(|flags| flags >> STRICT & 1 == 1),
    ] {
        let report = Report::default();
        compare(&report, &*store, 8_000, 2);
        assert_eq!(report.differences(), 0);
    }
}

#[test]
fn other_elements() {
    for (name, store) in [
        ("touching elements", lowest(|one, other| shared(one, other) > 0 || touches(one, other))),
        (
            "one that touches from above",
            lowest(|one, other| shared(one, other) > 0 || one.end() == other.address.into()),
        ),
        ("only at the same address", lowest(|one, other| one.address == other.address)),
        (
            "not at the same address",
            lowest(|one, other| shared(one, other) > 0 && one.address != other.address),
        ),
        ("not by one byte", lowest(|one, other| shared(one, other) > one.size.min(2) - 1)),
        (
            "only from above",
            lowest(|one, other| shared(one, other) > 0 && one.address <= other.address),
        ),
        (
            "only from below",
            lowest(|one, other| shared(one, other) > 0 && one.address >= other.address),
        ),
        ("the highest", of_those(|those| those.last())),
        ("the second", of_those(|those| those.get(1).or_else(|| those.first()))),
        ("not element 1", of_those(|those| those.iter().find(|e| **e > 1))),
        (
            "every one with an active element",
            named_by(|subject| {
                numbers(subject.elements(), |e| e.active)
                    .first()
                    .copied()
                    .filter(|_| subject.is_strict())
            }),
        ),
    ] {
        is_found(name, &*store);
    }
}

#[test]
fn other_partners() {
    for (name, store) in [
        (
            "neighbours in number",
            named_by(|subject| {
                let shares = |two: &[Element]| {
                    two[0].active && two[1].active && shared(&two[0], &two[1]) > 0
                };
                let at = subject.elements().windows(2).position(shares).map(|e| e + 1);
                at.filter(|_| subject.is_strict())
            }),
        ),
        (
            "neighbours of the active ones",
            named_by(|subject| {
                let active = numbers(subject.elements(), |element| element.active);
                let shares = |two: &&[usize]| {
                    shared(&subject.elements()[two[0]], &subject.elements()[two[1]]) > 0
                };
                active.windows(2).find(shares).map(|two| two[1]).filter(|_| subject.is_strict())
            }),
        ),
        (
            "the first active one",
            named_by(|subject| {
                let active = numbers(subject.elements(), |element| element.active);
                let first = &subject.elements()[*active.first()?];
                let shares = |e: &&usize| shared(first, &subject.elements()[**e]) > 0;
                active[1..].iter().find(shares).copied().filter(|_| subject.is_strict())
            }),
        ),
        (
            "inactive ones too",
            named_by(|subject| {
                let all: Vec<Element> = subject.elements().to_vec();
                let all: Vec<Element> =
                    all.into_iter().map(|element| Element { active: true, ..element }).collect();
                twice(&all).filter(|e| subject.is_strict() && subject.elements()[*e].active)
            }),
        ),
    ] {
        is_found(name, &*store);
    }
}

#[test]
fn other_numbers() {
    for (name, store) in [
        ("zeros", with(|_| [0, 0])),
        ("no element", with(|s| [0, s.overlap().unwrap().element.address])),
        ("no address", with(|s| [s.overlap().unwrap().number as u64, 0])),
        (
            "exchanged",
            with(|s| {
                let overlap = s.overlap().unwrap();
                [overlap.element.address, overlap.number as u64]
            }),
        ),
        (
            "the lower one",
            with(|s| {
                let overlap = s.overlap().unwrap();
                [overlap.lower as u64, overlap.other.address]
            }),
        ),
        (
            "the lower one's address",
            with(|s| {
                let overlap = s.overlap().unwrap();
                [overlap.number as u64, overlap.other.address]
            }),
        ),
        (
            "the shared byte's address",
            with(|s| {
                let overlap = s.overlap().unwrap();
                [overlap.number as u64, overlap.element.address.max(overlap.other.address)]
            }),
        ),
        (
            "its last address",
            with(|s| {
                let overlap = s.overlap().unwrap();
                [overlap.number as u64, (overlap.element.end() - 1) as u64]
            }),
        ),
        (
            "its offset in the window",
            with(|s| {
                let overlap = s.overlap().unwrap();
                [overlap.number as u64, overlap.element.address.wrapping_sub(s.input.base)]
            }),
        ),
        (
            "its number among the active ones",
            with(|s| {
                let overlap = s.overlap().unwrap();
                let active = numbers(s.elements(), |element| element.active);
                let number = active.iter().position(|e| *e == overlap.number).unwrap();
                [number as u64, overlap.element.address]
            }),
        ),
    ] {
        is_found(name, &*store);
    }
}

#[test]
fn other_flags() {
    for (name, store) in [
        ("never", strict_if(|_| false)),
        ("always", strict_if(|_| true)),
        ("by bit 8", strict_if(|flags| flags >> (STRICT + 1) & 1 == 1)),
        ("by bit 6", strict_if(|flags| flags >> (STRICT - 1) & 1 == 1)),
        ("the other way round", strict_if(|flags| flags >> STRICT & 1 == 0)),
        ("by any bit from 7 on", strict_if(|flags| flags >> STRICT != 0)),
    ] {
        is_found(name, &*store);
    }
}

#[test]
fn other_places() {
    for (name, store) in [
        (
            "12 before 7",
            changed(|subject| {
                let refused = subject.right.as_ref().err().map(|refusal| refusal.verdict);
                if let (Some(FAULT), Some(other)) =
                    (refused, arm::overlap(&subject.input, subject.elements()))
                {
                    subject.right = Err(other);
                }
            }),
        ),
        (
            "12 before 7 below the element that faults",
            changed(|subject| {
                let fault = subject.fault().map(|fault| fault.number as usize);
                let below = fault.map(|e| arm::overlap(&subject.input, &subject.elements()[..e]));
                if let Some(Some(other)) = below {
                    subject.right = Err(other);
                }
            }),
        ),
        (
            "7 of elements that overlap is 12",
            changed(|subject| {
                let outside = |element: &Element| {
                    fault(&subject.input, std::slice::from_ref(element)).is_some()
                };
                let active = subject.elements().iter().enumerate().filter(|(_, e)| e.active);
                let first = active.clone().find(|(_, element)| outside(element));
                let shares = |(e, one): (usize, &Element)| {
                    active.clone().any(|(d, other)| d < e && shared(one, other) > 0)
                };
                if let Some((e, one)) =
                    first.filter(|(e, one)| subject.is_strict() && shares((*e, one)))
                {
                    if subject.fault().is_some() {
                        subject.right = Err(naming(e, one.address));
                    }
                }
            }),
        ),
        (
            "12 after 8",
            super::ending(|subject, lent| {
                let short =
                    subject.room_of_overlap(lent.buffer.len()).map_or(false, |kind| kind < 3);
                if short {
                    *lent.answer = refused(NO_ROOM).numbers;
                    return NO_ROOM;
                }
                super::end(&subject, lent)
            }),
        ),
        (
            "12 and written",
            super::then(|verdict, subject, lent| {
                if verdict == OVERLAP {
                    arm::write(subject.input.base, subject.elements(), lent.memory);
                }
                verdict
            }),
        ),
        (
            "12 and its patch",
            super::then(|verdict, subject, lent| {
                if verdict == OVERLAP {
                    let patch = Effect::of(subject.elements()).patch;
                    lent.buffer.iter_mut().zip(&patch).for_each(|(byte, own)| *byte = *own);
                }
                verdict
            }),
        ),
    ] {
        is_found(name, &*store);
    }
}
