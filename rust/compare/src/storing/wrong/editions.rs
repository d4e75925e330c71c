//! The rules for the vector length applied wrongly; all else is right.

use super::{arm, changed, is_found, Subject};
use crate::report::Report;
use crate::storing::arm::{refused, EARLY, FA64, LENGTHS, STREAMING, SVE};
use crate::storing::input::Input;
use crate::storing::{compare, Store};
use crate::verdicts::{LENGTH, UNDEFINED};

/// A right implementation with another rule for the length. Where it takes one that is none, the store
/// is as under the early edition, if that has it.
fn by_rule(rule: impl Fn(&Input) -> bool + Sync + 'static) -> Box<Store> {
    changed(move |subject| {
        let (allowed, right) = (rule(&subject.input), arm::length_allowed(&subject.input));
        if !allowed {
            subject.right = Err(refused(LENGTH));
        } else if !right {
            let mut input = subject.input.clone();
            input.flags = input.flags & !(1 << STREAMING) | 1 << EARLY;
            *subject = Subject::new(0, input);
            if subject.verdict_is(LENGTH) {
                subject.right = Err(refused(UNDEFINED));
            }
        }
    })
}

impl Subject {
    fn verdict_is(&self, verdict: u64) -> bool {
        self.right.as_ref().err().map_or(false, |refusal| refusal.verdict == verdict)
    }
}

fn flag(input: &Input, bit: u32) -> bool {
    input.flags >> bit & 1 == 1
}

fn five(vb: usize) -> bool {
    LENGTHS.contains(&vb)
}

fn multiple(vb: usize) -> bool {
    vb % 16 == 0 && (16..=256).contains(&vb)
}

/// One of the five, or a length where this holds.
fn or_else(other: impl Fn(&Input) -> bool + Sync + 'static) -> Box<Store> {
    by_rule(move |input| five(input.vb) || other(input))
}

/// Any multiple where this holds, and else one of the five.
fn multiples_where(holds: impl Fn(&Input) -> bool + Sync + 'static) -> Box<Store> {
    by_rule(move |input| if holds(input) { multiple(input.vb) } else { five(input.vb) })
}

fn is_right(input: &Input) -> bool {
    flag(input, EARLY) && !flag(input, STREAMING)
}

#[test]
fn right_rules_are_right() {
    let report = Report::default();
    compare(&report, &*multiples_where(is_right), 8_000, 2);
    assert_eq!(report.differences(), 0);
}

#[test]
fn rules() {
    for (name, store) in [
        ("the early rule with streaming on", multiples_where(|input| flag(input, EARLY))),
        ("the late rule with the early edition", multiples_where(|_| false)),
        ("the early rule with the late edition", multiples_where(|input| !flag(input, STREAMING))),
        ("the early rule with streaming on alone", {
            multiples_where(|input| flag(input, EARLY) && flag(input, STREAMING))
        }),
        ("the editions exchanged", {
            multiples_where(|input| !flag(input, EARLY) && !flag(input, STREAMING))
        }),
        ("the early rule everywhere", multiples_where(|_| true)),
        ("the early rule with FA64 too", {
            multiples_where(|input| {
                flag(input, EARLY) && (!flag(input, STREAMING) || flag(input, FA64))
            })
        }),
        ("the early rule where SVE is on", {
            multiples_where(|input| is_right(input) && flag(input, SVE))
        }),
        ("the edition in bit 7", {
            multiples_where(|input| flag(input, 7) && !flag(input, STREAMING))
        }),
        ("the edition in bit 9", {
            multiples_where(|input| flag(input, 9) && !flag(input, STREAMING))
        }),
    ] {
        is_found(name, &*store);
    }
}

#[test]
fn lengths() {
    for (name, store) in [
        ("multiples of 8", or_else(|i| is_right(i) && i.vb % 8 == 0 && (16..=256).contains(&i.vb))),
        ("0", or_else(|i| is_right(i) && i.vb % 16 == 0 && i.vb <= 256)),
        ("272", or_else(|i| is_right(i) && i.vb % 16 == 0 && (16..=272).contains(&i.vb))),
        ("512", or_else(|i| is_right(i) && i.vb % 16 == 0 && (16..=512).contains(&i.vb))),
        ("not 240", or_else(|i| is_right(i) && multiple(i.vb) && i.vb != 240)),
        ("multiples of 32", or_else(|i| is_right(i) && multiple(i.vb) && i.vb % 32 == 0)),
        (
            "a length cut to 32 bits",
            by_rule(|i| {
                let vb = i.vb as u32 as usize;
                if is_right(i) {
                    multiple(vb)
                } else {
                    five(vb)
                }
            }),
        ),
        (
            "a length cut to 16 bits",
            by_rule(|i| {
                let vb = i.vb as u16 as usize;
                if is_right(i) {
                    multiple(vb)
                } else {
                    five(vb)
                }
            }),
        ),
    ] {
        is_found(name, &*store);
    }
}
