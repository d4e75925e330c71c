//! Counters misread; all else is right.

use super::{is_found, with_elements};
use crate::report::Report;
use crate::storing::arm::{counter, mask_up_to, maxbit, LENGTHS};
use crate::storing::bits::bit;
use crate::storing::classes::{Class, Form};
use crate::storing::input::Input;
use crate::storing::{compare, Store};

/// A right implementation whose counts go up to another bit.
fn up_to(highest: impl Fn(&Input, &Class) -> usize + Sync + 'static) -> Box<Store> {
    with_elements(move |input, class, elements| {
        if matches!(class.form, Form::Strided { .. }) {
            let mask = mask_up_to(highest(input, class), counter(input), input.vb);
            for (element, mask) in elements.iter_mut().zip(mask.chunks(class.esize / 8)) {
                element.active = mask[0];
            }
        }
    })
}

/// Bit 14 where something holds of the counter, and else the right one.
fn up_to_14(holds: impl Fn(&Input, &[u8]) -> bool + Sync + 'static) -> Box<Store> {
    up_to(move |input, _| match holds(input, counter(input)) {
        true => 14,
        false => maxbit(input.vb),
    })
}

/// The highest bit of a number's binary form.
fn log2(number: usize) -> usize {
    (0..usize::BITS as usize).rev().find(|bit| number >> bit & 1 == 1).expect("it isn't 0")
}

fn lowest(counter: &[u8]) -> usize {
    (0..4).find(|&number| bit(counter, number)).unwrap_or(0)
}

#[test]
fn right_highest_bits_are_right() {
    let report = Report::default();
    compare(&report, &*up_to(|input, _| log2(4 * input.vb)), 8_000, 2);
    assert_eq!(report.differences(), 0);
}

#[test]
fn highest_bits() {
    for (name, store) in [
        ("bit 14", up_to(|_, _| 14)),
        ("a bit too few", up_to(|input, _| maxbit(input.vb) - 1)),
        ("a bit too many", up_to(|input, _| maxbit(input.vb) + 1)),
        ("log2(VB)", up_to(|input, _| log2(input.vb))),
        ("log2 of the store's own bytes", {
            up_to(|input, class| log2(class.elements(input.vb) * class.esize / 8))
        }),
        ("that of VB 16", up_to(|_, _| 6)),
        ("that of VB 256", up_to(|_, _| 10)),
        ("counted from the lowest set one", {
            up_to(|input, _| maxbit(input.vb) + lowest(counter(input)))
        }),
        ("as many bits for each element size", {
            up_to(|input, _| maxbit(input.vb) - 3 + lowest(counter(input)))
        }),
    ] {
        is_found(name, &*store);
    }
}

#[test]
fn bits_not_ignored() {
    for (name, store) in [
        ("under inversion", up_to_14(|_, counter| bit(counter, 15))),
        ("without inversion", up_to_14(|_, counter| !bit(counter, 15))),
        ("of counters of bytes", up_to_14(|_, counter| bit(counter, 0))),
        ("of counters of doublewords", up_to_14(|_, counter| counter[0] & 15 == 8)),
        ("of bit 14", up_to_14(|_, counter| bit(counter, 14))),
    ] {
        is_found(name, &*store);
    }
    for length in LENGTHS {
        let at_one_length = up_to_14(move |input, _| input.vb == length);
        is_found(&format!("at VB {length}"), &*at_one_length);
    }
}
