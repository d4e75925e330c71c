//! Elements found wrongly.

use super::{is_found, with_elements};
use crate::storing::bits::{bit, elem};
use crate::storing::classes::{Form, INDEX, PREDICATE};
use crate::storing::input::Input;

/// A bit of the predicate that governs a store.
fn governing(input: &Input, number: usize) -> bool {
    let first = PREDICATE.of(input.word) * input.vb;
    bit(&input.p, first + number)
}

#[test]
fn wrong_activity() {
    for (name, store) in [
        (
            "by bit e",
            with_elements(|input, class, elements| {
                if !matches!(class.form, Form::Strided { .. }) {
                    for (e, element) in elements.iter_mut().enumerate() {
                        element.active = governing(input, e);
                    }
                }
            }),
        ),
        (
            "by the bit above the first",
            with_elements(|input, class, elements| {
                if !matches!(class.form, Form::Strided { .. }) {
                    for (e, element) in elements.iter_mut().enumerate() {
                        element.active = governing(input, e * class.esize / 8 + 1);
                    }
                }
            }),
        ),
        (
            "by a counter without its bit 15",
            with_elements(|input, class, elements| {
                let from = (8 + PREDICATE.of(input.word)) * input.vb;
                if matches!(class.form, Form::Strided { .. }) && bit(&input.p, from + 15) {
                    elements.iter_mut().for_each(|element| element.active = !element.active);
                }
            }),
        ),
    ] {
        is_found(name, &*store);
    }
}

#[test]
fn wrong_orders() {
    let descending = with_elements(|_, _, elements| elements.reverse());
    is_found("an earlier one wins in memory and patch", &*descending);
}

#[test]
fn wrong_addresses() {
    for (name, store) in [
        (
            "an offset not cut to 32 bits",
            with_elements(|input, class, elements| {
                let scale = match class.form {
                    Form::Scatter { offset: 32, scale } if class.esize == 64 => scale,
                    _ => return,
                };
                let offsets = &input.z[INDEX.of(input.word) * input.vb..];
                for (e, element) in elements.iter_mut().enumerate() {
                    let high = elem(offsets, 2 * e + 1, 32, 32) as u64;
                    element.address = element.address.wrapping_add(high << 32 << scale);
                }
            }),
        ),
        (
            "advanced for active elements only",
            with_elements(|_, class, elements| {
                if matches!(class.form, Form::Strided { .. }) {
                    let mut address = elements[0].address;
                    for element in elements {
                        element.address = address;
                        address =
                            address.wrapping_add(element.size as u64 * u64::from(element.active));
                    }
                }
            }),
        ),
    ] {
        is_found(name, &*store);
    }
}
