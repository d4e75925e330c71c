//! Narrow strided stores done wrongly.

use super::{changed, is_found, then, with_elements, Element, Subject};
use crate::storing::arm::{self, counter, counter_to_predicate, refused};
use crate::storing::classes::{Class, Form, IMM4};
use crate::storing::input::Input;
use crate::storing::Store;
use crate::verdicts::{DONE, NO_ROOM};

/// A right implementation but for the elements of strided stores.
fn strided(change: impl Fn(&Input, &Class, &mut [Element]) + Sync + 'static) -> Box<Store> {
    with_elements(move |input, class, elements| {
        if matches!(class.form, Form::Strided { .. }) {
            change(input, class, elements);
        }
    })
}

/// The same, where the store has another start: so many bytes are added.
fn moved(by: impl Fn(&Input, &Class) -> u64 + Sync + 'static) -> Box<Store> {
    strided(move |input, class, elements| {
        let by = by(input, class);
        elements.iter_mut().for_each(|element| element.address = element.address.wrapping_add(by));
    })
}

/// The same, where an element's activity is read at another bit of the mask.
fn by_bit(bit: impl Fn(&Class, usize) -> usize + Sync + 'static) -> Box<Store> {
    strided(move |input, class, elements| {
        let mask = counter_to_predicate(counter(input), input.vb);
        for (e, element) in elements.iter_mut().enumerate() {
            element.active = mask.get(bit(class, e)).map_or(false, |bit| *bit);
        }
    })
}

/// The bytes of an element.
fn size(class: &Class) -> u64 {
    class.esize as u64 / 8
}

/// The bytes of a counter's element, 1 where it has none.
fn unit(input: &Input) -> u64 {
    match counter(input)[0] & 15 {
        0 => 1,
        low => 1 << low.trailing_zeros(),
    }
}

/// The immediate of a class that has one, in two's complement, times its registers.
fn immediate(input: &Input, class: &Class) -> u64 {
    match class.form {
        Form::Strided { registers, immediate: true } => {
            let signed = (IMM4.of(input.word) as i64 ^ 8) - 8;
            (signed * registers as i64) as u64
        }
        _ => 0,
    }
}

/// The scalar index of a class that has one.
fn index(input: &Input, class: &Class) -> u64 {
    match class.form {
        Form::Strided { immediate: false, .. } => arm::index(input),
        _ => 0,
    }
}

#[test]
fn wrong_mask_bits() {
    for (name, store) in [
        ("8 times the number", by_bit(|_, e| 8 * e)),
        ("the number", by_bit(|_, e| e)),
        ("the number times the bits", by_bit(|class, e| e * class.esize)),
        ("that of the element's last byte", { by_bit(|class, e| (e + 1) * class.esize / 8 - 1) }),
        ("any of the counter's element", {
            strided(|input, class, elements| {
                let mask = counter_to_predicate(counter(input), input.vb);
                let (size, unit) = (class.esize / 8, unit(input) as usize);
                for (e, element) in elements.iter_mut().enumerate() {
                    element.active = mask[e * size / unit.max(size) * unit.max(size)];
                }
            })
        }),
        ("within each register", {
            strided(|input, class, elements| {
                let mask = counter_to_predicate(counter(input), input.vb);
                let size = class.esize / 8;
                for (e, element) in elements.iter_mut().enumerate() {
                    element.active = mask[e * size % input.vb];
                }
            })
        }),
    ] {
        is_found(name, &*store);
    }
}

#[test]
fn wrong_addresses() {
    for (name, store) in [
        ("the index scaled by 8", {
            moved(|input, class| index(input, class).wrapping_mul(8 - size(class)))
        }),
        ("the index not scaled", {
            moved(|input, class| index(input, class).wrapping_mul(1u64.wrapping_sub(size(class))))
        }),
        ("the displacement by the element's bytes", {
            moved(|input, class| {
                let less = size(class).wrapping_sub(input.vb as u64);
                immediate(input, class).wrapping_mul(less)
            })
        }),
        ("the displacement as that of doublewords", {
            moved(|input, class| {
                let right = input.vb as u64;
                immediate(input, class).wrapping_mul((right * size(class) / 8).wrapping_sub(right))
            })
        }),
        ("a step of the counter's size", {
            strided(|input, class, elements| {
                let less = unit(input).wrapping_sub(size(class));
                for (e, element) in elements.iter_mut().enumerate() {
                    element.address = element.address.wrapping_add(less.wrapping_mul(e as u64));
                }
            })
        }),
        ("a step of 8", {
            strided(|_, class, elements| {
                for (e, element) in elements.iter_mut().enumerate() {
                    element.address = element.address.wrapping_add((8 - size(class)) * e as u64);
                }
            })
        }),
        ("a gap closed", {
            strided(|_, class, elements| {
                let first = elements.iter().find(|element| element.active);
                let mut next = first.map_or(0, |element| element.address);
                for element in elements.iter_mut().filter(|element| element.active) {
                    element.address = next;
                    next = next.wrapping_add(size(class));
                }
            })
        }),
        ("registers one apart", {
            strided(|input, class, elements| {
                let Class { form, .. } = class;
                let stride = if matches!(form, Form::Strided { registers: 2, .. }) { 7 } else { 3 };
                let each = input.vb / (class.esize / 8);
                for (e, element) in elements.iter_mut().enumerate() {
                    element.index -= e / each * stride * input.vb;
                    let bytes = &input.z[element.index..][..element.size];
                    let number = bytes.iter().rfold(0, |n, &byte| n << 8 | u128::from(byte));
                    element.value = number;
                }
            })
        }),
    ] {
        is_found(name, &*store);
    }
}

#[test]
fn gaps_filled() {
    let filled = strided(|_, _, elements| {
        let first = elements.iter().position(|element| element.active);
        let last = elements.iter().rposition(|element| element.active);
        if let (Some(first), Some(last)) = (first, last) {
            elements[first..=last].iter_mut().for_each(|element| element.active = true);
        }
    });
    is_found("all from the first to the last", &*filled);
}

/// A right implementation with other steps of strided stores.
fn counting(steps: impl Fn(&Subject, usize) -> usize + Sync + 'static) -> Box<Store> {
    changed(move |subject| {
        let other = subject.right.as_ref().ok().map(|effect| steps(subject, effect.steps));
        if let (Ok(effect), Some(other)) = (&mut subject.right, other) {
            effect.steps = other;
        }
    })
}

#[test]
fn wrong_steps_and_sizes() {
    for (name, store) in [
        ("one step under a wider counter", {
            counting(|subject, right| match subject.is_strided() {
                true => right.min(1),
                false => right,
            })
        }),
        ("up to 64 steps", counting(|_, right| right.min(64))),
        ("65 runs refused", {
            changed(|subject| {
                if subject.right.as_ref().map_or(false, |effect| effect.runs > 64) {
                    subject.right = Err(refused(NO_ROOM));
                }
            })
        }),
        ("512 runs refused", {
            changed(|subject| {
                if subject.right.as_ref().map_or(false, |effect| effect.runs > 511) {
                    subject.right = Err(refused(NO_ROOM));
                }
            })
        }),
        ("a patch of more than 1,040 bytes refused", {
            changed(|subject| {
                if subject.right.as_ref().map_or(false, |effect| effect.patch.len() > 1_040) {
                    subject.right = Err(refused(NO_ROOM));
                }
            })
        }),
        ("the number of runs in one byte", {
            then(|verdict, _, lent| {
                if verdict == DONE {
                    lent.buffer[lent.answer[4] as usize - 1] = 0;
                }
                verdict
            })
        }),
    ] {
        is_found(name, &*store);
    }
}
