//! Halfwords and words stored wrongly, and words beside their classes taken.

use super::{changed, is_found, with_elements, Element, Subject};
use crate::storing::arm::{self, FA64, SP_CHECK, SVE, SVE2P1};
use crate::storing::bits::elem;
use crate::storing::classes::{Class, Form, INDEX, XS, ZT};
use crate::storing::input::Input;
use crate::storing::Store;

/// Whether the class stores halfwords or words.
fn is_narrow(class: &Class) -> bool {
    matches!(class.msize, 16 | 32)
}

/// A right implementation but for the elements of halfwords and words, each of which is changed with
/// its number.
fn each(change: impl Fn(&Input, &Class, usize, &mut Element) + Sync + 'static) -> Box<Store> {
    with_elements(move |input, class, elements| {
        for (e, element) in elements.iter_mut().enumerate().filter(|_| is_narrow(class)) {
            change(input, class, e, element);
        }
    })
}

/// The same, at an offset that is scaled otherwise where something holds of the class and its scale.
fn scaled(by: u32, holds: impl Fn(&Class, u32) -> bool + Sync + 'static) -> Box<Store> {
    each(move |input, class, e, element| {
        if let Form::Scatter { offset: size, scale } = class.form {
            if holds(class, scale) {
                let offset = arm::offset(input, class, size, e) << by;
                element.address = arm::base(input).wrapping_add(offset as u64);
            }
        }
    })
}

/// The same, with this part of the register: so many bits, from so many behind the element's first.
fn storing(part: impl Fn(&Class) -> (usize, usize) + Sync + 'static) -> Box<Store> {
    each(move |input, class, e, element| {
        let (behind, bits) = part(class);
        let register = &input.z[ZT.of(input.word) * input.vb..];
        let number = elem(register, e, class.esize, behind + bits) >> behind;
        (element.value, element.size) = (number, bits / 8);
    })
}

/// A right implementation of another input, where something holds of the word.
fn taking(holds: fn(u32) -> bool, other: impl Fn(&mut Input) + Sync + 'static) -> Box<Store> {
    changed(move |subject| {
        let mut input = subject.input.clone();
        if holds(input.word) {
            other(&mut input);
            *subject = Subject::new(0, input);
        }
    })
}

/// Bits 31..25, 24..23, 22..21 and 15..13.
fn places(word: u32) -> (u32, u32, u32, u32) {
    (word >> 25, word >> 23 & 3, word >> 21 & 3, word >> 13 & 7)
}

fn is_narrow_word(word: u32) -> bool {
    let (top, size, width, form) = places(word);
    let offsets = matches!(form, 4 | 6) || form == 5 && width < 2;
    top == 0b111_0010 && matches!(size, 1 | 2) && offsets
}

#[test]
fn wrong_scales() {
    for (name, store) in [
        ("halfwords by 4", scaled(2, |class, scale| class.msize == 16 && scale == 1)),
        ("words by 2", scaled(1, |class, scale| class.msize == 32 && scale == 2)),
        ("by 8", scaled(3, |_, scale| scale > 0)),
        ("not at all", scaled(0, |_, scale| scale > 0)),
        ("where it is unscaled", scaled(1, |_, scale| scale == 0)),
        ("not at all in a .S form", scaled(0, |class, _| class.esize == 32)),
    ] {
        is_found(name, &*store);
    }
}

#[test]
fn wrong_parts() {
    for (name, store) in [
        ("the upper half", storing(|class| (class.esize / 2, class.msize.min(class.esize / 2)))),
        ("all that the register has", storing(|class| (0, class.esize))),
        (
            "a word's upper half with it",
            storing(|class| (0, if class.msize == 32 { class.esize } else { class.msize })),
        ),
        ("a word for a halfword", storing(|_| (0, 32))),
        ("a halfword for a word", storing(|_| (0, 16))),
        ("a byte", storing(|_| (0, 8))),
        ("without its first byte", storing(|class| (8, class.msize - 8))),
        (
            "with its bytes exchanged",
            each(|_, class, _, element| {
                element.value = element.value.swap_bytes() >> (128 - class.msize);
            }),
        ),
    ] {
        is_found(name, &*store);
    }
}

#[test]
fn wrong_offsets() {
    for (name, store) in [
        (
            "elements of 64 bits in a .S form",
            taking(
                |word| is_narrow_word(word) && word >> 22 & 1 == 1,
                |input| input.word &= !(1 << 22),
            ),
        ),
        (
            "of 64 bits in a .S form",
            each(|input, class, e, element| {
                let scale = match class.form {
                    Form::Scatter { scale, .. } if class.esize == 32 => scale,
                    _ => return,
                };
                let offsets = &input.z[INDEX.of(input.word) * input.vb..][..input.vb];
                if e + 1 < class.elements(input.vb) {
                    let high = elem(offsets, e + 1, 32, 32) as u64;
                    element.address = element.address.wrapping_add(high << 32 << scale);
                }
            }),
        ),
        (
            "without their sign in a .S form",
            each(|input, class, e, element| {
                if let Form::Scatter { offset: 32, scale } = class.form {
                    if class.esize == 32 && arm::offset(input, class, 32, e) < 0 {
                        element.address = element.address.wrapping_add(1 << 32 << scale);
                    }
                }
            }),
        ),
        (
            "with a sign under UXTW",
            each(|input, class, e, element| {
                if let Form::Scatter { offset: 32, scale } = class.form {
                    let offset = arm::offset(input, class, 32, e);
                    if XS.of(input.word) == 0 && offset >= 1 << 31 {
                        element.address = element.address.wrapping_sub(1 << 32 << scale);
                    }
                }
            }),
        ),
        (
            "whose scaled part past 32 bits is lost",
            each(|input, class, e, element| {
                if let Form::Scatter { offset: 32, scale } = class.form {
                    let offset = (arm::offset(input, class, 32, e) << scale) as u64;
                    let lost = offset >> 32 << 32;
                    let lost = if XS.of(input.word) == 0 { lost } else { 0 };
                    element.address = element.address.wrapping_sub(lost);
                }
            }),
        ),
    ] {
        is_found(name, &*store);
    }
}

#[test]
fn words_of_no_class() {
    for (name, store) in [
        (
            "scaled bytes",
            taking(
                |word| {
                    let (top, size, width, form) = places(word);
                    top == 0b111_0010 && size == 0 && width & 1 == 1 && matches!(form, 4..=6)
                },
                |input| input.word &= !(1 << 21),
            ),
        ),
        (
            "doublewords in a .S form",
            taking(
                |word| {
                    let (top, size, width, form) = places(word);
                    top == 0b111_0010 && size == 3 && width > 1 && matches!(form, 4 | 6)
                },
                |input| input.word &= !(1 << 22),
            ),
        ),
        (
            "64-bit offsets in a .S form",
            taking(
                |word| {
                    let (top, _, width, form) = places(word);
                    top == 0b111_0010 && width > 1 && form == 5
                },
                |input| input.word &= !(1 << 22),
            ),
        ),
    ] {
        is_found(name, &*store);
    }
}

#[test]
fn wrong_refusals() {
    for (name, store) in [
        (
            "none in streaming mode without FA64",
            taking(is_narrow_word, |input| input.flags |= 1 << FA64),
        ),
        ("none without SVE", taking(is_narrow_word, |input| input.flags |= 1 << SVE)),
        (
            "SVE2p1 needed",
            taking(is_narrow_word, |input| {
                if input.flags >> SVE2P1 & 1 == 0 {
                    input.flags &= !(1 << SVE);
                }
            }),
        ),
        ("none for the stack", taking(is_narrow_word, |input| input.flags &= !(1 << SP_CHECK))),
        ("all words", taking(is_narrow_word, |input| input.word = 0)),
    ] {
        is_found(name, &*store);
    }
}
