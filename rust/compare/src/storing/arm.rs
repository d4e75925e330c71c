//! A store as Arm's pages and the scope paper tell it: bit by bit and byte by byte.

use super::bits::{bit, elem, number, sign_extended};
use super::classes::{
    class_of, Class, Form, BASE, CLASSES, IMM4, INDEX, PREDICATE, R31, T, XS, ZT, ZT2, ZT3,
};
use super::input::Input;
use crate::reference::Outcome;
use crate::verdicts::{DONE, FAULT, ILLEGAL, LENGTH, OVERLAP, REGISTERS, STACK, UNDEFINED, WINDOW};
use crate::LONGEST;
use std::collections::BTreeSet;

/// The vector lengths, in bytes, of the late edition, and of both with streaming on.
pub const LENGTHS: [usize; 5] = [16, 32, 64, 128, 256];

// Flags by their bits.
pub const SVE: u32 = 0;
pub const SME2: u32 = 1;
pub const SVE2P1: u32 = 2;
pub const STREAMING: u32 = 3;
pub const FA64: u32 = 4;
pub const SP_CHECK: u32 = 5;
pub const SP_CHECK_NONE_ACTIVE: u32 = 6;
pub const STRICT: u32 = 7;
/// The early edition.
pub const EARLY: u32 = 8;

/// An element of a store.
#[derive(Clone)]
pub struct Element {
    pub active: bool,
    pub address: u64,
    /// The index of its first byte in the Z buffer.
    pub index: usize,
    /// What it writes, in bytes.
    pub size: usize,
    /// The bits that it writes.
    pub(super) value: u128,
}

impl Element {
    /// The addresses of its bytes; past 2^64 there are none in any window.
    pub fn addresses(&self) -> impl Iterator<Item = u128> {
        let first = u128::from(self.address);
        (0..self.size).map(move |k| first + k as u128)
    }

    /// The address behind its last byte.
    pub fn end(&self) -> u128 {
        u128::from(self.address) + self.size as u128
    }

    pub fn byte(&self, k: usize) -> u8 {
        (self.value >> (8 * k) & 0xFF) as u8
    }
}

/// The elements of a store, or the verdict that keeps it from having any. Of the flags only edition
/// and streaming count, in verdict 1.
pub type Elements = Result<Vec<Element>, u64>;

pub fn elements(input: &Input) -> Elements {
    let class = class_of(input.word).map(|number| &CLASSES[number]);
    let strided = class.map_or(false, |class| matches!(class.form, Form::Strided { .. }));
    if strided && !LENGTHS.contains(&input.vb) {
        return Err(LENGTH);
    }
    registers_lent(input)?;
    Ok(elements_of(input, class.ok_or(UNDEFINED)?))
}

/// What is said of element `e` among these.
pub fn element(elements: &Elements, e: u64) -> Outcome<5> {
    let elements = match elements {
        Err(verdict) => return Outcome { verdict: *verdict, numbers: [0; 5] },
        Ok(elements) => elements,
    };
    let mut numbers = [0, 0, 0, 0, elements.len() as u64];
    if let Some((_, one)) = elements.iter().enumerate().find(|(number, _)| *number as u64 == e) {
        let first = [u64::from(one.active), one.address, one.index as u64, one.size as u64];
        numbers[..4].copy_from_slice(&first);
    }
    Outcome { verdict: DONE, numbers }
}

/// Whether VB may be any multiple of 16 up to 256, and needn't be one of the five.
pub fn any_multiple(flags: u64) -> bool {
    flags >> EARLY & 1 == 1 && flags >> STREAMING & 1 == 0
}

/// The rule of the input's edition in its mode.
pub fn length_allowed(input: &Input) -> bool {
    match any_multiple(input.flags) {
        true => (1..=16).any(|quadwords| quadwords * 16 == input.vb),
        false => LENGTHS.contains(&input.vb),
    }
}

fn registers_lent(input: &Input) -> Result<(), u64> {
    if !length_allowed(input) {
        return Err(LENGTH);
    }
    match (input.z.len(), input.p.len()) == (32 * input.vb, 2 * input.vb) {
        true => Ok(()),
        false => Err(REGISTERS),
    }
}

/// The elements of a store that none of the refusals 1 to 7 and 12 is due for.
pub fn judged<'a>(input: &Input, elements: &'a Elements) -> Result<&'a [Element], Outcome<6>> {
    let class = allowed(input).map_err(refused)?;
    let elements = elements.as_deref().map_err(|&verdict| refused(verdict))?;
    if stack_is_refused(input, class, elements) {
        return Err(refused(STACK));
    }
    let refusal = fault(input, elements).or_else(|| overlap(input, elements));
    match refusal {
        None => Ok(elements),
        Some(refusal) => Err(refusal),
    }
}

/// A refusal that returns zeros.
pub fn refused(verdict: u64) -> Outcome<6> {
    Outcome { verdict, numbers: [0; 6] }
}

/// The class of a store whose elements may be looked at.
pub fn allowed(input: &Input) -> Result<&'static Class, u64> {
    registers_lent(input)?;
    if input.memory.len() > LONGEST || input.end() > 1 << 64 {
        return Err(WINDOW);
    }
    let class = &CLASSES[class_of(input.word).ok_or(UNDEFINED)?];
    let (feature, legal) = match class.form {
        Form::Scatter { .. } => (SVE, non_streaming(input)),
        Form::Strided { .. } => (SME2, flag(input, STREAMING)),
        Form::Quadword => (SVE2P1, non_streaming(input)),
    };
    match (flag(input, feature), legal) {
        (false, _) => Err(UNDEFINED),
        (true, false) => Err(ILLEGAL),
        (true, true) => Ok(class),
    }
}

fn flag(input: &Input, bit: u32) -> bool {
    input.flags >> bit & 1 == 1
}

/// `CheckNonStreamingSVEEnabled`
fn non_streaming(input: &Input) -> bool {
    !flag(input, STREAMING) || flag(input, FA64)
}

/// `CheckSPAlignment`, where it is called at all.
fn stack_is_refused(input: &Input, class: &Class, elements: &[Element]) -> bool {
    let from_sp = class.form != Form::Quadword && BASE.of(input.word) == R31;
    let active = || elements.iter().any(|element| element.active);
    let checked = flag(input, SP_CHECK) && (flag(input, SP_CHECK_NONE_ACTIVE) || active());
    from_sp && checked && input.sp % 16 != 0
}

/// The refusal for the lowest active element with a byte outside the window: its number, and the
/// address of the byte.
pub fn fault(input: &Input, elements: &[Element]) -> Option<Outcome<6>> {
    let window = u128::from(input.base)..input.end();
    let outside = |element: &Element| element.addresses().any(|byte| !window.contains(&byte));
    let e = elements.iter().position(|element| element.active && outside(element))?;
    let address = byte_outside(input, &elements[e]).expect("modulo 2^64 a byte is outside too");
    Some(Outcome { verdict: FAULT, numbers: [e as u64, address, 0, 0, 0, 0] })
}

/// The refusal of a strict store for the lowest active element with a byte that a lower active one
/// has too: its number, and its first address.
pub fn overlap(input: &Input, elements: &[Element]) -> Option<Outcome<6>> {
    let e = twice(elements).filter(|_| flag(input, STRICT))?;
    Some(Outcome { verdict: OVERLAP, numbers: [e as u64, elements[e].address, 0, 0, 0, 0] })
}

/// The lowest active element with a byte that a lower active one has too.
pub fn twice(elements: &[Element]) -> Option<usize> {
    let mut written = BTreeSet::new();
    elements.iter().position(|element| {
        // Every byte is put, also behind one that is there already.
        let new = |byte: u128| written.insert(byte);
        element.active && element.addresses().map(new).filter(|new| !new).count() > 0
    })
}

/// The address, modulo 2^64, of the first of an element's bytes that isn't in the window.
fn byte_outside(input: &Input, element: &Element) -> Option<u64> {
    for byte in element.addresses() {
        let address = byte % (1 << 64);
        if address < input.base.into() || address >= input.end() {
            return Some(address as u64);
        }
    }
    None
}

/// Writes the active elements to the window's memory, in ascending number.
pub fn write(base: u64, elements: &[Element], memory: &mut [u8]) {
    for element in elements.iter().filter(|element| element.active) {
        for (k, address) in element.addresses().enumerate() {
            memory[(address - u128::from(base)) as usize] = element.byte(k);
        }
    }
}

fn elements_of(input: &Input, class: &Class) -> Vec<Element> {
    match class.form {
        Form::Scatter { offset, scale } => scatter(input, class, offset, scale),
        Form::Strided { registers, immediate } => strided(input, class, registers, immediate),
        Form::Quadword => quadword(input, class),
    }
}

fn z(input: &Input, register: usize) -> &[u8] {
    &input.z[register * input.vb..][..input.vb]
}

fn p(input: &Input, register: usize) -> &[u8] {
    &input.p[register * input.vb / 8..][..input.vb / 8]
}

/// `if n == 31 then SP[] else X[n, 64]`
pub fn base(input: &Input) -> u64 {
    *input.x.get(BASE.of(input.word)).unwrap_or(&input.sp)
}

/// `X[m, 64]`, which is zero for 31.
pub fn index(input: &Input) -> u64 {
    *input.x.get(INDEX.of(input.word)).unwrap_or(&0)
}

/// Element `e` of a register, with the part of it that goes to memory.
fn of_register(
    input: &Input,
    class: &Class,
    register: usize,
    e: usize,
    (active, address): (bool, u64),
) -> Element {
    let index = register * input.vb + e * class.esize / 8;
    let value = elem(z(input, register), e, class.esize, class.msize);
    Element { active, address, index, size: class.msize / 8, value }
}

fn scatter(input: &Input, class: &Class, offset_size: usize, scale: u32) -> Vec<Element> {
    let (word, esize) = (input.word, class.esize);
    let mask = p(input, PREDICATE.of(word));
    let of = |e| {
        let scaled = offset(input, class, offset_size, e) << scale;
        let address = base(input).wrapping_add(scaled as u64);
        of_register(input, class, ZT.of(word), e, (bit(mask, e * esize / 8), address))
    };
    (0..class.elements(input.vb)).map(of).collect()
}

/// The offset of element `e`: the low `size` bits of the offset element, extended as named.
pub fn offset(input: &Input, class: &Class, size: usize, e: usize) -> i128 {
    let cut = elem(z(input, INDEX.of(input.word)), e, class.esize, size) as u64;
    match size == 32 && XS.of(input.word) == 1 {
        true => (sign_extended(cut, size) as i64).into(),
        false => cut.into(),
    }
}

fn quadword(input: &Input, class: &Class) -> Vec<Element> {
    let mask = p(input, PREDICATE.of(input.word));
    let bases = z(input, BASE.of(input.word));
    let of = |e| {
        let address = (elem(bases, 2 * e, 64, 64) as u64).wrapping_add(index(input));
        of_register(input, class, ZT.of(input.word), e, (bit(mask, e * 16), address))
    };
    (0..class.elements(input.vb)).map(of).collect()
}

/// Document 02 (vii): "The scalar index and the step from element to element are the element's bytes;
/// an element's mask bit is its number times those bytes; the immediate displacement is unchanged."
fn strided(input: &Input, class: &Class, registers: usize, immediate: bool) -> Vec<Element> {
    let (word, bytes) = (input.word, class.esize / 8);
    let mask = counter_to_predicate(counter(input), input.vb);
    let (first, stride) = match registers {
        2 => (ZT3.of(word), 8),
        _ => (ZT2.of(word), 4),
    };
    let displacement = match immediate {
        true => sign_extended(IMM4.of(word) as u64, 4).wrapping_mul((registers * input.vb) as u64),
        false => index(input).wrapping_mul(bytes as u64),
    };
    let mut address = base(input).wrapping_add(displacement);
    let mut elements = Vec::new();
    for r in 0..registers {
        let register = T.of(word) * 16 + first + r * stride;
        for e in 0..input.vb / bytes {
            let active = mask[(r * (input.vb / bytes) + e) * bytes];
            elements.push(of_register(input, class, register, e, (active, address)));
            address = address.wrapping_add(bytes as u64);
        }
    }
    elements
}

/// `CounterToPredicate`: the mask over four registers, a bit for each of their bytes.
pub fn counter_to_predicate(counter: &[u8], vb: usize) -> Vec<bool> {
    mask_up_to(maxbit(vb), counter, vb)
}

/// Arm's `maxbit`, `HighestSetBit(CeilPow2(PL * 4))`, where a predicate register has PL bits: as many
/// as a vector register has bytes.
pub fn maxbit(vb: usize) -> usize {
    (0..16).find(|&bit| 4 * vb <= 1 << bit).expect("vectors are short")
}

/// The mask of a counter whose count goes up to this bit; those above it, but for bit 15, are ignored.
pub fn mask_up_to(highest: usize, counter: &[u8], vb: usize) -> Vec<bool> {
    let mut mask = vec![false; 4 * vb];
    if let Some(lowest) = (0..4).find(|&number| bit(counter, number)) {
        let count = number((lowest + 1..=highest).map(|above| bit(counter, above))) as usize;
        let inverted = bit(counter, 15);
        for (k, first) in mask.iter_mut().step_by(1 << lowest).enumerate() {
            *first = if inverted { k >= count } else { k < count };
        }
    }
    mask
}

/// The register with the counter of a strided store, from its lowest byte.
pub fn counter(input: &Input) -> &[u8] {
    p(input, 8 + PREDICATE.of(input.word))
}
