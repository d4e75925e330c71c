//! Access to memory by a store that is defined and legal, element by element.

use super::active::Active;
use super::machine::Machine;
use super::refusal::Refusal;
use super::word::{decoded, Form};
use starshackle::{Extension, Flags, Store};

/// How a store finds its elements.
pub struct Access<'a> {
    machine: Machine<'a>,
    form: Form,
    store: Store,
    active: Active<'a>,
    base: u64,
    /// The index register, or the immediate in bytes.
    index: u64,
}

/// An element of a store.
pub struct Element<'a> {
    pub active: bool,
    pub address: u64,
    /// What it writes.
    pub bytes: &'a [u8],
}

impl<'a> Access<'a> {
    /// The access of a word's store, verdicts 4 to 6 being checked.
    pub fn new(machine: Machine<'a>, word: u32) -> Result<Access<'a>, Refusal> {
        let (class, store) = decoded(word).ok_or(Refusal::Undefined)?;
        let form = class.form;
        machine.allow(form)?;
        let active = match form {
            Form::Strided { .. } => Active::counter(machine.p(8 + store.predicate), machine.vb),
            _ => Active::Predicate(machine.p(store.predicate)),
        };
        let x = |register: u64, other| *machine.x.get(register as usize).unwrap_or(&other);
        let base = x(store.base, machine.sp);
        let index = match form {
            Form::Strided { immediate: true, .. } => (store.multiple * machine.vb as i64) as u64,
            Form::Strided { element, .. } => x(store.index, 0).wrapping_mul(element as u64),
            _ => x(store.index, 0),
        };
        let access = Access { machine, form, store, active, base, index };
        access.check_stack()?;
        Ok(access)
    }

    /// Verdict 6.
    fn check_stack(&self) -> Result<(), Refusal> {
        let from_sp = self.form != Form::Quadword && self.store.base == 31;
        let checked = from_sp && self.machine.has(Flags::SP_CHECK);
        if checked && self.machine.sp % 16 != 0 {
            let always = self.machine.has(Flags::SP_CHECK_NONE_ACTIVE);
            if always || self.elements().any(|element| element.active) {
                return Err(Refusal::Stack);
            }
        }
        Ok(())
    }

    /// The elements, active or not.
    pub fn elements(&self) -> impl Iterator<Item = Element<'a>> + '_ {
        let vb = self.machine.vb;
        let count = match self.form {
            Form::Scatter { element, .. } => vb / element,
            Form::Strided { registers, element, .. } => registers * vb / element,
            Form::Quadword => vb / 16,
        };
        (0..count).map(move |e| self.element(e))
    }

    fn element(&self, e: usize) -> Element<'a> {
        let register = self.store.register as usize;
        match self.form {
            Form::Scatter { element, stored, scale, .. } => {
                let from = e * element;
                let address = self.base.wrapping_add(self.offset(from) << scale);
                let bytes = &self.machine.z(register)[from..from + stored];
                Element { active: self.active.at(from), address, bytes }
            }
            Form::Strided { registers, element, .. } => {
                let each = self.machine.vb / element;
                let register = register + e / each * (16 / registers);
                let (place, from) = (e * element, e % each * element);
                let address = self.base.wrapping_add(self.index).wrapping_add(place as u64);
                let bytes = &self.machine.z(register)[from..from + element];
                Element { active: self.active.at(place), address, bytes }
            }
            Form::Quadword => {
                let from = e * 16;
                let base = number(&self.machine.z(self.store.base as usize)[from..]);
                let address = base.wrapping_add(self.index);
                let bytes = &self.machine.z(register)[from..from + 16];
                Element { active: self.active.at(from), address, bytes }
            }
        }
    }

    /// The offset that stands from this byte of its register on.
    fn offset(&self, from: usize) -> u64 {
        let bytes = &self.machine.z(self.store.index as usize)[from..];
        let low = u32::from_le_bytes(bytes[..4].try_into().expect("four bytes"));
        match self.store.extension {
            None => number(bytes),
            Some(Extension::Uxtw) => u64::from(low),
            Some(Extension::Sxtw) => low as i32 as u64,
        }
    }
}

/// The doubleword at the start of some bytes.
fn number(bytes: &[u8]) -> u64 {
    u64::from_le_bytes(bytes[..8].try_into().expect("eight bytes"))
}
