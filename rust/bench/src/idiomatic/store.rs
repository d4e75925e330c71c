//! Running a store and making its patch, from an ordered map of byte writes.

use super::access::{Access, Element};
use super::encoding::encoded;
use super::machine::Machine;
use super::refusal::{answered, Done, Refusal};
use super::window::Window;
use starshackle::Flags;
use std::collections::{BTreeMap, BTreeSet};

/// As the model's, with the same arguments.
#[inline(never)]
#[allow(clippy::too_many_arguments)]
pub fn store(
    vb: usize,
    flags: u64,
    x: &[u64; 31],
    sp: u64,
    z: &[u8],
    p: &[u8],
    base: u64,
    memory: &mut [u8],
    word: u32,
    patch: &mut [u8],
    answer: &mut [u64; 6],
) -> u64 {
    let machine = Machine { vb, flags, x, sp, z, p };
    let result = try_store(machine, base, memory, word, patch);
    let mut numbers = [0; 5];
    let verdict = answered(result, &mut numbers);
    answer[..5].copy_from_slice(&numbers);
    answer[5] = result.map_or(0, |done| done.steps as u64);
    verdict
}

fn try_store(
    machine: Machine,
    base: u64,
    memory: &mut [u8],
    word: u32,
    patch: &mut [u8],
) -> Result<Done, Refusal> {
    machine.check()?;
    let window = Window::new(base, memory.len() as u64)?;
    let access = Access::new(machine, word)?;
    check_elements(&access, &window)?;
    if machine.has(Flags::STRICT) {
        check_bytes(&access)?;
    }
    let active = || access.elements().filter(|element| element.active);
    let mut writes = BTreeMap::new();
    let (mut done, mut end) = (Done::default(), None);
    for Element { address, bytes, .. } in active() {
        writes.extend((address..=u64::MAX).zip(bytes.iter().copied()));
        done.parts += 1;
        done.bytes += bytes.len();
        done.steps += usize::from(end != Some(address));
        end = address.checked_add(bytes.len() as u64);
    }
    let string = encoded(&writes);
    done.length = string.len();
    patch.get_mut(..string.len()).ok_or(Refusal::NoRoom)?.copy_from_slice(&string);
    for Element { address, bytes, .. } in active() {
        let offset = window.offset(address, bytes.len()).expect("the element was checked");
        memory[offset..offset + bytes.len()].copy_from_slice(bytes);
    }
    Ok(done)
}

/// Verdict 7.
fn check_elements(access: &Access, window: &Window) -> Result<(), Refusal> {
    for (number, Element { active, address, bytes }) in access.elements().enumerate() {
        if active && window.offset(address, bytes.len()).is_none() {
            let mut addresses = (0..bytes.len()).map(|k| address.wrapping_add(k as u64));
            let outside = addresses.find(|byte| window.offset(*byte, 1).is_none());
            let address = outside.expect("a byte of the element is outside");
            return Err(Refusal::Fault { element: number, address });
        }
    }
    Ok(())
}

/// Verdict 12.
fn check_bytes(access: &Access) -> Result<(), Refusal> {
    let mut written = BTreeSet::new();
    for (element, Element { active, address, bytes }) in access.elements().enumerate() {
        let mut addresses = (address..=u64::MAX).take(bytes.len());
        if active && !addresses.all(|byte| written.insert(byte)) {
            return Err(Refusal::Overlap { element, address });
        }
    }
    Ok(())
}
