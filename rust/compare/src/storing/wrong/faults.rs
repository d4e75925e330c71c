//! Faults that name another byte; all else is right.

use super::{changed, is_found, Element};
use crate::report::Report;
use crate::storing::faults::Fault;
use crate::storing::input::Input;
use crate::storing::{compare, Store, Subject};
use crate::LONGEST;

/// A right implementation with another address in its faults.
fn naming(address: impl Fn(&Subject, &Fault) -> u64 + Sync + 'static) -> Box<Store> {
    changed(move |subject| {
        let other = subject.fault().map(|fault| address(subject, &fault));
        if let (Err(refusal), Some(other)) = (&mut subject.right, other) {
            refusal.numbers[1] = other;
        }
    })
}

/// The element's first address where something holds.
fn first(holds: impl Fn(&Subject, &Fault) -> bool + Sync + 'static) -> Box<Store> {
    naming(move |subject, fault| match holds(subject, fault) {
        true => fault.element.address,
        false => fault.address,
    })
}

/// The element's first address, or this one where the byte there is in the window.
fn first_or(other: impl Fn(&Input) -> u64 + Sync + 'static) -> Box<Store> {
    naming(move |subject, fault| match is_inside(&subject.input, fault.element.address) {
        true => other(&subject.input),
        false => fault.element.address,
    })
}

/// One of the addresses of the bytes outside, which are in the element's order.
fn of_those(one: fn(&[u64]) -> Option<&u64>) -> Box<Store> {
    naming(move |subject, fault| {
        let outside = |address: &u64| !is_inside(&subject.input, *address);
        let outside: Vec<u64> = addresses(fault.element).filter(outside).collect();
        *one(&outside).expect("a byte is outside")
    })
}

fn addresses(element: &Element) -> impl Iterator<Item = u64> + '_ {
    (0..element.size).map(|k| element.address.wrapping_add(k as u64))
}

fn is_inside(input: &Input, address: u64) -> bool {
    address.wrapping_sub(input.base) < length(input)
}

/// How many bytes the window has.
fn length(input: &Input) -> u64 {
    input.memory.len() as u64
}

/// The address behind the window.
fn behind(input: &Input) -> u64 {
    input.base.wrapping_add(length(input))
}

#[test]
fn right_bytes_are_right() {
    for store in [first_or(behind), of_those(|outside| outside.first())] {
        let report = Report::default();
        compare(&report, &*store, 8_000, 2);
        assert_eq!(report.differences(), 0);
    }
}

#[test]
fn first_addresses() {
    for (name, store) in [
        ("always", first(|_, _| true)),
        ("in strided stores", first(|subject, _| subject.is_strided())),
        ("in others", first(|subject, _| !subject.is_strided())),
        ("of doublewords", first(|s, fault| fault.element.size == 8 && !s.is_strided())),
        ("of quadwords", first(|_, fault| fault.element.size == 16)),
        ("of element 0", first(|_, fault| fault.number == 0)),
        ("of a later element", first(|_, fault| fault.number > 0)),
        ("past 2^64", first(|_, fault| fault.element.end() > 1 << 64)),
        ("with the window at 0", first(|subject, _| subject.input.base == 0)),
        ("with the longest window", first(|s, _| s.input.memory.len() == LONGEST)),
    ] {
        is_found(name, &*store);
    }
}

#[test]
fn other_bytes() {
    for (name, store) in [
        ("the last outside", of_those(|outside| outside.last())),
        ("the lowest address outside", of_those(|outside| outside.iter().min())),
        ("the highest address outside", of_those(|outside| outside.iter().max())),
        ("the element's last", naming(|_, fault| addresses(fault.element).last().unwrap())),
        ("the one behind the element", naming(|_, fault| fault.element.end() as u64)),
        ("the one behind the window", naming(|subject, _| behind(&subject.input))),
        (
            "the one behind the window where it is the element's",
            naming(|subject, fault| {
                let behind = behind(&subject.input);
                addresses(fault.element).find(|one| *one == behind).unwrap_or(fault.address)
            }),
        ),
        (
            "the first outside a window without its last byte",
            naming(|subject, fault| {
                let mut input = subject.input.clone();
                input.memory.pop();
                addresses(fault.element).find(|one| !is_inside(&input, *one)).unwrap()
            }),
        ),
        ("the last inside", first_or(|input| behind(input).wrapping_sub(1))),
        ("the second outside", first_or(|input| behind(input).wrapping_add(1))),
        ("the window's first", first_or(|input| input.base)),
    ] {
        is_found(name, &*store);
    }
}

#[test]
fn other_sums() {
    for (name, store) in [
        ("saturated", first_or(|input| input.base.saturating_add(length(input)))),
        ("modulo 2^64 - 1", first_or(|input| (input.end() % u128::from(u64::MAX)) as u64)),
        ("modulo 2^63", first_or(|input| behind(input) & u64::MAX >> 1)),
        ("a length of 16 bits", first_or(|i| i.base.wrapping_add(length(i) as u16 as u64))),
        ("the byte's number", naming(|_, fault| fault.byte())),
        (
            "the byte's offset in the window",
            naming(|subject, fault| fault.address.wrapping_sub(subject.input.base)),
        ),
    ] {
        is_found(name, &*store);
    }
}
