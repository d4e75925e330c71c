//! Steps counted wrongly; all else is right.

use super::{changed, is_found};
use crate::report::Report;
use crate::storing::joints::{joints, Joint};
use crate::storing::{compare, Store, Subject};

/// A right implementation with other steps where it is done.
fn counting(steps: impl Fn(&Subject, usize) -> usize + Sync + 'static) -> Box<Store> {
    changed(move |subject| {
        let other = subject.right.as_ref().ok().map(|effect| steps(subject, effect.steps));
        if let (Ok(effect), Some(other)) = (&mut subject.right, other) {
            effect.steps = other;
        }
    })
}

/// The same, where a stretch goes on at the joints of which something holds.
fn joining(goes_on: impl Fn(&Subject, &Joint) -> bool + Sync + 'static) -> Box<Store> {
    counting(move |subject, _| {
        let active = subject.active().count();
        active - joints(subject.elements()).filter(|joint| goes_on(subject, joint)).count()
    })
}

#[test]
fn right_joints_are_right() {
    let report = Report::default();
    let store = joining(|_, joint| joint.touches());
    compare(&report, &*store, 4_000, 2);
    assert_eq!(report.differences(), 0);
}

#[test]
fn wrong_stretches() {
    for (name, store) in [
        ("goes on across a gap", joining(|_, joint| joint.distance() >= 0)),
        (
            "goes on across a gap of one byte",
            joining(|_, joint| (0..2).contains(&joint.distance())),
        ),
        (
            "goes on over an overlap of one byte",
            joining(|_, joint| (-1..1).contains(&joint.distance())),
        ),
        (
            "is cut at an inactive lane though the next active element touches",
            joining(|_, joint| joint.touches() && joint.between.is_empty()),
        ),
        (
            "goes on across inactive lanes that fill the gap",
            joining(|_, joint| {
                let filled = joint.between.len() * joint.one.size;
                joint.touches() || joint.distance() == filled as i128
            }),
        ),
        (
            "goes on downwards",
            joining(|_, joint| {
                joint.touches() || joint.next.end() == u128::from(joint.one.address)
            }),
        ),
        (
            "goes on where ends are compared modulo the window",
            joining(|subject, joint| joint.touches() || joint.goes_round(subject)),
        ),
        (
            "goes on where ends are compared modulo 65,536",
            joining(|subject, joint| {
                let offset = |address: u128| (address - u128::from(subject.input.base)) as u16;
                offset(joint.one.end()) == offset(joint.next.address.into())
            }),
        ),
    ] {
        is_found(name, &*store);
    }
}

#[test]
fn wrong_steps() {
    for (name, store) in [
        ("one for each element", counting(|subject, _| subject.active().count())),
        ("the first element not counted", counting(|_, right| right.saturating_sub(1))),
        ("one where nothing is active", counting(|_, right| right.max(1))),
        ("always one", counting(|_, _| 1)),
        ("always none", counting(|_, _| 0)),
        (
            "one for each run",
            counting(|subject, _| subject.right.as_ref().map_or(0, |effect| effect.runs)),
        ),
        (
            "none of a strided store",
            counting(|subject, right| if subject.is_strided() { 0 } else { right }),
        ),
        (
            "one for each element of a strided store",
            counting(|subject, right| match subject.is_strided() {
                true => subject.active().count(),
                false => right,
            }),
        ),
        (
            "in the order of addresses",
            counting(|subject, _| {
                let mut sorted: Vec<_> = subject.active().map(|e| (e.address, e.end())).collect();
                sorted.sort_unstable();
                let touches = |two: &&[(u64, u128)]| two[0].1 == u128::from(two[1].0);
                sorted.len() - sorted.windows(2).filter(touches).count()
            }),
        ),
    ] {
        is_found(name, &*store);
    }
}
