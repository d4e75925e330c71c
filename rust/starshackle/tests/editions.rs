//! Both rules for the vector length, by the types of this crate.

use starshackle::{element, elements, store, Edition, Flags, LengthRule, Machine, Refusal, Window};

/// `st1q { z0.q }, p0, [z1.d]`
const QUADWORDS: u32 = 0xE43F_2020;
/// `st1d { z0.d, z8.d }, pn8, [x0]`
const STRIDED: u32 = 0xA160_6000;

const FIVE: [usize; 5] = [16, 32, 64, 128, 256];

/// Registers of zeros and a machine with them.
fn with<T>(vb: usize, flags: Flags, edition: Edition, call: impl Fn(&Machine) -> T) -> T {
    let (z, p) = (vec![0; 32 * vb], vec![0; 2 * vb]);
    call(&Machine { vb, flags, edition, z: &z, p: &p, ..Machine::default() })
}

/// What the store is refused with, if it is; nothing is active.
fn refused(machine: &Machine, word: u32) -> Option<Refusal> {
    store(machine, Window { base: 0, memory: &mut [] }, word, &mut [0; 4]).err()
}

#[test]
fn late_is_the_default() {
    assert_eq!(Edition::default(), Edition::Late);
    assert_eq!(Machine::default().edition, Edition::Late);
    assert_eq!(Machine::default().flag_bits(), 0);
}

#[test]
fn rules_are_the_librarys() {
    for vb in (0..40).map(|number| 8 * number) {
        for flags in [Flags::SVE2P1, Flags::SVE2P1 | Flags::STREAMING | Flags::FA64] {
            for edition in [Edition::Early, Edition::Late] {
                let allowed = match edition.rule(flags) {
                    LengthRule::AnyMultiple => vb % 16 == 0 && (16..=256).contains(&vb),
                    LengthRule::OneOfFive => FIVE.contains(&vb),
                };
                let expected = (!allowed).then_some(Refusal::Length);
                let refused = with(vb, flags, edition, |machine| refused(machine, QUADWORDS));
                assert_eq!(refused, expected, "{vb} {flags:?} {edition:?}");
                let counted = with(vb, flags, edition, |machine| elements(machine, QUADWORDS));
                assert_eq!(
                    counted,
                    if allowed { Ok(vb as u64 / 16) } else { Err(Refusal::Length) }
                );
            }
        }
    }
}

/// The bit of the flags that the library reads the edition from means nothing here.
#[test]
fn flags_have_no_edition() {
    for (edition, expected) in [(Edition::Early, None), (Edition::Late, Some(Refusal::Length))] {
        for flags in [Flags::SVE2P1, Flags(Flags::SVE2P1.0 | 1 << 8)] {
            assert_eq!(with(48, flags, edition, |machine| refused(machine, QUADWORDS)), expected);
        }
    }
    for bit in (7..64).filter(|bit| *bit != 8) {
        let flags = Flags(Flags::SVE2P1.0 | 1 << bit);
        let refused = with(48, flags, Edition::Late, |machine| refused(machine, QUADWORDS));
        assert_eq!(refused, Some(Refusal::Length), "bit {bit}");
    }
}

#[test]
fn strided_words() {
    let early = |flags| with(48, flags, Edition::Early, |machine| refused(machine, STRIDED));
    assert_eq!(early(Flags::SVE), Some(Refusal::Undefined));
    assert_eq!(early(Flags::SME2), Some(Refusal::Illegal));
    assert_eq!(early(Flags::SME2 | Flags::STREAMING), Some(Refusal::Length));
    let told = with(48, Flags::SME2, Edition::Early, |machine| element(machine, STRIDED, 0));
    assert_eq!(told, Err(Refusal::Length));
}
