//! What the random stores have to hit.

use super::arm::{self, mask_up_to, maxbit, Element, EARLY, LENGTHS, SP_CHECK, STREAMING, STRICT};
use super::classes::{class_of, Form, BASE, CLASSES, R31, XS};
use super::counters::{NARROW, STRIDED};
use super::effect::Effect;
use super::joints::joints;
use super::subject::Subject;
use crate::verdicts::{self, DONE, FAULT, ILLEGAL, OVERLAP, STACK, UNDEFINED, WINDOW};
use crate::LONGEST;

/// Something to count by: each of the numbers has to be hit.
pub struct Group {
    pub name: &'static str,
    pub numbers: &'static [u64],
    pub of: fn(&Subject) -> Option<u64>,
}

pub const CLASS: &[u64] = &[
    1, 2, 3, 4, 5, 6, 7, 8, 9, 10, 11, 12, 13, 14, 15, 16, 17, 18, 19, 20, 21, 22, 23, 24, 25, 26,
    27, 28, 29, 30, 31, 32, 33, 34, 35, 36,
];
pub const SCATTER: &[u64] =
    &[1, 2, 3, 4, 5, 6, 7, 12, 13, 14, 15, 16, 17, 18, 19, 20, 21, 22, 23, 24];
/// Classes whose addresses need not be multiples of anything.
pub const UNSCALED: &[u64] = &[2, 4, 5, 6, 7, 12, 14, 16, 18, 20, 22, 24];
/// Those of them whose elements have several bytes.
pub const OVERLAPPING: &[u64] = &[2, 4, 12, 14, 16, 18, 20, 22, 24];
/// Classes with a scalar base and a vector of offsets.
const FROM_BASE: &[u64] = &[1, 2, 3, 4, 5, 6, 7, 13, 14, 15, 16, 17, 18, 19, 20, 21, 22, 23, 24];
/// Those of them whose offsets are extended.
const EXTENDED: &[u64] = &[1, 2, 5, 6, 13, 14, 17, 18, 19, 20, 23, 24];
const FROM_SP: &[u64] = &[
    1, 2, 3, 4, 5, 6, 7, 8, 9, 10, 11, 13, 14, 15, 16, 17, 18, 19, 20, 21, 22, 23, 24, 25, 26, 27,
    28, 29, 30, 31, 32, 33, 34, 35, 36,
];
/// Classes whose active elements may lie apart, in ascending order or not.
pub const APART: &[u64] = &[
    1, 2, 3, 4, 5, 6, 7, 12, 13, 14, 15, 16, 17, 18, 19, 20, 21, 22, 23, 24, 25, 26, 27, 28, 29,
    30, 31, 32, 33, 34, 35, 36,
];
/// Classes that may leave one byte unwritten between two elements.
pub const ONE_APART: &[u64] = &[2, 4, 5, 6, 7, 12, 14, 16, 18, 20, 22, 24, 25, 26, 27, 28];
/// Strided stores by their elements: bytes, and what isn't doublewords or words.
const BYTES: &[u64] = &[25, 26, 27, 28];
const SHORT: &[u64] = &[25, 26, 27, 28, 29, 30, 31, 32];
/// Strided stores whose elements are wider than bytes.
const WIDER: &[u64] = &[8, 9, 10, 11, 29, 30, 31, 32, 33, 34, 35, 36];
const VERDICT: &[u64] = &[0, 1, 2, 3, 4, 5, 6, 7, OVERLAP];
const VB: &[u64] = &[16, 32, 64, 128, 256];
/// The lengths that there are only under the early edition with streaming off.
const OTHER_VB: &[u64] = &[48, 80, 96, 112, 144, 160, 176, 192, 208, 224, 240];
/// Lengths that there never are.
const NO_VB: &[u64] = &[0, 8, 15, 17, 24, 40, 255, 257, 264, 272, 288, 512, 65_552];
const SIZE: &[u64] = &[0, 8, 16, 32, 64];
const BITS: &[u64] = &[0, 1, 2, 3];
const RUNS: &[u64] =
    &[0, 1, 2, 3, 4, 7, 8, 15, 16, 31, 32, 33, 63, 64, 65, 66, 127, 128, 255, 256, 510, 511, 512];
const STEPS: &[u64] = RUNS;
const LENGTH: &[u64] =
    &[4, 17, 18, 20, 24, 32, 836, 849, 900, 1028, 1040, 2052, 3332, 3588, 6647, 6660];
const PAYLOAD: &[u64] = &[0, 1, 2, 7, 8, 9, 16, 64, 256, 512, 1016, 1024];
const BYTE_OF_8: &[u64] = &[0, 1, 2, 3, 4, 5, 6, 7];
const BYTE_OF_16: &[u64] = &[0, 1, 2, 3, 4, 5, 6, 7, 8, 9, 10, 11, 12, 13, 14, 15];
const ONCE: &[u64] = &[1];

pub const GROUPS: &[Group] = &[
    group("class, done", CLASS, |s| s.class_with(DONE)),
    group("class, undefined", CLASS, |s| s.class_with(UNDEFINED)),
    group("class, illegal", CLASS, |s| s.class_with(ILLEGAL)),
    group("class, stack", FROM_SP, |s| s.class_with(STACK)),
    group("class, fault", CLASS, |s| s.class_with(FAULT)),
    group("verdict with room for each patch", VERDICT, |s| Some(s.verdict())),
    group("VB, overlap", VB, |s| s.overlap().map(|_| s.input.vb as u64)),
    group("VB, strict, done", VB, |s| {
        (s.is_strict() && s.right.is_ok()).then_some(s.input.vb as u64)
    }),
    group("strict and edition, elements overlap", BITS, |s| s.strict_bits()),
    group("VB 16, class, done", CLASS, |s| s.class_where(|s, _| s.input.vb == 16)),
    group("VB 32, class, done", CLASS, |s| s.class_where(|s, _| s.input.vb == 32)),
    group("VB 64, class, done", CLASS, |s| s.class_where(|s, _| s.input.vb == 64)),
    group("VB 128, class, done", CLASS, |s| s.class_where(|s, _| s.input.vb == 128)),
    group("VB 256, class, done", CLASS, |s| s.class_where(|s, _| s.input.vb == 256)),
    group("VB of the early edition alone, done", OTHER_VB, |s| s.done(|_| s.input.vb as u64)),
    group("VB of the early edition alone, class, done", SCATTER, |s| {
        s.class_where(|s, _| !LENGTHS.contains(&s.input.vb))
    }),
    group("VB 48, class, done", SCATTER, |s| s.class_where(|s, _| s.input.vb == 48)),
    group("VB 240, class, done", SCATTER, |s| s.class_where(|s, _| s.input.vb == 240)),
    group("such a VB, class, whole and contiguous", SCATTER, |s| {
        s.class_where(|s, _| !LENGTHS.contains(&s.input.vb) && s.is_whole())
    }),
    group("VB 16 to 256 of the five, early edition, done", VB, |s| {
        s.done(|_| s.input.vb as u64).filter(|_| s.is_early())
    }),
    group("VB refused, late edition", OTHER_VB, |s| s.length_refused(0, 0)),
    group("VB refused, late edition, streaming", OTHER_VB, |s| s.length_refused(0, 1)),
    group("VB refused, early edition, streaming", OTHER_VB, |s| s.length_refused(1, 1)),
    group("VB refused, early edition", NO_VB, |s| s.length_refused(1, 0)),
    group("strided at another VB than the five, verdict", &[1, 2, 3, 4, 5], |s| {
        s.strided_elsewhere().map(|()| s.verdict())
    }),
    group("class, element asked at another VB, registers there", STRIDED, |s| {
        let there = s.input.z.len() == 32 * s.input.vb && s.input.p.len() == 2 * s.input.vb;
        s.strided_elsewhere().filter(|()| there && arm::length_allowed(&s.input))?;
        s.class()
    }),
    group("VB 16, class, UXTW of 2^31 and more, done", EXTENDED, |s| s.extended_at(16, 0)),
    group("VB 32, class, UXTW of 2^31 and more, done", EXTENDED, |s| s.extended_at(32, 0)),
    group("VB 64, class, UXTW of 2^31 and more, done", EXTENDED, |s| s.extended_at(64, 0)),
    group("VB 128, class, UXTW of 2^31 and more, done", EXTENDED, |s| s.extended_at(128, 0)),
    group("VB 256, class, UXTW of 2^31 and more, done", EXTENDED, |s| s.extended_at(256, 0)),
    group("VB 16, class, SXTW below 0, done", EXTENDED, |s| s.extended_at(16, 1)),
    group("VB 32, class, SXTW below 0, done", EXTENDED, |s| s.extended_at(32, 1)),
    group("VB 64, class, SXTW below 0, done", EXTENDED, |s| s.extended_at(64, 1)),
    group("VB 128, class, SXTW below 0, done", EXTENDED, |s| s.extended_at(128, 1)),
    group("VB 256, class, SXTW below 0, done", EXTENDED, |s| s.extended_at(256, 1)),
    group("class, scaled offset past 2^64, done", &[3, 15, 21], |s| {
        s.class_where(|s, _| s.offsets().any(|(_, scaled)| scaled >= 1 << 64))
    }),
    group("class, base and offset past 2^64, done", FROM_BASE, |s| {
        s.class_where(|s, _| s.sums().any(|sum| sum >= 1 << 64))
    }),
    group("class, base and offset below 0, done", EXTENDED, |s| {
        s.class_where(|s, _| s.sums().any(|sum| sum < 0))
    }),
    group("class, streaming with FA64, done", SCATTER, |s| {
        s.class_where(|s, _| s.streaming(false) == Some(3))
    }),
    group("class, SP as base, done", FROM_SP, |s| s.class_where(|s, _| s.is_from_sp())),
    group("word of no class, by its place", &[1, 2, 3, 4, 5, 6, 7, 8, 9, 10], |s| s.beside()),
    group("class, scaled index past 2^64, done", &[8, 9, 29, 30, 33, 34], |s| {
        s.class_where(|s, _| s.active().next().is_some() && s.is_past_by_scaling())
    }),
    group("counter's size, bit 15 clear", SIZE, |s| s.counter_size(false)),
    group("counter's size, bit 15 set", SIZE, |s| s.counter_size(true)),
    group("class, counter without a size", STRIDED, |s| s.class_by_counter(0, false)),
    group("class, counter without a size, bit 15", STRIDED, |s| s.class_by_counter(0, true)),
    group("class, counter of 8 bits", STRIDED, |s| s.class_by_counter(8, false)),
    group("class, counter of 8 bits, bit 15", STRIDED, |s| s.class_by_counter(8, true)),
    group("class, counter of 16 bits", STRIDED, |s| s.class_by_counter(16, false)),
    group("class, counter of 16 bits, bit 15", STRIDED, |s| s.class_by_counter(16, true)),
    group("class, counter of 32 bits", STRIDED, |s| s.class_by_counter(32, false)),
    group("class, counter of 32 bits, bit 15", STRIDED, |s| s.class_by_counter(32, true)),
    group("class, counter of 64 bits", STRIDED, |s| s.class_by_counter(64, false)),
    group("class, counter of 64 bits, bit 15", STRIDED, |s| s.class_by_counter(64, true)),
    group("class, a narrower counter, several active", WIDER, |s| s.counter_over_element(0)),
    group("class, an equal counter, several active", STRIDED, |s| s.counter_over_element(1)),
    group("class, every second element", NARROW, |s| s.counter_over_element(2)),
    group("class, every fourth element", SHORT, |s| s.counter_over_element(4)),
    group("class, every eighth element", BYTES, |s| s.counter_over_element(8)),
    group("VB 16, class, gaps", NARROW, |s| s.gaps_at(16)),
    group("VB 32, class, gaps", NARROW, |s| s.gaps_at(32)),
    group("VB 64, class, gaps", NARROW, |s| s.gaps_at(64)),
    group("VB 128, class, gaps", NARROW, |s| s.gaps_at(128)),
    group("VB 256, class, gaps", NARROW, |s| s.gaps_at(256)),
    group("VB, counter's highest bit decides", VB, |s| s.counter_decided(|vb| maxbit(vb) - 1)),
    group("VB, ignored bits decide, bit 15 clear", VB, |s| s.ignored(false)),
    group("VB, ignored bits decide, bit 15 set", VB, |s| s.ignored(true)),
    group("VB 16, class, ignored bits decide", STRIDED, |s| s.ignored_at(16)),
    group("VB 32, class, ignored bits decide", STRIDED, |s| s.ignored_at(32)),
    group("VB 64, class, ignored bits decide", STRIDED, |s| s.ignored_at(64)),
    group("VB 128, class, ignored bits decide", STRIDED, |s| s.ignored_at(128)),
    group("VB 256, class, ignored bits decide", STRIDED, |s| s.ignored_at(256)),
    group("streaming and FA64 as bits, one register", BITS, |s| s.streaming(false)),
    group("streaming and FA64 as bits, strided", BITS, |s| s.streaming(true)),
    group("SP checks as bits, SP unaligned", BITS, |s| s.stack(true)),
    group("SP checks as bits, SP unaligned, none active", BITS, |s| s.stack(false)),
    group("window at 0, done", ONCE, |s| s.once(|s, _| s.input.base == 0)),
    group("window up to 2^64, done", ONCE, |s| s.once(|s, _| s.input.end() == 1 << 64)),
    group("window's length, done", &[0, LONGEST as u64], |s| s.done(|_| s.length())),
    group("window over 2^64 alone", ONCE, |s| {
        once(s.verdict() == WINDOW && s.length() <= LONGEST as u64)
    }),
    group("window of 65,537 bytes, not over 2^64", ONCE, |s| {
        once(s.verdict() == WINDOW && s.length() == LONGEST as u64 + 1 && s.input.end() <= 1 << 64)
    }),
    group("window too long, bits of its length", &[17, 18], |s| {
        let bits = 64 - s.length().leading_zeros();
        (s.verdict() == WINDOW && s.length() > LONGEST as u64).then_some(bits.into())
    }),
    group("element passes 2^64, fault", ONCE, |s| once(s.passes_the_top())),
    group("fault at the first, a later, the last element", &[0, 1, 2], |s| s.faulting()),
    group("byte of 1 that faults", &[0], |s| s.byte_that_faults(1, false)),
    group("byte of 1 that faults, strided", &[0], |s| s.byte_that_faults(1, true)),
    group("byte of 2 that faults", &[0, 1], |s| s.byte_that_faults(2, false)),
    group("byte of 2 that faults, strided", &[0, 1], |s| s.byte_that_faults(2, true)),
    group("byte of 4 that faults", &[0, 1, 2, 3], |s| s.byte_that_faults(4, false)),
    group("byte of 4 that faults, strided", &[0, 1, 2, 3], |s| s.byte_that_faults(4, true)),
    group("byte of 8 that faults", BYTE_OF_8, |s| s.byte_that_faults(8, false)),
    group("byte of 8 that faults, strided", BYTE_OF_8, |s| s.byte_that_faults(8, true)),
    group("byte of 16 that faults", BYTE_OF_16, |s| s.byte_that_faults(16, false)),
    group("address below its base, done", ONCE, |s| s.once(|s, _| s.is_below_base())),
    group("runs", RUNS, |s| s.done(|effect| effect.runs as u64)),
    group("bytes in runs", PAYLOAD, |s| s.done(|effect| effect.payload() as u64)),
    group("patch's length", LENGTH, |s| s.done(|effect| effect.patch.len() as u64)),
    group("steps", STEPS, |s| s.done(|effect| effect.steps as u64)),
    group("class, no step", CLASS, |s| s.class_where(|_, effect| effect.steps == 0)),
    group("class, one step of several elements", CLASS, |s| {
        s.class_where(|_, effect| effect.steps == 1 && effect.active > 1)
    }),
    group("class, a step for each of several elements", APART, |s| {
        s.class_where(|_, effect| effect.steps == effect.active && effect.active > 1)
    }),
    group("class, more steps than runs", SCATTER, |s| {
        s.class_where(|_, effect| effect.steps > effect.runs)
    }),
    group("VB 16, class, whole and contiguous", CLASS, |s| s.whole_at(16)),
    group("VB 32, class, whole and contiguous", CLASS, |s| s.whole_at(32)),
    group("VB 64, class, whole and contiguous", CLASS, |s| s.whole_at(64)),
    group("VB 128, class, whole and contiguous", CLASS, |s| s.whole_at(128)),
    group("VB 256, class, whole and contiguous", CLASS, |s| s.whole_at(256)),
    group("elements ascend, descend, do neither", &[1, 2, 3], |s| {
        s.right.as_ref().ok().and_then(|_| order(s))
    }),
    group("class, elements at the same address", SCATTER, |s| {
        s.class_where(|s, _| neighbours(s).any(|(step, _)| step == 0))
    }),
    group("class, elements overlap in part", OVERLAPPING, |s| {
        s.class_where(|s, _| neighbours(s).any(|(step, size)| 0 < step && step < size))
    }),
    group("class, elements touch", CLASS, |s| {
        s.class_where(|s, _| neighbours(s).any(|(step, size)| step == size))
    }),
    group("class, one unwritten byte between", ONE_APART, |s| {
        s.class_where(|s, _| neighbours(s).any(|(step, size)| step == size + 1))
    }),
    group("class, contiguous, ascending", CLASS, |s| {
        s.class_where(|s, effect| is_contiguous(s, effect) && order(s) == Some(1))
    }),
    group("class, contiguous, not ascending", SCATTER, |s| {
        s.class_where(|s, effect| is_contiguous(s, effect) && matches!(order(s), Some(2 | 3)))
    }),
    group("class, 3 elements or more at one address", SCATTER, |s| {
        s.class_where(|s, effect| effect.active > 2 && neighbours(s).all(|(step, _)| step == 0))
    }),
    group("class, the window's end, then its start", SCATTER, |s| {
        s.class_where(|s, _| s.goes_round())
    }),
    group("first run at 0", ONCE, |s| s.once(|s, _| s.active().any(|e| e.address == 0))),
    group("last run up to 2^64", ONCE, |s| s.once(|s, _| s.active().any(|e| e.end() == 1 << 64))),
    group("run at the window's first byte", ONCE, |s| {
        s.once(|s, _| s.active().any(|e| e.address == s.input.base))
    }),
    group("run at the window's last byte", ONCE, |s| {
        s.once(|s, _| s.active().any(|e| e.end() == s.input.end()))
    }),
];

const fn group(
    name: &'static str,
    numbers: &'static [u64],
    of: fn(&Subject) -> Option<u64>,
) -> Group {
    Group { name, numbers, of }
}

/// The number of a group that has only one.
fn once(hit: bool) -> Option<u64> {
    hit.then_some(1)
}

impl Subject {
    fn verdict(&self) -> u64 {
        self.right.as_ref().map_or_else(|refusal| refusal.verdict, |_| DONE)
    }

    pub fn is_early(&self) -> bool {
        self.input.flags >> EARLY & 1 == 1
    }

    /// The length, where it is refused under this edition with streaming on or off.
    fn length_refused(&self, early: u64, streaming: u64) -> Option<u64> {
        let bits = [EARLY, STREAMING].map(|bit| self.input.flags >> bit & 1);
        let met = self.verdict() == verdicts::LENGTH && bits == [early, streaming];
        met.then_some(self.input.vb as u64)
    }

    /// A strided store at a multiple of 16 that is none of the five.
    fn strided_elsewhere(&self) -> Option<()> {
        let other = OTHER_VB.contains(&(self.input.vb as u64));
        (other && self.is_strided()).then_some(())
    }

    /// Strict and the edition, as bits, of a store whose active elements share a byte in the window.
    fn strict_bits(&self) -> Option<u64> {
        let shares = matches!(self.verdict(), DONE | OVERLAP) && overlaps(self);
        shares.then_some(self.input.flags >> STRICT & 3)
    }

    /// How many bytes the window has.
    fn length(&self) -> u64 {
        self.input.memory.len() as u64
    }

    pub fn class(&self) -> Option<u64> {
        class_of(self.input.word).map(|number| number as u64 + 1)
    }

    fn form(&self) -> Option<Form> {
        class_of(self.input.word).map(|number| CLASSES[number].form)
    }

    fn class_with(&self, verdict: u64) -> Option<u64> {
        self.class().filter(|_| self.verdict() == verdict)
    }

    /// The class of a done store of which something holds.
    fn class_where(&self, hit: impl FnOnce(&Subject, &Effect) -> bool) -> Option<u64> {
        self.once(hit).and_then(|_| self.class())
    }

    fn once(&self, hit: impl FnOnce(&Subject, &Effect) -> bool) -> Option<u64> {
        self.right.as_ref().ok().and_then(|effect| once(hit(self, effect)))
    }

    fn done(&self, number: impl FnOnce(&Effect) -> u64) -> Option<u64> {
        self.right.as_ref().ok().map(number)
    }

    /// The offsets of the active elements of a scatter from a base, and the same scaled, as numbers.
    fn offsets(&self) -> impl Iterator<Item = (i128, i128)> + '_ {
        let class = class_of(self.input.word).map(|number| &CLASSES[number]);
        let active = self.elements().iter().enumerate().filter(|(_, element)| element.active);
        active.filter_map(move |(e, _)| match class?.form {
            Form::Scatter { offset: size, scale } => {
                let offset = arm::offset(&self.input, class?, size, e);
                Some((offset, offset << scale))
            }
            _ => None,
        })
    }

    /// The bases with the scaled offsets.
    fn sums(&self) -> impl Iterator<Item = i128> + '_ {
        let base = i128::from(arm::base(&self.input));
        self.offsets().map(move |(_, scaled)| base + scaled)
    }

    /// The class of a done store, where vectors have so many bytes, with an offset that UXTW (0) and
    /// SXTW (1) extend to different numbers.
    fn extended_at(&self, vb: usize, xs: usize) -> Option<u64> {
        self.class_where(|s, _| {
            let tells = |(offset, _): (i128, i128)| !(0..1 << 31).contains(&offset);
            s.input.vb == vb && XS.of(s.input.word) == xs && s.offsets().any(tells)
        })
    }

    /// Whether SP is the base of an active element.
    fn is_from_sp(&self) -> bool {
        BASE.of(self.input.word) == R31 && self.active().next().is_some()
    }

    /// Which place beside the classes of scatter stores an undefined word has: scaled bytes in elements
    /// of 64 bits with 32-bit offsets (1) and with 64-bit ones (2), and in elements of 32 bits (3);
    /// doublewords in elements of 32 bits (4); 64-bit offsets with bits 22..21 as 10 (5) or 11 (6). And
    /// which beside those of strided stores: loads (7), bit 20 with an immediate (8), bit 3 where there
    /// are two registers (9), bit 3 or 2 where there are four (10).
    fn beside(&self) -> Option<u64> {
        let word = self.input.word;
        if self.verdict() != UNDEFINED {
            return None;
        }
        if word >> 23 == 0b1_0100_0010 {
            let (four, low) = (word >> 15 & 1 == 1, word >> 2 & 3);
            return match (word >> 22 & 1, word >> 21 & 1, word >> 20 & 1, low) {
                (_, 0, _, _) => Some(7),
                (1, 1, 1, _) => Some(8),
                (_, 1, _, 2 | 3) if !four => Some(9),
                (_, 1, _, 1..=3) if four => Some(10),
                _ => None,
            };
        }
        match (word >> 23 & 3, word >> 21 & 3, word >> 13 & 7) {
            _ if word >> 25 != 0b111_0010 => None,
            (0, 1, 4 | 6) => Some(1),
            (0, 1, 5) => Some(2),
            (0, 3, 4 | 6) => Some(3),
            (3, 2 | 3, 4 | 6) => Some(4),
            (_, 2, 5) => Some(5),
            (_, 3, 5) => Some(6),
            _ => None,
        }
    }

    /// Whether all elements are active, each where the one before it ends.
    pub fn is_whole(&self) -> bool {
        let elements = self.elements();
        let follows = |two: &[Element]| two[0].end() == u128::from(two[1].address);
        elements.iter().all(|element| element.active) && elements.windows(2).all(follows)
    }

    /// The class of a done store of whole registers, where vectors have so many bytes.
    fn whole_at(&self, vb: usize) -> Option<u64> {
        self.class_where(|s, _| s.input.vb == vb && s.is_whole())
    }

    /// Whether the element that faults has bytes on both sides of 2^64.
    fn passes_the_top(&self) -> bool {
        self.fault().map_or(false, |fault| fault.element.end() > 1 << 64)
    }

    /// Whether the first, a later or the last element faults: 0, 1 or 2.
    fn faulting(&self) -> Option<u64> {
        let number = self.fault()?.number;
        Some(match number {
            0 => 0,
            _ if number + 1 == self.elements().len() as u64 => 2,
            _ => 1,
        })
    }

    /// Which byte of an element of so many bytes faults, in a store that is or isn't strided.
    fn byte_that_faults(&self, size: usize, strided: bool) -> Option<u64> {
        let fault = self.fault().filter(|fault| fault.element.size == size)?;
        (self.is_strided() == strided).then(|| fault.byte())
    }

    /// Whether an active element lies below its base, so that the sum went round or down.
    fn is_below_base(&self) -> bool {
        let base = arm::base(&self.input);
        self.form() != Some(Form::Quadword) && self.active().any(|element| element.address < base)
    }

    /// Whether an active element ends where the longest window does, and the next active one starts
    /// where that starts.
    pub fn goes_round(&self) -> bool {
        let longest = self.length() == LONGEST as u64;
        longest && joints(self.elements()).any(|joint| joint.goes_round(self))
    }

    /// Two flags, as bits, of a defined store that is or isn't strided.
    fn streaming(&self, strided: bool) -> Option<u64> {
        let defined = self.verdict() == DONE || self.verdict() >= ILLEGAL;
        (defined && self.is_strided() == strided).then_some(self.input.flags >> STREAMING & 3)
    }

    /// Two flags, as bits, of a legal store from an unaligned SP, with or without active elements.
    fn stack(&self, active: bool) -> Option<u64> {
        let legal = self.verdict() == DONE || self.verdict() >= STACK;
        let from_sp = BASE.of(self.input.word) == R31 && self.form() != Some(Form::Quadword);
        let any = self.active().next().is_some();
        let met = legal && from_sp && self.input.sp % 16 != 0 && any == active;
        met.then_some(self.input.flags >> SP_CHECK & 3)
    }

    pub fn is_strided(&self) -> bool {
        matches!(self.form(), Some(Form::Strided { .. }))
    }

    /// The counter of a strided store whose elements were looked at.
    fn counter(&self) -> Option<&[u8]> {
        let looked = self.is_strided() && matches!(self.verdict(), DONE | FAULT);
        looked.then(|| arm::counter(&self.input))
    }

    /// The counter's element size, where it is or isn't inverted.
    fn counter_size(&self, inverted: bool) -> Option<u64> {
        let counter = self.counter()?;
        let size = if counter[0] & 15 == 0 { 0 } else { 8 << counter[0].trailing_zeros() };
        (counter[1] >> 7 == u8::from(inverted)).then_some(size)
    }

    /// The class of a store whose counter has this element size, 0 for none.
    fn class_by_counter(&self, size: u64, inverted: bool) -> Option<u64> {
        self.counter_size(inverted).filter(|&own| own == size)?;
        self.class()
    }

    /// The class of a done store with several active elements, whose counter's elements have so many
    /// times the bits of the store's, 0 for fewer.
    fn counter_over_element(&self, times: u64) -> Option<u64> {
        self.class_where(|s, effect| {
            let size = s.counter_size(true).or_else(|| s.counter_size(false));
            let own = s.elements().first().map(|element| 8 * element.size as u64);
            let is_so = |(size, own)| size / own == times;
            effect.active > 1 && size.zip(own).map_or(false, is_so)
        })
    }

    /// The class of a done store at this vector length with unwritten bytes between its elements.
    fn gaps_at(&self, vb: usize) -> Option<u64> {
        let strided = self.is_strided() && self.input.vb == vb;
        self.class_where(|_, effect| strided && effect.runs > 1)
    }

    /// Whether the scalar index of a strided store, times the element's bytes, passes 2^64.
    fn is_past_by_scaling(&self) -> bool {
        let immediate = matches!(self.form(), Some(Form::Strided { immediate: true, .. }));
        let index = u128::from(arm::index(&self.input));
        let bytes = self.elements().first().map_or(0, |element| element.size as u128);
        self.is_strided() && !immediate && index * bytes >= 1 << 64
    }

    /// The vector length where elements would be active otherwise if the count went up to another bit.
    fn counter_decided(&self, highest: fn(usize) -> usize) -> Option<u64> {
        let (counter, vb) = (self.counter()?, self.input.vb);
        let other = mask_up_to(highest(vb), counter, vb);
        let size = self.elements().first()?.size;
        let mut elements = self.elements().iter().zip(other.chunks(size));
        elements.any(|(element, other)| element.active != other[0]).then_some(vb as u64)
    }

    /// The vector length where bits above the count's highest would change what is active.
    fn ignored(&self, inverted: bool) -> Option<u64> {
        self.counter().filter(|counter| counter[1] >> 7 == u8::from(inverted))?;
        self.counter_decided(|_| 14)
    }

    /// The class of such a store at this vector length.
    fn ignored_at(&self, vb: usize) -> Option<u64> {
        (self.input.vb == vb).then(|| self.counter_decided(|_| 14))??;
        self.class()
    }
}

/// Whether at least three active elements ascend, descend or do neither: 1, 2 or 3.
fn order(subject: &Subject) -> Option<u64> {
    let addresses: Vec<u64> = subject.active().map(|element| element.address).collect();
    let all = |sorted: fn(u64, u64) -> bool| addresses.windows(2).all(|two| sorted(two[0], two[1]));
    (addresses.len() > 2).then(|| match (all(|a, b| a < b), all(|a, b| a > b)) {
        (true, _) => 1,
        (_, true) => 2,
        _ => 3,
    })
}

/// The distances of active elements from the ones before them by address, with their size.
fn neighbours(subject: &Subject) -> impl Iterator<Item = (u64, u64)> {
    let size = subject.active().next().map_or(0, |element| element.size as u64);
    let mut addresses: Vec<u64> = subject.active().map(|element| element.address).collect();
    addresses.sort_unstable();
    let steps: Vec<u64> = addresses.windows(2).map(|two| two[1] - two[0]).collect();
    steps.into_iter().map(move |step| (step, size))
}

/// Whether two active elements or more make one run without overlap.
fn is_contiguous(subject: &Subject, effect: &Effect) -> bool {
    effect.active > 1 && neighbours(subject).all(|(step, size)| step == size)
}

/// Whether active elements have bytes in common.
pub fn overlaps(subject: &Subject) -> bool {
    neighbours(subject).any(|(step, size)| step < size)
}
