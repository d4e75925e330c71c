//! Every counter at every vector length, over two registers and over four, for each element size: which
//! elements are active, and what the store writes.

use super::arm::{self, mask_up_to, Element, LENGTHS, SME2, STREAMING};
use super::classes::{Form, CLASSES, PREDICATE};
use super::input::Input;
use super::Store;
use crate::counts::Counts;
use crate::patches::reader::{RUN_MARK, TRAILER_MARK};
use crate::random::Random;
use crate::reference::Outcome;
use crate::report::{answers, first_difference, Report};
use crate::verdicts::DONE;
use crate::workers::spread;
use crate::GARBAGE;
use starshackle::Window;

/// How many counters there are.
const COUNTERS: u32 = 1 << 16;
/// The classes of strided stores, by number.
pub const STRIDED: &[u64] = &[8, 9, 10, 11, 25, 26, 27, 28, 29, 30, 31, 32, 33, 34, 35, 36];
/// Those of them whose elements are narrower than doublewords, so that a counter may leave gaps.
pub const NARROW: &[u64] = &[25, 26, 27, 28, 29, 30, 31, 32, 33, 34, 35, 36];
const BASE: u64 = 0x1000;
/// Room for each store's patch.
const ROOM: usize = 6_660;

/// A kind of counters, and the classes that have it.
struct Kind {
    name: &'static str,
    classes: &'static [u64],
    holds: fn(&Case, u16) -> bool,
}

/// Of each kind there is a row for each vector length.
const KINDS: &[Kind] = &[
    kind("counters", STRIDED, |_, _| true),
    kind("ignored bits set", STRIDED, |case, counter| {
        let highest = arm::maxbit(case.input.vb);
        counter & 15 != 0 && (highest + 1..15).any(|bit| counter >> bit & 1 == 1)
    }),
    kind("ignored bits decide", STRIDED, |case, counter| {
        counter >> (arm::maxbit(case.input.vb) + 1) != 0 && case.is_other_up_to(14, counter)
    }),
    kind("highest decides", STRIDED, |case, counter| {
        let highest = arm::maxbit(case.input.vb);
        counter >> highest & 1 == 1 && case.is_other_up_to(highest - 1, counter)
    }),
    kind("no size", STRIDED, |_, counter| has_size(counter, 0, false)),
    kind("no size, bit 15", STRIDED, |_, counter| has_size(counter, 0, true)),
    kind("size 8", STRIDED, |_, counter| has_size(counter, 8, false)),
    kind("size 8, bit 15", STRIDED, |_, counter| has_size(counter, 8, true)),
    kind("size 16", STRIDED, |_, counter| has_size(counter, 16, false)),
    kind("size 16, bit 15", STRIDED, |_, counter| has_size(counter, 16, true)),
    kind("size 32", STRIDED, |_, counter| has_size(counter, 32, false)),
    kind("size 32, bit 15", STRIDED, |_, counter| has_size(counter, 32, true)),
    kind("size 64", STRIDED, |_, counter| has_size(counter, 64, false)),
    kind("size 64, bit 15", STRIDED, |_, counter| has_size(counter, 64, true)),
    kind("all active", STRIDED, |case, _| case.active().count() == case.elements.len()),
    kind("gaps", NARROW, |case, _| {
        case.active().zip(case.active().skip(1)).any(|(one, next)| one.end() < next.address.into())
    }),
];

const fn kind(name: &'static str, classes: &'static [u64], holds: fn(&Case, u16) -> bool) -> Kind {
    Kind { name, classes, holds }
}

/// Whether a counter has this element size, 0 for none, and is or isn't inverted.
fn has_size(counter: u16, size: u16, inverted: bool) -> bool {
    let own = if counter & 15 == 0 { 0 } else { 8 << counter.trailing_zeros() };
    own == size && counter >> 15 == u16::from(inverted)
}

/// What was compared: rows by class.
struct Tally {
    counters: u64,
    elements: u64,
    counts: Counts,
}

impl Tally {
    fn new() -> Tally {
        let row = |vb: usize, kind: &Kind| (format!("VB {vb}, class, {}", kind.name), kind.classes);
        let rows = KINDS.iter().flat_map(|kind| LENGTHS.map(|vb| row(vb, kind)));
        Tally { counters: 0, elements: 0, counts: Counts::new(rows) }
    }

    fn count(&mut self, case: &Case, counter: u16) {
        for (number, _) in KINDS.iter().enumerate().filter(|(_, kind)| (kind.holds)(case, counter))
        {
            self.counts.hit(number * LENGTHS.len() + case.length, Some(case.class));
        }
        self.counters += 1;
        self.elements += case.looked_at(counter).count() as u64;
    }

    fn add(&mut self, other: &Tally) {
        self.counters += other.counters;
        self.elements += other.elements;
        self.counts.add(&other.counts);
    }

    fn print(&self, report: &Report) {
        let Tally { counters, elements, counts } = self;
        println!("counters: {counters} compared, with {elements} elements");
        counts.print(report);
    }
}

/// Compares the model on all counters, its elements too.
pub fn run(report: &Report, threads: usize) {
    let tally = with_each(report, threads, &all(), |case, counter| {
        case.compare_elements(report, counter);
        case.compare_store(report, &starshackle::store_numbers);
    });
    tally.print(report);
}

/// Compares an implementation on all counters.
pub fn compare(report: &Report, store: &Store, threads: usize) {
    with_each(report, threads, &all(), |case, _| case.compare_store(report, store));
}

/// Each class at each length, which is given by its place among the lengths.
fn all() -> Vec<(usize, u64)> {
    let lengths = 0..LENGTHS.len();
    lengths.flat_map(|length| STRIDED.iter().map(move |&class| (length, class))).collect()
}

/// Compares classes at lengths with each counter.
fn with_each(
    report: &Report,
    threads: usize,
    cases: &[(usize, u64)],
    compare: impl Fn(&Case, u16) + Sync,
) -> Tally {
    let work = |first| {
        let mut tally = Tally::new();
        for &(length, class) in cases {
            let mut case = Case::new(length, class);
            for counter in (first as u32..COUNTERS).step_by(threads) {
                if report.is_full() {
                    return tally;
                }
                case.give(counter as u16);
                compare(&case, counter as u16);
                tally.count(&case, counter as u16);
            }
        }
        tally
    };
    let mut total = Tally::new();
    spread(threads, work).iter().for_each(|tally| total.add(tally));
    total
}

/// A store of a class that is done at a vector length, whatever its counter is.
struct Case {
    /// Which of the lengths it is.
    length: usize,
    class: u64,
    /// The bytes of an element.
    size: usize,
    input: Input,
    elements: Vec<Element>,
}

impl Case {
    fn new(length: usize, class: u64) -> Case {
        let vb = LENGTHS[length];
        let mut random = Random::new(vb as u64 + class);
        let of = &CLASSES[class as usize - 1];
        let size = of.esize / 8;
        // Rn is X1, Rm X2 or the immediate 0, and the counter's register goes by the class.
        let index = matches!(of.form, Form::Strided { immediate: false, .. });
        let word = of.base | u32::from(index) << 17 | (class as u32 % 8) << 10 | 1 << 5;
        let mut x = [(); 31].map(|()| random.number());
        (x[1], x[2]) = (if index { BASE - 3 * size as u64 } else { BASE }, 3);
        let (z, p, memory) = (random.bytes(32 * vb), random.bytes(2 * vb), random.bytes(4 * vb));
        let flags = 1 << SME2 | 1 << STREAMING;
        let input = Input { vb, flags, x, sp: 0, z, p, base: BASE, memory, word };
        let elements = arm::elements(&input).expect("a store of the class");
        Case { length, class, size, input, elements }
    }

    /// Gives the store a counter.
    fn give(&mut self, counter: u16) {
        let Input { vb, word, ref mut p, .. } = self.input;
        let from = (8 + PREDICATE.of(word)) * vb / 8;
        p[from..from + 2].copy_from_slice(&counter.to_le_bytes());
        let mask = arm::counter_to_predicate(arm::counter(&self.input), vb);
        for (element, mask) in self.elements.iter_mut().zip(mask.chunks(self.size)) {
            element.active = mask[0];
        }
    }

    fn active(&self) -> impl Iterator<Item = &Element> + Clone {
        self.elements.iter().filter(|element| element.active)
    }

    /// Whether other elements would be active if the count went up to this bit.
    fn is_other_up_to(&self, highest: usize, counter: u16) -> bool {
        let mask = mask_up_to(highest, &counter.to_le_bytes(), self.input.vb);
        let mut pairs = self.elements.iter().zip(mask.chunks(self.size));
        pairs.any(|(element, mask)| element.active != mask[0])
    }

    /// The elements that are compared one by one: as many as there are doublewords, of narrower ones
    /// others for each counter.
    fn looked_at(&self, counter: u16) -> impl Iterator<Item = (usize, &Element)> {
        let step = 8 / self.size;
        self.elements.iter().enumerate().skip(usize::from(counter >> 4) % step).step_by(step)
    }

    fn compare_elements(&self, report: &Report, counter: u16) {
        let machine = self.input.machine();
        for (e, element) in self.looked_at(counter) {
            let mut numbers = [GARBAGE; 5];
            let word = self.input.word;
            let verdict = starshackle::element_numbers(&machine, word, e as u64, &mut numbers);
            let model = Outcome { verdict, numbers };
            let Element { active, address, index, size, .. } = *element;
            let count = self.elements.len() as u64;
            let numbers = [active.into(), address, index as u64, size as u64, count];
            let right = Outcome { verdict: DONE, numbers };
            report.compare(&model, &right, || format!("element {e:X} of {}", self.input.text()));
        }
    }

    /// The patch, and how many runs it has, which ascend as the elements do: one for each active element
    /// that doesn't start where the one before it ends.
    fn patch(&self) -> (u16, Vec<u8>) {
        let (mut runs, mut head, mut end) = (0u16, 0, None);
        let mut patch = Vec::with_capacity(ROOM);
        for element in self.active() {
            if end != Some(u128::from(element.address)) {
                (runs, head) = (runs + 1, patch.len());
                patch.extend(RUN_MARK);
                patch.extend(element.address.to_le_bytes());
                patch.extend([0, 0]);
            }
            patch.extend((0..self.size).map(|k| element.byte(k)));
            let length = (patch.len() - head - 12) as u16;
            patch[head + 10..head + 12].copy_from_slice(&length.to_le_bytes());
            end = Some(element.end());
        }
        patch.extend(TRAILER_MARK);
        patch.extend(runs.to_le_bytes());
        (runs, patch)
    }

    /// Compares what the store answers and leaves in memory and in a buffer.
    fn compare_store(&self, report: &Report, store: &Store) {
        let Input { base, word, ref memory, .. } = self.input;
        let (mut left, mut right) = (memory.clone(), memory.clone());
        let (mut buffer, mut numbers) = ([0; ROOM], [GARBAGE; 6]);
        let window = Window { base, memory: &mut left };
        let machine = self.input.machine();
        let verdict = store(&machine, window, word, &mut buffer, &mut numbers);
        let model = Outcome { verdict, numbers };
        arm::write(base, &self.elements, &mut right);
        let active = self.active().count() as u64;
        let (runs, patch) = self.patch();
        let bytes = self.size as u64 * active;
        let numbers = [0, 0, active, bytes, patch.len() as u64, runs.into()];
        let outcome = Outcome { verdict: DONE, numbers };
        if !model.is(&outcome) || left != right || buffer[..patch.len()] != patch {
            report.tell(|| {
                let memory = first_difference("memory", &left, &right, 0);
                let buffer = first_difference("buffer", &buffer, &patch, 0);
                format!("{}\n{}{memory}{buffer}", self.input.text(), answers(&model, &outcome))
            });
        }
    }
}

#[cfg(test)]
mod tests {
    use super::*;

    /// The model with one counter misread at one length, in one class.
    fn is_found(vb: usize, class: u64, counter: u16) {
        let number = LENGTHS.iter().position(|&length| length == vb).unwrap();
        let mut case = Case::new(number, class);
        case.give(counter);
        let Input { word, p, .. } = case.input;
        let wrong: &Store = &move |machine, window, own, patch, answer| {
            let verdict = starshackle::store_numbers(machine, window, own, patch, answer);
            answer[2] += u64::from(machine.vb == vb && own == word && machine.p == p);
            verdict
        };
        let report = Report::default();
        with_each(&report, 2, &[(number, class)], |case, _| case.compare_store(&report, wrong));
        assert_eq!(report.differences(), 1, "{counter:04X}");
    }

    #[test]
    fn one_counter() {
        is_found(16, 8, 0x0418);
        is_found(128, 11, 0xFFFF);
        is_found(256, 9, 0x0000);
        is_found(256, 26, 0x8002);
        is_found(32, 31, 0x0054);
        is_found(64, 36, 0x9018);
    }

    #[test]
    fn highest_bits() {
        assert_eq!(LENGTHS.map(arm::maxbit), [6, 7, 8, 9, 10]);
        assert_eq!([17, 24, 48, 80, 255].map(arm::maxbit), [7, 7, 8, 9, 10]);
    }
}
