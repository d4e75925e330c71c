//! Encoding compared on fields in and out of range.

use crate::model_encode;
use crate::patterns::CLASSES;
use crate::random::Random;
use crate::reference::Reference;
use crate::report::{name, Report};
use crate::verdicts::DONE;
use starshackle::{Fields, WORD};

/// Combinations that are made at random.
const RANDOM: u64 = 8_000_000;
/// Small values go to here, in both directions: past every register, class and multiple.
const SMALL: u64 = 40;

pub fn run(reference: &Reference, report: &Report) {
    let edges = edges();
    for (name, cases) in [
        ("one field at every edge", one_at_the_edge as Cases),
        ("small combinations", small_combinations),
        ("at random", at_random),
    ] {
        let mut comparison = Comparison { reference, report, accepted: 0, refused: 0 };
        cases(&mut comparison, &edges);
        comparison.print(name);
    }
}

type Cases = fn(&mut Comparison, &[u64]);

struct Comparison<'a> {
    reference: &'a Reference,
    report: &'a Report,
    accepted: u64,
    refused: u64,
}

impl Comparison<'_> {
    fn case(&mut self, fields: &Fields) {
        if self.report.is_full() {
            return;
        }
        let right = self.reference.encode(fields);
        self.report.compare(&model_encode(fields), &right, || {
            let word = match right.verdict {
                DONE => name(self.reference, right.numbers[WORD] as u32),
                _ => "no word".to_string(),
            };
            format!("encoding {fields:X?}, {word}")
        });
        match right.verdict {
            DONE => self.accepted += 1,
            _ => self.refused += 1,
        }
    }

    /// The fields of the class counted from 0, with these bits in its word.
    fn valid(&self, number: usize, bits: u32) -> Fields {
        self.reference.decode(self.reference.word(number, bits)).numbers
    }

    fn print(&self, name: &str) {
        let Comparison { accepted, refused, .. } = self;
        let cases = accepted + refused;
        println!("encode: {name}: {cases} cases, {accepted} accepted, {refused} refused");
    }
}

/// Small numbers and powers of two, and small numbers that a cut to fewer bits would give.
fn edges() -> Vec<u64> {
    let mut edges: Vec<u64> = (0..=SMALL).chain((1..=SMALL).map(u64::wrapping_neg)).collect();
    for power in (0..64).map(|bit| 1u64 << bit) {
        edges.extend([power - 1, power, power + 1]);
    }
    for width in [8, 16, 32] {
        let past = 1u64 << width;
        edges.extend((0..=SMALL).map(|small| past + small));
        edges.extend((1..=SMALL).map(|small| past - small));
    }
    edges.extend((0..=SMALL).map(|small| (1 << 63) + small));
    edges.sort_unstable();
    edges.dedup();
    edges
}

/// Each entry of valid fields put to each edge.
fn one_at_the_edge(comparison: &mut Comparison, edges: &[u64]) {
    for number in 0..CLASSES.len() {
        for bits in [0, !0, 0x5555_5555, 0xAAAA_AAAA] {
            let valid = comparison.valid(number, bits);
            for entry in 0..valid.len() {
                for &edge in edges {
                    let mut fields = valid;
                    fields[entry] = edge;
                    comparison.case(&fields);
                }
            }
        }
    }
}

/// All small classes, extensions, registers and multiples together.
fn small_combinations(comparison: &mut Comparison, _: &[u64]) {
    for class in 0..=SMALL {
        for extension in 0..=4 {
            for register in 0..=SMALL {
                for shifted in 0..=2 * SMALL {
                    let multiple = shifted.wrapping_sub(SMALL);
                    comparison.case(&[class, 0, extension, 0, 0, register, multiple, 0]);
                }
            }
        }
    }
}

/// Valid fields, up to three of them changed.
fn at_random(comparison: &mut Comparison, edges: &[u64]) {
    let mut random = Random::new(1);
    for _ in 0..RANDOM {
        let number = random.below(CLASSES.len());
        let mut fields = comparison.valid(number, random.number() as u32);
        for _ in 0..random.below(4) {
            let entry = random.below(fields.len());
            fields[entry] = changed(fields[entry], &mut random, edges);
        }
        comparison.case(&fields);
    }
}

/// A value near to another, at an edge, or anywhere.
fn changed(value: u64, random: &mut Random, edges: &[u64]) -> u64 {
    match random.below(8) {
        0 => value.wrapping_add(1),
        1 => value.wrapping_sub(1),
        2 => value ^ 1 << random.below(64),
        3 => random.number(),
        4 | 5 => random.below(SMALL as usize) as u64,
        _ => random.pick(edges),
    }
}

#[cfg(test)]
mod tests {
    use super::*;
    use crate::reference::CLASS;

    #[test]
    fn the_edges_hold_what_a_cut_would_hide() {
        let edges = edges();
        for edge in [0, 1, 7, 8, 31, 32, 1 << 8, 1 << 16, 1 << 32, (1 << 32) - 2, u64::MAX] {
            assert!(edges.contains(&edge), "{edge}");
        }
    }

    #[test]
    fn valid_fields_are_encoded() {
        let (reference, report) = (Reference::new(), Report::default());
        let comparison =
            Comparison { reference: &reference, report: &report, accepted: 0, refused: 0 };
        for number in 0..CLASSES.len() {
            let fields = comparison.valid(number, !0);
            assert_eq!(fields[CLASS], number as u64 + 1);
            assert_eq!(reference.encode(&fields).verdict, DONE);
        }
    }
}
