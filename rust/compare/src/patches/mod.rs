//! Judging and applying patches compared with an independent reader, on random strings.

mod damage;
pub mod generate;
pub mod kinds;
pub mod reader;
mod tally;
pub mod windows;
#[cfg(test)]
mod wrong;

use crate::random::Random;
use crate::reference::Outcome;
use crate::report::{answers, first_difference, Report};
use crate::workers::spread;
use crate::{GARBAGE, LONGEST};
use tally::{Seen, Tally};
use windows::Window;

/// Strings that are compared where no number is given.
pub const STRINGS: u64 = 1_000_000;
/// What they come from where nothing else is given.
pub const SEED: u64 = 1;
/// Bytes on either side of the memory, which no patch may write.
const MARGIN: usize = 64;
/// Bytes from which memories are taken.
const NOISE: usize = MARGIN + LONGEST + 1 + MARGIN + 1024;

/// An implementation of the calls that read patches.
trait Reader: Sync {
    fn judge(&self, string: &[u8]) -> Outcome<5>;
    fn apply(&self, base: u64, memory: &mut [u8], string: &[u8]) -> Outcome<5>;
}

/// The model.
struct Model;

impl Reader for Model {
    fn judge(&self, string: &[u8]) -> Outcome<5> {
        model_judge(string)
    }

    fn apply(&self, base: u64, memory: &mut [u8], string: &[u8]) -> Outcome<5> {
        model_apply(base, memory, string)
    }
}

/// Compares the model on so many strings, which have to hit everything that is counted.
pub fn run(report: &Report, strings: u64, seed: u64, threads: usize) {
    compare(report, &Model, strings, seed, threads).print(report);
}

/// Compares an implementation on so many strings.
fn compare(report: &Report, reader: &dyn Reader, strings: u64, seed: u64, threads: usize) -> Tally {
    let work = |first| {
        let noise = Random::new(seed).bytes(NOISE);
        let mut comparison = Comparison { report, reader, seed, noise, tally: Tally::new() };
        comparison.strings((first..strings).step_by(threads));
        comparison.tally
    };
    let mut total = Tally::new();
    spread(threads, work).iter().for_each(|tally| total.add(tally));
    total
}

struct Comparison<'a> {
    report: &'a Report,
    reader: &'a dyn Reader,
    seed: u64,
    noise: Vec<u8>,
    tally: Tally,
}

/// What was compared, for a difference's text.
struct Subject<'a> {
    number: u64,
    seed: u64,
    kind: &'static str,
    string: &'a [u8],
    window: &'a Window,
}

impl Comparison<'_> {
    fn strings(&mut self, numbers: impl Iterator<Item = u64>) {
        for number in numbers {
            if self.report.is_full() {
                return;
            }
            self.string(number);
        }
    }

    fn string(&mut self, number: u64) {
        let mut random = Random::new((self.seed << 32).wrapping_add(number));
        let kind = random.below(kinds::KINDS.len());
        let case = kinds::case(&mut random, kind);
        let around = random.below(windows::KINDS.len());
        let window = windows::window(&mut random, around, &case.runs);
        let from = random.below(NOISE - 2 * MARGIN - window.length);
        let memory = &self.noise[from..][..window.length + 2 * MARGIN];
        let (seed, string, name) = (self.seed, &case.string, kinds::KINDS[kind].name);
        let subject = Subject { number, seed, kind: name, string, window: &window };
        let (read, before) = (reader::read(string), string.clone());
        let judged = self.judge(&subject, &read);
        let applied = self.apply(&subject, &read, memory);
        if *string != before {
            self.report.tell(|| format!("bytes lent and changed: {}", subject.text()));
        }
        self.tally.count(&Seen { kind, window: around, judged, applied });
    }

    /// Judges the string in both ways and compares what they answer.
    fn judge(&self, subject: &Subject, read: &reader::Read) -> Outcome<5> {
        let right = reader::judged(read);
        let model = self.reader.judge(subject.string);
        self.report.compare(&model, &right, || format!("judge {}", subject.text()));
        right
    }

    /// Applies the string in both ways and compares what they answer and leave.
    fn apply(&self, subject: &Subject, read: &reader::Read, memory: &[u8]) -> Outcome<5> {
        let Window { base, length } = *subject.window;
        let (mut by_reader, mut by_model) = (memory.to_vec(), memory.to_vec());
        let right = reader::apply(read, base, &mut by_reader[MARGIN..][..length]);
        let model = self.reader.apply(base, &mut by_model[MARGIN..][..length], subject.string);
        if !model.is(&right) || by_model != by_reader {
            self.report.tell(|| {
                let answers = answers(&model, &right);
                let memory = first_difference("memory", &by_model, &by_reader, MARGIN);
                format!("apply {}\n{answers}{memory}", subject.text())
            });
        }
        right
    }
}

impl Subject<'_> {
    fn text(&self) -> String {
        let Subject { number, seed, kind, string, window } = self;
        let hex: Vec<String> = string.iter().map(|byte| format!("{byte:02X}")).collect();
        let Window { base, length } = window;
        format!(
            "string {number} of seed {seed} ({kind}): {}\n  window at {base:X}h, {length} bytes",
            hex.join(" ")
        )
    }
}

/// The model's judgement, its answer filled with garbage beforehand.
fn model_judge(string: &[u8]) -> Outcome<5> {
    let mut numbers = [GARBAGE; 5];
    let verdict = starshackle::judge_numbers(string, &mut numbers);
    Outcome { verdict, numbers }
}

/// The model's applying, its answer filled with garbage beforehand.
pub fn model_apply(base: u64, memory: &mut [u8], string: &[u8]) -> Outcome<5> {
    let mut numbers = [GARBAGE; 5];
    let verdict = starshackle::apply_numbers(base, memory, string, &mut numbers);
    Outcome { verdict, numbers }
}
