//! How often strings, windows and verdicts were hit.

use super::kinds::KINDS;
use super::reader::MOST_RUNS;
use super::windows::KINDS as WINDOWS;
use crate::reference::Outcome;
use crate::report::Report;
use crate::verdicts::{BAD_PATCH, DONE, OUTSIDE, WINDOW};

const VERDICTS: [u64; 4] = [DONE, WINDOW, BAD_PATCH, OUTSIDE];

/// A comparison that was made, by the kinds of its string and window.
pub struct Seen {
    pub kind: usize,
    pub window: usize,
    pub judged: Outcome<5>,
    pub applied: Outcome<5>,
}

/// Counts by verdict.
type Counts = [u64; VERDICTS.len()];

pub struct Tally {
    /// For each kind of strings and each of windows.
    cells: Vec<Vec<Counts>>,
    judged: Counts,
    /// Acceptable runs before what is refused: none, one, more, over 64, the most.
    acceptable: [u64; 5],
    /// The run outside: the first, a later one, the last of several.
    outside: [u64; 3],
}

fn column(verdict: u64) -> usize {
    VERDICTS.iter().position(|&one| one == verdict).expect("applying has four verdicts")
}

fn sum<'a>(counts: impl Iterator<Item = &'a Counts>) -> Counts {
    counts.fold([0; VERDICTS.len()], |sum, one| {
        let mut sum = sum;
        add(&mut sum, one);
        sum
    })
}

fn add(counts: &mut [u64], more: &[u64]) {
    counts.iter_mut().zip(more).for_each(|(count, more)| *count += more);
}

impl Tally {
    pub fn new() -> Tally {
        let cells = vec![vec![[0; VERDICTS.len()]; WINDOWS.len()]; KINDS.len()];
        Tally { cells, judged: [0; VERDICTS.len()], acceptable: [0; 5], outside: [0; 3] }
    }

    pub fn count(&mut self, seen: &Seen) {
        let Seen { kind, window, judged, applied } = seen;
        self.cells[*kind][*window][column(applied.verdict)] += 1;
        self.judged[column(judged.verdict)] += 1;
        if judged.verdict == BAD_PATCH {
            let runs = judged.numbers[0] as usize;
            let column = match runs {
                MOST_RUNS => 4,
                65.. => 3,
                _ => runs.min(2),
            };
            self.acceptable[column] += 1;
        }
        if applied.verdict == OUTSIDE {
            let (run, runs) = (applied.numbers[0], judged.numbers[2]);
            self.outside[if run == 0 { 0 } else { 1 + usize::from(run + 1 == runs) }] += 1;
        }
    }

    pub fn add(&mut self, other: &Tally) {
        for (cells, more) in self.cells.iter_mut().zip(&other.cells) {
            cells.iter_mut().zip(more).for_each(|(counts, more)| add(counts, more));
        }
        add(&mut self.judged, &other.judged);
        add(&mut self.acceptable, &other.acceptable);
        add(&mut self.outside, &other.outside);
    }

    /// Prints the counts, and reports what was not hit.
    pub fn print(&self, report: &Report) {
        let total = sum(self.cells.iter().flatten());
        println!("patches: {} strings judged and applied", total.iter().sum::<u64>());
        row(report, "applied", &VERDICTS, &VERDICTS, &total);
        row(report, "judged", &[DONE, BAD_PATCH], &VERDICTS, &self.judged);
        for (kind, cells) in KINDS.iter().zip(&self.cells) {
            row(report, kind.name, kind.verdicts, &VERDICTS, &sum(cells.iter()));
        }
        for (number, kind) in WINDOWS.iter().enumerate() {
            let name = format!("window {}", kind.name);
            let column = self.cells.iter().map(|cells| &cells[number]);
            row(report, &name, kind.verdicts, &VERDICTS, &sum(column));
        }
        let names = ["none", "one", "2 to 64", "65 to 511", "512"];
        row(report, "acceptable runs before a refusal", &names, &names, &self.acceptable);
        let names = ["first", "later", "last"];
        row(report, "run outside", &names, &names, &self.outside);
        self.pairs(report);
    }

    /// Reports the pairs of a string's and a window's kind that weren't hit.
    fn pairs(&self, report: &Report) {
        for (kind, cells) in KINDS.iter().zip(&self.cells) {
            for (window, counts) in WINDOWS.iter().zip(cells) {
                if counts.iter().all(|&count| count == 0) {
                    report.miss(&format!("{}, window {}", kind.name, window.name));
                }
            }
        }
    }
}

/// Prints the counts of the values that were hit or have to be.
fn row<T: std::fmt::Display + PartialEq>(
    report: &Report,
    name: &str,
    due: &[T],
    values: &[T],
    counts: &[u64],
) {
    let pairs = || values.iter().zip(counts);
    let listed: Vec<String> = pairs()
        .filter(|(value, &count)| count > 0 || due.contains(value))
        .map(|(value, count)| format!("{value}: {count}"))
        .collect();
    println!("  {name:46} {}", listed.join(", "));
    for (value, _) in pairs().filter(|(value, &count)| count == 0 && due.contains(value)) {
        report.miss(&format!("{name}: {value}"));
    }
}
