//! Differences between the model and what it is compared with.

use crate::reference::{Outcome, Reference};
use crate::verdicts::DONE;
use starshackle::{assembly, Store};
use std::sync::atomic::{AtomicUsize, Ordering};

/// After this many differences the comparison stops.
const MOST: usize = 10;

/// Prints the differences and counts them, and what was to be compared and was not.
#[derive(Default)]
pub struct Report {
    differences: AtomicUsize,
    misses: AtomicUsize,
}

impl Report {
    pub fn differences(&self) -> usize {
        self.differences.load(Ordering::Relaxed)
    }

    pub fn misses(&self) -> usize {
        self.misses.load(Ordering::Relaxed)
    }

    /// Whether enough was seen.
    pub fn is_full(&self) -> bool {
        self.differences() >= MOST
    }

    /// Whether the model's outcome is the right one; `input` tells what they are the outcome of.
    #[inline]
    pub fn compare<const N: usize>(
        &self,
        model: &Outcome<N>,
        right: &Outcome<N>,
        input: impl FnOnce() -> String,
    ) -> bool {
        let same = model.is(right);
        if !same {
            self.differ(model, right, &input());
        }
        same
    }

    #[cold]
    fn differ<const N: usize>(&self, model: &Outcome<N>, right: &Outcome<N>, input: &str) {
        self.tell(|| format!("{input}\n{}", answers(model, right)));
    }

    /// Counts a difference, and prints it unless there were enough.
    pub fn tell(&self, difference: impl FnOnce() -> String) {
        let number = self.differences.fetch_add(1, Ordering::Relaxed) + 1;
        if number <= MOST {
            println!("difference {number}: {}", difference());
        }
    }

    /// Counts and prints what no case was for, unless the comparison has stopped before its end.
    pub fn miss(&self, what: &str) {
        if !self.is_full() {
            self.misses.fetch_add(1, Ordering::Relaxed);
            println!("not hit: {what}");
        }
    }
}

/// Two outcomes as lines of text.
pub fn answers<const N: usize>(model: &Outcome<N>, right: &Outcome<N>) -> String {
    let line = |o: &Outcome<N>| format!("verdict {}, {:X?}", o.verdict, o.numbers);
    format!("  model {}\n  right {}", line(model), line(right))
}

/// Where bytes differ first, counted from the one behind `margin`; empty where they don't.
pub fn first_difference(name: &str, model: &[u8], right: &[u8], margin: usize) -> String {
    match model.iter().zip(right).position(|(model, right)| model != right) {
        None => String::new(),
        Some(index) => {
            let (at, model, right) = (index as i64 - margin as i64, model[index], right[index]);
            format!("\n  {name} differs from byte {at} on: model {model:02X}, right {right:02X}")
        }
    }
}

/// A word as a number and as Arm's assembly text.
pub fn name(reference: &Reference, word: u32) -> String {
    let text = text(reference, word).unwrap_or_else(|| "of no class".to_string());
    format!("{word:08X} ({text})")
}

/// The assembly text of a word that has a class.
pub fn text(reference: &Reference, word: u32) -> Option<String> {
    let decoded = reference.decode(word);
    (decoded.verdict == DONE).then(|| assembly::text(&Store::from(decoded.numbers)))?
}

#[cfg(test)]
mod tests {
    use super::*;

    #[test]
    fn bytes_that_differ() {
        assert_eq!(first_difference("z", &[1, 2], &[1, 2], 0), "");
        let text = first_difference("memory", &[1, 2, 3], &[1, 4, 3], 2);
        assert_eq!(text, "\n  memory differs from byte -1 on: model 02, right 04");
    }
}
