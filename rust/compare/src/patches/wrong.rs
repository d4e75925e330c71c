//! The comparison finds wrong readers: each is the independent one with a mistake in it. And the sizes'
//! edges, of the independent reader and of the model.

use super::generate::{string, Run};
use super::reader::{self, Sizes, SIZES};
use super::{compare, model_apply, model_judge, Reader};
use crate::reference::Outcome;
use crate::report::Report;
use crate::verdicts::{BAD_PATCH, DONE};

/// The independent reader with other sizes, of a string and with an answer that are changed.
struct Wrong {
    sizes: Sizes,
    string: fn(&[u8]) -> Vec<u8>,
    answer: fn(&mut Outcome<5>),
}

const RIGHT: Wrong = Wrong { sizes: SIZES, string: <[u8]>::to_vec, answer: |_| () };

impl Reader for Wrong {
    fn judge(&self, string: &[u8]) -> Outcome<5> {
        let read = reader::read_within(self.sizes, &(self.string)(string));
        let mut outcome = reader::judged(&read);
        (self.answer)(&mut outcome);
        outcome
    }

    fn apply(&self, base: u64, memory: &mut [u8], string: &[u8]) -> Outcome<5> {
        let read = reader::read_within(self.sizes, &(self.string)(string));
        let mut outcome = reader::apply(&read, base, memory);
        (self.answer)(&mut outcome);
        outcome
    }
}

/// The string with the right high byte of the number of its runs, where there are some at its front.
fn with_the_counts_high_byte(string: &[u8]) -> Vec<u8> {
    let mut string = string.to_vec();
    let runs = match reader::read(&string) {
        reader::Read::Patch { .. } => return string,
        reader::Read::NoPatch { runs, .. } => runs as u16,
    };
    if let Some(high) = string.last_mut() {
        *high = (runs >> 8) as u8;
    }
    string
}

#[test]
fn wrong_readers() {
    let runs = |runs| Wrong { sizes: Sizes { runs, ..SIZES }, ..RIGHT };
    let bytes = |bytes| Wrong { sizes: Sizes { bytes, ..SIZES }, ..RIGHT };
    for (name, wrong) in [
        ("65 runs refused", runs(64)),
        ("257 runs refused", runs(256)),
        ("512 runs refused", runs(511)),
        ("513 runs accepted", runs(513)),
        ("1,024 bytes refused", bytes(1_023)),
        ("1,025 bytes accepted", bytes(1_025)),
        ("the count's low byte alone", Wrong { string: with_the_counts_high_byte, ..RIGHT }),
        (
            "runs answered in one byte",
            Wrong { answer: |outcome| outcome.numbers[2] %= 256, ..RIGHT },
        ),
        ("runs before a refusal up to 64", {
            Wrong { answer: |outcome| outcome.numbers[0] %= 65, ..RIGHT }
        }),
    ] {
        let report = Report::default();
        compare(&report, &wrong, 20_000, 1, 2);
        assert!(report.differences() > 0, "{name}");
    }
    let report = Report::default();
    compare(&report, &RIGHT, 4_000, 1, 2);
    assert_eq!(report.differences(), 0);
}

/// A string of so many runs of a byte, two addresses apart, and of so many bytes more in the last.
fn spaced(runs: u64, more: usize) -> Vec<u8> {
    let run = |number: u64| {
        let length = if number + 1 == runs { 1 + more } else { 1 };
        Run { start: 0x1000 + 2 * number, bytes: vec![number as u8; length] }
    };
    string(&(0..runs).map(run).collect::<Vec<Run>>())
}

/// Document 02 (vii): "The patch may now hold 0 to 512 runs, still at most 1,024 payload bytes; the
/// largest store patch is 6,660 bytes and the largest valid patch 7,172."
#[test]
fn the_most_runs_and_bytes() {
    for runs in [0, 1, 63, 64, 65, 255, 256, 257, 511, 512, 513, 514] {
        let patch = spaced(runs, 0);
        assert_eq!(patch.len() as u64, 4 + 13 * runs);
        let (right, model) = (reader::judged(&reader::read(&patch)), model_judge(&patch));
        assert_eq!(right, model, "{runs}");
        let numbers = match runs {
            0..=512 => [0, 0, runs, runs, 0],
            _ => [512, 13 * 512, 0, 0, 0],
        };
        let verdict = if runs > 512 { BAD_PATCH } else { DONE };
        assert_eq!(model, Outcome { verdict, numbers });
        let mut memory = vec![0x77; 1_100];
        let applied = model_apply(0x1000, &mut memory, &patch);
        assert_eq!(applied.verdict, verdict);
        let written = memory.iter().enumerate().filter(|(at, byte)| **byte == (at / 2) as u8);
        let written = written.filter(|(at, _)| at % 2 == 0).count() as u64;
        assert!(runs > 512 && memory == vec![0x77; 1_100] || written >= runs);
    }
    let largest = spaced(512, 512);
    assert_eq!((largest.len(), model_judge(&largest).verdict), (7_172, DONE));
    assert_eq!(model_judge(&largest).numbers, [0, 0, 512, 1_024, 0]);
    for (patch, before) in [(spaced(512, 513), 511), (spaced(513, 511), 512), (spaced(1, 1_024), 0)]
    {
        let refused = Outcome { verdict: BAD_PATCH, numbers: [before, 13 * before, 0, 0, 0] };
        assert_eq!(
            (model_judge(&patch), reader::judged(&reader::read(&patch))),
            (refused, refused)
        );
    }
}
