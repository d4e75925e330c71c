//! Compares the proved model with an independent implementation made from Arm's patterns.

#![forbid(unsafe_code)]

use compare::decoding::{self, Extent};
use compare::reference::{self, Reference};
use compare::report::{self, Report};
use compare::storing::{self, counters};
use compare::{comparing, encoding, patches};
use std::io::{self, BufWriter, Write};
use std::process::ExitCode;

const USAGE: &str = "\
usage: compare (--all | --sample) [--threads N]
  compare everything, decoding on every word or on a sample where no class is
usage: compare --texts BYTE
  print each word of a class with this top byte: the word, its class, its assembly text
usage: compare --patches [STRINGS [SEED]] [--threads N]
  compare judging and applying patches on random strings
usage: compare --pairs [PAIRS] [--threads N]
  compare comparing two patches on random pairs of strings
usage: compare --counters [--threads N]
  compare strided stores on every counter at every vector length
usage: compare --stores [STORES] [--threads N]
  compare stores, run and made into patches in one call, on random inputs
usage: compare --store NUMBER
  compare the random store with this number";

/// Threads that compare where no number is given.
const THREADS: usize = 2;

/// What the command line asks for.
enum Task {
    Compare { extent: Extent, threads: usize },
    Texts { top: u8 },
    Patches { strings: u64, seed: u64, threads: usize },
    Pairs { pairs: u64, threads: usize },
    Counters { threads: usize },
    Stores { stores: u64, threads: usize },
    Store { number: u64 },
}

fn main() -> ExitCode {
    let arguments: Vec<String> = std::env::args().skip(1).collect();
    let arguments: Vec<&str> = arguments.iter().map(String::as_str).collect();
    match task(&arguments) {
        Some(task) => perform(task),
        None => {
            eprintln!("{USAGE}");
            ExitCode::from(2)
        }
    }
}

fn task(arguments: &[&str]) -> Option<Task> {
    let (subject, threads) = match arguments {
        ["--threads", number, subject @ ..] | [subject @ .., "--threads", number] => {
            (subject, number.parse().ok().filter(|&number| number > 0)?)
        }
        subject => (subject, THREADS),
    };
    Some(match subject {
        ["--all"] => Task::Compare { extent: Extent::All, threads },
        ["--sample"] => Task::Compare { extent: Extent::Sample, threads },
        ["--texts", top] => Task::Texts { top: u8::from_str_radix(top, 16).ok()? },
        ["--patches", numbers @ ..] => patches_task(numbers, threads)?,
        ["--pairs"] => Task::Pairs { pairs: comparing::PAIRS, threads },
        ["--pairs", pairs] => Task::Pairs { pairs: pairs.parse().ok()?, threads },
        ["--counters"] => Task::Counters { threads },
        ["--stores"] => Task::Stores { stores: storing::STORES, threads },
        ["--stores", stores] => Task::Stores { stores: stores.parse().ok()?, threads },
        ["--store", number] => Task::Store { number: number.parse().ok()? },
        _ => return None,
    })
}

/// The numbers: how many strings, and the seed, or the first or none of them.
fn patches_task(numbers: &[&str], threads: usize) -> Option<Task> {
    let (strings, seed) = match numbers {
        [] => (patches::STRINGS, patches::SEED),
        [strings] => (strings.parse().ok()?, patches::SEED),
        [strings, seed] => (strings.parse().ok()?, seed.parse().ok()?),
        _ => return None,
    };
    Some(Task::Patches { strings, seed, threads })
}

fn perform(task: Task) -> ExitCode {
    let report = Report::default();
    match task {
        Task::Compare { extent, threads } => compare(&report, extent, threads),
        Task::Texts { top } => return listed(texts(top)),
        Task::Patches { strings, seed, threads } => patches::run(&report, strings, seed, threads),
        Task::Pairs { pairs, threads } => comparing::run(&report, pairs, threads),
        Task::Counters { threads } => counters::run(&report, threads),
        Task::Stores { stores, threads } => storing::run(&report, stores, threads),
        Task::Store { number } => storing::one(&report, number),
    }
    let (passed, text) = match (report.differences(), report.misses()) {
        (0, 0) => (ExitCode::SUCCESS, "no difference"),
        (0, _) => (ExitCode::FAILURE, "no difference, but not everything was hit"),
        _ => (ExitCode::FAILURE, "the model differs"),
    };
    println!("compare: {text}");
    passed
}

fn listed(listing: io::Result<()>) -> ExitCode {
    match listing {
        Ok(()) => ExitCode::SUCCESS,
        Err(error) => {
            eprintln!("compare: {error}");
            ExitCode::FAILURE
        }
    }
}

fn compare(report: &Report, extent: Extent, threads: usize) {
    let reference = Reference::new();
    encoding::run(&reference, report);
    if !report.is_full() {
        decoding::run(&reference, report, extent, threads);
    }
    if !report.is_full() {
        patches::run(report, patches::STRINGS, patches::SEED, threads);
    }
    if !report.is_full() {
        comparing::run(report, comparing::PAIRS, threads);
    }
    if !report.is_full() {
        counters::run(report, threads);
    }
    if !report.is_full() {
        storing::run(report, storing::STORES, threads);
    }
}

fn texts(top: u8) -> io::Result<()> {
    let reference = Reference::new();
    let mut out = BufWriter::new(io::stdout().lock());
    for word in (0..1 << 24).map(|low| u32::from(top) << 24 | low) {
        if let Some(text) = report::text(&reference, word) {
            let class = reference.decode(word).numbers[reference::CLASS];
            writeln!(out, "{word:08X} {class} {text}")?;
        }
    }
    out.flush()
}
