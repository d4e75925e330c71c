//! Decoding compared word by word, and each word of a class encoded back.

use crate::patterns::CLASSES;
use crate::random::Random;
use crate::reference::{encoded, Outcome, Reference, CLASS};
use crate::report::{name, Report};
use crate::verdicts::DONE;
use crate::{model_decode, model_encode};
use starshackle::Fields;
use std::sync::atomic::{AtomicU32, Ordering};
use std::thread;

/// Blocks of words: one for each top byte.
const BLOCKS: u32 = 256;
/// Words of a block.
const BLOCK: u32 = 1 << 24;
/// A sample takes one word of each so many.
const STRATUM: u32 = 64;
/// Blocks between two lines of progress.
const STRIDE: u32 = 32;

/// Which words are compared.
#[derive(Clone, Copy, PartialEq, Eq)]
pub enum Extent {
    All,
    /// The blocks that have classes in full, and a sample of the others.
    Sample,
}

/// How many words were compared, and how many of each class.
struct Tally {
    words: u64,
    classes: [u64; CLASSES.len()],
}

/// What all threads share.
struct Comparison<'a> {
    reference: &'a Reference,
    report: &'a Report,
    extent: Extent,
    next: AtomicU32,
    finished: AtomicU32,
}

pub fn run(reference: &Reference, report: &Report, extent: Extent, threads: usize) {
    let (next, finished) = (AtomicU32::new(0), AtomicU32::new(0));
    let comparison = Comparison { reference, report, extent, next, finished };
    let mut total = Tally::new();
    thread::scope(|scope| {
        let workers: Vec<_> = (0..threads).map(|_| scope.spawn(|| comparison.work())).collect();
        for worker in workers {
            total.add(&worker.join().expect("a worker ends"));
        }
    });
    total.print();
}

impl Comparison<'_> {
    /// Takes blocks until none is left.
    fn work(&self) -> Tally {
        let mut tally = Tally::new();
        loop {
            let top = self.next.fetch_add(1, Ordering::Relaxed);
            if top >= BLOCKS || self.report.is_full() {
                return tally;
            }
            self.block(top, &mut tally);
            let finished = self.finished.fetch_add(1, Ordering::Relaxed) + 1;
            if finished % STRIDE == 0 {
                println!("decode: {finished} of {BLOCKS} blocks");
            }
        }
    }

    fn block(&self, top: u32, tally: &mut Tally) {
        let start = top << 24;
        if self.extent == Extent::All || self.reference.reaches(top as u8) {
            self.words((0..BLOCK).map(|low| start | low), tally);
        } else {
            let mut random = Random::new(u64::from(top));
            let mut within = || random.number() as u32 % STRATUM;
            let sample = (0..BLOCK).step_by(STRATUM as usize).map(|low| start + low + within());
            self.words(sample, tally);
        }
    }

    fn words(&self, words: impl Iterator<Item = u32>, tally: &mut Tally) {
        for word in words {
            let model = model_decode(word);
            let same = self.report.compare(&model, &self.reference.decode(word), || {
                format!("decoding {}", name(self.reference, word))
            });
            tally.words += 1;
            if same && model.verdict == DONE {
                self.encode_back(word, &model.numbers, tally);
            }
            if self.report.is_full() {
                return;
            }
        }
    }

    fn encode_back(&self, word: u32, fields: &Fields, tally: &mut Tally) {
        let right = Outcome { verdict: DONE, numbers: encoded(word) };
        self.report.compare(&model_encode(fields), &right, || {
            format!("encoding the fields of {}", name(self.reference, word))
        });
        tally.classes[fields[CLASS] as usize - 1] += 1;
    }
}

impl Tally {
    fn new() -> Tally {
        Tally { words: 0, classes: [0; CLASSES.len()] }
    }

    fn add(&mut self, other: &Tally) {
        self.words += other.words;
        for (count, more) in self.classes.iter_mut().zip(other.classes) {
            *count += more;
        }
    }

    fn print(&self) {
        let classes: u64 = self.classes.iter().sum();
        println!("decode: {} words compared, {classes} of a class and encoded back", self.words);
        for (number, (class, count)) in CLASSES.iter().zip(self.classes).enumerate() {
            println!("  {:2} {:32} {count:8}", number + 1, class.name);
        }
    }
}
