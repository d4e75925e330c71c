//! Words in the lines of a file, answered one by one.

use super::{little_endian, Answer, BYTES, EXPECTED, EXPECTED_BYTES};
use crate::arguments::{unexpected, Arguments, Usage};
use crate::batch::{Lines, Progress, Sink, Stop};
use crate::command::{Failure, Report, REFUSED};
use crate::numbers;
use std::ffi::OsStr;

pub fn decode(arguments: &Arguments, file: &OsStr) -> Result<Report, Failure> {
    let lines = Lines::open(file, "words in lines")?;
    let mut listed = Listed {
        lines,
        sink: Sink::open()?,
        json: arguments.json,
        by_bytes: arguments.has(BYTES),
        bytes: Vec::new(),
        told: 0,
    };
    // A list has its end also where the file isn't read to its own.
    let ended = match listed.all() {
        Err(Stop::Failed(failure)) => listed.close().and(Err(Stop::Failed(failure))),
        ended => ended.and_then(|()| listed.close()),
    };
    listed.sink.finish(ended, false)
}

struct Listed {
    lines: Lines,
    sink: Sink,
    json: bool,
    by_bytes: bool,
    /// The first bytes of a word whose others come next.
    bytes: Vec<u8>,
    /// How many answers are out.
    told: u64,
}

impl Listed {
    fn all(&mut self) -> Result<(), Stop> {
        let mut progress = Progress::of("words");
        loop {
            if self.lines.waits() {
                self.sink.flush()?;
            }
            let line = match self.lines.next()? {
                Some(line) => line.map_err(|problem| self.lines.problem(problem))?,
                None => break,
            };
            let line = line.split_once('#').map_or(&line[..], |(before, _)| before);
            for text in line.split_whitespace() {
                for word in self.words(text).map_err(|usage| self.lines.problem(&usage.0))? {
                    self.answer(word)?;
                    progress.step();
                }
            }
        }
        match self.bytes.len() {
            0 => Ok(()),
            count => {
                let problem = format!("the end behind {count} of four bytes; expected four");
                Err(self.lines.problem(&problem).into())
            }
        }
    }

    /// The words that a text ends.
    fn words(&mut self, text: &str) -> Result<Vec<u32>, Usage> {
        if !self.by_bytes {
            let word = numbers::word(text).ok_or_else(|| unexpected(text, EXPECTED))?;
            return Ok(vec![word]);
        }
        self.bytes.extend(numbers::pairs(text).ok_or_else(|| unexpected(text, EXPECTED_BYTES))?);
        let whole = self.bytes.len() / 4 * 4;
        let words = self.bytes[..whole].chunks(4).map(little_endian).collect();
        self.bytes.drain(..whole);
        Ok(words)
    }

    fn answer(&mut self, word: u32) -> Result<(), Stop> {
        let answer = Answer::of(word);
        self.sink.note(if answer.outcome.is_err() { REFUSED } else { 0 });
        self.told += 1;
        match (self.json, self.told) {
            (true, 1) => self.sink.put(&format!("[{}", answer.json())),
            (true, _) => self.sink.put(&format!(",\n {}", answer.json())),
            (false, _) => self.sink.put(&answer.text(self.by_bytes)),
        }
    }

    /// Ends the list.
    fn close(&mut self) -> Result<(), Stop> {
        match (self.json, self.told) {
            (true, 0) => self.sink.put("[]\n"),
            (true, _) => self.sink.put("]\n"),
            (false, _) => Ok(()),
        }?;
        self.sink.flush()
    }
}
