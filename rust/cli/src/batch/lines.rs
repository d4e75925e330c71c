//! Lines of an input that may be longer than memory.

use crate::command::Failure;
use crate::input::{self, closed, STANDARD};
use starshackle_streams::{was_open, Stream};
use std::ffi::OsStr;
use std::fs::File;
use std::io::{self, BufRead, BufReader, Read};

/// No line that says anything is near this length.
const LONGEST: u64 = 1 << 20;

pub struct Lines {
    name: String,
    reader: BufReader<Box<dyn Read>>,
    /// How many lines were read.
    pub number: u64,
}

/// A line, or what is wrong with it.
pub type Line = Result<String, &'static str>;

impl Lines {
    /// The lines of a file, which is described for the message that it can't be read.
    pub fn open(file: &OsStr, described: &str) -> Result<Lines, Failure> {
        let name = input::name(file);
        match opened(file) {
            Ok(reader) => {
                Ok(Lines { name, reader: BufReader::with_capacity(1 << 16, reader), number: 0 })
            }
            Err(error) => Err(Failure::of_file(&name, &format!("{error}; expected {described}"))),
        }
    }

    /// Whether the next line isn't here yet, so that whoever writes it may wait for answers.
    pub fn waits(&self) -> bool {
        !self.reader.buffer().contains(&b'\n')
    }

    /// The next line, if there is one.
    pub fn next(&mut self) -> Result<Option<Line>, Failure> {
        self.read().map_err(|error| Failure::of_file(&self.name, &error.to_string()))
    }

    /// What is wrong with the line that was read last.
    pub fn problem(&self, message: &str) -> Failure {
        Failure::File(format!("{}:{}: {message}", self.name, self.number))
    }

    fn read(&mut self) -> io::Result<Option<Line>> {
        let mut bytes = Vec::new();
        (&mut self.reader).take(LONGEST + 1).read_until(b'\n', &mut bytes)?;
        if bytes.is_empty() {
            return Ok(None);
        }
        self.number += 1;
        if bytes.last() == Some(&b'\n') {
            bytes.pop();
        } else if bytes.len() as u64 > LONGEST {
            self.skip()?;
            return Ok(Some(Err("more than 1 MiB; expected a shorter line")));
        }
        Ok(Some(String::from_utf8(bytes).map_err(|_| "bytes that are no text; expected UTF-8")))
    }

    /// Passes over the rest of a line.
    fn skip(&mut self) -> io::Result<()> {
        loop {
            let bytes = self.reader.fill_buf()?;
            let (end, length) = match bytes.iter().position(|byte| *byte == b'\n') {
                Some(index) => (true, index + 1),
                None => (bytes.is_empty(), bytes.len()),
            };
            self.reader.consume(length);
            if end {
                return Ok(());
            }
        }
    }
}

fn opened(file: &OsStr) -> io::Result<Box<dyn Read>> {
    match file == STANDARD {
        false => Ok(Box::new(File::open(file)?)),
        true if was_open(Stream::Input) => Ok(Box::new(io::stdin().lock())),
        true => Err(closed()),
    }
}
