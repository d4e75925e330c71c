//! Standard output while a call still runs.

use crate::command::{Failure, Report};
use crate::input::closed;
use starshackle_streams::{was_open, Stream};
use std::io::{self, BufWriter, ErrorKind, Stdout, Write};

pub struct Sink {
    out: BufWriter<Stdout>,
    /// The worst exit status so far.
    status: u8,
}

/// Why a call ends before its last answer.
pub enum Stop {
    /// The reader of standard output, such as `head`, has seen enough.
    Gone(io::Error),
    Failed(Failure),
}

impl From<Failure> for Stop {
    fn from(failure: Failure) -> Stop {
        Stop::Failed(failure)
    }
}

impl From<io::Error> for Stop {
    fn from(error: io::Error) -> Stop {
        match error.kind() {
            ErrorKind::BrokenPipe => Stop::Gone(error),
            _ => Stop::Failed(Failure::Output(error)),
        }
    }
}

impl Sink {
    pub fn open() -> Result<Sink, Failure> {
        match was_open(Stream::Output) {
            true => Ok(Sink { out: BufWriter::with_capacity(1 << 16, io::stdout()), status: 0 }),
            false => Err(Failure::Output(closed())),
        }
    }

    pub fn put(&mut self, text: &str) -> Result<(), Stop> {
        Ok(self.out.write_all(text.as_bytes())?)
    }

    pub fn flush(&mut self) -> Result<(), Stop> {
        Ok(self.out.flush()?)
    }

    /// Notes the exit status of one answer.
    pub fn note(&mut self, status: u8) {
        self.status = self.status.max(status);
    }

    /// The report of a call whose answers are out. A reader who leaves is no failure, unless files
    /// would have been written that nobody is told of.
    pub fn finish(mut self, ended: Result<(), Stop>, writes: bool) -> Result<Report, Failure> {
        match ended.and_then(|()| self.flush()) {
            Err(Stop::Gone(error)) if writes => Err(Failure::Output(error)),
            Err(Stop::Failed(failure)) => Err(failure),
            _ => Ok(Report { status: self.status, ..Report::new(String::new(), false) }),
        }
    }
}
