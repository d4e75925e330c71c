//! What a subcommand is and what it answers.

use crate::arguments::{Arguments, Usage};
use crate::json::{Json, Members};
use crate::output::Output;
use std::io;

pub struct Command {
    pub name: &'static str,
    /// What it does, in a few words.
    pub summary: &'static str,
    /// Its whole help, the usage in the first line.
    pub help: &'static str,
    /// The options that take a value.
    pub valued: &'static [&'static str],
    /// The options that take none, besides --json and --help.
    pub switches: &'static [&'static str],
    pub run: fn(&Arguments) -> Result<Report, Failure>,
}

impl Command {
    pub fn usage(&self) -> &'static str {
        self.help.lines().next().unwrap_or_default()
    }
}

/// The exit status when the model refuses, of most commands.
pub const REFUSED: u8 = 1;
/// The exit status of bad usage and of files that can't be read or written.
pub const FAILED: u8 = 2;

/// What goes to standard output, and the exit status.
pub struct Report {
    pub text: String,
    pub status: u8,
    /// Whether the text goes to standard error, since standard output is for the bytes.
    pub aside: bool,
    /// The bytes that go to their place once the text is out.
    pub output: Option<Output>,
}

impl Report {
    /// The report of a call that the model has refused or not.
    pub fn new(text: String, refused: bool) -> Report {
        let status = if refused { REFUSED } else { 0 };
        Report { text, status, aside: false, output: None }
    }
}

/// What is said of one store.
pub enum Said {
    Text(String),
    /// With --json: the members of its object.
    Members(Members),
}

/// The answer to one store.
pub struct One {
    pub said: Said,
    pub refused: bool,
    /// The bytes that go to their place once it is told.
    pub output: Option<Output>,
}

impl One {
    /// The report of a call about this store alone.
    pub fn report(self) -> Report {
        let text = match self.said {
            Said::Text(text) => text,
            Said::Members(members) => format!("{}\n", Json::Object(members)),
        };
        Report { output: self.output, ..Report::new(text, self.refused) }
    }
}

/// Why there is no report.
#[derive(Debug)]
pub enum Failure {
    Usage(Usage),
    /// A file can't be read, isn't what was expected, or can't be written.
    File(String),
    /// Standard output takes no more.
    Output(io::Error),
}

impl Failure {
    /// What is wrong with a file, whose name is as messages show it.
    pub fn of_file(name: &str, message: &str) -> Failure {
        Failure::File(format!("{name}: {message}"))
    }
}

impl From<Usage> for Failure {
    fn from(usage: Usage) -> Failure {
        Failure::Usage(usage)
    }
}
