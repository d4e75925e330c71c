//! One answer for each of many files.

use super::progress::Progress;
use super::sink::{Sink, Stop};
use crate::arguments::Arguments;
use crate::command::{Failure, One, Report, Said, FAILED, REFUSED};
use crate::json::Json;
use crate::{input, verdicts};
use std::ffi::OsStr;
use std::io::{self, Write};

/// The answers for a call's operands, in their order. A file that fails is told of, and the others
/// are answered all the same.
pub fn files(
    arguments: &Arguments,
    command: &str,
    one: impl Fn(&OsStr) -> Result<One, Failure>,
) -> Result<Report, Failure> {
    let progress = Progress::of("stores");
    let mut call = Call { command, sink: Sink::open()?, progress, told: 0, writes: false };
    let ended = call.all(arguments, one);
    let Call { sink, writes, .. } = call;
    sink.finish(ended, writes)
}

struct Call<'a> {
    command: &'a str,
    sink: Sink,
    progress: Progress,
    /// How many answers are out.
    told: usize,
    /// Whether the call writes files.
    writes: bool,
}

impl Call<'_> {
    fn all(
        &mut self,
        arguments: &Arguments,
        one: impl Fn(&OsStr) -> Result<One, Failure>,
    ) -> Result<(), Stop> {
        for file in &arguments.operands {
            let name = input::name(file);
            match one(file) {
                Ok(one) => self.answer(&name, one)?,
                Err(Failure::File(message)) if arguments.json => {
                    self.sink.note(FAILED);
                    self.object(failed(&name, message))?;
                }
                Err(Failure::File(message)) => self.complain(&message)?,
                Err(failure) => return Err(failure.into()),
            }
            self.progress.step();
        }
        match (arguments.json, self.told) {
            (true, 0) => self.sink.put("[]\n"),
            (true, _) => self.sink.put("]\n"),
            _ => Ok(()),
        }
    }

    fn answer(&mut self, name: &str, one: One) -> Result<(), Stop> {
        self.sink.note(if one.refused { REFUSED } else { 0 });
        match one.said {
            Said::Text(text) => {
                let space = if self.told > 0 { "\n" } else { "" };
                self.sink.put(&format!("{space}==> {name} <==\n{text}"))?;
                self.told += 1;
            }
            Said::Members(mut members) => {
                members.insert(1, ("file", name.into())); // behind the version
                self.object(Json::Object(members))?;
            }
        }
        let output = match one.output {
            Some(output) => output,
            None => return Ok(()),
        };
        self.writes = true;
        self.sink.flush()?;
        output.put().or_else(|message| self.complain(&message))
    }

    /// An object of the list.
    fn object(&mut self, object: Json) -> Result<(), Stop> {
        let before = if self.told > 0 { ",\n " } else { "[" };
        self.told += 1;
        self.sink.put(&format!("{before}{object}"))
    }

    /// A message at its place among the answers.
    fn complain(&mut self, message: &str) -> Result<(), Stop> {
        self.sink.note(FAILED);
        self.sink.flush()?;
        self.progress.clear();
        // Where standard error takes nothing, the status still tells.
        let _ = writeln!(io::stderr(), "starshackle {}: {message}", self.command);
        Ok(())
    }
}

/// The object of a file with no answer.
fn failed(name: &str, message: String) -> Json {
    Json::Object(vec![verdicts::version(), ("file", name.into()), ("error", message.into())])
}
