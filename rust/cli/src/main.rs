//! The command line of the proved model of Arm's predicated vector stores.
//!
//! It reads arguments and files and shows answers. What a word is, which word a store has, what a
//! store and each of its elements do, and what a patch is and does, comes from the model.

#![forbid(unsafe_code)]

#[macro_use]
mod output;
#[macro_use]
mod store;
#[macro_use]
mod batch;
mod apply;
mod arguments;
mod cause;
mod classes;
mod command;
mod compare;
mod counter;
mod decode;
mod encode;
mod faults;
mod fields;
mod floats;
mod input;
mod json;
mod known;
mod lanes;
mod length;
mod look;
mod missing;
mod notes;
mod numbers;
mod overlap;
mod patch;
mod picture;
mod quote;
mod reads;
mod register;
mod rows;
mod run;
mod show;
mod swapped;
mod verdicts;
mod views;
mod wrong_fields;

use arguments::{Arguments, Usage};
use command::{Command, Failure, Report, FAILED};
use output::Output;
use starshackle_streams::{was_open, Stream};
use std::ffi::{OsStr, OsString};
use std::io::{self, ErrorKind, Write};
use std::process::ExitCode;

/// The subcommands, in the order in which the help shows them.
const COMMANDS: &[Command] = &[
    run::COMMAND,
    patch::COMMAND,
    apply::COMMAND,
    show::COMMAND,
    compare::COMMAND,
    decode::COMMAND,
    encode::COMMAND,
];

const USAGE: &str = "usage: starshackle [--json] COMMAND [ARGUMENT...]";

fn main() -> ExitCode {
    let mut words = std::env::args_os().skip(1).peekable();
    let json = words.next_if(|word| word == "--json");
    let first = words.next();
    match named(first.as_deref()) {
        Some(command) => match call(command, json.into_iter().chain(words)) {
            Ok(report) => answer(report),
            Err(failure) => complain(command, &failure),
        },
        None if first.as_ref().map_or(false, asks_for_help) => help_on(words),
        None if first.as_ref().map_or(false, |word| word == "--version") => {
            answer(Report::new(format!("starshackle {}\n", starshackle::VERSION), false))
        }
        None => fail(&format!("starshackle: {}\n{USAGE}", no_command(first).0)),
    }
}

fn named(name: Option<&OsStr>) -> Option<&'static Command> {
    COMMANDS.iter().find(|command| name == Some(command.name.as_ref()))
}

fn asks_for_help(first: &OsString) -> bool {
    first == "help" || arguments::asks_for_help(first)
}

/// The help on the command whose name follows, or on all.
fn help_on(mut words: impl Iterator<Item = OsString>) -> ExitCode {
    let name = words.find(|word| word != "--json");
    let text = match named(name.as_deref()) {
        Some(command) => command.help.to_string(),
        None if name.is_none() => help(),
        None => return fail(&format!("starshackle: {}\n{USAGE}", no_command(name).0)),
    };
    answer(Report::new(text, false))
}

fn call(command: &Command, words: impl Iterator<Item = OsString>) -> Result<Report, Failure> {
    let arguments = Arguments::read(words, command.valued, command.switches)?;
    if arguments.help {
        return Ok(Report::new(command.help.to_string(), false));
    }
    (command.run)(&arguments)
}

fn help() -> String {
    let mut help =
        format!("{USAGE}\n\nAsks the proved model of Arm's predicated vector stores.\n\n");
    for command in COMMANDS {
        help += &format!("  {:9}{}\n", command.name, command.summary);
    }
    help + "
`starshackle help COMMAND` describes a command. With --json the answer is JSON; docs/JSON.md has
its keys. `starshackle --version` names the version.
Exit status: 0 done, 1 refused by the model, 2 bad usage or an unreadable file; of compare: 0
nothing differs, 1 something does, 2 anything else.
"
}

fn no_command(first: Option<OsString>) -> Usage {
    let expected = arguments::one_of(COMMANDS.iter().map(|command| command.name));
    let found = match first {
        Some(word) => format!("unknown command '{}'", quote::file(word)),
        None => "no command".to_string(),
    };
    Usage(format!("{found}; expected {expected}"))
}

/// Writes the report, then its output. The exit status is the model's answer.
fn answer(report: Report) -> ExitCode {
    let (told, name) = match report.aside {
        true => (aside(&report.text), "error"),
        false => (output::to_standard(report.text.as_bytes()), "output"),
    };
    match told {
        // The reader, such as `head`, has seen enough.
        Err(error) if error.kind() == ErrorKind::BrokenPipe && report.output.is_none() => (),
        Err(error) => return fail(&format!("starshackle: standard {name}: {error}")),
        Ok(()) => (),
    }
    match report.output.map_or(Ok(()), Output::put) {
        Ok(()) => ExitCode::from(report.status),
        Err(message) => fail(&format!("starshackle: {message}")),
    }
}

/// Writes a report to standard error. One that is closed takes nothing.
fn aside(text: &str) -> io::Result<()> {
    match was_open(Stream::Error) {
        true => io::stderr().write_all(text.as_bytes()),
        false => Err(input::closed()),
    }
}

fn complain(command: &Command, failure: &Failure) -> ExitCode {
    let name = command.name;
    match failure {
        Failure::Usage(Usage(message)) => {
            fail(&format!("starshackle {name}: {message}\n{}", command.usage()))
        }
        Failure::File(message) => fail(&format!("starshackle {name}: {message}")),
        Failure::Output(error) => fail(&format!("starshackle: standard output: {error}")),
    }
}

fn fail(message: &str) -> ExitCode {
    // Where standard error takes nothing either, the status still tells.
    let _ = writeln!(io::stderr(), "{message}");
    ExitCode::from(FAILED)
}
