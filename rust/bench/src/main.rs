//! Measures the proved model beside Rust written plainly and Rust written to be quick.

#![forbid(unsafe_code)]

#[cfg(test)]
mod agreement;
mod cases;
mod document;
mod hand;
mod idiomatic;
mod sides;
mod table;
mod timing;
mod verdicts;

use std::process::ExitCode;

const USAGE: &str = "\
usage: bench [--case TEXT] [--runs N] [--write]
  Measures store, apply, compare and decode of the proved model, of Rust written
  plainly (idiomatic) and of Rust written to be quick (hand), in one process and
  on the same inputs. Buffers aren't cleared between calls. Prints tables of
  nanoseconds, of the ratios of the model's time to the others', and whether
  each aim is reached.
  --case TEXT  only the cases whose call and name have TEXT in them
  --runs N     measure everything N times: medians, and the lowest and highest
               ratio of each row
  --write      put the tables into docs/PERFORMANCE.md too
  --help       print this";

/// What the command line asks for.
#[derive(Debug, PartialEq)]
enum Task {
    Help,
    Measure { text: String, runs: usize, write: bool },
}

fn main() -> ExitCode {
    let arguments: Vec<String> = std::env::args().skip(1).collect();
    let arguments: Vec<&str> = arguments.iter().map(String::as_str).collect();
    match task(&arguments) {
        Ok(Task::Help) => {
            println!("{USAGE}");
            ExitCode::SUCCESS
        }
        Ok(Task::Measure { text, runs, write }) => measure(&text, runs, write),
        Err(message) => bad_usage(&message),
    }
}

fn task(arguments: &[&str]) -> Result<Task, String> {
    let (mut text, mut runs, mut write) = (String::new(), 1, false);
    let mut arguments = arguments.iter();
    while let Some(argument) = arguments.next() {
        match *argument {
            "--help" => return Ok(Task::Help),
            "--write" => write = true,
            "--case" => text = arguments.next().ok_or("--case needs a text")?.to_string(),
            "--runs" => {
                let number = arguments.next().and_then(|number| number.parse().ok());
                runs = number.filter(|&runs| runs > 0).ok_or("--runs needs a number from 1 on")?;
            }
            other => return Err(format!("not understood: {other}")),
        }
    }
    match write && !text.is_empty() {
        true => Err("only all cases are written".to_string()),
        false => Ok(Task::Measure { text, runs, write }),
    }
}

fn bad_usage(message: &str) -> ExitCode {
    eprintln!("bench: {message}");
    eprintln!("{USAGE}");
    ExitCode::from(2)
}

fn measure(text: &str, runs: usize, write: bool) -> ExitCode {
    let groups = cases::chosen(text);
    if groups.is_empty() {
        return bad_usage(&format!("no case has the text '{text}'"));
    }
    let mut figures = String::new();
    let mut line = |line: &str| {
        println!("{line}");
        figures += line;
        figures += "\n";
    };
    line(&document::machine(runs));
    line("");
    table::tables(&groups, runs, line);
    match write.then(|| document::write(&figures)) {
        Some(Err(error)) => {
            eprintln!("bench: docs/PERFORMANCE.md: {error}");
            ExitCode::FAILURE
        }
        _ => ExitCode::SUCCESS,
    }
}

#[cfg(test)]
mod tests {
    use super::*;

    #[test]
    fn command_lines() {
        let measure =
            |text: &str, runs, write| Ok(Task::Measure { text: text.to_string(), runs, write });
        assert_eq!(task(&[]), measure("", 1, false));
        assert_eq!(task(&["--write", "--runs", "5"]), measure("", 5, true));
        assert_eq!(task(&["--case", "VB 16", "--runs", "2"]), measure("VB 16", 2, false));
        assert_eq!(task(&["--runs", "2", "--help"]), Ok(Task::Help));
        for bad in [&["--runs"][..], &["--runs", "0"], &["--case"], &["5"]] {
            assert!(task(bad).is_err(), "{bad:?}");
        }
        assert!(task(&["--write", "--case", "VB 16"]).is_err());
    }
}
