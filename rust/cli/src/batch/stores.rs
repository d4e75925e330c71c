//! One answer for each line that describes a store as a JSON object.

use super::lines::{Line, Lines};
use super::object::{self, Value};
use super::progress::Progress;
use super::sink::{Sink, Stop};
use crate::arguments::{Arguments, Usage};
use crate::command::{Failure, Report, FAILED, REFUSED};
use crate::input::STANDARD;
use crate::json::{Json, Members};
use crate::quote::{self, shown};
use crate::store::{self, Described};
use crate::verdicts;
use std::ffi::OsStr;
use std::path::Path;

/// The option for stores as lines of JSON.
pub const JSONL: &str = "--jsonl";

/// The members of an answer's object, and whether it is a refusal.
pub type Answer = (Members, bool);

/// The answers for the lines of the operand, or of standard input, in their order and a line each. A
/// line with no store has an object with an error.
pub fn stores(
    arguments: &Arguments,
    one: impl Fn(Described) -> Result<Answer, String>,
) -> Result<Report, Failure> {
    let file = match &arguments.operands[..] {
        [] => OsStr::new(STANDARD),
        [file] => file,
        [_, second, ..] => {
            let second = quote::file(second);
            return Err(Usage(format!("a second file, '{second}'; expected one")).into());
        }
    };
    let mut lines = Lines::open(file, "a line of JSON for each store")?;
    let mut sink = Sink::open()?;
    let ended = all(&mut lines, &mut sink, one);
    sink.finish(ended, false)
}

fn all(
    lines: &mut Lines,
    sink: &mut Sink,
    one: impl Fn(Described) -> Result<Answer, String>,
) -> Result<(), Stop> {
    let mut progress = Progress::of("stores");
    loop {
        if lines.waits() {
            sink.flush()?;
        }
        let line = match lines.next()? {
            Some(line) => line,
            None => return Ok(()),
        };
        let (object, status) = match described(line).and_then(&one) {
            Ok((members, refused)) => (Json::Object(members), if refused { REFUSED } else { 0 }),
            Err(message) => (failed(lines.number, message), FAILED),
        };
        sink.note(status);
        sink.put(&format!("{object:#}\n"))?;
        progress.step();
    }
}

/// The object of a line with no answer.
fn failed(line: u64, message: String) -> Json {
    Json::Object(vec![verdicts::version(), ("line", line.into()), ("error", message.into())])
}

/// The store that a line describes.
fn described(line: Line) -> Result<Described, String> {
    let mut text = String::new();
    for (key, value) in object::read(&line?)? {
        text += &format!("{} = {}\n", name(&key)?, values(&key, &value)?);
    }
    store::of_text("", &text, Path::new("")).map_err(|failure| match failure {
        Failure::File(message) => by_member(&message),
        _ => "no store".to_string(),
    })
}

/// A message about a line of the store's text, without its place. Its lines are keys here.
fn by_member(message: &str) -> String {
    let message = message.split_once(": ").map_or(message, |(_, message)| message);
    message.replace(" in line ", " as member ").replace("; expected a line ", "; expected a key ")
}

/// A key that is no more than one name in the store's text.
fn name(key: &str) -> Result<&str, String> {
    match key.contains('=') || !is_plain(key) {
        true => Err(format!("unknown name {}; expected one as in a store's file", shown(key))),
        false => Ok(key),
    }
}

/// The values of a key as the store's text has them.
fn values(key: &str, value: &Value) -> Result<String, String> {
    match value {
        Value::List(items) => {
            let items: Result<Vec<&str>, String> =
                items.iter().map(|item| one(key, item)).collect();
            Ok(items?.join(" "))
        }
        value => one(key, value).map(String::from),
    }
}

fn one<'a>(key: &str, value: &'a Value) -> Result<&'a str, String> {
    match value {
        Value::Text(text) if is_plain(text) => Ok(text),
        Value::Text(text) => {
            let expected = "one line, with no comment, open brace or file's name";
            Err(format!("{key} is {}; expected {expected}", shown(text)))
        }
        Value::Number(digits) => Ok(digits),
        other => {
            let expected = "a string, a number, or a list of these";
            Err(format!("{key} is {}; expected {expected}", other.kind()))
        }
    }
}

/// Whether a text is a part of one line, with no comment in it, no brace left open and no file named.
fn is_plain(text: &str) -> bool {
    let (mut braces, mut brackets) = (0, 0);
    for letter in text.chars() {
        match letter {
            '{' => braces += 1,
            '}' => braces -= 1,
            '[' => brackets += 1,
            ']' => brackets -= 1,
            // In an address of assembly text it stands before a number.
            '#' if brackets <= 0 => return false,
            letter if letter != '\t' && letter.is_control() => return false,
            _ => (),
        }
        if braces < 0 {
            return false;
        }
    }
    braces == 0 && !text.trim_start().starts_with('@')
}
