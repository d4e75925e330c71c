//! The lines of a file that describes a store: `NAME = VALUE`, and `#` before a comment, except in
//! `[ ]`, where assembly text has it.

use super::gdb;
use super::names::{Name, Subject};
use crate::command::Failure;
use crate::quote::shown;
use crate::register::Register;

/// A line with something in it.
pub struct Line<'a> {
    place: Place<'a>,
    pub name: Name,
    pub value: String,
}

/// A line's number, from 1, and its file's name as messages show it.
#[derive(Clone, Copy)]
struct Place<'a> {
    file: &'a str,
    number: usize,
}

impl Place<'_> {
    fn problem(&self, message: &str) -> Failure {
        Failure::File(format!("{}:{}: {message}", self.file, self.number))
    }
}

impl Line<'_> {
    /// What is wrong with the line as a whole.
    pub fn problem(&self, message: &str) -> Failure {
        self.place.problem(message)
    }

    /// What is wrong with the value: what it was found to be or have, and what was expected.
    pub fn unexpected(&self, found: &str, expected: &str) -> Failure {
        self.problem(&format!("{} {found}; expected {expected}", self.name))
    }

    /// The value through a reader, or what it expected.
    pub fn read<T>(
        &self,
        reader: impl Fn(&str) -> Option<T>,
        expected: &str,
    ) -> Result<T, Failure> {
        reader(&self.value).ok_or_else(|| self.unexpected(&is(&self.value), expected))
    }
}

/// The lines of a text. A name stands for one line only.
pub fn lines<'a>(file: &'a str, text: &'a str) -> Result<Vec<Line<'a>>, Failure> {
    let mut lines: Vec<Line> = Vec::new();
    let mut texts = text.trim_start_matches('\u{FEFF}').lines().map(without_comment).zip(1..);
    while let Some((text, number)) = texts.next() {
        if text.trim().is_empty() {
            continue;
        }
        let mut line = line(Place { file, number }, text.trim())?;
        finish(&mut line, texts.by_ref().map(|(text, _)| text))?;
        if let Some(other) = lines.iter().find(|other| other.name.repeats(&line.name)) {
            return Err(line.problem(&repetition(other, &line.name)));
        }
        lines.push(line);
    }
    Ok(lines)
}

/// Adds the lines up to the brace that closes a value's first one.
fn finish<'a>(line: &mut Line, mut texts: impl Iterator<Item = &'a str>) -> Result<(), Failure> {
    let mut open = if gdb::is_in_braces(&line.value) { gdb::open(&line.value) } else { 0 };
    while open > 0 {
        let no_end = || line.unexpected("has no closing brace", "} behind its values");
        let text = texts.next().ok_or_else(no_end)?.trim();
        open += gdb::open(text);
        line.value += " ";
        line.value += text;
    }
    Ok(())
}

fn without_comment(text: &str) -> &str {
    let mut inside = false;
    let starts = |letter: char| {
        inside = (inside || letter == '[') && letter != ']';
        letter == '#' && !inside
    };
    text.split(starts).next().unwrap_or_default()
}

fn repetition(other: &Line, name: &Name) -> String {
    let (name, before, line) = (name.to_string(), other.name.to_string(), other.place.number);
    if name == before {
        return format!("{name} given twice, first in line {line}; expected one");
    }
    format!("{name} given beside {before} in line {line}; expected one of them")
}

fn line<'a>(place: Place<'a>, text: &'a str) -> Result<Line<'a>, Failure> {
    let (name, value) = parts(text)
        .ok_or_else(|| place.problem(&format!("{}; expected NAME = VALUE", shown(text))))?;
    let unknown = || format!("unknown name {}; expected {}", shown(name.trim()), Name::EXPECTED);
    let name = Name::read(name.trim()).ok_or_else(|| place.problem(&unknown()))?;
    Ok(Line { place, name, value: value.trim().to_string() })
}

/// Name and value. Between those that gdb prints there is no `=`.
fn parts(text: &str) -> Option<(&str, &str)> {
    let index = match text.find(&['=', '{'][..]) {
        Some(index) => index,
        None => return twice(text),
    };
    let (name, rest) = text.split_at(index);
    Some((name, rest.strip_prefix('=').unwrap_or(rest)))
}

/// A general register as gdb prints it: its name and, in two forms, its value.
fn twice(text: &str) -> Option<(&str, &str)> {
    let (name, value) = text.split_once(char::is_whitespace)?;
    let subject = Name::read(name)?.subject;
    let is_general = matches!(subject, Subject::Register(Register::X(_) | Register::Sp));
    (is_general && value.split_whitespace().count() == 2).then_some((name, value))
}

/// What a message says of a value.
pub fn is(text: &str) -> String {
    format!("is {}", shown(text))
}

/// A number of things.
pub fn count(number: usize, thing: &str) -> String {
    match number {
        1 => format!("1 {thing}"),
        _ => format!("{number} {thing}s"),
    }
}
