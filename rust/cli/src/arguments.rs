//! Reading a subcommand's arguments.

use crate::quote::{self, shown};
use std::ffi::{OsStr, OsString};
use std::os::unix::ffi::OsStrExt;
use std::str;

/// The options that each subcommand takes.
const COMMON: [&str; 2] = ["--json", "--help"];

/// Bad usage: what is wrong and what was expected.
#[derive(Debug, PartialEq, Eq)]
pub struct Usage(pub String);

/// The arguments behind a subcommand's name.
#[derive(Debug, Default, PartialEq, Eq)]
pub struct Arguments {
    pub help: bool,
    pub json: bool,
    pub operands: Vec<OsString>,
    /// The options with a value.
    values: Vec<(&'static str, OsString)>,
    /// The options with none.
    switches: Vec<&'static str>,
}

impl Arguments {
    /// Takes options wherever they stand, up to a `--`. Those in `valued` take the next word, or
    /// what stands behind `=` in theirs; those in `switches` take nothing.
    pub fn read(
        words: impl IntoIterator<Item = OsString>,
        valued: &[&'static str],
        switches: &[&'static str],
    ) -> Result<Arguments, Usage> {
        let (mut arguments, mut options) = (Arguments::default(), true);
        let mut words = words.into_iter();
        while let Some(word) = words.next() {
            let named = |option: &&&'static str| options && word == **option;
            if let Some(option) = valued.iter().find(named) {
                arguments.put(option, words.next())?;
            } else if let Some((option, value)) = joined(&word, valued).filter(|_| options) {
                arguments.put(option, Some(value.into()))?;
            } else if let Some(option) = switches.iter().find(named) {
                arguments.switches.push(option);
            } else if options && word == "--" {
                options = false;
            } else if options && asks_for_help(&word) {
                arguments.help = true;
            } else if options && word == "--json" {
                arguments.json = true;
            } else {
                let expected = || one_of(valued.iter().chain(switches).copied().chain(COMMON));
                arguments.operands.push(operand(word, options, expected)?);
            }
        }
        Ok(arguments)
    }

    fn put(&mut self, option: &'static str, value: Option<OsString>) -> Result<(), Usage> {
        let value = value.ok_or_else(|| Usage(format!("nothing behind {option}")))?;
        if self.values.iter().any(|(other, _)| *other == option) {
            return Err(Usage(format!("{option} given twice; expected one")));
        }
        self.values.push((option, value));
        Ok(())
    }

    /// Whether an option that takes no value is given.
    pub fn has(&self, option: &str) -> bool {
        self.switches.contains(&option)
    }

    /// The value of an option that may be given.
    pub fn given(&self, option: &str) -> Option<&OsStr> {
        self.values.iter().find(|(other, _)| *other == option).map(|(_, value)| value.as_ref())
    }

    /// The value of an option that has to be given.
    pub fn value(&self, option: &str, expected: &str) -> Result<&OsStr, Usage> {
        let problem = || Usage(format!("no {option}; expected {option} and {expected}"));
        self.given(option).ok_or_else(problem)
    }

    /// The operands as texts.
    pub fn texts(&self) -> Result<Vec<&str>, Usage> {
        self.operands.iter().map(|operand| utf_8(operand)).collect()
    }

    /// The one operand that a subcommand takes.
    pub fn operand(&self, expected: &str) -> Result<&OsStr, Usage> {
        match &self.operands[..] {
            [operand] => Ok(operand),
            [] => Err(Usage(format!("no file; expected {expected}"))),
            [_, second, ..] => {
                Err(Usage(format!("a second file, '{}'; expected one", quote::file(second))))
            }
        }
    }

    /// The two operands that a subcommand takes.
    pub fn two_operands(&self, expected: &str) -> Result<[&OsStr; 2], Usage> {
        match &self.operands[..] {
            [first, second] => Ok([first, second]),
            [] => Err(Usage(format!("no file; expected {expected}"))),
            [_] => Err(Usage(format!("one file; expected {expected}"))),
            [_, _, third, ..] => {
                Err(Usage(format!("a third file, '{}'; expected two", quote::file(third))))
            }
        }
    }
}

pub fn asks_for_help(word: &OsString) -> bool {
    word == "--help" || word == "-h"
}

/// A long option and its value in one word.
fn joined<'a>(word: &'a OsStr, valued: &[&'static str]) -> Option<(&'static str, &'a OsStr)> {
    let bytes = word.as_bytes();
    let equals = bytes.iter().position(|byte| *byte == b'=')?;
    let name = str::from_utf8(&bytes[..equals]).ok()?;
    let option = valued.iter().find(|option| **option == name && name.starts_with("--"))?;
    Some((option, OsStr::from_bytes(&bytes[equals + 1..])))
}

/// An operand. A minus alone is one: standard input or output.
fn operand(
    word: OsString,
    options: bool,
    expected: impl Fn() -> String,
) -> Result<OsString, Usage> {
    if options && word != "-" && word.as_bytes().starts_with(b"-") {
        let option = quote::file(word);
        return Err(Usage(format!("unknown option '{option}'; expected {}", expected())));
    }
    Ok(word)
}

/// A word that isn't the name of a file.
pub fn utf_8(word: &OsStr) -> Result<&str, Usage> {
    let problem = || Usage(format!("'{}'; expected UTF-8", quote::file(word)));
    word.to_str().ok_or_else(problem)
}

/// The two sides of an operand NAME=VALUE.
pub fn pair(operand: &str) -> Result<(&str, &str), Usage> {
    operand.split_once('=').ok_or_else(|| unexpected(operand, "NAME=VALUE"))
}

pub fn unexpected(found: &str, expected: &str) -> Usage {
    Usage(format!("{}; expected {expected}", shown(found)))
}

/// The names as a message lists them: one of them, or all.
pub fn one_of<'a>(names: impl IntoIterator<Item = &'a str>) -> String {
    listed(names, "or")
}

pub fn all_of<'a>(names: impl IntoIterator<Item = &'a str>) -> String {
    listed(names, "and")
}

fn listed<'a>(names: impl IntoIterator<Item = &'a str>, before_last: &str) -> String {
    let mut names: Vec<&str> = names.into_iter().collect();
    match names.pop() {
        Some(last) if !names.is_empty() => format!("{} {before_last} {last}", names.join(", ")),
        last => last.unwrap_or_default().to_string(),
    }
}

#[cfg(test)]
mod tests {
    use super::*;

    fn read(words: &[&str]) -> Result<Arguments, Usage> {
        Arguments::read(words.iter().map(OsString::from), &["-o", "--base"], &["--all"])
    }

    fn arguments(help: bool, json: bool, operands: &[&str]) -> Arguments {
        let operands = operands.iter().map(OsString::from).collect();
        Arguments { help, json, operands, ..Arguments::default() }
    }

    #[test]
    fn options_stand_anywhere() {
        assert_eq!(read(&[]), Ok(Arguments::default()));
        assert_eq!(read(&["a", "--json", "b"]), Ok(arguments(false, true, &["a", "b"])));
        assert_eq!(read(&["-h", "a", "--help"]), Ok(arguments(true, false, &["a"])));
        assert_eq!(read(&["--", "--json", "--"]), Ok(arguments(false, false, &["--json", "--"])));
    }

    #[test]
    fn unknown_options() {
        for word in ["-x", "--jsonx", "-2", "--=", "-="] {
            assert!(read(&["a", word]).is_err(), "{word}");
        }
        assert_eq!(read(&["-", "--", "-"]), Ok(arguments(false, false, &["-", "-"])));
    }

    #[test]
    fn options_with_a_value() {
        let arguments = read(&["-o", "--json", "a", "--base", "-o"]).unwrap();
        assert_eq!(arguments.operand("a file"), Ok("a".as_ref()));
        assert_eq!(arguments.value("-o", "a file"), Ok("--json".as_ref()));
        assert_eq!(arguments.value("--base", "an address"), Ok("-o".as_ref()));
        assert!(arguments.value("--memory", "a file").is_err());
        assert!(!arguments.json);
        let joined = read(&["--base=1=2", "--", "--base=3"]).unwrap();
        assert_eq!(joined.value("--base", "an address"), Ok("1=2".as_ref()));
        assert_eq!(joined.operand("a file"), Ok("--base=3".as_ref()));
        for words in [&["-o"][..], &["-o", "a", "-o", "b"], &["-oa"], &["-o=a"], &["--json=a"]] {
            assert!(read(words).is_err(), "{words:?}");
        }
    }

    #[test]
    fn options_without_a_value() {
        assert!(!read(&["a"]).unwrap().has("--all"));
        let arguments = read(&["a", "--all", "--all"]).unwrap();
        assert!(arguments.has("--all"));
        assert_eq!(arguments.operand("a file"), Ok("a".as_ref()));
        assert!(!read(&["--", "--all"]).unwrap().has("--all"));
        assert!(!read(&["-o", "--all"]).unwrap().has("--all"));
        assert!(read(&["--all=a"]).is_err());
    }

    #[test]
    fn one_operand() {
        assert!(read(&[]).unwrap().operand("a file").is_err());
        assert!(read(&["a", "b"]).unwrap().operand("a file").is_err());
    }

    #[test]
    fn words_that_are_no_text() {
        let word = OsStr::from_bytes(b"\xFF");
        let words = [word, OsStr::from_bytes(b"--base=\xFF")].map(OsString::from);
        let arguments = Arguments::read(words, &["--base"], &[]).unwrap();
        assert_eq!(arguments.operand("a file"), Ok(word));
        assert_eq!(arguments.value("--base", "an address"), Ok(word));
        assert_eq!(arguments.texts(), Err(Usage(r"'\xFF'; expected UTF-8".to_string())));
    }

    #[test]
    fn two_operands() {
        assert_eq!(
            read(&["a", "b"]).unwrap().two_operands("two files"),
            Ok(["a", "b"].map(OsStr::new))
        );
        for words in [&[][..], &["a"], &["a", "b", "c"]] {
            assert!(read(words).unwrap().two_operands("two files").is_err(), "{words:?}");
        }
    }

    #[test]
    fn pairs() {
        assert_eq!(pair("a=b"), Ok(("a", "b")));
        assert_eq!(pair("a=b=c"), Ok(("a", "b=c")));
        assert_eq!(pair("="), Ok(("", "")));
        assert!(pair("a").is_err());
    }

    #[test]
    fn lists() {
        assert_eq!(one_of([]), "");
        assert_eq!(one_of(["a"]), "a");
        assert_eq!(one_of(["a", "b"]), "a or b");
        assert_eq!(one_of(["a", "b", "c"]), "a, b or c");
        assert_eq!(all_of(["a", "b", "c"]), "a, b and c");
    }
}
