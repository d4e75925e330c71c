//! The values of registers and memory.

use super::gdb;
use super::lines::{count, is, Line};
use super::names::{Kind, Width};
use crate::command::Failure;
use crate::floats;
use crate::numbers::{self, pairs};

/// Stands behind a last value that is repeated to the end.
const REPEAT: &str = "...";

/// What stands between values, for messages.
const SPACES: &str = ", with spaces between them";

/// Values in a row. The last is repeated if the row goes on.
pub struct Row<T> {
    values: Vec<T>,
    goes_on: bool,
}

impl<T: Copy> Row<T> {
    /// As many values as there have to be, unless there are too few or too many.
    fn filled(mut self, count: usize) -> Option<Vec<T>> {
        match self.values.last().copied() {
            Some(last) if self.goes_on && self.values.len() < count => {
                self.values.resize(count, last)
            }
            _ => (),
        }
        (self.values.len() == count).then_some(self.values)
    }
}

/// The items of a text, which spaces part, and whether they go on.
fn items(text: &str) -> Row<&str> {
    let mut values: Vec<&str> = text.split_whitespace().collect();
    let goes_on = values.last() == Some(&REPEAT);
    values.truncate(values.len() - usize::from(goes_on));
    Row { values, goes_on }
}

/// A general register: a number, or as gdb prints it, the same number twice.
pub fn general(line: &Line) -> Result<u64, Failure> {
    let number = |text: &str| numbers::of_bits(text, 64).map(|number| number as u64);
    let same = |text: &str| {
        let numbers: Vec<Option<u64>> = text.split_whitespace().map(number).collect();
        match numbers[..] {
            [number] => number,
            [number, again] if number == again => number,
            _ => None,
        }
    };
    line.read(same, "a number of 64 bits, decimal or 0x hexadecimal")
}

/// The bytes of a Z register, from its lowest.
pub fn vector(line: &Line, length: usize) -> Result<Vec<u8>, Failure> {
    let width = match line.name.width {
        _ if gdb::is_in_braces(&line.value) => return gdb::vector(line, length),
        Some(width) => width,
        None => return whole(line, length),
    };
    let Width { bytes, .. } = width;
    let (bits, elements) = (8 * bytes, length / bytes);
    let floating = if width.has_floats() { ", or floating-point" } else { "" };
    let expected = count(elements, "number")
        + &format!(" of {bits} bits, decimal or 0x hexadecimal{floating}{SPACES}");
    let number = |text: &str| element(text, bytes, line.name.kind);
    let elements = row(line, number, elements, &expected)?;
    Ok(elements.iter().flat_map(|element| element.to_le_bytes().into_iter().take(bytes)).collect())
}

/// An element of so many bytes. Where its kind isn't given it is how it is written.
pub fn element(text: &str, bytes: usize, kind: Option<Kind>) -> Option<u128> {
    let bits = 8 * bytes as u32;
    let integer = || numbers::of_bits(text, bits);
    match kind {
        Some(Kind::Float) if numbers::behind_0x(text).is_none() => {
            floats::any(text, bits).map(u128::from)
        }
        Some(_) => integer(),
        None => integer().or_else(|| floats::of_bits(text, bits).map(u128::from)),
    }
}

/// The bytes of a P register, from its lowest. A bit is that of an element's first byte.
pub fn predicate(line: &Line, length: usize) -> Result<Vec<u8>, Failure> {
    let Width { bytes, .. } = match line.name.width {
        Some(width) => width,
        None => return whole(line, length),
    };
    let elements = 8 * length / bytes;
    let expected = count(elements, "bit") + ", each 0 or 1" + SPACES;
    let elements = match gdb::is_in_braces(&line.value) {
        true => gdb::plain(line, bit, elements, &expected)?,
        false => row(line, bit, elements, &expected)?,
    };
    let mut register = vec![0; length];
    for (element, bit) in elements.into_iter().enumerate() {
        let index = element * bytes;
        register[index / 8] |= bit << (index % 8);
    }
    Ok(register)
}

fn bit(text: &str) -> Option<u8> {
    match text {
        "0" => Some(0),
        "1" => Some(1),
        _ => None,
    }
}

/// Exactly so many values.
fn row<T: Copy>(
    line: &Line,
    reader: impl Fn(&str) -> Option<T>,
    length: usize,
    expected: &str,
) -> Result<Vec<T>, Failure> {
    let Row { values: texts, goes_on } = items(&line.value);
    let mut values = Vec::new();
    for text in texts {
        values.push(reader(text).ok_or_else(|| line.unexpected(&is(text), expected))?);
    }
    let found = format!("has {}", count(values.len(), "value"));
    Row { values, goes_on }.filled(length).ok_or_else(|| line.unexpected(&found, expected))
}

/// A whole register: bytes, or a number.
fn whole(line: &Line, length: usize) -> Result<Vec<u8>, Failure> {
    let bits = 8 * length;
    let expected = format!("{length} bytes in hexadecimal, or 0x and a number of {bits} bits");
    if gdb::is_in_braces(&line.value) {
        let byte = |text: &str| numbers::of_bits(text, 8).map(|byte| byte as u8);
        return gdb::plain(line, byte, length, &gdb::numbers_expected(length, 1));
    }
    if let Some(digits) = numbers::behind_0x(&line.value) {
        return line.read(|_| large(digits, length), &expected);
    }
    let bytes = line.read(bytes, &expected)?;
    let found = format!("has {}", count(bytes.values.len(), "byte"));
    bytes.filled(length).ok_or_else(|| line.unexpected(&found, &expected))
}

/// A number as bytes from the lowest, if it has no more than the register.
fn large(digits: &str, length: usize) -> Option<Vec<u8>> {
    let padded = format!("{:0>width$}", digits.trim_start_matches('0'), width = 2 * length);
    let mut bytes = pairs(&padded)?;
    bytes.reverse();
    (!digits.is_empty() && bytes.len() == length).then_some(bytes)
}

/// Bytes in hexadecimal, two digits each, with or without spaces between them.
fn bytes(text: &str) -> Option<Row<u8>> {
    let Row { values: texts, goes_on } = items(text);
    let mut values = Vec::new();
    for text in texts {
        values.extend(pairs(text)?);
    }
    Some(Row { values, goes_on })
}

/// The bytes of a window, whose length may be given in another line. Of those that repeat the last
/// one, `longest` and more count alike.
pub fn memory(line: &Line, length: Option<u64>, longest: u64) -> Result<Vec<u8>, Failure> {
    let bytes = line.read(bytes, "bytes in hexadecimal")?;
    let given = bytes.values.len() as u64;
    let length = match length {
        None if bytes.goes_on => {
            return Err(line.unexpected("is repeated", "a line length = N too"))
        }
        None => given,
        Some(length) => length,
    };
    if bytes.goes_on && 0 < given && given < length {
        let lent = length.min(longest.max(given));
        return Ok(bytes.filled(lent as usize).unwrap_or_default());
    }
    let found = format!("has {}", count(bytes.values.len(), "byte"));
    let expected = format!("{length} as length says, or {REPEAT} behind the last to repeat it");
    let right = (given == length).then_some(bytes.values);
    right.ok_or_else(|| line.unexpected(&found, &expected))
}

#[cfg(test)]
mod tests {
    use super::*;

    #[test]
    fn rows() {
        let filled = |text, count| items(text).filled(count);
        assert_eq!(filled("1 2", 2), Some(vec!["1", "2"]));
        assert_eq!(filled("1 2 ...", 4), Some(vec!["1", "2", "2", "2"]));
        assert_eq!(filled("1 2 ...", 2), Some(vec!["1", "2"]));
        assert_eq!(filled("", 0), Some(vec![]));
        for (text, count) in [("1 2", 3), ("1 2", 1), ("1 2 ...", 1), ("...", 1), ("", 1)] {
            assert_eq!(filled(text, count), None, "{text}");
        }
    }

    #[test]
    fn numbers_of_a_register() {
        assert_eq!(large("1", 2), Some(vec![1, 0]));
        assert_eq!(large("00000A1B2", 2), Some(vec![0xB2, 0xA1]));
        assert_eq!(large("000000", 2), Some(vec![0, 0]));
        for digits in ["", "10000", "G", "é", "+1"] {
            assert_eq!(large(digits, 2), None, "{digits}");
        }
    }

    #[test]
    fn bytes_in_hexadecimal() {
        let values = |text| bytes(text).map(|row| (row.values, row.goes_on));
        assert_eq!(values("A1b2 03"), Some((vec![0xA1, 0xB2, 3], false)));
        assert_eq!(values("EE ..."), Some((vec![0xEE], true)));
        assert_eq!(values(""), Some((vec![], false)));
        for text in ["A", "0xA1", "A1 2", "... A1", "é", "+1"] {
            assert_eq!(values(text), None, "{text}");
        }
    }
}
