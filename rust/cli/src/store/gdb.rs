//! Registers as gdb prints them: `{1, 0 <repeats 15 times>}`, or several views of one register, as
//! `{d = {f = {1, 2}, u = {..}, s = {..}}, ..}`, which have to agree.

use super::lines::{count, is, Line};
use super::names::{Kind, Width};
use super::values;
use crate::command::Failure;
use crate::numbers;
use crate::quote::shown;

/// How deep gdb's braces go: the register, a width, a kind.
const DEEPEST: usize = 3;

/// How such values are written, for messages.
const BRACES: &str = "in braces with commas between them, as gdb prints them";

/// So many numbers of some bytes, for messages.
pub fn numbers_expected(length: usize, bytes: usize) -> String {
    format!("{} of {} bits, {BRACES}", count(length, "number"), 8 * bytes)
}

/// Values in braces, and the names of the views before them.
struct List<'a> {
    path: Vec<&'a str>,
    text: &'a str,
}

/// A view of a register.
struct View {
    name: String,
    bytes: Vec<u8>,
    /// Whether gdb has left out the rest.
    is_cut: bool,
}

pub fn is_in_braces(text: &str) -> bool {
    text.starts_with('{')
}

/// How many braces a text leaves open.
pub fn open(text: &str) -> i64 {
    text.bytes().map(|byte| i64::from(byte == b'{') - i64::from(byte == b'}')).sum()
}

/// The bytes of a Z register.
pub fn vector(line: &Line, length: usize) -> Result<Vec<u8>, Failure> {
    let mut views = Vec::new();
    let expected = format!("values {BRACES}");
    for list in lists(&line.value).ok_or_else(|| line.unexpected(&is(&line.value), &expected))? {
        views.extend(view(line, &list, length)?);
    }
    let whole = views.iter().find(|view| !view.is_cut);
    let cut = "has no view that isn't cut by ...";
    let whole = whole.ok_or_else(|| line.unexpected(cut, "`set print elements 0` in gdb"))?;
    let differs = |view: &&View| !whole.bytes.starts_with(&view.bytes);
    if let Some(other) = views.iter().find(differs) {
        let found = format!("has views {} and {} that differ", other.name, whole.name);
        return Err(line.unexpected(&found, "views of one register"));
    }
    Ok(whole.bytes.clone())
}

/// A view, unless it is one that is passed over: gdb's numbers of 16 bits with an exponent of 8.
fn view(line: &Line, list: &List, length: usize) -> Result<Option<View>, Failure> {
    let (mut width, mut kind) = (line.name.width, line.name.kind);
    for name in &list.path {
        let found = format!("has a view {}", shown(name));
        let unknown = || line.unexpected(&found, "q, d, s, h or b, and in them f, u or s");
        match width {
            None => width = Some(Width::named(name).ok_or_else(unknown)?),
            Some(Width { bytes: 2, .. }) if *name == "bf" => return Ok(None),
            Some(width) if kind.is_none() => {
                kind = Some(Kind::named(name, width).ok_or_else(unknown)?);
            }
            Some(_) => return Err(unknown()),
        }
    }
    let Width { bytes, .. } = width.unwrap_or(Width::BYTE);
    let read = |text: &str| values::element(text, bytes, kind);
    let expected = numbers_expected(length / bytes, bytes);
    let (numbers, is_cut) = row(line, list.text, read, length / bytes, &expected)?;
    let bytes =
        numbers.iter().flat_map(|number| number.to_le_bytes().into_iter().take(bytes)).collect();
    let name = if list.path.is_empty() { line.name.to_string() } else { list.path.join(".") };
    Ok(Some(View { name, bytes, is_cut }))
}

/// The values in braces of a line that has no views.
pub fn plain<T: Copy>(
    line: &Line,
    reader: impl Fn(&str) -> Option<T>,
    length: usize,
    expected: &str,
) -> Result<Vec<T>, Failure> {
    let lists = lists(&line.value).unwrap_or_default();
    let list = match &lists[..] {
        [list] if list.path.is_empty() => list,
        _ => return Err(line.unexpected(&is(&line.value), expected)),
    };
    match row(line, list.text, reader, length, expected)? {
        (values, false) => Ok(values),
        (values, true) => {
            let found = format!("has {} and is cut", count(values.len(), "value"));
            Err(line.unexpected(&found, "`set print elements 0` in gdb"))
        }
    }
}

/// The innermost braces of a text, each with the names before them.
fn lists(text: &str) -> Option<Vec<List<'_>>> {
    let (mut lists, mut path, mut start, mut is_innermost) = (vec![], vec![], 0, false);
    for (index, letter) in text.match_indices(&['{', '}'][..]) {
        let before = text[start..index].trim();
        if letter == "{" {
            let name = match path.is_empty() {
                true => before.is_empty().then_some(""),
                false => name(before),
            };
            path.push(name?);
            is_innermost = true;
        } else {
            let path_within = path.get(1..)?.to_vec();
            match is_innermost {
                true => lists.push(List { path: path_within, text: before }),
                false if !before.is_empty() => return None,
                false => (),
            }
            path.pop();
            is_innermost = false;
        }
        start = index + 1;
        let is_second = path.is_empty() && !text[start..].trim().is_empty();
        if path.len() > DEEPEST || is_second {
            return None;
        }
    }
    path.is_empty().then_some(lists)
}

/// The name in `NAME =`, with a comma before it that parts it from others.
fn name(text: &str) -> Option<&str> {
    let name = text.strip_prefix(',').unwrap_or(text).strip_suffix('=')?.trim();
    (!name.is_empty() && name.chars().all(char::is_alphanumeric)).then_some(name)
}

/// As many values as there have to be, or fewer where gdb has cut them.
fn row<T: Copy>(
    line: &Line,
    text: &str,
    reader: impl Fn(&str) -> Option<T>,
    length: usize,
    expected: &str,
) -> Result<(Vec<T>, bool), Failure> {
    let is_cut = text.ends_with("...");
    let (mut values, mut number) = (Vec::new(), 0);
    for item in text.strip_suffix("...").unwrap_or(text).split(',').map(str::trim) {
        let (value, times) = repeated(item).ok_or_else(|| line.unexpected(&is(item), expected))?;
        let value = reader(value).filter(|_| !is_octal(value));
        let value = value.ok_or_else(|| line.unexpected(&is(item), expected))?;
        number = times.saturating_add(number);
        values.resize(number.min(length), value);
    }
    if number == length || is_cut && number < length {
        return Ok((values, is_cut && number < length));
    }
    Err(line.unexpected(&format!("has {}", count(number, "value")), expected))
}

/// A value, and how often it stands there.
fn repeated(item: &str) -> Option<(&str, usize)> {
    match item.strip_suffix("times>").and_then(|item| item.split_once("<repeats")) {
        Some((value, times)) => {
            let times = numbers::number(times.trim()).filter(|times| *times > 0)?;
            Some((value.trim(), usize::try_from(times).unwrap_or(usize::MAX)))
        }
        None => Some((item, 1)),
    }
}

/// Whether gdb would mean a number to base 8.
fn is_octal(text: &str) -> bool {
    let digits = text.trim_start_matches('-');
    digits.len() > 1
        && digits.starts_with('0')
        && digits.bytes().all(|digit| digit.is_ascii_digit())
}

#[cfg(test)]
mod tests {
    use super::*;

    fn paths(text: &str) -> Option<Vec<(String, &str)>> {
        Some(lists(text)?.into_iter().map(|list| (list.path.join("."), list.text)).collect())
    }

    #[test]
    fn braces() {
        let list = |path: &str, text| (path.to_string(), text);
        assert_eq!(paths("{1, 2}"), Some(vec![list("", "1, 2")]));
        assert_eq!(
            paths("{d = {f = {1}, u = {2 <repeats 3 times>}}, b={u={}}}"),
            Some(vec![list("d.f", "1"), list("d.u", "2 <repeats 3 times>"), list("b.u", "")])
        );
        for text in [
            "{",
            "}",
            "{}}",
            "{{1}}",
            "{1} {2}",
            "{d = {1} 2}",
            "{d {1}}",
            "{= {1}}",
            "{1 = {2}, 3}",
        ] {
            assert_eq!(paths(text), None, "{text}");
        }
        assert_eq!(paths(&"{a = ".repeat(100_000)), None);
        assert_eq!(paths("{a = {b = {c = {1}}}}"), None);
    }

    #[test]
    fn repetitions() {
        assert_eq!(repeated("5"), Some(("5", 1)));
        assert_eq!(repeated("0x5 <repeats 16 times>"), Some(("0x5", 16)));
        assert_eq!(repeated("5<repeats 99999999999 times>"), Some(("5", 99_999_999_999)));
        for item in ["5 <repeats times>", "5 <repeats 0 times>", "5 <repeats -1 times>"] {
            assert_eq!(repeated(item), None, "{item}");
        }
    }
}
