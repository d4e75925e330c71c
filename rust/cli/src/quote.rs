//! Users' texts in messages.

use std::ffi::OsStr;
use std::os::unix::ffi::OsStrExt;
use std::str;

/// A text as messages show it: quoted, not too long, and with no letter that a terminal obeys.
pub fn shown(text: &str) -> String {
    const MOST: usize = 40;
    let start: String = text.chars().take(MOST).flat_map(char::escape_debug).collect();
    let rest = if text.chars().count() > MOST { ".." } else { "" };
    format!("'{start}{rest}'")
}

/// A file's name as messages show it: whole, with no letter that a terminal obeys, and with bytes
/// that are no text as `\xFF`.
pub fn file(name: impl AsRef<OsStr>) -> String {
    let (mut text, mut rest) = (String::new(), name.as_ref().as_bytes());
    while !rest.is_empty() {
        let length = match str::from_utf8(rest) {
            Ok(letters) => letters.len(),
            Err(error) => error.valid_up_to(),
        };
        let (letters, others) = rest.split_at(length);
        text.extend(str::from_utf8(letters).unwrap_or_default().chars().map(letter));
        // One byte, since those behind it may start a letter.
        let (byte, others) = others.split_at(usize::from(!others.is_empty()));
        text.extend(byte.iter().map(|byte| format!("\\x{byte:02X}")));
        rest = others;
    }
    if text.is_empty() {
        text += "''";
    }
    text
}

/// A letter, escaped where a terminal would obey it or show nothing.
fn letter(letter: char) -> String {
    match letter {
        '\'' | '"' => letter.to_string(),
        _ => letter.escape_debug().to_string(),
    }
}

#[cfg(test)]
mod tests {
    use super::*;

    #[test]
    fn texts() {
        assert_eq!(shown(""), "''");
        assert_eq!(shown("é\u{1B}[31m\n"), r"'é\u{1b}[31m\n'");
        assert_eq!(shown(&"9".repeat(40)), format!("'{}'", "9".repeat(40)));
        assert_eq!(shown(&"9".repeat(41)), format!("'{}..'", "9".repeat(40)));
    }

    #[test]
    fn files() {
        let shown = |bytes: &[u8]| file(OsStr::from_bytes(bytes));
        assert_eq!(shown(b""), "''");
        assert_eq!(shown("a/b c'\"é.store".as_bytes()), "a/b c'\"é.store");
        assert_eq!(shown(b"a\x1B[31m\n\t\\"), r"a\u{1b}[31m\n\t\\");
        assert_eq!(shown("\u{202E}x".as_bytes()), r"\u{202e}x");
        assert_eq!(shown(b"\xFFa\xC3\xA9\xC3"), r"\xFFaé\xC3");
        assert_eq!(shown(b"\xE2\x82a\x80"), r"\xE2\x82a\x80");
        assert_eq!(file("9".repeat(300)).len(), 300);
    }
}
