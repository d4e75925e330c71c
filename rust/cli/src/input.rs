//! Reading files whole.

use crate::command::Failure;
use crate::quote;
use starshackle_streams::{was_open, Stream};
use std::ffi::OsStr;
use std::fs::File;
use std::io::{self, Read};

/// Nothing that a subcommand takes is near this length.
const LONGEST: u64 = 16 << 20;

/// Stands for standard input, and for standard output where that is written.
pub const STANDARD: &str = "-";

/// The name of a file that is read, as messages show it.
pub fn name(path: impl AsRef<OsStr>) -> String {
    match path.as_ref() {
        path if path == STANDARD => "standard input".to_string(),
        path => quote::file(path),
    }
}

/// The bytes of a file, which is described for the message that it can't be read.
pub fn bytes(path: impl AsRef<OsStr>, described: &str) -> Result<Vec<u8>, Failure> {
    let path = path.as_ref();
    let problem =
        |problem: &str| Failure::of_file(&name(path), &format!("{problem}; expected {described}"));
    match read(path) {
        Ok(bytes) if bytes.len() as u64 > LONGEST => Err(problem("more than 16 MiB")),
        Ok(bytes) => Ok(bytes),
        Err(error) => Err(problem(&error.to_string())),
    }
}

fn read(path: &OsStr) -> io::Result<Vec<u8>> {
    let mut bytes = Vec::new();
    if path != STANDARD {
        File::open(path)?.take(LONGEST + 1).read_to_end(&mut bytes)?;
    } else if was_open(Stream::Input) {
        io::stdin().lock().take(LONGEST + 1).read_to_end(&mut bytes)?;
    } else {
        return Err(closed());
    }
    Ok(bytes)
}

/// What is wrong with a standard stream that was closed from the start.
pub fn closed() -> io::Error {
    io::Error::new(io::ErrorKind::Other, "closed")
}

/// The text of a file. A zero byte is none: other encodings of text have many.
pub fn text(path: impl AsRef<OsStr>, described: &str) -> Result<String, Failure> {
    let path = path.as_ref();
    let no_text = |before: &[u8]| {
        let line = 1 + before.iter().filter(|byte| **byte == b'\n').count();
        Failure::File(format!("{}:{line}: bytes that are no text; expected UTF-8", name(path)))
    };
    match String::from_utf8(bytes(path, described)?) {
        Ok(text) => match text.find('\0') {
            Some(index) => Err(no_text(&text.as_bytes()[..index])),
            None => Ok(text),
        },
        Err(error) => Err(no_text(&error.as_bytes()[..error.utf8_error().valid_up_to()])),
    }
}
