//! The window's bytes from a file that a line names.

use super::lines::{count, Line};
use crate::command::Failure;
use crate::{input, quote};
use starshackle::LARGEST_WINDOW;
use std::fs::File;
use std::io::{self, Read};
use std::path::Path;

/// The bytes of a file, as many as a line about the length says, if there is one.
pub fn memory(
    line: &Line,
    folder: &Path,
    name: &str,
    length: Option<u64>,
) -> Result<Vec<u8>, Failure> {
    let shown = format!("is @{}", quote::file(name));
    if name.is_empty() || name == input::STANDARD {
        return Err(line.unexpected(&shown, "@ and the name of a file"));
    }
    let bytes = read(&folder.join(name))
        .map_err(|error| line.unexpected(&format!("{shown}: {error}"), "a file of bytes"))?;
    if bytes.len() > LARGEST_WINDOW {
        let found = format!("{shown}, which has more than {LARGEST_WINDOW} bytes");
        return Err(line.unexpected(&found, "no more than a window has"));
    }
    match length {
        Some(length) if length != bytes.len() as u64 => {
            let found = format!("{shown}, which has {}", count(bytes.len(), "byte"));
            Err(line.unexpected(&found, &format!("{length} as length says")))
        }
        _ => Ok(bytes),
    }
}

/// A file's bytes, of a long one as many as are needed to refuse it.
fn read(path: &Path) -> io::Result<Vec<u8>> {
    let mut bytes = Vec::new();
    File::open(path)?.take(LARGEST_WINDOW as u64 + 1).read_to_end(&mut bytes)?;
    Ok(bytes)
}
