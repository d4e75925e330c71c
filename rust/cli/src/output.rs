//! Writing a file whole or not at all.

use crate::command::Failure;
use crate::input::{self, closed, STANDARD};
use crate::quote;
use starshackle_streams::{was_open, Stream};
use std::ffi::OsStr;
use std::fs::{self, File, OpenOptions};
use std::io::{self, Write};
use std::path::{Path, PathBuf};
use std::process;

/// The part of a subcommand's help about OUT, a macro because only those are joined with literals.
macro_rules! output_help {
    () => {
        "\
OUT is written whole or not at all, and only when the answer is out. A link stays a link, and the
file that it names gets the bytes, even if there is none yet. With a - for OUT the bytes go to
standard output, and the answer to standard error.

"
    };
}

/// Bytes that have to be put into their place.
pub struct Output {
    /// As messages show it.
    name: String,
    place: Place,
}

enum Place {
    /// A file that is written but for its name: from which to which.
    File(Temporary, PathBuf),
    /// A device or a pipe, which is written at once.
    Device,
    /// Standard output, with the bytes.
    Standard(Vec<u8>),
}

/// A file that is removed unless it gets another name.
struct Temporary(PathBuf);

impl Drop for Temporary {
    fn drop(&mut self) {
        // It is gone if it has been renamed, and if it can't be removed there is nothing to do.
        let _ = fs::remove_file(&self.0);
    }
}

impl Output {
    /// Writes the bytes to the disk. The file itself is as before.
    pub fn prepare(out: &OsStr, bytes: &[u8]) -> Result<Output, Failure> {
        if is_standard(out) {
            let name = "standard output".to_string();
            return Ok(Output { name, place: Place::Standard(bytes.to_vec()) });
        }
        let name = quote::file(out);
        match place(out, bytes) {
            Ok(place) => Ok(Output { name, place }),
            Err(error) => {
                let message = format!("{error}; expected a file that can be written");
                Err(Failure::of_file(&name, &message))
            }
        }
    }

    /// Puts the bytes into their place.
    pub fn put(self) -> Result<(), String> {
        let result = match &self.place {
            Place::File(Temporary(from), to) => fs::rename(from, to),
            Place::Device => Ok(()),
            Place::Standard(bytes) => to_standard(bytes),
        };
        result.map_err(|error| format!("{}: {error}", self.name))
    }
}

/// Whether the name of an output stands for standard output.
pub fn is_standard(out: &OsStr) -> bool {
    out == STANDARD
}

/// Writes to standard output. One that is closed takes nothing.
pub fn to_standard(bytes: &[u8]) -> io::Result<()> {
    if !was_open(Stream::Output) {
        return Err(closed());
    }
    let mut out = io::stdout().lock();
    out.write_all(bytes).and_then(|()| out.flush())
}

/// Refuses an output that would replace a file which the call reads and OUT isn't meant to be.
pub fn differs(out: &OsStr, input: &OsStr) -> Result<(), Failure> {
    let file = |name: &OsStr| Path::new(name).canonicalize().ok().filter(|path| path.is_file());
    match (file(out), file(input)) {
        (Some(path), Some(other)) if path == other && !is_standard(out) && input != STANDARD => {
            let input = input::name(input);
            let message = format!("the same file as {input}, which is read; expected another");
            Err(Failure::of_file(&quote::file(out), &message))
        }
        _ => Ok(()),
    }
}

fn place(out: &OsStr, bytes: &[u8]) -> io::Result<Place> {
    let path = Path::new(out);
    match fs::metadata(path) {
        Ok(old) if old.is_file() => {
            // A link stays a link, and its target gets the bytes.
            let target = path.canonicalize()?;
            OpenOptions::new().write(true).open(&target)?;
            let temporary = beside(&target, bytes)?;
            fs::set_permissions(&temporary.0, old.permissions())?;
            Ok(Place::File(temporary, target))
        }
        Ok(old) if old.is_dir() => Err(io::Error::new(io::ErrorKind::Other, "a directory")),
        Ok(_) => {
            OpenOptions::new().write(true).open(path)?.write_all(bytes).map(|()| Place::Device)
        }
        Err(error) if error.kind() != io::ErrorKind::NotFound => Err(error),
        Err(error) => {
            // A link to a file that isn't there stays a link too.
            let target = followed(path);
            if target.as_os_str().is_empty() || target.to_string_lossy().ends_with('/') {
                return Err(error);
            }
            Ok(Place::File(beside(&target, bytes)?, target))
        }
    }
}

/// The path at the end of a chain of links, which is none of these or isn't there.
fn followed(path: &Path) -> PathBuf {
    const MOST: usize = 40; // as many as Linux follows
    let mut path = path.to_path_buf();
    for _ in 0..MOST {
        match fs::read_link(&path) {
            Ok(next) => path = path.parent().unwrap_or(Path::new("")).join(next),
            Err(_) => break,
        }
    }
    path
}

/// A new file with these bytes in the folder of another.
fn beside(target: &Path, bytes: &[u8]) -> io::Result<Temporary> {
    let (temporary, mut file) = new_file(target)?;
    file.write_all(bytes)?;
    file.sync_all()?;
    Ok(temporary)
}

fn new_file(target: &Path) -> io::Result<(Temporary, File)> {
    let mut number = 0;
    loop {
        let path = target.with_file_name(format!(".starshackle-{}-{number}", process::id()));
        match OpenOptions::new().write(true).create_new(true).open(&path) {
            Ok(file) => return Ok((Temporary(path), file)),
            Err(error) if error.kind() == io::ErrorKind::AlreadyExists => number += 1,
            Err(error) => return Err(error),
        }
    }
}
