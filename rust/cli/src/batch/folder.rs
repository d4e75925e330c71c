//! A folder with an output for each of many files.

use crate::arguments::Usage;
use crate::command::Failure;
use crate::input::STANDARD;
use crate::quote;
use std::collections::{BTreeMap, BTreeSet};
use std::ffi::{OsStr, OsString};
use std::os::unix::ffi::OsStrExt;
use std::path::{Path, PathBuf};

/// What a file that describes a store is called in the end.
const STORE: &[u8] = b".store";

pub struct Folder {
    path: PathBuf,
    /// The files that the call reads.
    inputs: BTreeSet<PathBuf>,
}

impl Folder {
    /// Whether an output is a folder by its name.
    pub fn is_meant(out: &OsStr) -> bool {
        out.as_bytes().ends_with(b"/")
    }

    /// A folder that is there, and in which the files' outputs have different names.
    pub fn of(out: &OsStr, files: &[OsString]) -> Result<Folder, Failure> {
        if !Path::new(out).is_dir() {
            let expected = "expected a folder that is there, for a patch of each file";
            return Err(Failure::of_file(&quote::file(out), &format!("no folder; {expected}")));
        }
        let mut names = BTreeMap::new();
        for file in files {
            let name = name(file)?;
            if let Some(other) = names.insert(name.clone(), file) {
                let [name, other, file] = [&name, other, file].map(quote::file);
                return Err(Usage(format!(
                    "{name} for {other} and for {file}; expected files with different names"
                ))
                .into());
            }
        }
        let inputs = files.iter().filter_map(|file| Path::new(file).canonicalize().ok()).collect();
        Ok(Folder { path: out.into(), inputs })
    }

    /// The output for a file, which is no file that the call reads.
    pub fn place(&self, file: &OsStr) -> Result<PathBuf, Failure> {
        let path = self.path.join(name(file)?);
        match path.canonicalize() {
            Ok(found) if self.inputs.contains(&found) => {
                let message = "a file that is read; expected another folder";
                Err(Failure::of_file(&quote::file(&path), message))
            }
            _ => Ok(path),
        }
    }
}

/// The name of a file's patch.
fn name(file: &OsStr) -> Result<OsString, Usage> {
    let name = Path::new(file).file_name().filter(|_| file != STANDARD);
    let problem = || Usage(format!("'{}'; expected a file with a name", quote::file(file)));
    let name = name.ok_or_else(problem)?.as_bytes();
    let start = name.strip_suffix(STORE).filter(|start| !start.is_empty()).unwrap_or(name);
    Ok(OsStr::from_bytes(&[start, b".patch"].concat()).to_os_string())
}

#[cfg(test)]
mod tests {
    use super::*;

    #[test]
    fn names() {
        let shown = |file: &str| name(file.as_ref()).ok();
        assert_eq!(shown("a/b.store"), Some("b.patch".into()));
        assert_eq!(shown("b.store.store"), Some("b.store.patch".into()));
        assert_eq!(shown("b.txt"), Some("b.txt.patch".into()));
        assert_eq!(shown(".store"), Some(".store.patch".into()));
        assert_eq!(shown("./-"), Some("-.patch".into()));
        for file in ["-", "/", "..", ""] {
            assert_eq!(shown(file), None, "{file}");
        }
    }
}
