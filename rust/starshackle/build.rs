//! Links the archive of the proved library.

use std::env;
use std::path::{Path, PathBuf};
use std::process::{self, Command};

const ARCHIVE: &str = "libstarshackle.a";
/// The variable that names the archive's folder.
const VARIABLE: &str = "STARSHACKLE_LIB_DIR";

fn main() {
    for variable in [VARIABLE, "PKG_CONFIG_PATH", "PKG_CONFIG_LIBDIR"] {
        println!("cargo:rerun-if-env-changed={variable}");
    }
    let folder = named().or_else(made).or_else(installed).unwrap_or_else(|| {
        fail(&format!(
            "No {ARCHIVE} is found.\n\
            Run `tools/archive` in the repository's root to make it, or name its folder \
            by {VARIABLE}, or install it where pkg-config finds it."
        ))
    });
    println!("cargo:rerun-if-changed={}", folder.join(ARCHIVE).display());
    println!("cargo:rustc-link-search=native={}", folder.display());
    println!("cargo:rustc-link-lib=static=starshackle");
}

fn fail(message: &str) -> ! {
    eprintln!("{message}");
    process::exit(1)
}

/// The folder that the variable names, which has to have the archive.
fn named() -> Option<PathBuf> {
    let folder = PathBuf::from(env::var_os(VARIABLE).filter(|folder| !folder.is_empty())?);
    if !folder.is_absolute() || !folder.join(ARCHIVE).is_file() {
        let folder = folder.display();
        fail(&format!(
            "{VARIABLE} is {folder}; expected an absolute path to a folder with {ARCHIVE}"
        ));
    }
    Some(folder)
}

/// The repository's.
fn made() -> Option<PathBuf> {
    let package = env::var_os("CARGO_MANIFEST_DIR").expect("cargo sets CARGO_MANIFEST_DIR");
    let folder = Path::new(&package).join("../../target/staticlib");
    // So that it is taken as soon as it is there.
    println!("cargo:rerun-if-changed={}", folder.join(ARCHIVE).display());
    folder.join(ARCHIVE).is_file().then_some(folder)
}

/// The one that `tools/install` installed.
fn installed() -> Option<PathBuf> {
    let mut query = Command::new("pkg-config");
    let output = query.args(["--variable=libdir", "starshackle"]).output().ok()?;
    let folder = PathBuf::from(String::from_utf8(output.stdout).ok()?.trim());
    (output.status.success() && folder.join(ARCHIVE).is_file()).then_some(folder)
}
