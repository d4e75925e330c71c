//! Pages in HTML: whole or absent, and told of.

use std::fs::{self, File};
use std::path::{Path, PathBuf};
use std::process::{Command, Output};

const EXAMPLES: &str = concat!(env!("CARGO_MANIFEST_DIR"), "/../../examples");

fn folder(name: &str) -> PathBuf {
    let folder = Path::new(env!("CARGO_TARGET_TMPDIR")).join("pages").join(name);
    let _ = fs::remove_dir_all(&folder);
    fs::create_dir_all(&folder).unwrap();
    folder
}

/// The command line with a page that is to be written in a folder.
fn run(folder: &Path, page: &str, store: &str) -> Command {
    let mut command = Command::new(env!("CARGO_BIN_EXE_starshackle"));
    let store = Path::new(EXAMPLES).join(store);
    command.current_dir(folder).args(["run", "--html", page]).arg(store);
    command
}

fn status(output: &Output) -> i32 {
    output.status.code().expect("no signal ends it")
}

/// The same page in a file and in standard output, and the answer beside it, also of a refusal.
#[test]
fn pages_in_files_and_streams() {
    let folder = folder("streams");
    for (store, expected) in [("whole.store", 0), ("fault.store", 1), ("illegal.store", 1)] {
        let told = run(&folder, "page.html", store).output().unwrap();
        let page = fs::read_to_string(folder.join("page.html")).unwrap();
        let piped = run(&folder, "-", store).output().unwrap();
        assert_eq!((status(&told), status(&piped)), (expected, expected));
        assert_eq!(String::from_utf8(piped.stdout).unwrap(), page);
        assert_eq!(piped.stderr, told.stdout);
        assert!(page.starts_with("<!DOCTYPE html>\n") && page.ends_with("</html>\n"));
        for outside in ["http:", "https:", "src=", "href=", "url(", "<script", "<link"] {
            assert!(!page.contains(outside), "{outside}");
        }
    }
}

/// A call that can't say what it did leaves no page, nor does a full disk leave a part of one.
#[test]
fn pages_are_whole() {
    let folder = folder("whole");
    let full = File::options().write(true).open("/dev/full").unwrap();
    let output = run(&folder, "page.html", "whole.store").stdout(full).output().unwrap();
    assert_eq!(status(&output), 2);
    let script = "trap '' XFSZ; ulimit -f 0; exec \"$0\" run --html page.html \"$1\"";
    let mut shell = Command::new("sh");
    shell.current_dir(&folder).args(["-c", script, env!("CARGO_BIN_EXE_starshackle")]);
    let output = shell.arg(Path::new(EXAMPLES).join("whole.store")).output().unwrap();
    assert_eq!((status(&output), &output.stdout[..]), (2, &b""[..]));
    assert_eq!(fs::read_dir(&folder).unwrap().count(), 0);
}
