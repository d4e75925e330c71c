//! Calls about many files: each is answered, and what is written is whole.

use std::fs::{self, File};
use std::path::{Path, PathBuf};
use std::process::{Command, Output, Stdio};

const EXAMPLES: &str = concat!(env!("CARGO_MANIFEST_DIR"), "/../../examples");

fn folder(name: &str) -> PathBuf {
    let folder = Path::new(env!("CARGO_TARGET_TMPDIR")).join("batch").join(name);
    let _ = fs::remove_dir_all(&folder);
    fs::create_dir_all(&folder).unwrap();
    folder
}

/// The command line among the examples.
fn command(arguments: &str) -> Command {
    let mut command = Command::new(env!("CARGO_BIN_EXE_starshackle"));
    command.current_dir(EXAMPLES).args(arguments.split_whitespace());
    command
}

fn answer(arguments: &str) -> (i32, String) {
    let output = command(arguments).output().unwrap();
    (status(&output), String::from_utf8(output.stdout).unwrap())
}

fn status(output: &Output) -> i32 {
    output.status.code().expect("no signal ends it")
}

fn names(folder: &Path) -> Vec<String> {
    let name = |entry: std::io::Result<fs::DirEntry>| entry.unwrap().file_name().into_string();
    let mut names: Vec<String> =
        fs::read_dir(folder).unwrap().map(|entry| name(entry).unwrap()).collect();
    names.sort();
    names
}

fn stores() -> Vec<String> {
    let all = names(Path::new(EXAMPLES));
    all.into_iter().filter(|name| name.ends_with(".store")).collect()
}

/// What is said of many files is what is said of each, and the status is the worst.
#[test]
fn many_files_are_answered_as_each_alone() {
    let (stores, each) = (stores(), |name: &String| answer(&format!("run {name}")));
    let alone: Vec<(i32, String)> = stores.iter().map(each).collect();
    let expected: Vec<String> = stores
        .iter()
        .zip(&alone)
        .map(|(name, (_, text))| format!("==> {name} <==\n{text}"))
        .collect();
    let worst = alone.iter().map(|(status, _)| *status).max().unwrap();
    assert_eq!(answer(&format!("run {}", stores.join(" "))), (worst, expected.join("\n")));
}

#[test]
fn patches_in_a_folder_are_those_of_each_alone() {
    let folder = folder("patches");
    let (many, alone) = (folder.join("many"), folder.join("alone"));
    fs::create_dir(&many).unwrap();
    fs::create_dir(&alone).unwrap();
    let stores = stores();
    answer(&format!("patch {} -o {}", stores.join(" "), many.display()));
    for name in &stores {
        let out = alone.join(name).with_extension("patch");
        answer(&format!("patch {name} -o {}", out.display()));
    }
    assert!(names(&many).len() > 5);
    assert_eq!(names(&many), names(&alone));
    for name in names(&many) {
        assert_eq!(fs::read(many.join(&name)).unwrap(), fs::read(alone.join(&name)).unwrap());
    }
}

/// Nothing is replaced that is read, and no name is used twice.
#[test]
fn patches_that_would_replace_what_is_read() {
    let folder = folder("read");
    for name in ["a", "a.patch"] {
        fs::copy(Path::new(EXAMPLES).join("whole.store"), folder.join(name)).unwrap();
    }
    let before = fs::read(folder.join("a.patch")).unwrap();
    let (a, b) = (folder.join("a"), folder.join("a.patch"));
    let (code, _) =
        answer(&format!("patch {} {} -o {}", a.display(), b.display(), folder.display()));
    assert_eq!(code, 2);
    assert_eq!(fs::read(&b).unwrap(), before);
    assert_eq!(names(&folder), ["a", "a.patch", "a.patch.patch"]);
    let twice = format!("patch whole.store {EXAMPLES}/whole.store -o {}", folder.display());
    assert_eq!(answer(&twice), (2, String::new()));
}

/// Standard output that takes nothing is told, and leaves no file.
#[test]
fn a_full_disk_leaves_no_file() {
    let folder = folder("full");
    for arguments in [
        format!("patch whole.store strided.store -o {}", folder.display()),
        "run whole.store strided.store".to_string(),
        "run --json whole.store strided.store".to_string(),
    ] {
        let full = File::options().write(true).open("/dev/full").unwrap();
        let output = command(&arguments).stdout(full).output().unwrap();
        assert_eq!(status(&output), 2, "{arguments}");
        let errors = String::from_utf8(output.stderr).unwrap();
        assert!(errors.starts_with("starshackle: standard output: "), "{errors}");
    }
    assert!(names(&folder).is_empty());
}

/// Files with a limit on their size, as on a full disk: each output is whole or absent.
#[test]
fn a_folder_that_is_full() {
    let folder = folder("limited");
    let script = "trap '' XFSZ; ulimit -f 0; exec \"$0\" patch whole.store strided.store -o \"$1\"";
    let mut shell = Command::new("sh");
    shell.current_dir(EXAMPLES).args(["-c", script, env!("CARGO_BIN_EXE_starshackle")]);
    let output = shell.arg(&folder).stdout(Stdio::null()).output().unwrap();
    assert_eq!(status(&output), 2);
    assert_eq!(String::from_utf8(output.stderr).unwrap().lines().count(), 2);
    assert!(names(&folder).is_empty());
}
