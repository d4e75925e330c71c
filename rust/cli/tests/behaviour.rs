//! What the command line does beyond the answers in `tests/golden/`.

use std::fs;
use std::path::{Path, PathBuf};
use std::process::{Command, Output, Stdio};

/// Words of all classes.
const WORDS: &[&str] = &[
    "E5A3D7E7", "E59F9C3F", "E5A1A864", "E590A502", "E409CD4B", "E4428001", "E41EB3BC", "A13F7FF7",
    "A125E453", "A16F6000", "A168E000", "E43F398D",
];

fn command(arguments: &[&str]) -> Command {
    let mut command = Command::new(env!("CARGO_BIN_EXE_starshackle"));
    command.args(arguments);
    command
}

fn text_of(output: Output) -> String {
    assert_eq!(output.status.code(), Some(0));
    String::from_utf8(output.stdout).unwrap()
}

/// The members of an answer in JSON that `encode` takes, as NAME=VALUE.
fn pairs(answer: &str) -> Vec<String> {
    let behind = |key: &str| answer.split_once(key).unwrap().1;
    let class = behind("\"class\": ").split_once(',').unwrap().0;
    let fields = behind("\"fields\": {").split_once('}').unwrap().0;
    let fields = fields.split(", ").map(|member| member.replace('"', "").replace(": ", "="));
    fields.chain([format!("class={class}")]).collect()
}

#[test]
fn encode_takes_what_decode_gives() {
    for word in WORDS {
        let answer = text_of(command(&["decode", "--json", word]).output().unwrap());
        let encoded = text_of(command(&["encode"]).args(pairs(&answer)).output().unwrap());
        assert_eq!(encoded, format!("{word}\n"));
    }
}

/// Bytes in the order of memory are the word, and a word in their order is told to be swapped.
#[test]
fn decode_takes_bytes() {
    for word in WORDS {
        let bytes: Vec<&str> = (0..4).rev().map(|byte| &word[2 * byte..][..2]).collect();
        let answer = text_of(command(&["decode", word]).output().unwrap());
        let by_bytes = command(&["decode", "--bytes"]).args(&bytes).output().unwrap();
        assert_eq!(text_of(by_bytes), answer);
        let joined = command(&["decode", "--bytes", &bytes.join(" ")]).output().unwrap();
        assert_eq!(text_of(joined), answer);
        let swapped = command(&["decode", &bytes.concat()]).output().unwrap();
        assert_eq!(swapped.status.code(), Some(1));
        let (class, _) = answer.split_once('\n').unwrap();
        let note = format!("in the other order it is {}; --bytes", class.replacen(':', ",", 1));
        assert!(String::from_utf8(swapped.stdout).unwrap().contains(&note), "{note}");
    }
}

#[test]
fn the_version_is_that_of_the_repository() {
    let root = Path::new(env!("CARGO_MANIFEST_DIR")).join("../..");
    let version = fs::read_to_string(root.join("VERSION")).unwrap();
    let answer = text_of(command(&["--version"]).output().unwrap());
    assert_eq!(answer, format!("starshackle {version}"));
}

/// The README's copy is true, but for the line of assembly, which it leaves out.
#[test]
fn the_readme_shows_the_first_answer() {
    let root = Path::new(env!("CARGO_MANIFEST_DIR")).join("../..");
    let readme = fs::read_to_string(root.join("README.md")).unwrap();
    let mut run = command(&["run", "examples/whole.store"]);
    let answer = text_of(run.current_dir(root).output().unwrap());
    let proved = answer.lines().filter(|line| !line.contains("(not proved)"));
    let block: String =
        proved.map(|line| format!("    {line}").trim_end().to_string() + "\n").collect();
    assert!(readme.contains(&block), "{block}");
}

/// Only one leaves out a register that its store reads, to show what is said of it.
#[test]
fn examples_give_every_register() {
    let folder = Path::new(env!("CARGO_MANIFEST_DIR")).join("../../examples");
    let is_store = |file: &PathBuf| file.extension().map_or(false, |end| end == "store");
    let files = fs::read_dir(folder).unwrap().map(|entry| entry.unwrap().path());
    for file in files.filter(is_store) {
        let output = command(&["run", "--require-registers"]).arg(&file).output().unwrap();
        let forgets = file.ends_with("forgotten-register.store");
        assert_eq!(output.status.code() == Some(2), forgets, "{}", file.display());
    }
}

#[cfg(target_os = "linux")]
#[test]
fn a_full_disk_is_told() {
    use std::fs::OpenOptions;

    let full = OpenOptions::new().write(true).open("/dev/full").unwrap();
    let output = command(&["decode", "A16F6000"]).stdout(full).output().unwrap();
    assert_eq!(output.status.code(), Some(2));
    assert!(String::from_utf8(output.stderr).unwrap().starts_with("starshackle: standard output:"));
}

/// As `| head -1` ends: the status is the answer's, and nothing is said.
#[cfg(unix)]
#[test]
fn a_reader_that_leaves() {
    for (word, status) in [("A16F6000", 0), ("E4208000", 1)] {
        let mut decode = command(&["decode", word]);
        let child = decode.stdout(closed_pipe()).stderr(Stdio::piped()).spawn().unwrap();
        let output = child.wait_with_output().unwrap();
        assert_eq!(output.status.code(), Some(status));
        assert!(output.stderr.is_empty());
    }
}

/// A pipe into a process that is gone.
#[cfg(unix)]
fn closed_pipe() -> std::process::ChildStdin {
    use std::io::Write;

    let mut reader = Command::new("true").stdin(Stdio::piped()).spawn().unwrap();
    let mut pipe = reader.stdin.take().unwrap();
    reader.wait().unwrap();
    // A process of another test has the reading end too until it becomes its program.
    while pipe.write(&[0]).is_ok() {}
    pipe
}

/// No file is written that nobody was told of.
#[cfg(unix)]
#[test]
fn a_reader_that_leaves_before_a_file_is_written() {
    let out = Path::new(env!("CARGO_TARGET_TMPDIR")).join("unread.patch");
    let _ = fs::remove_file(&out);
    let store = concat!(env!("CARGO_MANIFEST_DIR"), "/../../examples/whole.store");
    let mut patch = command(&["patch", store, "-o", out.to_str().unwrap()]);
    let child = patch.stdout(closed_pipe()).stderr(Stdio::piped()).spawn().unwrap();
    let output = child.wait_with_output().unwrap();
    assert_eq!(output.status.code(), Some(2));
    assert!(String::from_utf8(output.stderr).unwrap().starts_with("starshackle: standard output:"));
    assert!(!out.exists());
}

#[cfg(unix)]
#[test]
fn an_argument_that_is_not_utf_8() {
    use std::ffi::OsStr;
    use std::os::unix::ffi::OsStrExt;

    let output = command(&["decode"]).arg(OsStr::from_bytes(&[0xFF])).output().unwrap();
    assert_eq!(output.status.code(), Some(2));
    assert!(output.stdout.is_empty());
}
