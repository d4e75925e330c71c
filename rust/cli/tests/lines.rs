//! Stores as lines of JSON.

use std::fs::{self, File};
use std::io::{BufRead, BufReader, Write};
use std::path::Path;
use std::process::{Child, Command, Output, Stdio};
use std::thread;

const EXAMPLES: &str = concat!(env!("CARGO_MANIFEST_DIR"), "/../../examples");
const STORE: &str = r#"{"word": "E4428001", "vb": 16, "flags": "sve", "length": 8}"#;

fn child(arguments: &str) -> Child {
    let mut command = Command::new(env!("CARGO_BIN_EXE_starshackle"));
    command.current_dir(EXAMPLES).args(arguments.split_whitespace());
    command.stdin(Stdio::piped()).stdout(Stdio::piped()).stderr(Stdio::piped());
    command.spawn().unwrap()
}

fn answer(arguments: &str, input: &[u8]) -> Output {
    let mut child = child(arguments);
    let (mut pipe, input) = (child.stdin.take().unwrap(), input.to_vec());
    let writer = thread::spawn(move || drop(pipe.write_all(&input)));
    let output = child.wait_with_output().unwrap();
    writer.join().unwrap();
    output
}

fn status(output: &Output) -> i32 {
    output.status.code().expect("no signal ends it")
}

/// The lines of an answer, of which there is one for each line of the input.
fn lines(output: Output) -> Vec<String> {
    assert!(output.stderr.is_empty());
    String::from_utf8(output.stdout).unwrap().lines().map(String::from).collect()
}

/// A line of a store's file without its comment. In [ ] a # stands before a number.
fn uncommented(line: &str) -> &str {
    let is_comment =
        |at: &usize| line[..*at].matches('[').count() <= line[..*at].matches(']').count();
    let end = line.match_indices('#').map(|(at, _)| at).find(is_comment);
    line[..end.unwrap_or(line.len())].trim()
}

/// A store's file as an object.
fn object(text: &str) -> String {
    let lines = text.lines().map(uncommented);
    let members = lines.filter(|line| !line.is_empty()).map(|line| {
        let (name, value) = line.split_once('=').unwrap();
        format!("\"{}\": \"{}\"", name.trim(), value.trim())
    });
    format!("{{{}}}", members.collect::<Vec<String>>().join(", "))
}

/// A line has the answer that its store has as a file.
#[test]
fn lines_are_answered_as_files() {
    let mut files: Vec<_> = fs::read_dir(EXAMPLES).unwrap().map(|e| e.unwrap().path()).collect();
    files.retain(|file| file.extension().map_or(false, |end| end == "store"));
    files.retain(|file| !file.ends_with("gdb.store")); // whose registers go over several lines
    let text = |file: &std::path::PathBuf| object(&fs::read_to_string(file).unwrap());
    let input = files.iter().map(text).collect::<Vec<String>>().join("\n");
    for command in ["run", "patch"] {
        let answers = answer(&format!("{command} --jsonl"), input.as_bytes());
        assert_eq!(status(&answers), 1);
        let answers = lines(answers);
        assert_eq!(answers.len(), files.len());
        for (file, line) in files.iter().zip(answers) {
            let out = if command == "patch" { "-o /dev/null" } else { "" };
            let alone = answer(&format!("{command} --json {} {out}", file.display()), b"");
            let alone = String::from_utf8(alone.stdout).unwrap();
            assert_eq!(alone.trim_end().replace(",\n ", ", "), line);
        }
    }
}

/// Damaged lines have errors with their numbers, and those between them are answered.
#[test]
fn damaged_lines() {
    let long = format!("{{\"word\": \"{}\"}}", "0".repeat(3 << 20));
    let deep = "[".repeat(1 << 20);
    let cut: Vec<&str> = (0..STORE.len()).map(|length| &STORE[..length]).collect();
    let mut input = Vec::new();
    for damaged in cut.into_iter().chain([&long[..], &deep, "\0", "{\"x0\": 1}\u{7}", "é"]) {
        input.extend(format!("{STORE}\n{damaged}\n").bytes());
    }
    input.extend(b"\xFF\xFE{}\n");
    let answers = answer("run --jsonl", &input);
    assert_eq!(status(&answers), 2);
    let answers = lines(answers);
    assert_eq!(answers.len(), input.iter().filter(|byte| **byte == b'\n').count());
    for (number, line) in (1..).zip(&answers) {
        let is_store = number % 2 == 1 && number < answers.len();
        let start = match is_store {
            true => "{\"version\": 1, \"verdict\": 0,".to_string(),
            false => format!("{{\"version\": 1, \"line\": {number}, \"error\": \""),
        };
        assert!(line.starts_with(&start), "{number}: {line}");
    }
}

#[test]
fn a_last_line_needs_no_end() {
    let ends = ["", "\n", "\r\n"]
        .map(|end| lines(answer("run --jsonl", (STORE.to_string() + end).as_bytes())));
    assert!(ends.iter().all(|lines| lines.len() == 1 && *lines == ends[0]));
    assert!(lines(answer("run --jsonl", b"")).is_empty());
    assert_eq!(lines(answer("run --jsonl", b"\n")).len(), 1);
}

/// Who waits for an answer before writing the next line gets it.
#[test]
fn answers_go_out_at_once() {
    let mut child = child("run --jsonl");
    let mut answers = BufReader::new(child.stdout.take().unwrap()).lines();
    let mut pipe = child.stdin.take().unwrap();
    for _ in 0..3 {
        writeln!(pipe, "{STORE}").unwrap();
        assert!(answers.next().unwrap().unwrap().starts_with("{\"version\": 1, \"verdict\": 0,"));
    }
    drop(pipe);
    assert!(answers.next().is_none());
    assert_eq!(child.wait().unwrap().code(), Some(0));
}

/// A reader who leaves ends the call quietly; a full disk is told.
#[test]
fn standard_output_that_takes_no_more() {
    let input = Path::new(env!("CARGO_TARGET_TMPDIR")).join("many.jsonl");
    fs::write(&input, format!("{STORE}\n").repeat(2_000)).unwrap();
    let mut call = child(&format!("run --jsonl {}", input.display()));
    let mut first = String::new();
    BufReader::new(call.stdout.take().unwrap()).read_line(&mut first).unwrap();
    let output = call.wait_with_output().unwrap();
    assert_eq!((status(&output), &output.stderr[..]), (0, &b""[..]));
    let mut command = Command::new(env!("CARGO_BIN_EXE_starshackle"));
    let full = File::options().write(true).open("/dev/full").unwrap();
    let output = command.args(["patch", "--jsonl"]).arg(&input).stdout(full).output().unwrap();
    assert_eq!(status(&output), 2);
    let errors = String::from_utf8(output.stderr).unwrap();
    assert!(errors.starts_with("starshackle: standard output: "), "{errors}");
}

/// A terminal beside the answers is told how far a long call is; nothing stays of it.
#[test]
fn progress_on_a_terminal() {
    if !Path::new("/usr/bin/script").exists() {
        return; // then nothing here makes a terminal
    }
    let input = Path::new(env!("CARGO_TARGET_TMPDIR")).join("long.jsonl");
    fs::write(&input, format!("{STORE}\n").repeat(40_000)).unwrap();
    let shown = |output: &str| {
        let program = env!("CARGO_BIN_EXE_starshackle");
        let call = format!("'{program}' run --jsonl '{}' {output}", input.display());
        let mut script = Command::new("script");
        let script = script.args(["-qec", &call, "/dev/null"]).stdin(Stdio::null());
        String::from_utf8(script.output().unwrap().stdout).unwrap()
    };
    let beside = shown(">/dev/null");
    assert!(beside.starts_with('\r') && beside.contains(" stores\r"), "{beside:?}");
    assert!(beside.ends_with("\r\u{1B}[K"), "{beside:?}");

    assert_eq!(shown(">/dev/null 2>&1"), "");
}
