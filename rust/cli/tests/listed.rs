//! Words in the lines of a file, whose answers go out one by one.

use std::fs::{self, File};
use std::io::{BufRead, BufReader, Write};
use std::path::{Path, PathBuf};
use std::process::{Command, Output, Stdio};

fn file(name: &str, bytes: &[u8]) -> PathBuf {
    let folder = Path::new(env!("CARGO_TARGET_TMPDIR")).join("listed");
    fs::create_dir_all(&folder).unwrap();
    fs::write(folder.join(name), bytes).unwrap();
    folder.join(name)
}

fn decode(arguments: &[&str], file: &Path) -> Command {
    let mut command = Command::new(env!("CARGO_BIN_EXE_starshackle"));
    command.arg("decode").args(arguments).arg("--file").arg(file);
    command
}

fn status(output: &Output) -> i32 {
    output.status.code().expect("no signal ends it")
}

/// The answers to a file are those to the same words as operands.
#[test]
fn a_file_is_answered_as_operands() {
    let words: Vec<String> = (0..500u32).map(|n| format!("{:08X}", n * 0x0083_1F05)).collect();
    let lines = words.chunks(3).map(|line| line.join(" ") + " # three\n");
    let words_file = file("words", lines.collect::<String>().as_bytes());
    for arguments in [&[][..], &["--json"]] {
        let mut command = Command::new(env!("CARGO_BIN_EXE_starshackle"));
        let expected = command.arg("decode").args(arguments).args(&words).output().unwrap();
        assert_eq!(decode(arguments, &words_file).output().unwrap(), expected);
    }
}

/// Damaged, binary and huge files are a message behind the answers before it.
#[test]
fn damaged_files() {
    let long = [b"A16F6000\n".to_vec(), vec![b'0'; 3 << 20]].concat();
    let files: [&[u8]; 6] =
        [b"\0", b"A16F6000\n\xFF", b"\x7FELF\x02\n", b"A16F6000,", b"-1", &long];
    for (number, bytes) in files.iter().enumerate() {
        let file = file(&format!("damaged-{number}"), bytes);
        let output = decode(&["--json"], &file).output().unwrap();
        assert_eq!(status(&output), 2);
        let (text, errors) = (output.stdout, String::from_utf8(output.stderr).unwrap());
        assert!(text.starts_with(b"[") && text.ends_with(b"]\n"));
        assert!(errors.contains(&format!("damaged-{number}:")), "{errors}");
        assert_eq!(errors.lines().count(), 1);
    }
}

#[test]
fn answers_go_out_at_once() {
    let mut command = decode(&[], Path::new("-"));
    let mut child = command.stdin(Stdio::piped()).stdout(Stdio::piped()).spawn().unwrap();
    let mut answers = BufReader::new(child.stdout.take().unwrap()).lines();
    let mut pipe = child.stdin.take().unwrap();
    for _ in 0..2 {
        writeln!(pipe, "00000000").unwrap();
        assert_eq!(answers.next().unwrap().unwrap(), "00000000: undefined (verdict 4)");
    }
    drop(pipe);
    assert_eq!(child.wait().unwrap().code(), Some(1));
}

/// A reader who leaves ends the call quietly; a full disk is told.
#[test]
fn standard_output_that_takes_no_more() {
    let file = file("many", &b"A16F6000\n".repeat(20_000));
    let mut command = decode(&[], &file);
    let mut call = command.stdout(Stdio::piped()).stderr(Stdio::piped()).spawn().unwrap();
    BufReader::new(call.stdout.take().unwrap()).read_line(&mut String::new()).unwrap();
    let output = call.wait_with_output().unwrap();
    assert_eq!((status(&output), &output.stderr[..]), (0, &b""[..]));
    let full = File::options().write(true).open("/dev/full").unwrap();
    let output = decode(&["--json"], &file).stdout(full).output().unwrap();
    assert_eq!(status(&output), 2);
    assert!(output.stderr.starts_with(b"starshackle: standard output: "));
}
