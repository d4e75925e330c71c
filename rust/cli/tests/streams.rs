//! Standard streams in place of files, and streams that are closed or full.

use std::fs::{self, File};
use std::io::Write;
use std::path::{Path, PathBuf};
use std::process::{Command, Output, Stdio};
use std::thread;

const EXAMPLES: &str = concat!(env!("CARGO_MANIFEST_DIR"), "/../../examples");
const PROGRAM: &str = env!("CARGO_BIN_EXE_starshackle");

/// A new folder for a test's files.
fn folder(name: &str) -> PathBuf {
    let folder = Path::new(env!("CARGO_TARGET_TMPDIR")).join("streams").join(name);
    let _ = fs::remove_dir_all(&folder);
    fs::create_dir_all(&folder).unwrap();
    folder
}

/// The command line among the examples, with these bytes in standard input.
fn answer(arguments: &str, input: &[u8]) -> Output {
    let mut command = Command::new(PROGRAM);
    command.current_dir(EXAMPLES).args(arguments.split_whitespace());
    command.stdin(Stdio::piped()).stdout(Stdio::piped()).stderr(Stdio::piped());
    let mut child = command.spawn().unwrap();
    let (mut pipe, input) = (child.stdin.take().unwrap(), input.to_vec());
    // A call that reads nothing closes the pipe.
    let writer = thread::spawn(move || drop(pipe.write_all(&input)));
    let output = child.wait_with_output().unwrap();
    writer.join().unwrap();
    output
}

/// The command line in a folder, through a shell that changes its streams.
fn redirected(folder: &Path, arguments: &str, streams: &str) -> Output {
    let mut shell = Command::new("sh");
    shell.current_dir(folder).args(["-c", &format!("exec \"$0\" {arguments} {streams}"), PROGRAM]);
    shell.output().unwrap()
}

fn status(output: &Output) -> i32 {
    output.status.code().expect("no signal ends it")
}

fn text(bytes: &[u8]) -> &str {
    std::str::from_utf8(bytes).unwrap()
}

/// The answers to a file and to the same bytes in standard input are the same.
#[test]
fn standard_input_is_a_file() {
    for name in ["whole.store", "fault.store", "strided.store"] {
        let bytes = fs::read(Path::new(EXAMPLES).join(name)).unwrap();
        for command in ["run", "run --json", "patch -o /dev/null", "patch --json -o /dev/null"] {
            let (by_name, by_input) = (
                answer(&format!("{command} {name}"), b""),
                answer(&format!("{command} -"), &bytes),
            );
            assert!(!by_name.stdout.is_empty());
            assert_eq!(by_input, by_name, "{command} {name}");
        }
    }
    let words = answer("decode A16F6000 E4428001 00000000", b"");
    assert_eq!(answer("decode A16F6000 -", b"E4428001\n00000000\n"), words);
    assert_eq!(answer("decode --bytes -", b" 00 60 6f a1 018042E4\t 0000\r\n 0000\n"), words);
}

/// A patch goes through pipes unchanged, and what is said of it goes beside them.
#[test]
fn standard_output_is_a_file() {
    let folder = folder("pipes");
    let file = folder.join("whole.patch");
    let told = answer(&format!("patch whole.store -o {}", file.display()), b"");
    let piped = answer("patch whole.store -o -", b"");
    let patch = fs::read(&file).unwrap();
    assert_eq!((status(&piped), &piped.stdout), (0, &patch));
    assert_eq!(piped.stderr, told.stdout);
    assert!(text(&answer("show -", &patch).stdout).starts_with("done (verdict 0)\n  runs 2,"));
    let memory = folder.join("memory");
    fs::write(&memory, [0xEE; 8]).unwrap();
    let after = [0xA1, 0xA3, 0xEE, 0xEE, 0xEE, 0xA4, 0xEE, 0xEE];
    let apply = |patch: &str, memory: &str, input: &[u8]| {
        answer(&format!("apply {patch} --base 0x1000 --memory {memory} -o - --json"), input)
    };
    for applied in [
        apply("-", memory.to_str().unwrap(), &patch),
        apply(file.to_str().unwrap(), "-", &[0xEE; 8]),
    ] {
        assert_eq!((status(&applied), &applied.stdout[..]), (0, &after[..]));
        assert!(text(&applied.stderr).starts_with("{\"version\": 1, \"verdict\": 0,"));
    }
}

/// Standard output stays empty, for the bytes that there aren't.
#[test]
fn a_refusal_beside_standard_output() {
    for arguments in ["patch fault.store -o -", "apply - --base 0 --memory whole.store -o -"] {
        let refused = answer(arguments, b"no patch");
        assert_eq!((status(&refused), &refused.stdout[..]), (1, &b""[..]), "{arguments}");
        assert!(text(&refused.stderr).contains("nothing was written\n"), "{arguments}");
    }
    let both = answer("apply - --base 0 --memory - -o -", b"");
    assert_eq!((status(&both), &both.stdout[..]), (2, &b""[..]));
    let named = folder("minus");
    fs::write(named.join("-"), b"old").unwrap();
    let store = format!("patch {EXAMPLES}/whole.store");
    assert_eq!(redirected(&named, &format!("{store} -o -"), "").stdout.len(), 31);
    assert_eq!(fs::read(named.join("-")).unwrap(), b"old");
    assert_eq!(status(&redirected(&named, &format!("{store} -o ./-"), "")), 0);
    assert_eq!(fs::read(named.join("-")).unwrap().len(), 31);
}

/// Damaged, empty and huge input is an answer or a message.
#[test]
fn bad_input() {
    let huge = vec![b'#'; (16 << 20) + 2];
    for input in [&b""[..], b"\0", b"\xFF\xFE", b"word = 0\0", b"word", &huge] {
        let output = answer("run -", input);
        assert_eq!((status(&output), &output.stdout[..]), (2, &b""[..]));
        assert!(text(&output.stderr).starts_with("starshackle run: standard input:"));
        let expected = if input.len() > 100 { 2 } else { 1 };
        assert_eq!(status(&answer("show -", input)), expected);
        assert_eq!(status(&answer("decode -", input)), 2);
    }
}

/// What would be written to a closed stream is lost: that is an error, and no file is left.
#[test]
fn closed_streams() {
    let folder = folder("closed");
    let store = format!("{EXAMPLES}/whole.store");
    for arguments in [
        format!("patch {store} -o out"),
        format!("patch {store} -o -"),
        format!("run {store}"),
        format!("run {store} {store}"),
        format!("run --html - {store}"),
        format!("run --jsonl {store}"),
        format!("decode --file {store}"),
        "decode A16F6000".to_string(),
        "--help".to_string(),
    ] {
        let output = redirected(&folder, &arguments, ">&-");
        assert_eq!(status(&output), 2, "{arguments}");
        let errors = text(&output.stderr);
        assert!(errors.ends_with("starshackle: standard output: closed\n"), "{errors}");
    }
    let output = redirected(&folder, &format!("patch {store} -o -"), "2>&-");
    assert_eq!((status(&output), &output.stdout[..]), (2, &b""[..]));
    for arguments in ["show -", "run -", "run --jsonl", "decode -", "decode --file -"] {
        let output = redirected(&folder, arguments, "<&-");
        assert_eq!((status(&output), &output.stdout[..]), (2, &b""[..]), "{arguments}");
        assert!(text(&output.stderr).contains(": standard input: closed"), "{arguments}");
    }
    assert_eq!(fs::read_dir(&folder).unwrap().count(), 0);
}

/// `/dev/null` is open, however it was opened: also as Rust opens it in place of a closed stream.
#[test]
fn a_device_that_takes_all() {
    for reads in [false, true] {
        let null = File::options().read(reads).write(true).open("/dev/null").unwrap();
        let mut command = Command::new(PROGRAM);
        let output = command.args(["decode", "A16F6000"]).stdout(null).output().unwrap();
        assert_eq!((status(&output), &output.stderr[..]), (0, &b""[..]));
    }
}

#[test]
fn a_full_disk_behind_standard_output() {
    let folder = folder("full");
    let store = format!("{EXAMPLES}/whole.store");
    for arguments in [format!("patch {store} -o -"), format!("patch {store} -o out")] {
        let output = redirected(&folder, &arguments, ">/dev/full");
        assert_eq!(status(&output), 2, "{arguments}");
        assert!(text(&output.stderr).contains("starshackle: standard output: "), "{arguments}");
    }
    // The answer can't be told, so that the bytes aren't written either.
    let output = redirected(&folder, &format!("patch {store} -o -"), "2>/dev/full");
    assert_eq!((status(&output), &output.stdout[..]), (2, &b""[..]));
    assert_eq!(fs::read_dir(&folder).unwrap().count(), 0);
}
