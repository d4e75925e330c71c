//! Damaged input files, and output files that are whole or absent.

use std::fs::{self, File};
use std::path::{Path, PathBuf};
use std::process::{Command, Output};

const EXAMPLES: &str = concat!(env!("CARGO_MANIFEST_DIR"), "/../../examples");

/// A new folder for a test's files.
fn folder(name: &str) -> PathBuf {
    let folder = Path::new(env!("CARGO_TARGET_TMPDIR")).join(name);
    let _ = fs::remove_dir_all(&folder);
    fs::create_dir_all(&folder).unwrap();
    folder
}

fn example(name: &str) -> PathBuf {
    Path::new(EXAMPLES).join(name).with_extension("store")
}

/// The command line in a folder.
fn command(folder: &Path, arguments: &str) -> Command {
    let mut command = Command::new(env!("CARGO_BIN_EXE_starshackle"));
    command.current_dir(folder).args(arguments.split_whitespace());
    command
}

fn status(output: &Output) -> i32 {
    output.status.code().expect("no signal ends it")
}

/// Runs a file with these bytes: an answer, or a message that names the file.
fn answers(folder: &Path, command_line: &str, bytes: &[u8]) -> i32 {
    fs::write(folder.join("input"), bytes).unwrap();
    let output = command(folder, command_line).output().unwrap();
    let errors = String::from_utf8(output.stderr.clone()).unwrap();
    match status(&output) {
        0 | 1 => assert!(!output.stdout.is_empty() && errors.is_empty(), "{errors}"),
        2 => assert!(output.stdout.is_empty() && errors.contains(": input:"), "{errors}"),
        other => panic!("status {other}: {errors}"),
    }
    status(&output)
}

/// Numbers that look random, the same each time.
struct Random(u64);

impl Random {
    fn below(&mut self, bound: usize) -> usize {
        self.0 = self.0.wrapping_mul(6_364_136_223_846_793_005).wrapping_add(1);
        (self.0 >> 33) as usize % bound
    }
}

#[test]
fn stores_that_are_cut() {
    let folder = folder("cut");
    for name in ["whole", "extension", "st1q", "assembly", "floats", "gdb"] {
        let text = fs::read(example(name)).unwrap();
        for length in (0..text.len()).step_by(5) {
            answers(&folder, "run input", &text[..length]);
        }
    }
    assert_eq!(answers(&folder, "run input", b""), 2);
    assert_eq!(answers(&folder, "patch input -o out", b"word"), 2);
}

#[test]
fn stores_that_are_changed() {
    let (folder, mut random) = (folder("changed"), Random(1));
    let letters = b"\0\n\r #=.-+0x9AFzp[]{},<>\xC3\xFF";
    for name in ["whole", "masked-lane", "strided", "top", "assembly", "floats", "gdb"] {
        let text = fs::read(example(name)).unwrap();
        for _ in 0..100 {
            let mut text = text.clone();
            for _ in 0..1 + random.below(4) {
                let index = random.below(text.len());
                text[index] = letters[random.below(letters.len())];
            }
            answers(&folder, "run --json input", &text);
        }
    }
}

#[test]
fn random_bytes() {
    let (folder, mut random) = (folder("random"), Random(2));
    for length in 1..100 {
        let bytes: Vec<u8> = (0..length).map(|_| 1 + random.below(255) as u8).collect();
        assert_eq!(answers(&folder, "run input", &bytes), 2);
        assert_eq!(answers(&folder, "show input", &bytes), 1);
    }
}

#[test]
fn huge_numbers() {
    let folder = folder("huge");
    let good = "word = 0xE4428001\nvb = 256\nflags = sve\n";
    let digits = "9".repeat(100_000);
    for name in ["x0", "sp", "window", "length"] {
        for number in [&digits, "18446744073709551616", "0x10000000000000000"] {
            let text = format!("{good}{name} = {number}\n");
            assert_eq!(answers(&folder, "run input", text.as_bytes()), 2, "{name}");
        }
        let text = format!("{good}{name} = 0xFFFFFFFFFFFFFFFF\n");
        assert_ne!(answers(&folder, "run input", text.as_bytes()), 2, "{name}");
    }
    for text in [
        format!("word = {digits}"),
        format!("vb = {digits}\nword = 0"),
        format!("word = st1d {{ z{digits}.d }}, p0"),
        format!("word = st1d {}", "{ ".repeat(100_000)),
        format!("word = 0\nvb = 16\nz0 = {}", "{d = ".repeat(100_000)),
        format!("word = 0\nvb = 16\nz0 = {}{}", "{d = ".repeat(1000), "}".repeat(1000)),
        format!("word = 0\nvb = 16\nz0 = {{0 <repeats {digits} times>}}"),
        format!(
            "word = 0\nvb = 16\nz0 = {{{}}}",
            "0 <repeats 9999999999999999999 times>,".repeat(1000)
        ),
    ] {
        assert_eq!(answers(&folder, "run input", text.as_bytes()), 2);
    }
    for line in [
        format!("z0 = 0x{digits}"),
        format!("p0 = {digits}"),
        format!("memory = {digits}0"),
        format!("z0.h = {digits}.5 ..."),
        format!("z0.s = 1e{digits} ..."),
        format!("z0.d = {digits}e9 ..."),
    ] {
        assert_eq!(answers(&folder, "run input", format!("{good}{line}").as_bytes()), 2);
    }
    for number in [format!("0.{digits}"), format!("{digits}e-100000"), format!("1e-{digits}")] {
        for width in ["h", "s", "d"] {
            let text = format!("{good}z0.{width} = {number} ...");
            assert_ne!(answers(&folder, "run input", text.as_bytes()), 2, "{width}");
        }
    }
    assert_eq!(answers(&folder, "run input", &vec![b'#'; (16 << 20) + 1]), 2);
}

#[test]
fn patches_that_are_cut_or_changed() {
    let folder = folder("patches");
    let store = example("whole");
    let made = command(&folder, "patch -o whole").arg(store).output().unwrap();
    assert_eq!(status(&made), 0);
    let patch = fs::read(folder.join("whole")).unwrap();
    fs::write(folder.join("memory"), [0; 8]).unwrap();
    let apply = "apply input --base 0x1000 --memory memory -o out";
    for length in 0..patch.len() {
        assert_eq!(answers(&folder, "show input", &patch[..length]), 1);
        assert_eq!(answers(&folder, apply, &patch[..length]), 1);
        let mut changed = patch.clone();
        changed[length] ^= 0x80;
        let is_patch = answers(&folder, "show --json input", &changed) == 0;
        let done = answers(&folder, apply, &changed) == 0;
        assert!(is_patch || !done);
        assert_eq!(fs::remove_file(folder.join("out")).is_ok(), done);
    }
    assert_eq!(answers(&folder, apply, &patch), 0);
    assert_eq!(fs::read(folder.join("out")).unwrap(), [0xA1, 0xA3, 0, 0, 0, 0xA4, 0, 0]);
}

/// What is in a folder.
fn names(folder: &Path) -> Vec<String> {
    let name = |entry: std::io::Result<fs::DirEntry>| entry.unwrap().file_name().into_string();
    let mut names: Vec<String> =
        fs::read_dir(folder).unwrap().map(|entry| name(entry).unwrap()).collect();
    names.sort();
    names
}

#[test]
fn an_output_replaces_the_old_file() {
    let folder = folder("replaced");
    fs::write(folder.join("out"), vec![0x77; 100]).unwrap();
    for (name, expected) in [("fault", 1), ("whole", 0), ("stack", 1)] {
        let output = command(&folder, "patch -o out").arg(example(name)).output().unwrap();
        assert_eq!(status(&output), expected);
        let length = if name == "fault" { 100 } else { 31 };
        assert_eq!(fs::read(folder.join("out")).unwrap().len(), length);
    }
    assert_eq!(names(&folder), ["out"]);
    let mut apply = command(&folder, "apply out --base 0x1000 --memory memory -o memory");
    fs::write(folder.join("memory"), [0; 8]).unwrap();
    assert_eq!(status(&apply.output().unwrap()), 0);
    assert_eq!(fs::read(folder.join("memory")).unwrap(), [0xA1, 0xA3, 0, 0, 0, 0xA4, 0, 0]);
    assert_eq!(names(&folder), ["memory", "out"]);
}

#[test]
fn no_output_without_a_register_that_is_required() {
    let folder = folder("required");
    fs::write(folder.join("out"), b"old").unwrap();
    for out in ["out", "new"] {
        let mut patch = command(&folder, "patch --require-registers -o");
        let output = patch.arg(out).arg(example("forgotten-register")).output().unwrap();
        assert_eq!(status(&output), 2, "{out}");
        assert!(output.stdout.is_empty(), "{out}");
    }
    assert_eq!(fs::read(folder.join("out")).unwrap(), b"old");
    assert_eq!(names(&folder), ["out"]);
}

#[test]
fn no_output_in_a_folder_that_is_missing() {
    let folder = folder("missing");
    for out in ["none/out", "none/", ".", ".."] {
        let mut patch = command(&folder, "patch -o");
        let output = patch.arg(out).arg(example("whole")).output().unwrap();
        assert_eq!(status(&output), 2, "{out}");
        assert!(output.stdout.is_empty(), "{out}");
    }
    assert!(names(&folder).is_empty());
}

#[cfg(unix)]
#[test]
fn a_link_stays_a_link() {
    let folder = folder("link");
    fs::write(folder.join("file"), b"old").unwrap();
    std::os::unix::fs::symlink("file", folder.join("link")).unwrap();
    let output = command(&folder, "patch -o link").arg(example("whole")).output().unwrap();
    assert_eq!(status(&output), 0);
    assert!(fs::symlink_metadata(folder.join("link")).unwrap().file_type().is_symlink());
    assert_eq!(fs::read(folder.join("file")).unwrap().len(), 31);
    assert_eq!(names(&folder), ["file", "link"]);
    fs::remove_dir_all(&folder).unwrap(); // `rt ci` takes no links below the repository
}

/// A limit on the sizes of files refuses bytes as a full disk does.
#[cfg(target_os = "linux")]
#[test]
fn a_full_disk_leaves_no_file() {
    let folder = folder("full");
    let program = env!("CARGO_BIN_EXE_starshackle");
    let script = "trap '' XFSZ; ulimit -f 0; exec \"$0\" patch \"$1\" -o out";
    let limited = || {
        let mut shell = Command::new("sh");
        shell.current_dir(&folder).args(["-c", script, program]).arg(example("whole"));
        shell.output().unwrap()
    };
    let output = limited();
    assert_eq!(status(&output), 2);
    assert!(output.stdout.is_empty());
    assert!(String::from_utf8(output.stderr).unwrap().contains(" out: "));
    assert!(names(&folder).is_empty());
    fs::write(folder.join("out"), b"old").unwrap();
    assert_eq!(status(&limited()), 2);
    assert_eq!(fs::read(folder.join("out")).unwrap(), b"old");
    assert_eq!(names(&folder), ["out"]);
}

/// A call that can't say what it did has failed too.
#[cfg(target_os = "linux")]
#[test]
fn standard_output_that_is_full_leaves_no_file() {
    let folder = folder("silent");
    let full = File::options().write(true).open("/dev/full").unwrap();
    let mut patch = command(&folder, "patch -o out");
    let output = patch.arg(example("whole")).stdout(full).output().unwrap();
    assert_eq!(status(&output), 2);
    assert!(names(&folder).is_empty());
}

#[cfg(target_os = "linux")]
#[test]
fn a_device_stays_a_device() {
    for (device, expected) in [("/dev/null", 0), ("/dev/full", 2)] {
        let mut patch = command(Path::new(EXAMPLES), "patch whole.store -o");
        assert_eq!(status(&patch.arg(device).output().unwrap()), expected);
        assert!(!fs::metadata(device).unwrap().is_file());
    }
}
