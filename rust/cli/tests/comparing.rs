//! `compare`: the README's example, and the exit status, which is that of `cmp` and `diff`.

use std::fs;
use std::path::{Path, PathBuf};
use std::process::{Command, Output};

const ROOT: &str = concat!(env!("CARGO_MANIFEST_DIR"), "/../..");

/// A new folder with the patches of the README's two stores.
fn folder(name: &str) -> PathBuf {
    let folder = Path::new(env!("CARGO_TARGET_TMPDIR")).join(name);
    let _ = fs::remove_dir_all(&folder);
    fs::create_dir_all(&folder).unwrap();
    for (store, out) in [("whole", "a.patch"), ("next-build", "b.patch")] {
        let store = Path::new(ROOT).join("examples").join(store).with_extension("store");
        let output = starshackle(&folder, &["patch", store.to_str().unwrap(), "-o", out]);
        assert_eq!(output.status.code(), Some(0));
    }
    folder
}

fn starshackle(folder: &Path, arguments: &[&str]) -> Output {
    let mut command = Command::new(env!("CARGO_BIN_EXE_starshackle"));
    command.current_dir(folder).args(arguments).output().unwrap()
}

/// The status and standard output; there are no messages.
fn compared(folder: &Path, arguments: &[&str]) -> (i32, String) {
    let output = starshackle(folder, &[&["compare"], arguments].concat());
    assert!(output.stderr.is_empty());
    (output.status.code().unwrap(), String::from_utf8(output.stdout).unwrap())
}

#[test]
fn the_readme_shows_the_answer() {
    let (status, answer) = compared(&folder("readme"), &["a.patch", "b.patch"]);
    assert_eq!(status, 1);
    let answer = format!("./starshackle compare a.patch b.patch\n\n{answer}");
    let line = |line: &str| format!("    {line}").trim_end().to_string() + "\n";
    let block: String = answer.lines().map(line).collect();
    let readme = fs::read_to_string(Path::new(ROOT).join("README.md")).unwrap();
    assert!(readme.contains(&block), "{block}");
}

#[test]
fn statuses() {
    let folder = folder("statuses");
    fs::write(folder.join("copy.patch"), fs::read(folder.join("a.patch")).unwrap()).unwrap();
    fs::write(folder.join("none"), b"").unwrap();
    for (first, second, status) in [
        ("a.patch", "a.patch", 0),
        ("a.patch", "copy.patch", 0),
        ("a.patch", "b.patch", 1),
        ("b.patch", "a.patch", 1),
        ("a.patch", "none", 2),
        ("none", "a.patch", 2),
        ("none", "none", 2),
    ] {
        for json in [&[][..], &["--json"]] {
            let arguments = [json, &[first, second]].concat();
            assert_eq!(compared(&folder, &arguments).0, status, "{first} {second}");
        }
    }
}

/// A cut file is no patch, wherever the cut is; the first is named when both are cut.
#[test]
fn cut_patches() {
    let folder = folder("cut-patches");
    let patch = fs::read(folder.join("a.patch")).unwrap();
    for length in 0..patch.len() {
        fs::write(folder.join("cut"), &patch[..length]).unwrap();
        for (first, second, named) in
            [("cut", "b.patch", "first"), ("b.patch", "cut", "second"), ("cut", "cut", "first")]
        {
            let (status, text) = compared(&folder, &[first, second]);
            let start = "bad patch (verdict 9): the bytes are not a patch";
            assert_eq!(status, 2);
            assert!(text.starts_with(&format!("{start}: the {named} file, cut\n")), "{text}");
            let shown = starshackle(&folder, &["show", "cut"]);
            let shown = String::from_utf8(shown.stdout).unwrap();
            let (shown, said) = (shown.lines().skip(1).take(3), text.lines().skip(1));
            assert!(said.eq(shown), "{text}");
        }
    }
}

/// What is shown is what the two leave in one window.
#[test]
fn every_address_is_shown() {
    let folder = folder("shown");
    let (_, text) = compared(&folder, &["--json", "a.patch", "b.patch"]);
    let applied = |patch: &str| {
        fs::write(folder.join("memory"), [0x77; 8]).unwrap();
        let window = ["--base", "0x1000", "--memory", "memory", "-o", "out"];
        let output = starshackle(&folder, &[&["apply", patch], &window[..]].concat());
        assert_eq!(output.status.code(), Some(0));
        fs::read(folder.join("out")).unwrap()
    };
    let (one, two) = (applied("a.patch"), applied("b.patch"));
    for (index, (one, two)) in one.iter().zip(&two).enumerate() {
        let shown = text.contains(&format!("\"address\": \"0x{:016X}\"", 0x1000 + index));
        assert_eq!(shown, one != two, "{index}");
    }
}
