//! Names of files: any bytes, shown escaped, and links.

use std::ffi::OsStr;
use std::fs;
use std::os::unix::ffi::OsStrExt;
use std::os::unix::fs::symlink;
use std::path::{Path, PathBuf};
use std::process::{Command, Output};

const WHOLE: &str = concat!(env!("CARGO_MANIFEST_DIR"), "/../../examples/whole.store");

/// Names with what a terminal obeys, with what is no text, and long ones.
const NAMES: &[(&[u8], &str)] = &[
    (b"a b", "a b"),
    (b"\x1B[31mred", r"\u{1b}[31mred"),
    (b"two\nlines", r"two\nlines"),
    (b"\xFF\xFE", r"\xFF\xFE"),
    (b"\xC3\xA9 \xC3", "é \\xC3"),
    ("\u{202E}erots".as_bytes(), r"\u{202e}erots"),
    (&[b'x'; 200], ""),
];

fn folder(name: &str) -> PathBuf {
    let folder = Path::new(env!("CARGO_TARGET_TMPDIR")).join("names").join(name);
    let _ = fs::remove_dir_all(&folder);
    fs::create_dir_all(&folder).unwrap();
    folder
}

fn answer(folder: &Path, arguments: &[&OsStr]) -> Output {
    let mut command = Command::new(env!("CARGO_BIN_EXE_starshackle"));
    command.current_dir(folder).args(arguments).output().unwrap()
}

fn status(output: &Output) -> i32 {
    output.status.code().expect("no signal ends it")
}

fn words<'a>(words: &[&'a str]) -> Vec<&'a OsStr> {
    words.iter().map(|word| OsStr::new(*word)).collect()
}

#[test]
fn files_of_any_name() {
    let folder = folder("any");
    for (bytes, _) in NAMES {
        let name = OsStr::from_bytes(bytes);
        fs::copy(WHOLE, folder.join(name)).unwrap();
        let expected = answer(&folder, &words(&["run", WHOLE]));
        let run = answer(&folder, &[OsStr::new("run"), name]);
        assert_eq!(run.stdout, expected.stdout);
        let patch = [&words(&["patch", WHOLE, "-o"])[..], &[name]].concat();
        assert_eq!(status(&answer(&folder, &patch)), 0);
        assert_eq!(fs::read(folder.join(name)).unwrap().len(), 31);
        assert_eq!(status(&answer(&folder, &[OsStr::new("show"), name])), 0);
        let memory = OsStr::from_bytes(b"m\xFF");
        fs::write(folder.join(memory), [0; 8]).unwrap();
        let joined = [b"--memory=", memory.as_bytes()].concat();
        let apply = [&words(&["apply", "--base=0x1000"])[..], &[OsStr::from_bytes(&joined), name]];
        let apply = [&apply.concat()[..], &words(&["-o", "after"])].concat();
        assert_eq!(status(&answer(&folder, &apply)), 0);
    }
}

/// No letter that a terminal obeys gets out of a message, and each message has one line, or two with
/// the usage.
#[test]
fn names_are_shown_escaped() {
    let folder = folder("escaped");
    for (bytes, shown) in NAMES {
        let name = OsStr::from_bytes(bytes);
        let missing = OsStr::new("patch");
        for arguments in [
            vec![OsStr::new("run"), name],
            vec![OsStr::new("show"), name],
            vec![missing, OsStr::new(WHOLE), OsStr::new("-o"), name, name],
            vec![OsStr::new("run"), OsStr::new("a"), name],
            vec![OsStr::new("decode"), name],
            vec![name],
        ] {
            let output = answer(&folder, &arguments);
            assert_eq!(status(&output), 2);
            let errors = String::from_utf8(output.stderr).unwrap();
            assert!(errors.contains(shown), "{errors:?}");
            assert!(errors.lines().count() <= 2, "{errors:?}");
            let obeyed = |letter: char| letter != '\n' && letter.is_control();
            assert!(!errors.contains(obeyed) && !errors.contains('\u{202E}'), "{errors:?}");
        }
        fs::write(folder.join(name), b"word = \n").unwrap();
        let output = answer(&folder, &[OsStr::new("run"), name]);
        let errors = String::from_utf8(output.stderr).unwrap();
        assert!(errors.starts_with("starshackle run: ") && errors.contains(":1: "), "{errors:?}");
        assert!(errors.contains(shown) && errors.lines().count() == 1, "{errors:?}");
    }
}

/// A link stays a link, and its target is made where there is none.
#[test]
fn links_to_nothing() {
    let folder = folder("links");
    fs::create_dir(folder.join("inner")).unwrap();
    symlink("inner/second", folder.join("first")).unwrap();
    symlink("target", folder.join("inner/second")).unwrap();
    symlink("none/target", folder.join("lost")).unwrap();
    symlink("round", folder.join("round")).unwrap();
    symlink("none/", folder.join("slash")).unwrap();
    let patch = |out: &str| answer(&folder, &words(&["patch", WHOLE, "-o", out]));
    assert_eq!(status(&patch("first")), 0);
    assert_eq!(fs::read(folder.join("inner/target")).unwrap().len(), 31);
    for out in ["lost", "round", "slash"] {
        let output = patch(out);
        assert_eq!((status(&output), &output.stdout[..]), (2, &b""[..]), "{out}");
    }
    for link in ["first", "inner/second", "lost", "round", "slash"] {
        let metadata = fs::symlink_metadata(folder.join(link)).unwrap();
        assert!(metadata.file_type().is_symlink(), "{link}");
    }
    assert_eq!(fs::read_dir(&folder).unwrap().count(), 5);
    assert_eq!(fs::read_dir(folder.join("inner")).unwrap().count(), 2);
    fs::remove_dir_all(&folder).unwrap(); // `rt ci` takes no links below the repository
}
