//! `run` lends the model a scratch buffer for the patch, `patch` a scratch window. Neither is seen.

use std::fs;
use std::path::{Path, PathBuf};
use std::process::Command;

/// Four registers of 256 bytes, every second byte active: the largest patch of a store.
const LARGEST: &str = "\
word = 0xA1208000
vb = 256
flags = sme2 streaming
pn8 = 0x8002
length = 1024
";

/// Writes a store to a file.
fn file(name: &str, store: &str) -> PathBuf {
    let file = Path::new(env!("CARGO_TARGET_TMPDIR")).join(name).with_extension("store");
    fs::write(&file, store).unwrap();
    file
}

/// The patch of a store in a file.
fn patch(store: &Path) -> Vec<u8> {
    let out = store.with_extension("patch");
    let mut command = Command::new(env!("CARGO_BIN_EXE_starshackle"));
    let output = command.arg("patch").arg(store).arg("-o").arg(&out).output().unwrap();
    assert_eq!(output.status.code(), Some(0));
    fs::read(out).unwrap()
}

#[test]
fn a_patch_is_the_same_whatever_memory_is() {
    let whole = concat!(env!("CARGO_MANIFEST_DIR"), "/../../examples/whole.store");
    let text = fs::read_to_string(whole).unwrap();
    let bytes_give_length = text.replace("length = 8", "memory = 77 00 01 02 03 04 05 06");
    assert_ne!(bytes_give_length, text);
    let expected = patch(&file("zeros", &text));
    assert_eq!(expected.len(), 31);
    for store in [format!("{text}\nmemory = FF ...\n"), bytes_give_length] {
        assert_eq!(patch(&file("filled", &store)), expected);
    }
}

#[test]
fn there_is_room_for_the_largest_patch() {
    let store = file("largest", LARGEST);
    assert_eq!(patch(&store).len(), 6_660);
    let mut command = Command::new(env!("CARGO_BIN_EXE_starshackle"));
    let output = command.arg("run").arg(&store).output().unwrap();
    let text = String::from_utf8(output.stdout).unwrap();
    assert!(
        text.starts_with("done (verdict 0)\n  active elements 512, bytes moved 512, steps 512\n"),
        "{text}"
    );
}
