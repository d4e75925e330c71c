//! Runs the command lines in `tests/golden/` and compares their answers with those stored there.
//!
//! A file is a row of blocks: a line `$ starshackle ARGUMENTS` (parted by spaces, no quotes), with
//! `< FILE` behind them if standard input isn't empty, then standard output; standard error, if any,
//! behind a line `[standard error]`; and a line `[status N]`. Files are named from the repository's
//! root; TMP is a folder with the files that [`made_files`] makes. To store the answers of today, run
//!
//!     STARSHACKLE_GOLDEN=rewrite cargo test --release --locked
//!
//! and read the difference. A new block needs only its first line before that.

use std::path::{Path, PathBuf};
use std::process::Command;
use std::{env, fs};

const PROMPT: &str = "$ starshackle";
const ROOT: &str = concat!(env!("CARGO_MANIFEST_DIR"), "/../..");

/// Document 01's patch: A1 A3 at 1000h, A4 at 1005h.
const PATCH: &[u8; 31] =
    b"PR\x00\x10\0\0\0\0\0\0\x02\0\xA1\xA3PR\x05\x10\0\0\0\0\0\0\x01\0\xA4PE\x02\0";

/// Files with words.
const WORDS: &[(&str, &[u8])] = &[
    ("bytes", b"00 60 6f a1\n01 a0 a2 e5\n"),
    ("words", b"# three words\r\nA16F6000 E4428001\n\n  0xe4208000 # none\nA16F6000h"),
    ("wrong-words", b"A16F6000\nE4428001 A16F600\nA16F6000\n"),
    ("broken-bytes", b"00 60 6f\na1 01a0a2\n"),
];

/// Stores as lines of JSON, those from the fourth on none.
const LINES: &[&str] = &[
    concat!(
        r#"{"word": "E4428001", "vb": 16, "flags": ["sve"], "x0": "0x1000", "z1.s": [161, 162, "0xA3", 164],"#,
        r#" "z2.s": "0 1 1 5", "p0.s": [1, "..."], "window": 4096, "length": 8}"#
    ),
    concat!(
        r#"{"class":4,"zm":2,"pg":0,"rn":0,"zt":1,"vb":16,"flags":"sve","x0":4096,"z1":"0x11","#,
        r#""z2.d":[0,"-1"],"p0.d":"0 0","memory":"EEEE"}"#
    ),
    r#"{"word": "E582A001", "vb": 16, "flags": ["sve"], "p0": "FF ...", "z2.d": [8, 9], "z1": "11 ..."}"#,
    r#"{"word": "E4428001", "vb": 16"#,
    r#"{"word": "E4428001", "word": "E4428001"}"#,
    "",
    "[1]",
    r#"{"vb": 16}"#,
    r#"{"word": "E4428001", "vb": null}"#,
    r#"{"word": "E4428001", "x0": {"a": 1}}"#,
    r#"{"word": "E4428001", "x0": 18446744073709551616}"#,
    r#"{"word": "E4428001", "x0": "1 # one"}"#,
    r#"{"word": "E4428001", "x0 = 1\nx1": 1}"#,
    r#"{"word": "E4428001", "x31": 1}"#,
    r#"{"word": "E4428001", "vb": 16, "z1": "00 ...", "z1.d": [1, 2]}"#,
    r#"{"word": "E4428001", "vb": 16, "p0.s": [1, 0, 2, 1]}"#,
];

#[test]
fn answers_are_as_stored() {
    let rewrite = env::var_os("STARSHACKLE_GOLDEN").map_or(false, |value| value == "rewrite");
    let files = files("rust/cli/tests/golden");
    assert!(!files.is_empty(), "no golden files");
    let folder = made_files();
    for file in files {
        let stored = fs::read_to_string(&file).unwrap();
        let block = |arguments| block(arguments, &folder);
        let answered: String = stored.lines().filter_map(command).map(block).collect();
        if rewrite {
            fs::write(&file, answered).unwrap();
        } else {
            assert_same(&file, &answered, &stored);
        }
    }
}

#[test]
fn every_store_is_run() {
    let golden: String = files("rust/cli/tests/golden")
        .into_iter()
        .map(|file| fs::read_to_string(file).unwrap())
        .collect();
    for folder in ["examples", "rust/cli/tests/stores"] {
        let is_store = |file: &PathBuf| file.extension().map_or(false, |end| end == "store");
        for file in files(folder).into_iter().filter(is_store) {
            let name = format!("{folder}/{}", file.file_name().unwrap().to_str().unwrap());
            let answered = |line: String| golden.contains(&format!("{PROMPT} {line}\n"));
            assert!(answered(format!("run {name}")), "{name}");
            assert!(answered(format!("run --json {name}")), "{name}");
        }
    }
}

fn files(folder: &str) -> Vec<PathBuf> {
    let entries = fs::read_dir(Path::new(ROOT).join(folder)).unwrap();
    let mut files: Vec<PathBuf> = entries.map(|entry| entry.unwrap().path()).collect();
    files.sort();
    files
}

/// A folder with memory and damaged patches.
fn made_files() -> PathBuf {
    let folder = Path::new(env!("CARGO_TARGET_TMPDIR")).join("golden");
    let _ = fs::remove_dir_all(&folder);
    fs::create_dir_all(&folder).unwrap();
    let changed = |index: usize, byte: u8| {
        let mut patch = *PATCH;
        patch[index] = byte;
        patch
    };
    let touching = changed(16, 0x02);
    let files: &[(&str, &[u8])] = &[
        ("empty", &[]),
        ("memory-8", &[0xEE; 8]),
        ("memory-65537", &[0; 65_537]),
        ("no-run.patch", b"PE\0\0"),
        ("cut-in-a-run.patch", &PATCH[..26]),
        ("cut-at-the-end.patch", &PATCH[..29]),
        ("one-byte-more.patch", &[&PATCH[..], &[0]].concat()),
        ("other-mark.patch", &changed(14, b'Q')),
        ("touching.patch", &touching),
        ("descending.patch", &changed(17, 0x0F)),
        ("no-byte.patch", &changed(10, 0)),
        ("three-runs.patch", &changed(29, 3)),
        ("random.patch", &[0x9C; 100]),
        ("zeros", &[0; 100]),
    ];
    for (name, bytes) in files.iter().chain(WORDS) {
        fs::write(folder.join(name), bytes).unwrap();
    }
    for (name, lines) in [("stores.jsonl", LINES), ("done.jsonl", &LINES[..2])] {
        fs::write(folder.join(name), lines.join("\n") + "\n").unwrap();
    }
    for (name, bytes) in stores() {
        fs::write(folder.join(name), bytes).unwrap();
    }
    fs::create_dir(folder.join("patches")).unwrap();
    folder
}

/// One store in files as other systems and other hands write them.
fn stores() -> [(&'static str, Vec<u8>); 8] {
    let file = Path::new(ROOT).join("examples/whole.store");
    let text = fs::read_to_string(file).unwrap().replace("\r\n", "\n");
    let word = |word| text.replace("0xE4428001", word).into_bytes();
    [
        ("crlf.store", text.replace('\n', "\r\n").into_bytes()),
        ("mark.store", format!("\u{FEFF}{text}").into_bytes()),
        ("no-newline.store", text.trim_end().as_bytes().to_vec()),
        ("capitals.store", text.to_uppercase().into_bytes()),
        ("tabs.store", text.replace(' ', "\t").into_bytes()),
        ("utf-16.store", text.encode_utf16().flat_map(u16::to_le_bytes).collect()),
        ("decimal.store", word("3829563393")),
        ("eight-digits.store", word("12345678")),
    ]
}

/// The arguments in a line that starts a block.
fn command(line: &str) -> Option<&str> {
    line.strip_prefix(PROMPT)
}

fn block(arguments: &str, folder: &Path) -> String {
    let folder = folder.to_str().unwrap();
    let (words, input) = arguments.split_once(" < ").unwrap_or((arguments, "/dev/null"));
    let input = Path::new(ROOT).join(input.replace("TMP", folder));
    let output = Command::new(env!("CARGO_BIN_EXE_starshackle"))
        .args(words.split_whitespace().map(|word| word.replace("TMP", folder)))
        .stdin(fs::File::open(input).unwrap())
        .current_dir(ROOT)
        .output()
        .unwrap();
    let text = |bytes| String::from_utf8(bytes).unwrap().replace(folder, "TMP");
    let mut block = format!("{PROMPT}{arguments}\n{}", text(output.stdout));
    if !output.stderr.is_empty() {
        block += &format!("[standard error]\n{}", text(output.stderr));
    }
    block + &format!("[status {}]\n", output.status.code().unwrap())
}

fn assert_same(file: &Path, answered: &str, stored: &str) {
    for (number, (answer, line)) in answered.lines().zip(stored.lines()).enumerate() {
        assert_eq!(answer, line, "{}:{}: answered left, stored right", file.display(), number + 1);
    }
    assert_eq!(answered.len(), stored.len(), "{}: the lengths differ", file.display());
}
