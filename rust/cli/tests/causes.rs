//! What is said of a refusal's case agrees with the verdict, for all flags.

use std::fs;
use std::path::Path;
use std::process::Command;

const FLAGS: [&str; 7] =
    ["sve", "sme2", "sve2p1", "streaming", "fa64", "sp-check", "sp-check-none-active"];

/// The answer to a file, which has a name of its own in each test.
fn answer(name: &str, options: &[&str], text: &str) -> String {
    let file = Path::new(env!("CARGO_TARGET_TMPDIR")).join(name).with_extension("store");
    fs::write(&file, text).unwrap();
    let mut command = Command::new(env!("CARGO_BIN_EXE_starshackle"));
    let output = command.arg("run").args(options).arg(file).output().unwrap();
    assert!(output.stderr.is_empty(), "{text}");
    String::from_utf8(output.stdout).unwrap()
}

/// A word: its class, the flag that it needs, whether its base is SP.
type Word = (&'static str, u64, &'static str, bool);

const WORDS: [Word; 5] = [
    ("0xE5A2A001", 3, "sve", false),
    ("0xE4428BE1", 6, "sve", true),
    ("0xA1606000", 10, "sme2", false),
    ("0xA13F9FF3", 26, "sme2", true),
    ("0xE4212BE1", 12, "sve2p1", false),
];

/// The refusal by document 01's table, and the note about its case.
fn due(word: Word, flags: &[&str], sp: u64, active: bool) -> Option<(&'static str, String)> {
    let (_, class, needed, base_is_sp) = word;
    let on = |flag: &str| flags.contains(&flag);
    if !on(needed) {
        let note = format!("class {class} needs the flag {needed}, which is off");
        return Some(("undefined (verdict 4)", note));
    }
    let illegal = "illegal (verdict 5)";
    if needed == "sme2" && !on("streaming") {
        return Some((illegal, format!("class {class} needs the flag streaming, which is off")));
    }
    if needed != "sme2" && on("streaming") && !on("fa64") {
        let state = "streaming is on and fa64 is off";
        return Some((illegal, format!("class {class} needs streaming off or fa64 on; {state}")));
    }
    let none_active = on("sp-check-none-active");
    if base_is_sp && on("sp-check") && sp % 16 > 0 && (active || none_active) {
        let also = if active { "an element is active" } else { "so is sp-check-none-active" };
        let base = format!("the base is SP, 0x{sp:016X}, which is no multiple of 16");
        return Some(("stack (verdict 6)", format!("{base}; sp-check is on, and {also}")));
    }
    None
}

#[test]
fn notes_agree_with_the_verdicts() {
    let mut refused = [0; 3];
    for word in WORDS {
        for bits in 0..128 {
            let flags: Vec<&str> =
                (0..7).filter(|bit| bits >> bit & 1 == 1).map(|bit| FLAGS[bit]).collect();
            let (sp, active) = ([0x1000, 0x1008, 0x1001][bits % 3], bits % 2 == 0);
            let all = if active { "FF ..." } else { "00 ..." };
            let registers = format!("sp = {sp}\np2 = {all}\np0 = {all}\np15 = {all}\npn8 = {all}");
            let file =
                format!("word = {}\nvb = 16\nflags = {}\n{registers}\n", word.0, flags.join(" "));
            let text = answer("causes-text", &[], &file);
            let mut lines = text.lines();
            let first = lines.next().unwrap();
            let notes = lines.find(|line| line.starts_with("  note (not proved): "));
            match due(word, &flags, sp, active) {
                Some((verdict, note)) => {
                    assert_eq!(first, verdict, "{file}");
                    assert_eq!(notes, Some(&*format!("  note (not proved): {note}")), "{file}");
                    refused[verdict.len() % 3] += 1;
                }
                None => {
                    let is_late = first.starts_with("done") || first.starts_with("fault");
                    assert!(is_late, "{file}{text}");
                }
            }
        }
    }
    assert!(refused.iter().all(|count| *count > 10), "{refused:?}");
}

/// The notes in JSON are those in the text, which there are only where the store is refused.
#[test]
fn json_has_the_notes() {
    let file = "word = 0xE5A2A001\nvb = 16\nz2.d = 0 0\nz1.d = 0 0\np0.d = 0 0\nx0 = 0\n";
    let note = "\"notes\": [\"class 3 needs the flag sve, which is off\"], \"proved\": false";
    assert!(answer("causes-json", &["--json"], file).contains(&format!("\"cause\": {{{note}}}")));
    let done = format!("{file}flags = sve\n");
    assert!(answer("causes-json", &["--json"], &done).contains("\"cause\": null"));
    assert!(!answer("causes-json", &[], &done).contains("note"));
}
