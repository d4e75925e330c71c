//! What is shown of a counter agrees with the states of the elements in the table, which are the
//! model's.

use std::fs;
use std::path::Path;
use std::process::Command;

const NOTE: &str = "  note (not proved): ";

/// The answer to a file, which has a name of its own in each test.
fn answer(name: &str, options: &[&str], text: &str) -> String {
    let file = Path::new(env!("CARGO_TARGET_TMPDIR")).join(name).with_extension("store");
    fs::write(&file, text).unwrap();
    let mut command = Command::new(env!("CARGO_BIN_EXE_starshackle"));
    let output = command.arg("run").args(options).arg(file).output().unwrap();
    assert!(output.stderr.is_empty(), "{text}");
    String::from_utf8(output.stdout).unwrap()
}

/// The states in the table.
fn states(text: &str) -> Vec<bool> {
    let rows = text.lines().skip_while(|line| !line.starts_with("element  state")).skip(1);
    let rows = rows.take_while(|line| !line.is_empty() && !line.starts_with(NOTE));
    rows.map(|row| row.split_whitespace().nth(1) == Some("active")).collect()
}

/// Whether the words of a note say of an element that it is active.
fn says(words: &str, e: usize) -> bool {
    let number = |before: &str, behind: &str| -> Option<usize> {
        words.strip_prefix(before)?.strip_suffix(behind)?.parse().ok()
    };
    if let Some(only) = number("only element ", " is active") {
        return e == only;
    }
    for (every, ordinal) in [(2, "second"), (4, "fourth"), (8, "eighth")] {
        let start = format!("every {ordinal} element");
        if words == format!("{start} is active") {
            return e % every == 0;
        }
        if let Some(border) = number(&format!("{start} below "), " is active") {
            return e % every == 0 && e < border;
        }
        if let Some(border) = number(&format!("{start} from "), " on is active") {
            return e % every == 0 && e >= border;
        }
    }
    if let Some(border) = number("elements below ", " are active") {
        return e < border;
    }
    if let Some(border) = number("elements from ", " on are active") {
        return e >= border;
    }
    match words {
        "no element is active" => false,
        "all elements are active" => true,
        _ => panic!("{words}"),
    }
}

/// Words with an immediate of 0, and counter pn8: registers, and bytes of an element.
const WORDS: [(&str, usize, usize); 8] = [
    ("0xA1606000", 2, 8),
    ("0xA160E000", 4, 8),
    ("0xA1600000", 2, 1),
    ("0xA1608000", 4, 1),
    ("0xA1602000", 2, 2),
    ("0xA160A000", 4, 2),
    ("0xA1604000", 2, 4),
    ("0xA160C000", 4, 4),
];

/// Numbers of 16 bits: few bits, all but few, and others.
fn counters() -> Vec<u16> {
    let bits = (0..16).flat_map(|one| (0..=one).map(move |other| 1 << one | 1 << other));
    let inverses = (0..16).map(|bit| !(1 << bit));
    let others = (1..60).map(|number: u16| number.wrapping_mul(0x9E37));
    bits.chain(inverses).chain(others).chain([0, 0x0418, 0x0013, 0x8038, 0x8058]).collect()
}

#[test]
fn notes_agree_with_the_states() {
    let mut said = [0; 5];
    for (vb, highest) in [16, 32, 64, 128, 256].into_iter().zip(6..) {
        for (number, counter) in counters().into_iter().enumerate() {
            let (word, registers, bytes) = WORDS[(number + vb / 16) % WORDS.len()];
            let machine = format!("vb = {vb}\nflags = sme2 streaming\npn8 = 0x{counter:04X}\n");
            let file = format!("word = {word}\n{machine}window = 0\nlength = 1024\n");
            let text = answer("counters-text", &[], &file);
            let notes: Vec<&str> =
                text.lines().filter_map(|line| line.strip_prefix(NOTE)).collect();
            let of_counter = notes.iter().find(|note| note.starts_with("counter ")).unwrap();
            assert!(of_counter.starts_with(&format!("counter pn8 is 0x{counter:04X}: ")), "{text}");
            let (_, words) = of_counter.split_once(", so ").unwrap();
            let states = states(&text);
            assert_eq!(states.len(), registers * vb / bytes, "{text}");
            for (e, active) in states.iter().enumerate() {
                assert_eq!(says(words, e), *active, "element {e}\n{text}");
            }
            let active = states.iter().filter(|active| **active).count();
            assert!(text.contains(&format!("active elements {active},")), "{text}");
            let has_size = counter & 15 != 0;
            let set = counter & 0x7FFF & !((2 << highest) - 1);
            let bits = format!("bits {} to 14 of pn8, here 0x{set:04X}", highest + 1);
            let ignored = format!("{bits}, are ignored at VB {vb}");
            let told = notes.contains(&ignored.as_str());
            assert_eq!(told, has_size && set != 0, "{text}");
            assert_eq!(text.contains("are ignored"), told, "{text}");
            said[usize::from(has_size) + usize::from(told)] += 1;
            said[3] += usize::from(active > 0);
            let wider = has_size && 1 << counter.trailing_zeros() > bytes;
            let own = format!("the store's elements have {} bits: only every ", 8 * bytes);
            assert_eq!(notes.iter().any(|note| note.starts_with(&own)), wider, "{text}");
            said[4] += usize::from(wider && active > 1);
        }
    }
    assert!(said.iter().all(|count| *count > 50), "{said:?}");
}

/// The numbers in JSON give the same states.
#[test]
fn json_agrees_with_the_states() {
    for vb in [16, 64, 256] {
        for (number, counter) in counters().into_iter().enumerate() {
            let (word, _, bytes) = WORDS[number % WORDS.len()];
            let machine = format!("vb = {vb}\nflags = sme2 streaming\npn8 = 0x{counter:04X}\n");
            let file = format!("word = {word}\n{machine}window = 0\nlength = 1024\n");
            let json = answer("counters-json", &["--json"], &file);
            let means =
                json.split_once("\"counter_means\": {").unwrap().1.split_once('}').unwrap().0;
            let member = |name: &str| {
                let rest = means.split_once(&format!("\"{name}\": ")).unwrap().1;
                rest.split_once(',').map_or(rest, |(value, _)| value).to_string()
            };
            assert_eq!(member("register"), "\"pn8\"");
            assert_eq!(member("value"), format!("\"0x{counter:04X}\""));
            assert_eq!(member("proved"), "false");
            let size: Option<usize> = member("element_size").parse().ok();
            assert_eq!(size.is_none(), counter & 15 == 0, "{json}");
            assert_eq!(member("count") == "null", size.is_none(), "{json}");
            let count: usize = member("count").parse().unwrap_or(0);
            assert_eq!(member("store_element_size"), (8 * bytes).to_string());
            assert_eq!(member("every") == "null", size.is_none(), "{json}");
            let every: usize = member("every").parse().unwrap_or(1);
            let rows = json.split_once("\"written\": ").unwrap().0;
            for (e, row) in rows.split("{\"element\": ").skip(1).enumerate() {
                let first = size.map(|size| 8 * bytes * e / size < count);
                let active = first.map_or(false, |first| first != (member("inverted") == "true"));
                let active = active && e % every == 0;
                assert!(row.starts_with(&format!("{e}, \"active\": {active},")), "{json}");
            }
        }
    }
}

/// A store without a counter has no note about one.
#[test]
fn other_stores() {
    let scatter = "word = 0xE582A001\nvb = 16\nflags = sve\np0.d = 1 1\nlength = 16\n";
    assert!(!answer("no-counter", &[], scatter).contains("counter"));
    assert!(answer("no-counter", &["--json"], scatter).contains("\"counter_means\": null"));
    let no_length = "word = 0xA1606000\nflags = sme2 streaming\n";
    assert!(!answer("no-counter", &[], no_length).contains("counter pn8"));
    assert!(answer("no-counter", &["--json"], no_length).contains("\"counter_means\": null"));
}
