//! What is shown of a store that is refused since it hits a byte twice: the element that the verdict
//! names, the lower one with which it shares bytes, and the bytes in ( ), which are these.

use std::fs;
use std::path::Path;
use std::process::Command;

/// The answer to a file.
fn answer(options: &[&str], text: &str) -> String {
    let file = Path::new(env!("CARGO_TARGET_TMPDIR")).join("overlaps.store");
    fs::write(&file, text).unwrap();
    let mut command = Command::new(env!("CARGO_BIN_EXE_starshackle"));
    let output = command.arg("run").args(options).arg(file).output().unwrap();
    assert!(output.stderr.is_empty(), "{text}");
    String::from_utf8(output.stdout).unwrap()
}

/// A file: four words at these addresses, of which those with a bit in the mask are active, over a
/// window of 64 bytes.
fn file(base: u64, addresses: [u64; 4], mask: u8) -> String {
    let texts = |numbers: [u64; 4]| numbers.map(|number| number.to_string()).join(" ");
    let bits = texts([0, 1, 2, 3].map(|bit| (mask >> bit & 1).into()));
    let offsets = texts(addresses.map(|address| address - base));
    format!(
        "word = 0xE5428001\nvb = 16\nflags = sve strict\nx0 = {base}\nz2.s = {offsets}\n\
         p0.s = {bits}\nz1.s = 0x11111111 0x22222222 0x33333333 0x44444444\n\
         window = {base}\nlength = 64\n"
    )
}

/// The addresses of the bytes in ( ) in the line of an element.
fn in_brackets(text: &str, element: usize, name: &str) -> Vec<u64> {
    let start = format!("{element:>7}  active    0x");
    let row = text.lines().find(|line| line.starts_with(&start)).unwrap();
    assert!(row.ends_with(&format!("  <- {name}")), "{text}");
    let first = u64::from_str_radix(&row[start.len()..][..16], 16).unwrap();
    // A space or a bracket stands before each byte.
    let byte = |at: usize| (at - start.len() - 17) as u64 / 3;
    (byte(row.find('(').unwrap())..byte(row.find(')').unwrap())).map(|k| first + k).collect()
}

/// The first active element that shares a byte with a lower active one, behind the lowest of these.
fn pair(addresses: [u64; 4], mask: u8) -> Option<(usize, usize)> {
    let active = |element: &usize| mask >> element & 1 == 1;
    let shares = |one: usize, other: usize| addresses[one].abs_diff(addresses[other]) < 4;
    let lower = |element: usize| (0..element).filter(active).find(|lower| shares(*lower, element));
    (0..4).filter(active).find_map(|element| Some((lower(element)?, element)))
}

/// What is shown of elements that share bytes.
fn is_shown(text: &str, json: &str, addresses: [u64; 4], (lower, element): (usize, usize)) {
    let address = addresses[element];
    let named = format!("\n  element {element} at 0x{address:016X}, the lowest that shares a byte");
    assert!(text.starts_with("overlap (verdict 12)") && text.contains(&named), "{text}");
    let bytes = (0..4).map(|k| address + k);
    let both: Vec<u64> = bytes.filter(|byte| byte.wrapping_sub(addresses[lower]) < 4).collect();
    assert_eq!(in_brackets(text, element, "overlap"), both, "{text}");
    assert_eq!(in_brackets(text, lower, "overlap (not proved)"), both, "{text}");
    let note = format!("in ( ) are the bytes that elements {lower} and {element} share\n");
    assert!(text.contains(&format!("  note (not proved): {note}")), "{text}");
    let detail =
        format!("\"detail\": {{\"element\": {element}, \"address\": \"0x{address:016X}\"}}");
    let with = format!("\"shares_with\": {{\"element\": {lower}, \"proved\": false}}");
    assert!(json.contains(&detail) && json.contains(&with), "{json}");
}

/// Each element beside, over and apart from each lower one, with the others active or not.
#[test]
fn the_bytes_in_brackets() {
    let mut refused = 0;
    let pairs = [(0, 1), (0, 2), (0, 3), (1, 2), (1, 3), (2, 3)];
    for (base, (lower, element)) in
        [0, 0x1000, !63].into_iter().flat_map(|base| pairs.map(|pair| (base, pair)))
    {
        for distance in 0..9 {
            let mut addresses = [4, 20, 36, 52].map(|offset| base + offset);
            addresses[element] = addresses[lower] + distance - 4;
            for mask in [0b1111, 1 << lower | 1 << element, 0b1111 ^ 1 << lower] {
                let file = file(base, addresses, mask);
                let (text, json) = (answer(&[], &file), answer(&["--json"], &file));
                match pair(addresses, mask) {
                    Some(pair) => is_shown(&text, &json, addresses, pair),
                    None => {
                        assert!(text.starts_with("done") && !text.contains("( )"), "{text}");
                        assert!(json.contains("\"shares_with\": null"), "{json}");
                        continue;
                    }
                }
                refused += 1;
            }
        }
    }
    assert_eq!(refused, 3 * 6 * 7 * 2);
}
