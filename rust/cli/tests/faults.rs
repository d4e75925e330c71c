//! What is shown of a fault: the byte that the verdict names, and the byte in ( ), which is it; and
//! the other elements that fault.

use std::fs;
use std::path::Path;
use std::process::Command;

/// The answer to a file, which has a name of its own in each test.
fn named(name: &str, options: &[&str], text: &str) -> String {
    let file = Path::new(env!("CARGO_TARGET_TMPDIR")).join(name).with_extension("store");
    fs::write(&file, text).unwrap();
    let mut command = Command::new(env!("CARGO_BIN_EXE_starshackle"));
    let output = command.arg("run").args(options).arg(file).output().unwrap();
    assert!(output.stderr.is_empty(), "{text}");
    String::from_utf8(output.stdout).unwrap()
}

fn answer(options: &[&str], text: &str) -> String {
    named("faults", options, text)
}

/// Stores of element 0 alone, which lies at this address, with its bytes' number.
fn stores(first: u64) -> [(u64, String); 9] {
    let scatter = |word| format!("word = {word}\nx0 = {first}\nz2.d = 0 0\np0.d = 1 0\n");
    let strided = |word| format!("word = {word}\nx0 = {first}\npn8 = 0x0018\n");
    let quadword = format!("word = 0xE43F2041\nz2.d = {first} 0\np0.d = 1 0\n");
    [
        (1, scatter("0xE402A001")),
        (2, scatter("0xE482A001")),
        (4, scatter("0xE502A001")),
        (8, scatter("0xE582A001")),
        (1, strided("0xA1608000")),
        (2, strided("0xA160A000")),
        (4, strided("0xA160C000")),
        (8, strided("0xA1606000")),
        (16, quadword),
    ]
}

/// The address in a line that starts so.
fn address(line: &str, start: &str) -> Option<u64> {
    u64::from_str_radix(line.strip_prefix(start)?.get(..16)?, 16).ok()
}

/// The address that the verdict names, and that of the byte in ( ).
fn addresses(text: &str) -> (u64, u64) {
    let detail = "  element 0, first byte outside the window at 0x";
    let named = text.lines().find_map(|line| address(line, detail));
    let row = text.lines().find(|line| line.ends_with("  <- fault")).unwrap();
    let element = "      0  active    0x";
    let first = address(row, element).unwrap();
    // A space or a bracket stands before each byte.
    let byte = (row.find('(').unwrap() - element.len() - 17) as u64 / 3;
    let note = format!("in ( ) is byte {byte} of element 0, its first outside the window\n");
    assert!(text.contains(&format!("  note (not proved): {note}")), "{text}");
    (named.unwrap(), first.wrapping_add(byte))
}

/// The bytes before it are in the window, and it isn't; the element's address stays its first.
#[test]
fn the_byte_in_brackets() {
    let mut faults = [0; 17];
    for (base, length) in [(0x1000u64, 20), (0x1000, 3), (0x1000, 0), (0, 20), (!19, 20)] {
        let is_inside = |address: u64| address.wrapping_sub(base) < length;
        for n in (0..17).chain(length + 1..length + 18) {
            let first = base.wrapping_add(n).wrapping_sub(16);
            for (size, store) in stores(first) {
                let outside = (0..size).find(|k| !is_inside(first.wrapping_add(*k)));
                let machine = "vb = 16\nflags = sve sme2 sve2p1 streaming fa64";
                let file = format!("{store}{machine}\nwindow = {base}\nlength = {length}\n");
                let (text, json) = (answer(&[], &file), answer(&["--json"], &file));
                let byte = match outside {
                    Some(byte) => byte,
                    None => {
                        assert!(text.starts_with("done") && !text.contains("( )"), "{text}");
                        continue;
                    }
                };
                let named = first.wrapping_add(byte);
                assert_eq!(addresses(&text), (named, named), "{text}");
                let detail =
                    format!("\"detail\": {{\"element\": 0, \"address\": \"0x{named:016X}\"}}");
                let element = format!("\"active\": true, \"address\": \"0x{first:016X}\"");
                assert!(json.contains(&detail) && json.contains(&element), "{json}");
                faults[byte as usize] += 1;
            }
        }
    }
    assert!(faults[..16].iter().all(|count| *count > 0), "{faults:?}");
}

/// Four words of four bytes at these addresses, of which those with a bit in the mask are active, over
/// 20 bytes from 1000h on.
fn words(addresses: [u64; 4], mask: u8) -> String {
    let texts = |numbers: [u64; 4]| numbers.map(|number| number.to_string()).join(" ");
    let bits = texts([0, 1, 2, 3].map(|bit| (mask >> bit & 1).into()));
    format!(
        "word = 0xE5428001\nvb = 16\nflags = sve\nx0 = 0\nz1.s = 1 2 3 4\nz2.s = {}\n\
         p0.s = {bits}\nwindow = 0x1000\nlength = 20\n",
        texts(addresses)
    )
}

/// The lowest is the verdict's, and the others are marked as not proved.
#[test]
fn every_element_that_faults_is_marked() {
    let places = [0x0FFE, 0x1000, 0x1010, 0x1011, 0x1013, 0x1014];
    let mut counts = [0; 5];
    for number in 0..6 * 6 * 6 * 6 {
        let addresses = [1, 6, 36, 216].map(|step| places[number / step % 6]);
        let mask = (number * 7 % 16) as u8;
        if number % 3 > 0 {
            continue;
        }
        let file = words(addresses, mask);
        let text = named("many-faults", &[], &file);
        let outside = |address: u64| (0..4).find(|k| !(0x1000..0x1014).contains(&(address + k)));
        let active = (0..4).filter(|element| mask >> element & 1 == 1);
        let faulting: Vec<(usize, u64)> =
            active.filter_map(|element| Some((element, outside(addresses[element])?))).collect();
        let rows: Vec<&str> = text.lines().filter(|line| line.contains("  <- ")).collect();
        assert_eq!(rows.len(), faulting.len(), "{file}{text}");
        for (row, (element, byte)) in rows.iter().zip(&faulting) {
            assert!(row.starts_with(&format!("{element:>7}  active")), "{text}");
            let is_first = *element == faulting[0].0;
            let mark = if is_first { "  <- fault" } else { "  <- fault (not proved)" };
            assert!(row.ends_with(mark), "{text}");
            assert_eq!(row.find('('), Some(38 + 3 * *byte as usize), "{text}");
        }
        assert_eq!(text.contains("too; in ( )"), faulting.len() > 1, "{text}");
        let numbers: Vec<String> =
            faulting.iter().map(|(element, _)| element.to_string()).collect();
        let json = named("many-faults", &["--json"], &file);
        let list = format!("\"faulting\": {{\"elements\": [{}]", numbers.join(",\n "));
        assert_eq!(json.contains(&list), !faulting.is_empty(), "{json}");
        counts[faulting.len()] += 1;
    }
    assert!(counts.iter().all(|count| *count > 5), "{counts:?}");
}

/// Many are counted, not named.
#[test]
fn a_note_stays_short() {
    let file = "word = 0xA1608000\nvb = 256\nflags = sme2 streaming\npn8 = 0x8001\nlength = 24\n";
    let text = named("short-note", &[], file);
    assert!(text.contains("999 more elements have a byte outside the window too"), "{text}");
    assert_eq!(text.lines().filter(|line| line.contains("  <- fault")).count(), 1000);
}
