//! The forms in which a file gives a register all give the same bytes.

use std::fs;
use std::path::Path;
use std::process::Command;

/// `st1q { z31.q }, p7, [z30.d, x29]`, which shows each byte of z31.
const WORD: &str = "0xE43D3FDF";

/// The answer to a file, in JSON.
fn answer(text: &str) -> String {
    let file = Path::new(env!("CARGO_TARGET_TMPDIR")).join("forms.store");
    fs::write(&file, text).unwrap();
    let mut command = Command::new(env!("CARGO_BIN_EXE_starshackle"));
    let output = command.args(["run", "--json"]).arg(file).output().unwrap();
    let errors = String::from_utf8(output.stderr).unwrap();
    assert!(errors.is_empty(), "{errors}");
    String::from_utf8(output.stdout).unwrap()
}

fn hexadecimal<'a>(bytes: impl IntoIterator<Item = &'a u8>) -> String {
    bytes.into_iter().map(|byte| format!("{byte:02X}")).collect()
}

/// A register as elements of a width in bytes.
fn elements(register: &[u8], width: usize) -> String {
    let element = |bytes: &[u8]| format!("0x{} ", hexadecimal(bytes.iter().rev()));
    register.chunks(width).map(element).collect()
}

/// The lines that give a vector register.
fn vectors(register: &[u8]) -> Vec<String> {
    let widths = [("b", 1), ("h", 2), ("s", 4), ("d", 8), ("q", 16)];
    let by_width =
        widths.iter().map(|(name, width)| format!(".{name} = {}", elements(register, *width)));
    let number = format!(" = 0x{}", hexadecimal(register.iter().rev()));
    let in_braces = |width| format!("{{{}}}", elements(register, width).trim().replace(' ', ",\n"));
    let views =
        widths.iter().map(|(name, width)| format!("{name} = {{u = {}}}", in_braces(*width)));
    let views: Vec<String> = views.collect();
    let with_braces = widths.iter().map(|(name, width)| format!(".{name} = {}", in_braces(*width)));
    let together = [format!(" {{{}}}", views.join(", ")), format!(" = {}", in_braces(1))];
    by_width
        .chain(with_braces)
        .chain([format!(" = {}", hexadecimal(register)), number])
        .chain(together)
        .collect()
}

/// The lines that give a predicate register.
fn predicates(register: &[u8]) -> Vec<String> {
    let bits = register.iter().flat_map(|byte| (0..8).map(move |bit| byte >> bit & 1));
    let bits: Vec<String> = bits.map(|bit| bit.to_string()).collect();
    let number = format!(" = 0x{}", hexadecimal(register.iter().rev()));
    let in_braces = elements(register, 1).trim().replace(' ', ", ");
    vec![
        format!(".b = {}", bits.join(" ")),
        format!(".b = {{{}}}", bits.join(", ")),
        format!(" = {}", hexadecimal(register)),
        format!(" {{{in_braces}}}"),
        number,
    ]
}

#[test]
fn registers() {
    for vb in [16, 32, 64, 128, 256] {
        let z: Vec<u8> = (0..vb).map(|index| (index * 37 + vb / 16) as u8).collect();
        let p: Vec<u8> = (0..vb / 8).map(|index| (index * 89 + 0x35) as u8).collect();
        let start = format!("word = {WORD}\nvb = {vb}\nflags = sve2p1\nx29 = 1\nz30.q = 0x10 ...");
        let mut answers = Vec::new();
        for z in vectors(&z) {
            for p in predicates(&p) {
                answers.push(answer(&format!("p7{p}\nz31{z}\n{start}\n")));
            }
        }
        assert!(answers.iter().all(|answer| *answer == answers[0]));
        // With no window element 0 faults, and is first named in the detail.
        let elements: Vec<&str> = answers[0].split("\"element\": ").skip(2).collect();
        assert_eq!(elements.len(), vb / 16);
        for (number, element) in elements.iter().enumerate() {
            let active = p[2 * number] & 1 == 1;
            let bytes = hexadecimal(&z[16 * number..][..16]);
            let address = "0x0000000000000011";
            let expected = format!(
                "{number}, \"active\": {active}, \"address\": \"{address}\", \"bytes\": \"{bytes}\"}}"
            );
            assert!(element.starts_with(&expected), "{element}");
        }
    }
}
