//! A hexadecimal picture of memory in which the written bytes stand out.

use crate::look::Look;
use crate::numbers;

/// Up to so many lines all are shown.
const ALL: usize = 16;

/// Memory from an address on, with the written bytes, those with a writer, in brackets. In a long
/// picture only the lines with written bytes and some around them are shown.
pub fn picture(base: u64, memory: &[u8], writers: &[Option<usize>], look: &Look) -> String {
    // Each number has room below its byte.
    let largest = writers.iter().flatten().filter(|_| look.lanes).max().copied().unwrap_or(0);
    let cell = largest.to_string().len().max(2);
    let width = look.width.min(memory.len());
    let lines = memory.chunks(look.width).zip(writers.chunks(look.width));
    let (mut text, mut hidden) = (String::new(), 0);
    for ((number, (bytes, writers)), shown) in lines.enumerate().zip(shown(writers, look)) {
        if !shown {
            hidden += 1;
            continue;
        }
        text += &gap(&mut hidden);
        let address = numbers::address(base.wrapping_add((number * look.width) as u64));
        text += &format!("  {address} {}\n", drawn(bytes, writers, [cell, width], look));
        if look.lanes && writers.iter().any(Option::is_some) {
            text += &format!("{:20} {}\n", "", numbered(writers, cell).trim_end());
        }
    }
    text + &gap(&mut hidden)
}

/// For each line, whether it is shown.
fn shown(writers: &[Option<usize>], look: &Look) -> Vec<bool> {
    let lines = writers.chunks(look.width).map(|line| line.iter().any(Option::is_some));
    let written: Vec<bool> = lines.collect();
    if look.context.is_none() && written.len() <= ALL {
        return vec![true; written.len()];
    }
    let context = look.context.unwrap_or(1);
    let mut shown = vec![false; written.len()];
    for (line, _) in written.iter().enumerate().filter(|(_, written)| **written) {
        let end = line.saturating_add(context).saturating_add(1).min(shown.len());
        shown[line.saturating_sub(context)..end].fill(true);
    }
    shown
}

/// A line's bytes, and their letters. A byte has so many digits or spaces, the longest line so many
/// bytes.
fn drawn(
    bytes: &[u8],
    writers: &[Option<usize>],
    [cell, width]: [usize; 2],
    look: &Look,
) -> String {
    let marked: Vec<bool> = writers.iter().map(Option::is_some).collect();
    let text = line(&marked, ["[", "]"], |byte| {
        let digits = format!("{:>cell$}", numbers::bytes(&bytes[byte..=byte], ""));
        writers[byte].map_or(digits.clone(), |element| look.lane(element, &digits))
    });
    if !look.ascii {
        return text;
    }
    // The last bracket stands where a space would.
    let ends = usize::from(marked.last() != Some(&true));
    let space = (width - bytes.len()) * (cell + 1) + ends + 1;
    let letter = |byte: &u8| match byte {
        b' '..=b'~' => char::from(*byte),
        _ => '.',
    };
    let letters: String = bytes.iter().map(letter).collect();
    format!("{text}{:space$}|{letters}|", "")
}

/// The writers below a line's bytes.
fn numbered(writers: &[Option<usize>], cell: usize) -> String {
    let number =
        |writer: &Option<usize>| writer.map_or(String::new(), |element| element.to_string());
    writers.iter().map(|writer| format!(" {:>cell$}", number(writer))).collect()
}

/// A line for those that are hidden before it.
fn gap(hidden: &mut usize) -> String {
    match std::mem::take(hidden) {
        0 => String::new(),
        1 => "  .. 1 line with no written byte\n".to_string(),
        count => format!("  .. {count} lines with no written byte\n"),
    }
}

/// Bytes, each behind a space or a bracket, with brackets around the marked ones.
pub fn line(marked: &[bool], [open, close]: [&str; 2], byte: impl Fn(usize) -> String) -> String {
    let (mut text, mut inside) = (String::new(), false);
    for (number, marked) in marked.iter().enumerate() {
        text += match (inside, marked) {
            (false, true) => open,
            (true, false) => close,
            _ => " ",
        };
        text += &byte(number);
        inside = *marked;
    }
    text + if inside { close } else { "" }
}

#[cfg(test)]
mod tests {
    use super::*;

    const LINE: usize = 16;

    #[test]
    fn lines() {
        let line = |marked: &[bool]| line(marked, ["(", "]"], |byte| format!("{:02X}", byte + 1));
        assert_eq!(line(&[false, true, true, false]), " 01(02 03]04");
        assert_eq!(line(&[true, true]), "(01 02]");
        assert_eq!(line(&[]), "");
    }

    #[test]
    fn a_long_picture_has_gaps() {
        let mut writers = [None; 17 * LINE];
        writers[4 * LINE] = Some(0);
        let picture = |lines: usize, look: &Look| {
            picture(0, &vec![0; lines * LINE], &writers[..lines * LINE], look)
        };
        let plain = Look::default();
        let text = picture(17, &plain);
        let lines: Vec<&str> = text.lines().collect();
        assert_eq!(lines.len(), 5);
        assert_eq!(lines[0], "  .. 3 lines with no written byte");
        assert!(lines[2].starts_with("  0x0000000000000040 [00]00"));
        assert_eq!(lines[4], "  .. 11 lines with no written byte");
        assert_eq!(picture(16, &plain).lines().count(), 16);
        assert_eq!(picture(0, &plain), "");
        let count =
            |context| picture(16, &Look { context: Some(context), ..plain }).lines().count();
        assert_eq!([0, 1, 4, 11, 12, usize::MAX].map(count), [3, 5, 10, 16, 16, 16]);
    }

    #[test]
    fn letters_and_lanes_stand_below_each_other() {
        let look = Look { ascii: true, lanes: true, width: 3, ..Look::default() };
        let writers = [None, Some(0), Some(100), None, Some(7)];
        let expected = [
            "  0x0000000000000010   41[ 42  7F] |AB.|\n",
            "                            0 100\n",
            "  0x0000000000000013   20[ 7E]     | ~|\n",
            "                            7\n",
        ];
        assert_eq!(picture(16, b"AB\x7F ~", &writers, &look), expected.concat());
    }
}
