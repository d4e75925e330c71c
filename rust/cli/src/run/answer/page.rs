//! A store as a page in HTML. What stands in its body is what Python's `_repr_html_` gives to a
//! notebook, letter by letter; its tests compare the two.

use super::Answer;
use crate::length::Length;
use crate::numbers::{self, address};
use starshackle::{Element, Extension, Refusal, Store, Stored, Verdict};

/// How many bytes a line of the window has.
const LINE: usize = 16;
/// Up to so many lines all are shown.
const LINES: usize = 16;
/// So many elements are shown.
const ROWS: usize = 256;

/// The page loads nothing, and runs nothing.
const HEAD: &str = "\
<!DOCTYPE html>
<html lang=\"en\">
<head>
<meta charset=\"utf-8\">
<meta http-equiv=\"Content-Security-Policy\" content=\"default-src 'none'; style-src 'unsafe-inline'\">
<meta name=\"viewport\" content=\"width=device-width\">
";

const NOTE: &str = "Verdict and elements are the model's answers. \
                    Marks and colours are derived from them, and are not proved.";

impl Answer {
    /// The whole page about the store in a file, whose name is as messages show it.
    pub fn page(&self, name: &str) -> String {
        let title = escaped(&format!("{name}: {}", Verdict::of(&self.outcome)));
        let body = self.body();
        format!("{HEAD}<title>{title}</title>\n</head>\n<body>\n{body}\n</body>\n</html>\n")
    }

    fn body(&self) -> String {
        let word = match self.word {
            Some(word) => numbers::hexadecimal(word),
            None => return self.verdict_part(),
        };
        let parts = [self.verdict_part(), self.word_part(&word), self.table(), self.window()];
        let parts = parts.concat();
        format!("<div style=\"font-family: monospace\">{parts}<p><small>{NOTE}</small></p></div>")
    }

    fn verdict_part(&self) -> String {
        let verdict = Verdict::of(&self.outcome);
        let told = match &self.outcome {
            Ok(Stored { elements, bytes, steps, length, .. }) => {
                let moved = format!(": active elements {elements}, bytes moved {bytes}");
                format!("{moved}, steps {steps}, patch of {length} bytes")
            }
            Err(
                Refusal::Fault { element, address: at } | Refusal::Overlap { element, address: at },
            ) => {
                format!(": element {element}, address {}", address(*at))
            }
            Err(_) => {
                let rule = self.length_rule.as_ref().map(Length::rule);
                rule.map_or(String::new(), |rule| format!(": {rule}"))
            }
        };
        let name = verdict.name().to_uppercase().replace(' ', "_");
        format!("<p><b>{name}</b> (verdict {}){told}</p>", verdict.number())
    }

    fn word_part(&self, word: &str) -> String {
        let store = match &self.known {
            Some(known) => known.store(),
            None => return format!("<p>{word}: no class</p>"),
        };
        let Store { class, index, predicate, base, register, multiple, .. } = store;
        let extension = match store.extension {
            None => "NONE",
            Some(Extension::Uxtw) => "UXTW",
            Some(Extension::Sxtw) => "SXTW",
        };
        let start = format!("class {class}, index {index}, extension {extension}");
        let end = format!("base {base}, register {register}, multiple {multiple}");
        format!("<p>{word}: {start}, predicate {predicate}, {end}</p>")
    }

    fn state(&self, number: usize) -> &'static str {
        let element = self.rows[number].element;
        match self.outcome {
            _ if !element.active => "inactive",
            Err(Refusal::Fault { .. }) if self.is_outside(element) => "active, fault",
            Err(Refusal::Overlap { element, .. }) if element == number as u64 => "active, overlap",
            _ => "active",
        }
    }

    fn is_outside(&self, Element { address, bytes, .. }: Element) -> bool {
        let first = i128::from(address) - i128::from(self.base);
        !(0..=self.memory.len() as i128 - i128::from(bytes)).contains(&first)
    }

    fn table(&self) -> String {
        if self.rows.is_empty() {
            return String::new();
        }
        let head = ["element", "state", "address", "bytes"].map(|name| format!("<th>{name}</th>"));
        let mut table = format!("<table><tr>{}</tr>", head.concat());
        for (number, row) in self.rows.iter().enumerate().take(ROWS) {
            let style = format!(" style=\"{}\"", color(number));
            let style = if row.element.active { style } else { String::new() };
            let (state, place) = (self.state(number), address(row.element.address));
            let cells = [&number.to_string(), state, &place, &row.digits()];
            let cells = cells.map(|cell| format!("<td>{cell}</td>")).concat();
            table += &format!("<tr{style}>{cells}</tr>");
        }
        if self.rows.len() > ROWS {
            let more = self.rows.len() - ROWS;
            table += &format!("<tr><td colspan=\"4\">.. {more} more</td></tr>");
        }
        table + "</table>"
    }

    fn window(&self) -> String {
        if !self.reached_window() {
            return String::new();
        }
        let writers: Vec<&[Option<usize>]> = self.lanes.0.chunks(LINE).collect();
        let is_written = |line: &&[Option<usize>]| line.iter().any(Option::is_some);
        let near = |line: usize| &writers[line.saturating_sub(1)..(line + 2).min(writers.len())];
        let mut lines =
            vec![format!("window at {}, length {}", address(self.base), self.memory.len())];
        let mut hidden = 0;
        for (line, bytes) in self.memory.chunks(LINE).enumerate() {
            if writers.len() > LINES && !near(line).iter().any(is_written) {
                hidden += 1;
                continue;
            }
            lines.extend(gap(&mut hidden));
            let cells: Vec<String> = bytes
                .iter()
                .zip(writers[line])
                .map(|(byte, writer)| cell(*byte, *writer))
                .collect();
            let place = address(self.base.wrapping_add((line * LINE) as u64));
            lines.push(format!("  {place} {}", cells.join(" ")));
        }
        lines.extend(gap(&mut hidden));
        format!("<pre>{}</pre>", lines.join("\n"))
    }
}

/// A byte, in the colour of its writer.
fn cell(byte: u8, writer: Option<usize>) -> String {
    let digits = numbers::bytes(&[byte], "");
    match writer {
        None => digits,
        Some(element) => {
            let style = color(element);
            format!("<span style=\"{style}\" title=\"element {element}\">{digits}</span>")
        }
    }
}

/// A line for those that are hidden before it.
fn gap(hidden: &mut usize) -> Option<String> {
    match std::mem::take(hidden) {
        0 => None,
        1 => Some("  .. 1 line with no written byte".to_string()),
        count => Some(format!("  .. {count} lines with no written byte")),
    }
}

/// Neighbours differ much, and black can be read on each.
fn color(element: usize) -> String {
    format!("background: hsl({}, 75%, 80%); color: black", element * 137 % 360)
}

/// A text that is no part of a page's marks.
fn escaped(text: &str) -> String {
    text.replace('&', "&amp;").replace('<', "&lt;").replace('>', "&gt;")
}
