//! The figures in the document on performance.

use crate::timing::{ROUNDS, SAMPLE};
use std::{fs, io};

/// From the crate's folder, at the time of building.
const DOCUMENT: &str = concat!(env!("CARGO_MANIFEST_DIR"), "/../../docs/PERFORMANCE.md");
const BEGIN: &str = "<!-- figures: begin -->\n";
const END: &str = "<!-- figures: end -->\n";

/// Puts the figures where the last ones are.
pub fn write(figures: &str) -> io::Result<()> {
    let document = fs::read_to_string(DOCUMENT)?;
    let missing = || io::Error::new(io::ErrorKind::InvalidData, "the marks are missing");
    fs::write(DOCUMENT, replaced(&document, figures).ok_or_else(missing)?)
}

/// The document with these figures between its marks.
fn replaced(document: &str, figures: &str) -> Option<String> {
    let (before, rest) = document.split_once(BEGIN)?;
    let (_, behind) = rest.split_once(END)?;
    Some(format!("{before}{BEGIN}\n{figures}\n{END}{behind}"))
}

/// What was measured on, and how often.
pub fn machine(runs: usize) -> String {
    let information = fs::read_to_string("/proc/cpuinfo").unwrap_or_default();
    let lines = information.lines().filter_map(|line| line.split_once(':'));
    let mut names = lines.filter(|(name, _)| name.trim() == "model name");
    let name = names.next().map_or("an unknown processor", |(_, value)| value.trim());
    let least = SAMPLE.as_micros();
    let rounds = format!("{ROUNDS} rounds, samples of at least {least} µs");
    match runs {
        1 => format!("Processor: {name}. Medians of {rounds}."),
        _ => format!(
            "Processor: {name}. Medians of {runs} runs, each the median of {rounds}; in brackets the\n\
             lowest and the highest of the runs."
        ),
    }
}

#[cfg(test)]
mod tests {
    use super::*;

    #[test]
    fn figures_between_marks() {
        let document = format!("a\n{BEGIN}old\n{END}b\n");
        let new = format!("a\n{BEGIN}\nnew\n\n{END}b\n");
        assert_eq!(replaced(&document, "new\n"), Some(new));
        assert_eq!(replaced("a\nb\n", "new\n"), None);
        assert_eq!(replaced(&format!("{END}{BEGIN}"), "new\n"), None);
    }

    #[test]
    fn the_document_has_marks() {
        let document = fs::read_to_string(DOCUMENT).expect("the document is there");
        assert!(replaced(&document, "").is_some());
    }
}
