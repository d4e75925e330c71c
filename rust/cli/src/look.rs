//! How a picture looks: what the options of `run` say, and whether there is a terminal.

use crate::arguments::{unexpected, utf_8, Arguments, Usage};
use crate::numbers;
use starshackle_streams::{is_terminal, Stream};
use std::env;

pub const COLOR: &str = "--color";
pub const CONTEXT: &str = "--context";
pub const WIDTH: &str = "--width";
pub const ASCII: &str = "--ascii";
pub const LANES: &str = "--lanes";

/// As wide as a line of a picture may be, in bytes.
const WIDEST: u64 = 256;

/// Backgrounds on which black can be read. Those of neighbours differ.
const COLORS: [u8; 6] = [102, 103, 104, 105, 106, 101];

#[derive(Clone, Copy)]
pub struct Look {
    /// How many bytes a line has.
    pub width: usize,
    /// How many lines are shown around one with written bytes. Without it a short picture is shown
    /// whole.
    pub context: Option<usize>,
    pub ascii: bool,
    pub lanes: bool,
    pub color: bool,
}

impl Default for Look {
    fn default() -> Look {
        Look { width: 16, context: None, ascii: false, lanes: false, color: false }
    }
}

impl Look {
    /// The look of an answer that goes to a stream.
    pub fn of(arguments: &Arguments, stream: Stream) -> Result<Look, Usage> {
        let plain = Look::default();
        let widths = format!("a number of bytes from 1 to {WIDEST}");
        let width = number(arguments, WIDTH, 1..=WIDEST, &widths)?;
        let context = number(arguments, CONTEXT, 0..=u64::MAX, "a number of lines")?;
        Ok(Look {
            width: width.unwrap_or(plain.width),
            context,
            ascii: arguments.has(ASCII),
            lanes: arguments.has(LANES),
            color: color(arguments, stream)?,
        })
    }

    /// A text in the colour of an element.
    pub fn lane(&self, element: usize, text: &str) -> String {
        self.painted(&format!("30;{}", COLORS[element % COLORS.len()]), text)
    }

    /// The first line of an answer in the colour of its verdict.
    pub fn verdict(&self, done: bool, text: &str) -> String {
        let (first, rest) = text.split_at(text.find('\n').unwrap_or(text.len()));
        self.painted(if done { "1;32" } else { "1;31" }, first) + rest
    }

    fn painted(&self, code: &str, text: &str) -> String {
        match self.color {
            true => format!("\x1B[{code}m{text}\x1B[0m"),
            false => text.to_string(),
        }
    }

    /// What a picture's heading says of the colours.
    pub fn heading(&self) -> &'static str {
        match (self.lanes, self.color) {
            (true, _) => ", below each the element that wrote it last (not proved)",
            (false, true) => ", each in the colour of the element that wrote it last (not proved)",
            (false, false) => "",
        }
    }
}

/// The number behind an option, if it is given.
fn number(
    arguments: &Arguments,
    option: &str,
    range: std::ops::RangeInclusive<u64>,
    expected: &str,
) -> Result<Option<usize>, Usage> {
    let text = match arguments.given(option) {
        Some(text) => utf_8(text)?,
        None => return Ok(None),
    };
    let problem = || Usage(format!("{option} {}", unexpected(text, expected).0));
    let number = numbers::number(text).filter(|number| range.contains(number));
    // More lines than there is room to count are all.
    number.ok_or_else(problem).map(|number| Some(usize::try_from(number).unwrap_or(usize::MAX)))
}

/// Whether there is colour. A terminal has it unless NO_COLOR is set and not empty.
fn color(arguments: &Arguments, stream: Stream) -> Result<bool, Usage> {
    let when = arguments.given(COLOR).map_or(Ok("auto"), utf_8)?;
    let forbidden = || env::var_os("NO_COLOR").map_or(false, |value| !value.is_empty());
    let dumb = || env::var_os("TERM").map_or(true, |value| value == "dumb");
    match when {
        "always" => Ok(true),
        "never" => Ok(false),
        "auto" => Ok(is_terminal(stream) && !forbidden() && !dumb()),
        other => Err(Usage(format!("{COLOR} {}", unexpected(other, "auto, always or never").0))),
    }
}
