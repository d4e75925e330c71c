//! The elements of a store, a line each.

use crate::json::Json;
use crate::look::Look;
use crate::numbers;
use crate::picture::line;
use starshackle::{element, Element, Machine};
use std::ops::Range;

/// An element with its bytes.
pub struct Row {
    pub element: Element,
    pub bytes: Vec<u8>,
}

/// Bytes of an element that stand out, and why.
pub struct Mark {
    pub bytes: Range<usize>,
    pub name: &'static str,
}

/// The store's elements. There are none where the model refuses to tell.
pub fn of(machine: &Machine, word: u32) -> Vec<Row> {
    let elements = (0..).map_while(|number| element(machine, word, number).ok().flatten());
    elements.map(|element| Row::of(machine, element)).collect()
}

/// The head of the table, with that of the values, if there are some.
pub fn head(rows: &[Row], value: Option<String>) -> String {
    let length = rows.first().map_or(0, |row| row.bytes.len());
    let value = value.map_or(String::new(), |value| behind(" bytes".len(), length, &value));
    format!("element  state     address             bytes{value}\n")
}

/// A value behind so many characters in the column of bytes, which has room for those of an element.
fn behind(used: usize, length: usize, value: &str) -> String {
    let width = (3 * length + 1).max(" bytes".len());
    format!("{:room$}  {value}", "", room = width - used)
}

impl Row {
    fn of(machine: &Machine, element: Element) -> Row {
        let bytes = machine.z.iter().skip(element.index as usize).take(element.bytes as usize);
        Row { element, bytes: bytes.copied().collect() }
    }

    /// Its line in the table, with the mark's bytes in brackets, and its value, if there is one.
    pub fn text(
        &self,
        number: usize,
        mark: Option<Mark>,
        value: Option<String>,
        look: &Look,
    ) -> String {
        let state = if self.element.active { "active" } else { "inactive" };
        let address = numbers::address(self.element.address);
        let marked = mark.as_ref().map_or(0..0, |mark| mark.bytes.clone());
        let marked: Vec<bool> = (0..self.bytes.len()).map(|byte| marked.contains(&byte)).collect();
        let bytes = line(&marked, ["(", ")"], |byte| {
            let digits = numbers::bytes(&self.bytes[byte..=byte], "");
            if self.element.active {
                look.lane(number, &digits)
            } else {
                digits
            }
        });
        // A bracket behind the last byte; codes of colours take no room.
        let used = 3 * marked.len() + usize::from(marked.last() == Some(&true));
        let value = value.map_or(String::new(), |value| behind(used, marked.len(), &value));
        let name = mark.map_or(String::new(), |mark| format!("  <- {}", mark.name));
        format!("{number:>7}  {state:<8}  {address} {bytes}{value}{name}\n")
    }

    /// Its bytes with spaces between them.
    pub fn digits(&self) -> String {
        numbers::bytes(&self.bytes, " ")
    }

    pub fn json(&self, number: usize) -> Json {
        Json::Object(vec![
            ("element", (number as u64).into()),
            ("active", self.element.active.into()),
            ("address", numbers::address(self.element.address).into()),
            ("bytes", numbers::bytes(&self.bytes, "").into()),
        ])
    }
}
