//! The elements that fault. The verdict names the lowest and its first byte outside the window; the
//! others, and their bytes, explain the answer and are no part of it.

use crate::arguments::all_of;
use crate::json::Json;
use crate::rows::{Mark, Row};
use starshackle::{Element, Refusal};

/// So many further elements are named in a note, more are counted.
const NAMED: usize = 8;

pub struct Faults {
    /// The element that the verdict names, and which of its bytes has the address that it names.
    first: (usize, usize),
    /// The other active elements with a byte outside, and which byte is the first of these.
    others: Vec<(usize, usize)>,
}

impl Faults {
    /// The elements that fault, if the store was refused for that. The window has an address and a
    /// length.
    pub fn of<T>(
        outcome: &Result<T, Refusal>,
        rows: &[Row],
        (base, length): (u64, u64),
    ) -> Option<Faults> {
        let (named, address) = match outcome {
            Err(Refusal::Fault { element, address }) => (*element as usize, *address),
            _ => return None,
        };
        let byte = address.wrapping_sub(rows.get(named)?.element.address) as usize;
        let outside = |(number, row): (usize, &Row)| {
            first_outside(row.element, base, length).map(|byte| (number, byte))
        };
        let active = rows.iter().enumerate().filter(|(_, row)| row.element.active);
        let others = active.filter_map(outside).filter(|(number, _)| *number != named).collect();
        Some(Faults { first: (named, byte), others })
    }

    /// What stands out in an element's line.
    pub fn mark(&self, number: usize) -> Option<Mark> {
        let mark = |byte, name| Some(Mark { bytes: byte..byte + 1, name });
        if self.first.0 == number {
            return mark(self.first.1, "fault");
        }
        let other = self.others.binary_search_by_key(&number, |(element, _)| *element).ok()?;
        mark(self.others[other].1, "fault (not proved)")
    }

    pub fn notes(&self) -> Vec<String> {
        let (number, byte) = self.first;
        let first = format!("byte {byte} of element {number}, its first outside the window");
        let too = "a byte outside the window too; in ( ) is";
        let names: Vec<String> = self.others.iter().map(|(other, _)| other.to_string()).collect();
        let others = match &names[..] {
            [] => None,
            [one] => Some(format!("element {one} has {too} its first")),
            names if names.len() <= NAMED => {
                let names = all_of(names.iter().map(String::as_str));
                Some(format!("elements {names} have {too} each one's first"))
            }
            names => Some(format!("{} more elements have {too} each one's first", names.len())),
        };
        [format!("in ( ) is {first}")].into_iter().chain(others).collect()
    }

    /// All of them in JSON.
    pub fn json(&self) -> Json {
        let mut elements: Vec<usize> = self.others.iter().map(|(number, _)| *number).collect();
        elements.push(self.first.0);
        elements.sort_unstable();
        let elements = elements.into_iter().map(|number| (number as u64).into()).collect();
        Json::Object(vec![("elements", Json::List(elements)), ("proved", false.into())])
    }
}

/// Which of an element's bytes is the first outside a window.
fn first_outside(element: Element, base: u64, length: u64) -> Option<usize> {
    let Element { address, bytes, .. } = element;
    let is_outside = |byte: &u64| address.wrapping_add(*byte).wrapping_sub(base) >= length;
    (0..bytes).find(is_outside).map(|byte| byte as usize)
}
