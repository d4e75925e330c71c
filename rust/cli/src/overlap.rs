//! The elements that share bytes, where a store was refused with 12. The verdict names one of them;
//! the other, and the bytes, explain the answer and are no part of it.

use crate::json::Json;
use crate::rows::{Mark, Row};
use starshackle::{Element, Refusal};
use std::ops::Range;

pub struct Overlap {
    /// The element that the verdict names, and its bytes that the lower one writes too.
    named: (usize, Range<usize>),
    /// The lowest active element with which it shares a byte, and the same of it.
    lower: (usize, Range<usize>),
}

impl Overlap {
    pub fn of<T>(outcome: &Result<T, Refusal>, rows: &[Row], base: u64) -> Option<Overlap> {
        let named = match outcome {
            Err(Refusal::Overlap { element, .. }) => *element as usize,
            _ => return None,
        };
        let place = |number: usize| place(rows[number].element, base);
        let shares = |lower: &usize| !shared(place(named), place(*lower)).is_empty();
        let lower = (0..named).filter(|lower| rows[*lower].element.active).find(shares)?;
        Some(Overlap {
            named: (named, shared(place(named), place(lower))),
            lower: (lower, shared(place(lower), place(named))),
        })
    }

    /// What stands out in an element's line.
    pub fn mark(&self, number: usize) -> Option<Mark> {
        match number {
            _ if number == self.named.0 => {
                Some(Mark { bytes: self.named.1.clone(), name: "overlap" })
            }
            _ if number == self.lower.0 => {
                Some(Mark { bytes: self.lower.1.clone(), name: "overlap (not proved)" })
            }
            _ => None,
        }
    }

    pub fn note(&self) -> String {
        let (lower, named) = (self.lower.0, self.named.0);
        format!("in ( ) are the bytes that elements {lower} and {named} share")
    }

    /// The lower of the two elements.
    pub fn json(&self) -> Json {
        Json::Object(vec![("element", (self.lower.0 as u64).into()), ("proved", false.into())])
    }
}

/// Where an element lies in the window, in which it is.
fn place(Element { address, bytes, .. }: Element, base: u64) -> Range<usize> {
    let start = address.wrapping_sub(base) as usize;
    start..start + bytes as usize
}

/// The bytes of one element that another writes too.
fn shared(one: Range<usize>, other: Range<usize>) -> Range<usize> {
    let start = one.start.max(other.start) - one.start;
    let end = one.end.min(other.end).saturating_sub(one.start);
    start..end
}
