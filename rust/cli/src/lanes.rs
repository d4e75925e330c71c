//! Which element wrote which byte. What the elements are and that later ones win is the model's; that
//! these are the writers explains its answer and is no part of it.

use crate::json::Json;
use crate::numbers;
use crate::rows::Row;
use starshackle::Element;
use std::ops::Range;

/// For each byte of a window the element that wrote it last, if any did.
pub struct Lanes(pub Vec<Option<usize>>);

impl Lanes {
    /// The writers of a store that is done; of another there are none.
    pub fn of(done: bool, rows: &[Row], base: u64, length: usize) -> Lanes {
        let mut writers = vec![None; length];
        let active = rows.iter().enumerate().filter(|(_, row)| done && row.element.active);
        for (number, row) in active {
            let Element { address, bytes, .. } = row.element;
            let first = address.wrapping_sub(base) as usize;
            let written = writers.iter_mut().skip(first).take(bytes as usize);
            written.for_each(|writer| *writer = Some(number));
        }
        Lanes(writers)
    }

    /// The stretches that one element has written, by ascending address.
    fn ranges(&self) -> Vec<(usize, Range<usize>)> {
        let mut ranges: Vec<(usize, Range<usize>)> = Vec::new();
        let written =
            self.0.iter().enumerate().filter_map(|(byte, writer)| Some((byte, (*writer)?)));
        for (byte, writer) in written {
            match ranges.last_mut() {
                Some((last, range)) if *last == writer && range.end == byte => range.end += 1,
                _ => ranges.push((writer, byte..byte + 1)),
            }
        }
        ranges
    }

    pub fn json(&self, base: u64) -> Json {
        let range = |(element, range): (usize, Range<usize>)| {
            Json::Object(vec![
                ("element", (element as u64).into()),
                ("address", numbers::address(base.wrapping_add(range.start as u64)).into()),
                ("length", (range.len() as u64).into()),
            ])
        };
        let ranges = self.ranges().into_iter().map(range).collect();
        Json::Object(vec![("ranges", Json::List(ranges)), ("proved", false.into())])
    }
}
