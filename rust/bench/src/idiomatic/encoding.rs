//! The encoding of a set of byte writes.

use crate::verdicts::{HEAD, RUN_MARK, TRAILER_MARK};
use starshackle::LARGEST_STORE_PATCH;
use std::collections::BTreeMap;

/// The patch of the bytes, by ascending address.
pub fn encoded(writes: &BTreeMap<u64, u8>) -> Vec<u8> {
    let mut string = Vec::with_capacity(LARGEST_STORE_PATCH);
    let (mut runs, mut head, mut last) = (0u16, 0, None);
    for (&address, &byte) in writes {
        if last.map_or(true, |last| address - last > 1) {
            put_length(&mut string, head);
            runs += 1;
            head = string.len();
            string.extend(RUN_MARK);
            string.extend(address.to_le_bytes());
            string.extend([0, 0]);
        }
        string.push(byte);
        last = Some(address);
    }
    put_length(&mut string, head);
    string.extend(TRAILER_MARK);
    string.extend(runs.to_le_bytes());
    string
}

/// Writes the length of the run that ends the string, where there is one.
fn put_length(string: &mut [u8], head: usize) {
    if let Some(length) = string.len().checked_sub(head + HEAD) {
        string[head + HEAD - 2..head + HEAD].copy_from_slice(&(length as u16).to_le_bytes());
    }
}
