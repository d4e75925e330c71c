//! The window of memory.

use super::refusal::Refusal;
use crate::verdicts::LONGEST;

#[derive(Clone, Copy)]
pub struct Window {
    base: u64,
    length: u64,
}

impl Window {
    pub fn new(base: u64, length: u64) -> Result<Window, Refusal> {
        let ends = length == 0 || base.checked_add(length - 1).is_some();
        match ends && length <= LONGEST as u64 {
            true => Ok(Window { base, length }),
            false => Err(Refusal::Window),
        }
    }

    /// The offset of so many bytes from an address on, all of which are in the window.
    pub fn offset(&self, address: u64, bytes: usize) -> Option<usize> {
        let offset = address.checked_sub(self.base)?;
        let end = offset.checked_add(bytes as u64)?;
        (end <= self.length).then_some(offset as usize)
    }
}
