//! The window of memory.

/// The memory that a store may write, and the address of its first byte.
#[derive(Debug, PartialEq, Eq)]
pub struct Window<'a> {
    /// The address of the first byte.
    pub base: u64,
    /// The bytes, at most [`LARGEST_WINDOW`](crate::LARGEST_WINDOW).
    pub memory: &'a mut [u8],
}
