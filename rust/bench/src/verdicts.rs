//! Verdicts by their numbers, and the numbers of patches and windows.

pub use compare::patches::reader::{MOST_BYTES, MOST_RUNS, RUN_MARK, TRAILER_MARK};
pub use compare::verdicts::{BAD_PATCH, DONE, FAULT, ILLEGAL, LENGTH, NO_ROOM};
pub use compare::verdicts::{OUTSIDE, OVERLAP, REGISTERS, STACK, UNDEFINED, WINDOW};
pub use compare::LONGEST;

/// Bytes of a run before its payload.
pub const HEAD: usize = 12;
/// Bytes behind the last run.
pub const TRAILER: usize = 4;
