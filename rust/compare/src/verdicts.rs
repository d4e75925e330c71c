//! Verdicts by their numbers.

pub const DONE: u64 = 0;
pub const LENGTH: u64 = 1;
pub const REGISTERS: u64 = 2;
pub const WINDOW: u64 = 3;
pub const UNDEFINED: u64 = 4;
pub const ILLEGAL: u64 = 5;
pub const STACK: u64 = 6;
pub const FAULT: u64 = 7;
pub const NO_ROOM: u64 = 8;
pub const BAD_PATCH: u64 = 9;
pub const OUTSIDE: u64 = 10;
pub const BAD_FIELDS: u64 = 11;
pub const OVERLAP: u64 = 12;
