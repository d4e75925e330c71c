//! Document 01's whole example, for the tests.

use crate::{Flags, Machine};

/// The vector length in bytes.
const VB: usize = 16;

/// `st1b { z1.s }, p0, [x0, z2.s, uxtw]`
pub const SCATTER: u32 = 0xE442_8001;

/// The example's patch: A1 A3 at 1000h, A4 at 1005h.
pub const PATCH: [u8; 31] = [
    0x50, 0x52, 0x00, 0x10, 0, 0, 0, 0, 0, 0, 2, 0, 0xA1, 0xA3, //
    0x50, 0x52, 0x05, 0x10, 0, 0, 0, 0, 0, 0, 1, 0, 0xA4, //
    0x50, 0x45, 2, 0,
];

/// Z1 and Z2 as words of 32 bits, the other registers 0.
pub fn z(data: [u32; 4], offsets: [u32; 4]) -> Vec<u8> {
    let words = [0; 4].into_iter().chain(data).chain(offsets).chain([0; 29 * 4]);
    words.flat_map(u32::to_le_bytes).collect()
}

/// A machine with X0 = 1000h and every element active.
pub fn machine(z: &[u8]) -> Machine<'_> {
    let mut x = [0; 31];
    x[0] = 0x1000;
    Machine { vb: VB, flags: Flags::SVE, x, z, p: &[0xFF; 2 * VB], ..Machine::default() }
}
