//! The machine that a store runs on.

use crate::{Edition, Flags};

/// The registers that a store reads, and the machine's flags. Nothing is asked of them: whatever
/// they are gets its verdict. The default has nothing, not even a length.
///
/// ```
/// use starshackle::{Flags, Machine};
///
/// let (z, p) = ([0; 32 * 16], [0; 2 * 16]);
/// let machine = Machine { vb: 16, flags: Flags::SVE, z: &z, p: &p, ..Machine::default() };
/// assert_eq!(machine.x, [0; 31]);
/// ```
#[derive(Clone, Copy, Debug, Default, PartialEq, Eq)]
pub struct Machine<'a> {
    /// The vector length in bytes: 16, 32, 64, 128 or 256; under the early edition, with streaming
    /// off, any multiple of 16 from 16 to 256.
    pub vb: usize,
    /// What the machine has and which state it is in.
    pub flags: Flags,
    /// Which edition of Arm's SVE supplement it follows: late by default.
    pub edition: Edition,
    /// X0 to X30.
    pub x: [u64; 31],
    /// SP: register 31 as a base. Register 31 as Rm is zero.
    pub sp: u64,
    /// The 32 vector registers, `vb` bytes each, little-endian.
    pub z: &'a [u8],
    /// The 16 predicate registers, `vb / 8` bytes each: bit i is bit i % 8 of byte i / 8.
    ///
    /// The low 16 bits of register 8 + Pc are the counter of a strided store. Its element size is 8,
    /// 16, 32 or 64 bits, as its lowest set bit is bit 0, 1, 2 or 3; where none of these is set
    /// nothing is active. Its count is the number above that bit, up to bit log2(4 `vb`), which is
    /// bit 6 for 16 bytes and bit 10 for 256; the bits above it up to 14 are ignored. Elements of that
    /// size lie one behind the other through all registers of the store. An element of the store is
    /// active if it starts where one of the first `count` of them starts, or, where bit 15 is set, where
    /// another of them starts. So a counter of a wider size than the store's elements leaves gaps.
    pub p: &'a [u8],
}

impl Machine<'_> {
    /// Flags and edition as the library takes them: the early edition is bit 8, and what the flags have
    /// in that place means nothing.
    ///
    /// ```
    /// use starshackle::{Edition, Flags, Machine};
    ///
    /// let machine = Machine { flags: Flags::SVE, edition: Edition::Early, ..Machine::default() };
    /// assert_eq!(machine.flag_bits(), 0x101);
    /// ```
    pub fn flag_bits(&self) -> u64 {
        const EARLY: u64 = 1 << 8;
        match self.edition {
            Edition::Early => self.flags.0 | EARLY,
            Edition::Late => self.flags.0 & !EARLY,
        }
    }
}
