//! The machine's flags.

use std::ops::{BitOr, BitOrAssign};

/// What the machine has and which state it is in: a set of bits, of which others than the named
/// ones mean nothing. Which [`Edition`](crate::Edition) it follows isn't among them.
///
/// ```
/// use starshackle::Flags;
///
/// assert_eq!(Flags::SVE | Flags::SME2, Flags(3));
/// ```
#[derive(Clone, Copy, Debug, Default, PartialEq, Eq, Hash)]
pub struct Flags(pub u64);

impl Flags {
    /// Classes 1 to 7 and 13 to 24 are defined.
    pub const SVE: Flags = Flags(1);
    /// Classes 8 to 11 and 25 to 36 are defined.
    pub const SME2: Flags = Flags(1 << 1);
    /// Class 12 is defined.
    pub const SVE2P1: Flags = Flags(1 << 2);
    /// Streaming mode is on.
    pub const STREAMING: Flags = Flags(1 << 3);
    /// The stores that streaming mode lacks are legal in it.
    pub const FA64: Flags = Flags(1 << 4);
    /// SP as a base has to be a multiple of 16.
    pub const SP_CHECK: Flags = Flags(1 << 5);
    /// SP is checked with no element active too.
    pub const SP_CHECK_NONE_ACTIVE: Flags = Flags(1 << 6);
    /// A store of which two active elements share a byte is refused.
    pub const STRICT: Flags = Flags(1 << 7);

    /// Whether all of the other's bits are set here.
    ///
    /// ```
    /// use starshackle::Flags;
    ///
    /// let flags = Flags::SME2 | Flags::STREAMING;
    /// assert!(flags.contains(Flags::STREAMING));
    /// assert!(!flags.contains(Flags::SVE));
    /// ```
    pub fn contains(self, other: Flags) -> bool {
        self.0 & other.0 == other.0
    }
}

impl BitOr for Flags {
    type Output = Flags;

    fn bitor(self, other: Flags) -> Flags {
        Flags(self.0 | other.0)
    }
}

impl BitOrAssign for Flags {
    fn bitor_assign(&mut self, other: Flags) {
        *self = *self | other;
    }
}
