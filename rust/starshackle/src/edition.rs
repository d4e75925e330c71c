//! The editions of Arm's SVE supplement, and their rules for the vector length.

use crate::Flags;
use std::fmt::{self, Display, Formatter};

/// An edition of Arm's SVE supplement, which the machine follows. Editions differ in the vector
/// lengths that there are, and in nothing else.
///
/// ```
/// use starshackle::{elements, Edition, Machine, Refusal};
///
/// // st1q { z0.q }, p0, [z0.d]: three quadwords in 48 bytes
/// let (z, p) = ([0; 32 * 48], [0; 2 * 48]);
/// let late = Machine { vb: 48, z: &z, p: &p, ..Machine::default() };
/// let early = Machine { edition: Edition::Early, ..late };
/// assert_eq!(elements(&early, 0xE43F_2000), Ok(3));
/// assert_eq!(elements(&late, 0xE43F_2000), Err(Refusal::Length));
/// ```
#[derive(Clone, Copy, Debug, Default, PartialEq, Eq, Hash)]
pub enum Edition {
    /// Any multiple of 16 bytes from 16 to 256; with streaming on, as in [`Edition::Late`].
    Early,
    /// 16, 32, 64, 128 or 256 bytes.
    #[default]
    Late,
}

impl Edition {
    /// The rule that decides verdict 1 with these flags, of which only streaming counts. It explains
    /// the verdict and is no part of it.
    ///
    /// ```
    /// use starshackle::{Edition, Flags, LengthRule};
    ///
    /// assert_eq!(Edition::Early.rule(Flags::SVE), LengthRule::AnyMultiple);
    /// assert_eq!(Edition::Early.rule(Flags::STREAMING), LengthRule::OneOfFive);
    /// ```
    pub fn rule(self, flags: Flags) -> LengthRule {
        match self {
            Edition::Early if !flags.contains(Flags::STREAMING) => LengthRule::AnyMultiple,
            _ => LengthRule::OneOfFive,
        }
    }
}

/// A rule for the vector length.
///
/// ```
/// use starshackle::LengthRule;
///
/// assert_eq!(LengthRule::OneOfFive.to_string(), "16, 32, 64, 128 or 256");
/// ```
#[derive(Clone, Copy, Debug, PartialEq, Eq, Hash)]
pub enum LengthRule {
    /// Any multiple of 16 from 16 to 256.
    AnyMultiple,
    /// 16, 32, 64, 128 or 256.
    OneOfFive,
}

impl Display for LengthRule {
    fn fmt(&self, f: &mut Formatter) -> fmt::Result {
        f.write_str(match self {
            LengthRule::AnyMultiple => "any multiple of 16 from 16 to 256",
            LengthRule::OneOfFive => "16, 32, 64, 128 or 256",
        })
    }
}
