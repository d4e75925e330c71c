//! Registers by name.

use std::fmt::{self, Display, Formatter};

/// A register, in the order in which answers name them.
#[derive(Clone, Copy, Debug, PartialEq, Eq, PartialOrd, Ord)]
pub enum Register {
    X(usize),
    Sp,
    Z(usize),
    P(usize),
}

impl Register {
    /// The register of a name in lower case. `pn8` is another name of `p8`.
    pub fn named(text: &str) -> Option<Register> {
        if text == "sp" {
            return Some(Register::Sp);
        }
        let digits = text.find(|letter: char| letter.is_ascii_digit())?;
        let (kind, digits) = text.split_at(digits);
        let number = digits.parse().ok().filter(|number: &usize| number.to_string() == digits)?;
        match (kind, number) {
            ("x", 0..=30) => Some(Register::X(number)),
            ("z", 0..=31) => Some(Register::Z(number)),
            ("p", 0..=15) | ("pn", 8..=15) => Some(Register::P(number)),
            _ => None,
        }
    }
}

impl Display for Register {
    fn fmt(&self, f: &mut Formatter) -> fmt::Result {
        match self {
            Register::X(number) => write!(f, "x{number}"),
            Register::Sp => f.write_str("sp"),
            Register::Z(number) => write!(f, "z{number}"),
            Register::P(number) => write!(f, "p{number}"),
        }
    }
}
