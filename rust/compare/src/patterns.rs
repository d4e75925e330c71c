//! The classes as Arm's encoding index prints them, a line for each.

/// A class of stores.
pub struct Class {
    pub name: &'static str,
    /// How many registers it stores.
    pub registers: i64,
    /// Its bits from 31 down to 0, as [`CLASSES`] explains them.
    pub bits: &'static str,
}

/// The classes in the order of their numbers, which start at 1.
///
/// A bit is fixed or has the letter of its field: `m` Zm or Rm, `x` xs, `g` Pg or PNg, `n` Rn or
/// Zn, `t` Zt, `T` the T of strided registers, `i` imm4. Spaces only part what Arm's index parts.
#[rustfmt::skip]
pub const CLASSES: &[Class] = &[
    class("ST1D, 32-bit unpacked scaled",    1, "1110010 11 01 mmmmm 1x0 ggg nnnnn ttttt"),
    class("ST1D, 32-bit unpacked unscaled",  1, "1110010 11 00 mmmmm 1x0 ggg nnnnn ttttt"),
    class("ST1D, 64-bit scaled",             1, "1110010 11 01 mmmmm 101 ggg nnnnn ttttt"),
    class("ST1D, 64-bit unscaled",           1, "1110010 11 00 mmmmm 101 ggg nnnnn ttttt"),
    class("ST1B, 32-bit unpacked",           1, "1110010 00 00 mmmmm 1x0 ggg nnnnn ttttt"),
    class("ST1B, 32-bit",                    1, "1110010 00 10 mmmmm 1x0 ggg nnnnn ttttt"),
    class("ST1B, 64-bit",                    1, "1110010 00 00 mmmmm 101 ggg nnnnn ttttt"),
    class("ST1D strided, two, scalar",       2, "10100001001 mmmmm  0 11 ggg nnnnn T 0 ttt"),
    class("ST1D strided, four, scalar",      4, "10100001001 mmmmm  1 11 ggg nnnnn T 00 tt"),
    class("ST1D strided, two, immediate",    2, "101000010110 iiii  0 11 ggg nnnnn T 0 ttt"),
    class("ST1D strided, four, immediate",   4, "101000010110 iiii  1 11 ggg nnnnn T 00 tt"),
    class("ST1Q",                            1, "11100100 001 mmmmm 001 ggg nnnnn ttttt"),
    class("ST1H, 32-bit unpacked scaled",    1, "1110010 01 01 mmmmm 1x0 ggg nnnnn ttttt"),
    class("ST1H, 32-bit unpacked unscaled",  1, "1110010 01 00 mmmmm 1x0 ggg nnnnn ttttt"),
    class("ST1H, 64-bit scaled",             1, "1110010 01 01 mmmmm 101 ggg nnnnn ttttt"),
    class("ST1H, 64-bit unscaled",           1, "1110010 01 00 mmmmm 101 ggg nnnnn ttttt"),
    class("ST1H, 32-bit scaled",             1, "1110010 01 11 mmmmm 1x0 ggg nnnnn ttttt"),
    class("ST1H, 32-bit unscaled",           1, "1110010 01 10 mmmmm 1x0 ggg nnnnn ttttt"),
    class("ST1W, 32-bit unpacked scaled",    1, "1110010 10 01 mmmmm 1x0 ggg nnnnn ttttt"),
    class("ST1W, 32-bit unpacked unscaled",  1, "1110010 10 00 mmmmm 1x0 ggg nnnnn ttttt"),
    class("ST1W, 64-bit scaled",             1, "1110010 10 01 mmmmm 101 ggg nnnnn ttttt"),
    class("ST1W, 64-bit unscaled",           1, "1110010 10 00 mmmmm 101 ggg nnnnn ttttt"),
    class("ST1W, 32-bit scaled",             1, "1110010 10 11 mmmmm 1x0 ggg nnnnn ttttt"),
    class("ST1W, 32-bit unscaled",           1, "1110010 10 10 mmmmm 1x0 ggg nnnnn ttttt"),
    class("ST1B strided, two, scalar",       2, "10100001001 mmmmm  0 00 ggg nnnnn T 0 ttt"),
    class("ST1B strided, four, scalar",      4, "10100001001 mmmmm  1 00 ggg nnnnn T 00 tt"),
    class("ST1B strided, two, immediate",    2, "101000010110 iiii  0 00 ggg nnnnn T 0 ttt"),
    class("ST1B strided, four, immediate",   4, "101000010110 iiii  1 00 ggg nnnnn T 00 tt"),
    class("ST1H strided, two, scalar",       2, "10100001001 mmmmm  0 01 ggg nnnnn T 0 ttt"),
    class("ST1H strided, four, scalar",      4, "10100001001 mmmmm  1 01 ggg nnnnn T 00 tt"),
    class("ST1H strided, two, immediate",    2, "101000010110 iiii  0 01 ggg nnnnn T 0 ttt"),
    class("ST1H strided, four, immediate",   4, "101000010110 iiii  1 01 ggg nnnnn T 00 tt"),
    class("ST1W strided, two, scalar",       2, "10100001001 mmmmm  0 10 ggg nnnnn T 0 ttt"),
    class("ST1W strided, four, scalar",      4, "10100001001 mmmmm  1 10 ggg nnnnn T 00 tt"),
    class("ST1W strided, two, immediate",    2, "101000010110 iiii  0 10 ggg nnnnn T 0 ttt"),
    class("ST1W strided, four, immediate",   4, "101000010110 iiii  1 10 ggg nnnnn T 00 tt"),
];

const fn class(name: &'static str, registers: i64, bits: &'static str) -> Class {
    Class { name, registers, bits }
}

impl Class {
    /// The pattern's characters by place: the one of bit 0 first.
    pub fn letters(&self) -> [u8; 32] {
        let mut letters: Vec<u8> = self.bits.bytes().filter(|&letter| letter != b' ').collect();
        letters.reverse();
        letters.try_into().unwrap_or_else(|_| panic!("{}: not 32 bits", self.name))
    }
}

/// Whether a bit may stand where a pattern has a letter.
pub fn allows(letter: u8, bit: u32) -> bool {
    match letter {
        b'0' => bit == 0,
        b'1' => bit == 1,
        _ => true,
    }
}

#[cfg(test)]
mod tests {
    use super::*;

    #[test]
    fn no_word_is_of_two_classes() {
        for (number, one) in CLASSES.iter().enumerate() {
            for other in &CLASSES[number + 1..] {
                let letters = one.letters().into_iter().zip(other.letters());
                let apart = |(a, b)| (a, b) == (b'0', b'1') || (a, b) == (b'1', b'0');
                assert!(letters.into_iter().any(apart), "{} and {}", one.name, other.name);
            }
        }
    }
}
