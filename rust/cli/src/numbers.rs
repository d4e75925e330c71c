//! Numbers as users write them. No sign, space or separator is taken except where said.

/// An instruction word: eight hexadecimal digits, with or without `0x` before them or `h` behind.
pub fn word(text: &str) -> Option<u32> {
    let digits = behind_0x(text).or_else(|| text.strip_suffix(&['h', 'H'][..])).unwrap_or(text);
    u32::try_from(digits_of(digits, 16).filter(|_| digits.len() == 8)?).ok()
}

/// An instruction word as answers show it.
pub fn hexadecimal(word: u32) -> String {
    format!("{word:08X}")
}

/// An address as answers show it.
pub fn address(address: u64) -> String {
    format!("0x{address:016X}")
}

/// Bytes as answers show them, in hexadecimal.
pub fn bytes(bytes: &[u8], separator: &str) -> String {
    let mut text = String::with_capacity(bytes.len() * (2 + separator.len()));
    for (number, byte) in bytes.iter().enumerate() {
        text += if number > 0 { separator } else { "" };
        text.extend(
            [byte >> 4, byte & 15].map(|digit| char::from(b"0123456789ABCDEF"[usize::from(digit)])),
        );
    }
    text
}

/// Bytes in hexadecimal, two digits each, with nothing between them.
pub fn pairs(text: &str) -> Option<Vec<u8>> {
    let digit = |letter: &u8| char::from(*letter).to_digit(16);
    let byte = |pair: &[u8]| match pair {
        [high, low] => u8::try_from(16 * digit(high)? + digit(low)?).ok(),
        _ => None,
    };
    text.as_bytes().chunks(2).map(byte).collect()
}

/// What [`number`] takes, for messages.
pub const EXPECTED: &str = "an unsigned number of 64 bits, decimal or 0x hexadecimal";

/// A number, decimal or `0x` and hexadecimal.
pub fn number(text: &str) -> Option<u64> {
    u64::try_from(wide(text)?).ok()
}

/// A number of some bits, 128 at most, that may have a minus, then in two's complement.
pub fn of_bits(text: &str, bits: u32) -> Option<u128> {
    let most = u128::MAX >> (128 - bits);
    match text.strip_prefix('-') {
        Some(rest) => {
            let magnitude = wide(rest)?;
            (magnitude <= most / 2 + 1).then_some(magnitude.wrapping_neg() & most)
        }
        None => wide(text).filter(|number| *number <= most),
    }
}

/// A number that may have a sign.
pub fn signed(text: &str) -> Option<i64> {
    let magnitude = |text| number(text).map(i128::from);
    let value = match text.strip_prefix('-') {
        Some(rest) => -magnitude(rest)?,
        None => magnitude(text.strip_prefix('+').unwrap_or(text))?,
    };
    i64::try_from(value).ok()
}

fn wide(text: &str) -> Option<u128> {
    match behind_0x(text) {
        Some(digits) => digits_of(digits, 16),
        None => digits_of(text, 10),
    }
}

/// What stands behind `0x`.
pub fn behind_0x(text: &str) -> Option<&str> {
    text.strip_prefix("0x").or_else(|| text.strip_prefix("0X"))
}

fn digits_of(digits: &str, radix: u32) -> Option<u128> {
    // The library's reader also takes a plus sign.
    let plain = digits.chars().all(|digit| digit.is_digit(radix));
    plain.then(|| u128::from_str_radix(digits, radix).ok())?
}

#[cfg(test)]
mod tests {
    use super::*;

    #[test]
    fn words() {
        for text in ["A16F6000", "a16f6000", "0xA16F6000", "0Xa16f6000", "A16F6000h", "A16F6000H"] {
            assert_eq!(word(text), Some(0xA16F_6000), "{text}");
        }
        assert_eq!(word("00000000"), Some(0));
        assert_eq!(word("0x00000001"), Some(1));
        for text in ["", "0x", "h", "0x0h", "+1", "-1", "1 ", "A16F_6000", "G", "100000000", "é"] {
            assert_eq!(word(text), None, "{text}");
        }
        for text in ["0", "0h", "A16F600", "0xA16F600", "0A16F6000", "+A16F600", "0xA16F600h"] {
            assert_eq!(word(text), None, "{text}");
        }
        assert_eq!(word(&"F".repeat(100)), None);
    }

    #[test]
    fn unsigned_numbers() {
        assert_eq!(number("31"), Some(31));
        assert_eq!(number("0x1F"), Some(31));
        assert_eq!(number("010"), Some(10));
        assert_eq!(number("18446744073709551615"), Some(u64::MAX));
        assert_eq!(number("0xFFFFFFFFFFFFFFFF"), Some(u64::MAX));
        for text in ["", "0x", "1F", "1Fh", "+1", "-1", "18446744073709551616", "1e3", "٣"] {
            assert_eq!(number(text), None, "{text}");
        }
    }

    #[test]
    fn numbers_of_bits() {
        assert_eq!(of_bits("255", 8), Some(255));
        assert_eq!(of_bits("-1", 8), Some(255));
        assert_eq!(of_bits("-0x80", 8), Some(128));
        assert_eq!(of_bits("-0", 8), Some(0));
        assert_eq!(of_bits("-8", 128), Some(u128::MAX - 7));
        assert_eq!(of_bits("340282366920938463463374607431768211455", 128), Some(u128::MAX));
        for text in ["256", "-129", "0x100", "", "-", "+1", "--1", "1.0"] {
            assert_eq!(of_bits(text, 8), None, "{text}");
        }
        assert_eq!(of_bits("340282366920938463463374607431768211456", 128), None);
    }

    #[test]
    fn signed_numbers() {
        assert_eq!(signed("-2"), Some(-2));
        assert_eq!(signed("+0x1C"), Some(28));
        assert_eq!(signed("14"), Some(14));
        assert_eq!(signed("-0x8000000000000000"), Some(i64::MIN));
        for text in ["", "-", "--2", "-+2", "0x8000000000000000", "-9223372036854775809"] {
            assert_eq!(signed(text), None, "{text}");
        }
    }
}
