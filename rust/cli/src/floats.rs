//! Floating-point numbers of 16, 32 and 64 bits, as users write them and as answers show them.
//!
//! A number that isn't exact is rounded to the nearest, of two the even one. One that is too large
//! for its size is none: only `inf` is infinite.

/// How many bits of a number are its exponent and its fraction.
#[derive(Clone, Copy)]
struct Format {
    exponent: u32,
    fraction: u32,
}

impl Format {
    /// That of numbers with so many bits.
    fn of(bits: u32) -> Option<Format> {
        let (exponent, fraction) = match bits {
            16 => (5, 10),
            32 => (8, 23),
            64 => (11, 52),
            _ => return None,
        };
        Some(Format { exponent, fraction })
    }

    fn sign(self) -> u64 {
        1 << (self.exponent + self.fraction)
    }

    fn infinity(self) -> u64 {
        self.sign() - (1 << self.fraction)
    }

    /// The first bit of the fraction, which a NaN has that no operation complains of.
    fn quiet(self) -> u64 {
        1 << (self.fraction - 1)
    }
}

/// The bits of a number that is written as no integer is.
pub fn of_bits(text: &str, bits: u32) -> Option<u64> {
    any(text, bits).filter(|_| text.contains(&['.', 'e', 'E', 'n', 'N'][..]))
}

/// The bits of a number that may be written as an integer is.
pub fn any(text: &str, bits: u32) -> Option<u64> {
    let format = Format::of(bits)?;
    let magnitude = text.strip_prefix('-').unwrap_or(text);
    let sign = if magnitude.len() < text.len() { format.sign() } else { 0 };
    special(magnitude, format).or_else(|| finite(magnitude, bits)).map(|bits| sign | bits)
}

/// `inf`, `nan`, which is the default NaN, or `nan(0x1)`, a NaN with this fraction.
fn special(text: &str, format: Format) -> Option<u64> {
    let text = text.to_ascii_lowercase();
    if let Some(rest) = text.strip_prefix("nan(0x") {
        let digits = rest.strip_suffix(')')?;
        let fraction = u64::from_str_radix(digits, 16).ok().filter(|_| !digits.starts_with('+'))?;
        let has_room = fraction > 0 && fraction >> format.fraction == 0;
        return has_room.then_some(format.infinity() | fraction);
    }
    match &text[..] {
        "inf" | "infinity" => Some(format.infinity()),
        "nan" => Some(format.infinity() | format.quiet()),
        _ => None,
    }
}

fn finite(text: &str, bits: u32) -> Option<u64> {
    let decimal = Decimal::read(text)?;
    match bits {
        16 => decimal.half(),
        32 => {
            text.parse::<f32>().ok().filter(|value| value.is_finite()).map(|v| v.to_bits().into())
        }
        _ => text.parse::<f64>().ok().filter(|value| value.is_finite()).map(f64::to_bits),
    }
}

/// A number as it is written: 0.DIGITS times 10 to a power.
struct Decimal {
    /// From the first that isn't 0.
    digits: Vec<u8>,
    power: i64,
}

impl Decimal {
    /// Digits with or without a point, then an exponent or none.
    fn read(text: &str) -> Option<Decimal> {
        let (number, exponent) = match text.split_once(&['e', 'E'][..]) {
            Some((number, exponent)) => (number, power(exponent)?),
            None => (text, 0),
        };
        let (whole, fraction) = number.split_once('.').unwrap_or((number, ""));
        let all: Vec<u8> = whole.bytes().chain(fraction.bytes()).collect();
        if all.is_empty() || !all.iter().all(u8::is_ascii_digit) {
            return None;
        }
        let zeros = all.iter().take_while(|digit| **digit == b'0').count();
        let digits = all[zeros..].iter().map(|digit| digit - b'0').collect();
        Some(Decimal { digits, power: exponent + whole.len() as i64 - zeros as i64 })
    }

    /// The bits of the nearest number of 16 bits. All of these, and what is halfway between two, are
    /// multiples of 2^-25, and so have at most 25 places behind the point.
    fn half(&self) -> Option<u64> {
        const PLACES: i64 = 25;
        if self.digits.is_empty() {
            return Some(0);
        }
        if self.power > 5 {
            return None;
        }
        let taken = usize::try_from(self.power + PLACES).unwrap_or(0);
        let digit = |place| self.digits.get(place).copied().unwrap_or(0);
        let number = (0..taken).fold(0u128, |number, place| 10 * number + u128::from(digit(place)));
        let (scaled, unit) = (number << PLACES, 10u128.pow(PLACES as u32));
        let is_more = scaled % unit != 0 || self.digits.iter().skip(taken).any(|digit| *digit != 0);
        Some(rounded((scaled / unit) as u64, is_more)).filter(|bits| *bits < 0x7C00)
    }
}

/// The bits of the number of 16 bits that is nearest to a multiple of 2^-25, or to a little more.
fn rounded(multiple: u64, is_more: bool) -> u64 {
    let highest = 63 - (multiple | 1).leading_zeros();
    let shift = highest.max(11) - 10;
    let (kept, half) = (multiple >> shift, 1 << (shift - 1));
    let rest = multiple - (kept << shift);
    let up = rest > half || rest == half && (is_more || kept % 2 == 1);
    // The highest bit of what is kept, if it has 11, adds 1 to the exponent.
    (u64::from(shift - 1) << 10) + kept + u64::from(up)
}

/// An exponent. One that is too long for its number's size to matter is as good as a long one.
fn power(text: &str) -> Option<i64> {
    const LONG: i64 = 1 << 40;
    let digits = text.strip_prefix(&['-', '+'][..]).unwrap_or(text);
    if digits.is_empty() || !digits.bytes().all(|digit| digit.is_ascii_digit()) {
        return None;
    }
    let power = digits.parse::<i64>().unwrap_or(LONG).min(LONG);
    Some(if text.starts_with('-') { -power } else { power })
}

/// A number as answers show it: the shortest that [`of_bits`] reads as the same bits.
pub fn text(number: u64, bits: u32) -> String {
    let format = match Format::of(bits) {
        Some(format) => format,
        None => return String::new(),
    };
    let sign = if number & format.sign() == 0 { "" } else { "-" };
    let magnitude = number & (format.sign() - 1);
    let fraction = magnitude.wrapping_sub(format.infinity());
    match magnitude {
        _ if magnitude == format.infinity() => format!("{sign}inf"),
        _ if magnitude > format.infinity() && fraction == format.quiet() => format!("{sign}nan"),
        _ if magnitude > format.infinity() => format!("{sign}nan({fraction:#x})"),
        _ if bits == 64 => format!("{sign}{:?}", f64::from_bits(magnitude)),
        _ if bits == 32 => format!("{sign}{:?}", f32::from_bits(magnitude as u32)),
        _ => format!("{sign}{:?}", of_half(magnitude as u16)),
    }
}

/// A positive number of 16 bits.
fn of_half(bits: u16) -> f32 {
    let (exponent, fraction) = (i32::from(bits >> 10), f32::from(bits & 0x3FF));
    match exponent {
        0 => fraction * 2f32.powi(-24),
        _ => (fraction + 1024.0) * 2f32.powi(exponent - 25),
    }
}

#[cfg(test)]
mod tests {
    use super::*;

    #[test]
    fn numbers() {
        for (text, half, single, double) in [
            ("1.5", 0x3E00, 0x3FC0_0000, 0x3FF8_0000_0000_0000),
            ("-0.0", 0x8000, 0x8000_0000, 0x8000_0000_0000_0000),
            ("1e0", 0x3C00, 0x3F80_0000, 0x3FF0_0000_0000_0000),
            (".1", 0x2E66, 0x3DCC_CCCD, 0x3FB9_9999_9999_999A),
            ("-Inf", 0xFC00, 0xFF80_0000, 0xFFF0_0000_0000_0000),
            ("nan", 0x7E00, 0x7FC0_0000, 0x7FF8_0000_0000_0000),
            ("-nan(0x1)", 0xFC01, 0xFF80_0001, 0xFFF0_0000_0000_0001),
            ("0e99999999999999999999", 0, 0, 0),
            ("1.e-99999999999999999999", 0, 0, 0),
        ] {
            assert_eq!(of_bits(text, 16), Some(half), "{text}");
            assert_eq!(of_bits(text, 32), Some(single), "{text}");
            assert_eq!(of_bits(text, 64), Some(double), "{text}");
        }
        for text in
            ["1", "0x1E", "", ".", "e1", "1e", "1e+", "+1.0", "--1.0", "1.0.0", "1_0.0", "1.0f"]
        {
            assert_eq!(of_bits(text, 64), None, "{text}");
        }
        for text in ["nan(0x0)", "nan(0x)", "nan(0x+1)", "nan(1)", "infinit", "٣.٣", "1e999", "1e٣"]
        {
            assert_eq!(of_bits(text, 64), None, "{text}");
        }
        assert_eq!(
            (of_bits("nan(0x400)", 16), of_bits("1.5", 8), of_bits("1.5", 128)),
            (None, None, None)
        );
    }

    /// Ties go to the even one, and what is a little more or less goes to the nearest, which a
    /// number of 64 bits between can't tell.
    #[test]
    fn halves_are_rounded() {
        for (text, expected) in [
            ("65504.0", Some(0x7BFF)),
            ("65519.99999999999999999999999999999999", Some(0x7BFF)),
            ("65520.0", None),
            ("1e5", None),
            ("2049.0", Some(0x6800)),
            ("2049.00000000000000000000000000000001", Some(0x6801)),
            ("2051.0", Some(0x6802)),
            ("2050.99999999999999999999999999999999", Some(0x6801)),
            ("2.98023223876953125e-8", Some(0)),
            ("2.980232238769531250000000000000001e-8", Some(1)),
            ("8.94069671630859375e-8", Some(2)),
            ("1e-30", Some(0)),
            ("6.1005353927612305e-5", Some(0x0400)),
        ] {
            assert_eq!(of_bits(text, 16), expected, "{text}");
        }
    }

    /// Every number of 16 bits, and many others, are read as they are shown.
    #[test]
    fn texts_are_read_back() {
        for number in 0..=0xFFFF {
            let text = text(number, 16);
            assert_eq!(of_bits(&text, 16), Some(number), "{text}");
        }
        let mut random = 1u64;
        for _ in 0..100_000 {
            random = random.wrapping_mul(6_364_136_223_846_793_005).wrapping_add(1);
            let number = random ^ random >> 29;
            assert_eq!(of_bits(&text(number, 64), 64), Some(number));
            assert_eq!(of_bits(&text(number >> 32, 32), 32), Some(number >> 32));
        }
        assert_eq!(text(0xFFF8_0000_0000_0001, 64), "-nan(0x8000000000001)");
    }
}
