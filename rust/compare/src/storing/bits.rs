//! Bits of bytes and numbers, taken one at a time.

/// A bit of little-endian bytes.
pub fn bit(bytes: &[u8], number: usize) -> bool {
    bytes[number / 8] >> (number % 8) & 1 == 1
}

/// The number with these bits, the lowest first.
pub fn number(bits: impl Iterator<Item = bool>) -> u128 {
    bits.enumerate().fold(0, |number, (weight, bit)| number | u128::from(bit) << weight)
}

/// `Elem[vector, e, size]`, or its low `cut` bits: the vector cut into elements of `size` bits.
pub fn elem(vector: &[u8], e: usize, size: usize, cut: usize) -> u128 {
    number((0..cut).map(|k| bit(vector, e * size + k)))
}

/// A number of `size` bits, the top one of which goes on to the left.
pub fn sign_extended(number: u64, size: usize) -> u64 {
    let sign = number >> (size - 1) & 1;
    (size..64).fold(number, |number, weight| number | sign << weight)
}

#[cfg(test)]
mod tests {
    use super::*;

    #[test]
    fn elements_of_a_vector() {
        let vector = [0x34, 0x12, 0xCD, 0xAB];
        assert_eq!(elem(&vector, 1, 16, 16), 0xABCD);
        assert_eq!(elem(&vector, 1, 16, 8), 0xCD);
        assert_eq!(elem(&vector, 0, 32, 32), 0xABCD_1234);
    }

    #[test]
    fn signs() {
        assert_eq!(sign_extended(7, 4), 7);
        assert_eq!(sign_extended(8, 4) as i64, -8);
        assert_eq!(sign_extended(0xFFFF_FFF8, 32) as i64, -8);
    }
}
