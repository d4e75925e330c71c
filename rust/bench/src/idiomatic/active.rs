//! Which elements of a store are active.

pub enum Active<'a> {
    None,
    /// Those whose first bit is set.
    Predicate(&'a [u8]),
    /// Of the counter's elements, those below the count or the others; where one starts, this many bits
    /// of a number of bytes are 0.
    Counter {
        zeros: u32,
        count: usize,
        inverted: bool,
    },
}

impl<'a> Active<'a> {
    /// Those of a counter, whose count goes up to bit log2(4 VB) of the register.
    pub fn counter(register: &[u8], vb: usize) -> Active<'a> {
        let counter = u16::from_le_bytes([register[0], register[1]]);
        if counter & 0xF == 0 {
            return Active::None;
        }
        let zeros = counter.trailing_zeros();
        let count = (usize::from(counter) & (8 * vb - 1)) >> (zeros + 1);
        Active::Counter { zeros, count, inverted: counter >> 15 == 1 }
    }

    /// Whether the element is active that starts so many bytes behind the first.
    pub fn at(&self, byte: usize) -> bool {
        match *self {
            Active::None => false,
            Active::Predicate(bits) => bits[byte / 8] >> (byte % 8) & 1 == 1,
            Active::Counter { zeros, count, inverted } => {
                let starts = byte & ((1 << zeros) - 1) == 0;
                starts && (byte >> zeros < count) != inverted
            }
        }
    }
}
