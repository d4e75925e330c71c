//! What is measured: the same four calls of the model and of two implementations in Rust.

use crate::{hand, idiomatic};
use starshackle::{Answer, Fields, Machine, Window};

/// The four calls of one implementation, as the crate `starshackle` has them.
pub struct Side {
    pub name: &'static str,
    /// Machine, window, word, patch buffer, answer.
    pub store: fn(&Machine, Window, u32, &mut [u8], &mut [u64; 6]) -> u64,
    /// Window's address, memory, patch, answer.
    pub apply: fn(u64, &mut [u8], &[u8], &mut Answer) -> u64,
    /// First patch, second patch, list, answer.
    pub compare: fn(&[u8], &[u8], &mut [u64], &mut Answer) -> u64,
    /// Word, fields.
    pub decode: fn(u32, &mut Fields) -> u64,
}

/// The sides in the order of the table's columns. Each call goes through a function that hands the
/// arguments on one by one, as the interface for C takes them.
pub const SIDES: [Side; 3] = [
    Side {
        name: "model",
        store: starshackle::store_numbers,
        apply: starshackle::apply_numbers,
        compare: starshackle::compare_numbers,
        decode: starshackle::decode_fields,
    },
    Side {
        name: "idiomatic",
        store: |machine, Window { base, memory }, word, patch, answer| {
            let Machine { vb, ref x, sp, z, p, .. } = *machine;
            let flags = machine.flag_bits();
            idiomatic::store(vb, flags, x, sp, z, p, base, memory, word, patch, answer)
        },
        apply: idiomatic::apply,
        compare: idiomatic::compare,
        decode: idiomatic::decode,
    },
    Side {
        name: "hand",
        store: |machine, Window { base, memory }, word, patch, answer| {
            let Machine { vb, ref x, sp, z, p, .. } = *machine;
            let flags = machine.flag_bits();
            hand::store(vb, flags, x, sp, z, p, base, memory, word, patch, answer)
        },
        apply: hand::apply,
        compare: hand::compare,
        decode: hand::decode,
    },
];
