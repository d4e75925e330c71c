//! Compares the proved model with independent implementations; and random stores and patches, which
//! the benchmark's tests take from here.

#![forbid(unsafe_code)]

pub mod comparing;
mod counts;
pub mod decoding;
pub mod encoding;
pub mod patches;
mod patterns;
pub mod random;
pub mod reference;
pub mod report;
pub mod storing;
pub mod verdicts;
mod workers;

use reference::Outcome;
use starshackle::Fields;

/// What every answer holds before a call, so that an entry left alone shows.
pub const GARBAGE: u64 = 0xD1D2_D3D4_D5D6_D7D8;

/// The longest window, in bytes.
pub const LONGEST: usize = 65_536;

/// The model's decoder, its fields filled with garbage beforehand.
#[inline]
fn model_decode(word: u32) -> Outcome<8> {
    let mut numbers = [GARBAGE; 8];
    let verdict = starshackle::decode_fields(word, &mut numbers);
    Outcome { verdict, numbers }
}

/// The model's encoder, its answer filled with garbage beforehand.
#[inline]
fn model_encode(fields: &Fields) -> Outcome<5> {
    let mut numbers = [GARBAGE; 5];
    let verdict = starshackle::encode_fields(fields, &mut numbers);
    Outcome { verdict, numbers }
}
