//! Rust written plainly, as one would write it without a thought of speed or of slowness: every
//! class and every verdict. Only a patch that is made, and comparing, allocate.

mod access;
mod active;
mod compare;
mod encoding;
mod machine;
mod patch;
mod refusal;
mod store;
mod window;
mod word;

use crate::verdicts::{DONE, UNDEFINED};
use starshackle::Fields;

pub use compare::compare;
pub use patch::apply;
pub use store::store;

/// As the model's.
#[inline(never)]
pub fn decode(word: u32, fields: &mut Fields) -> u64 {
    match word::decoded(word) {
        Some((_, store)) => {
            *fields = store.into();
            DONE
        }
        None => {
            *fields = [0; 8];
            UNDEFINED
        }
    }
}
