//! Rust written by hand to be quick, without unsafe code: every class and every verdict. Loops are
//! compiled for each size of elements and each extension; nothing is allocated.

mod apply;
mod checks;
mod compare;
mod compose;
mod decode;
mod lanes;
mod scatter;
mod store;
mod strided;

pub use apply::apply;
pub use compare::compare;
pub use decode::decode;
pub use store::store;
