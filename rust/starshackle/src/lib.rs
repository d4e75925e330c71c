//! Arm's predicated vector stores: the proved model, from Rust.
//!
//! The model is the static library that `tools/archive` makes, and what is proved is
//! said of it. This crate gives its numbers types and adds nothing else; no `unsafe` is needed to
//! use it. A call answers what it did, or a [`Refusal`] with document 01's number and name. A
//! refused call has written nothing.
//!
//! The library is looked for in the folder that the variable `STARSHACKLE_LIB_DIR` names. Where
//! there is none, the repository's is taken, or else an installed one that `pkg-config` finds.
//!
//! | call | what it answers |
//! |---|---|
//! | [`decode`], [`encode`] | the store that a word names, and the word that names a store |
//! | [`store()`] | a store's effect on a window of memory, and its patch: that effect as bytes |
//! | [`element`], [`elements`] | what one element of a store is, and how many there are |
//! | [`judge`], [`Patch::read`] | whether bytes are a patch |
//! | [`apply`], [`Patch::apply`] | what a patch does to a window of memory |
//! | [`compare`], [`Patch::differences`] | where two patches differ |
//!
//! # Document 01's whole example
//!
//! Four bytes are scattered over a window of eight. Two go to one address, where the later stays.
//! Applying the store's patch leaves what the store leaves.
//!
//! ```
//! use starshackle::{store, Flags, Machine, Patch, Stored, Window, LARGEST_STORE_PATCH};
//!
//! const VB: usize = 16; // vectors of 16 bytes: four elements of 32 bits
//! const WORD: u32 = 0xE442_8001; // st1b { z1.s }, p0, [x0, z2.s, uxtw]
//!
//! // A vector register is VB bytes of a buffer, lowest first.
//! let vector = |elements: [u32; 4]| elements.map(u32::to_le_bytes).concat();
//! let mut z = [0; 32 * VB];
//! z[VB..2 * VB].copy_from_slice(&vector([0xA1, 0xA2, 0xA3, 0xA4])); // z1: the bytes
//! z[2 * VB..3 * VB].copy_from_slice(&vector([0, 1, 1, 5])); // z2: the offsets
//! let p = [0xFF; 2 * VB]; // every element is active
//! let mut x = [0; 31];
//! x[0] = 0x1000; // the base
//! let machine = Machine { vb: VB, flags: Flags::SVE, x, z: &z, p: &p, ..Machine::default() };
//!
//! let (mut memory, mut buffer) = ([0; 8], [0; LARGEST_STORE_PATCH]);
//! let window = Window { base: 0x1000, memory: &mut memory };
//! let done = store(&machine, window, WORD, &mut buffer)?;
//! assert_eq!(done, Stored { elements: 4, bytes: 4, length: 31, steps: 3 });
//! assert_eq!(memory, [0xA1, 0xA3, 0, 0, 0, 0xA4, 0, 0]);
//!
//! let patch = Patch::read(&buffer[..done.length])?;
//! let mut patched = [0; 8];
//! patch.apply(Window { base: 0x1000, memory: &mut patched })?;
//! assert_eq!(patched, memory);
//! # Ok::<(), starshackle::Refusal>(())
//! ```

#![deny(unsafe_code)]
#![warn(missing_docs)]

pub mod assembly;
mod comparing;
mod edition;
mod element;
#[cfg(test)]
mod example;
#[allow(unsafe_code)]
mod ffi;
mod flags;
mod machine;
pub mod patch;
mod store;
mod verdict;
mod window;
mod word;

pub use comparing::{compare, compare_into, Difference, NotAPatch, NotCompared};
pub use comparing::{ENTRY_NUMBERS, MOST_DIFFERENCES, NOT_WRITTEN};
pub use edition::{Edition, LengthRule};
pub use element::{element, elements, Element};
pub use ffi::{apply_numbers, compare_numbers, decode_fields, element_numbers, encode_fields};
pub use ffi::{judge_numbers, store_numbers};
pub use flags::Flags;
pub use machine::Machine;
pub use patch::{apply, judge, Applied, Judged, NoPatch, Patch};
pub use store::{store, Stored};
pub use verdict::{Refusal, Verdict};
pub use window::Window;
pub use word::{decode, encode, Extension, Store};

/// The version of this crate, which the header, the command line and the Python package share.
pub const VERSION: &str = env!("CARGO_PKG_VERSION");

/// A decoded store as numbers: class, index, extension, predicate, base, register, multiple, 0.
pub type Fields = [u64; 8];

/// The numbers that a call other than [`store_numbers`] answers besides its verdict.
pub type Answer = [u64; 5];

/// The numbers that [`store_numbers`] answers besides its verdict.
pub type StoreAnswer = [u64; 6];

/// The entry of an encoder's [`Answer`] that holds the word.
pub const WORD: usize = 4;

/// No store's patch is longer, in bytes: a buffer for [`store()`] with room for all. With 1,040 bytes,
/// which classes 1 to 24 need at most, a store of classes 25 to 36 that leaves gaps may be refused
/// with [`Refusal::NoRoom`].
pub const LARGEST_STORE_PATCH: usize = 6_660;

/// No patch is longer, in bytes.
pub const LARGEST_PATCH: usize = 7_172;

/// No window is longer, in bytes.
pub const LARGEST_WINDOW: usize = 65_536;
