//! The C interface of the proved library, made safe.
//!
//! Nothing proves that these declarations are those of the library's source. `tests/python` compares
//! the texts.

use crate::{Answer, Fields, Machine, StoreAnswer, Window};

extern "C" {
    fn starshackle_decode(word: u32, fields: *mut Fields) -> u64;
    fn starshackle_encode(fields: *const Fields, answer: *mut Answer) -> u64;
}

/// Decodes a word into `fields`, all of which are written, and returns the verdict's number.
///
/// ```
/// let mut fields = [0; 8];
/// assert_eq!(starshackle::decode_fields(0xA16F_6000, &mut fields), 0);
/// assert_eq!(fields, [10, 0, 0, 0, 0, 0, -2i64 as u64, 0]);
/// ```
pub fn decode_fields(word: u32, fields: &mut Fields) -> u64 {
    // SAFETY: the library writes the eight entries and keeps no pointer.
    unsafe { starshackle_decode(word, fields) }
}

/// Encodes a store into `answer`, all of which is written, and returns the verdict's number.
/// The last entry is the word, the others are 0.
///
/// ```
/// let mut answer = [0; 5];
/// assert_eq!(starshackle::encode_fields(&[10, 0, 0, 0, 0, 0, 2, 0], &mut answer), 0);
/// assert_eq!(answer, [0, 0, 0, 0, 0xA161_6000]);
/// ```
pub fn encode_fields(fields: &Fields, answer: &mut Answer) -> u64 {
    // SAFETY: the library reads eight entries, writes five and keeps no pointer.
    unsafe { starshackle_encode(fields, answer) }
}

extern "C" {
    fn starshackle_judge(patch: *const u8, patch_len: usize, answer: *mut Answer) -> u64;
    fn starshackle_apply(
        base: u64,
        memory: *mut u8,
        memory_len: usize,
        patch: *const u8,
        patch_len: usize,
        answer: *mut Answer,
    ) -> u64;
}

/// Judges whether bytes are a patch, writes all of `answer` and returns the verdict's number. The
/// entries: in a refusal, how many runs were whole and acceptable, and where they end; for a patch,
/// its runs and payload bytes in the third and fourth entry; 0 elsewhere.
///
/// ```
/// let mut answer = [0; 5];
/// assert_eq!(starshackle::judge_numbers(b"PE\0\0", &mut answer), 0);
/// assert_eq!(starshackle::judge_numbers(b"PE", &mut answer), 9);
/// ```
pub fn judge_numbers(patch: &[u8], answer: &mut Answer) -> u64 {
    // SAFETY: the library reads the patch within its length, writes the five entries and keeps no
    // pointer.
    unsafe { starshackle_judge(patch.as_ptr(), patch.len(), answer) }
}

/// Applies a patch to the window of `memory` from `base` on, writes all of `answer` and returns the
/// verdict's number. The entries: the run of the detail, its address, runs, payload bytes, 0.
///
/// ```
/// let patch = b"PR\x05\x10\0\0\0\0\0\0\x01\0\xA4PE\x01\0"; // A4 at 1005h
/// let (mut memory, mut answer) = ([0; 8], [0; 5]);
/// assert_eq!(starshackle::apply_numbers(0x1000, &mut memory, patch, &mut answer), 0);
/// assert_eq!(answer, [0, 0, 1, 1, 0]);
/// ```
pub fn apply_numbers(base: u64, memory: &mut [u8], patch: &[u8], answer: &mut Answer) -> u64 {
    let (memory_len, patch_len) = (memory.len(), patch.len());
    let (memory, patch) = (memory.as_mut_ptr(), patch.as_ptr());
    // SAFETY: each buffer comes with its length, and the library stays within it, so that the
    // pointer of an empty one is never followed. It writes to the memory and the five entries
    // alone, which nothing else refers to, and keeps no pointer.
    unsafe { starshackle_apply(base, memory, memory_len, patch, patch_len, answer) }
}

extern "C" {
    fn starshackle_compare(
        first: *const u8,
        first_len: usize,
        second: *const u8,
        second_len: usize,
        list: *mut u64,
        list_len: usize,
        answer: *mut Answer,
    ) -> u64;
}

/// Compares two patches, writes all of `answer` and returns the verdict's number. The entries: of
/// verdict 9, which string is no patch, 0 or 1; 0; the number of differences, of verdict 8 too; 0, 0.
/// Where it is done, the differences stand at the front of `list`, each as three numbers: the
/// address, the first's byte and the second's, 256 where it isn't written. The rest of the list, and
/// all of it in a refusal, stays as it was.
///
/// ```
/// let patch = b"PR\x05\x10\0\0\0\0\0\0\x01\0\xA4PE\x01\0"; // A4 at 1005h
/// let (mut list, mut answer) = ([7; 4], [7; 5]);
/// assert_eq!(starshackle::compare_numbers(patch, b"PE\0\0", &mut list, &mut answer), 0);
/// assert_eq!((list, answer), ([0x1005, 0xA4, 256, 7], [0, 0, 1, 0, 0]));
/// ```
pub fn compare_numbers(first: &[u8], second: &[u8], list: &mut [u64], answer: &mut Answer) -> u64 {
    let (first_len, second_len, list_len) = (first.len(), second.len(), list.len());
    let (first, second, list) = (first.as_ptr(), second.as_ptr(), list.as_mut_ptr());
    // SAFETY: each buffer comes with its length, and the library stays within it, so that the
    // pointer of an empty one is never followed. It writes to the list and the five entries alone,
    // which nothing else refers to, and keeps no pointer.
    unsafe { starshackle_compare(first, first_len, second, second_len, list, list_len, answer) }
}

extern "C" {
    fn starshackle_store(
        vb: usize,
        flags: u64,
        x: *const [u64; 31],
        sp: u64,
        z: *const u8,
        z_len: usize,
        p: *const u8,
        p_len: usize,
        base: u64,
        memory: *mut u8,
        memory_len: usize,
        word: u32,
        patch: *mut u8,
        patch_len: usize,
        answer: *mut StoreAnswer,
    ) -> u64;
    fn starshackle_element(
        vb: usize,
        flags: u64,
        x: *const [u64; 31],
        sp: u64,
        z: *const u8,
        z_len: usize,
        p: *const u8,
        p_len: usize,
        word: u32,
        e: u64,
        answer: *mut Answer,
    ) -> u64;
}

/// Runs a word's store over the window and makes its patch, writes all of `answer` and returns the
/// verdict's number. The entries: the element that faults, the address of its first byte outside,
/// active elements, bytes moved, the patch's length, steps. Where it is done, the patch stands in
/// the first bytes of `patch`; other bytes stay as they were.
///
/// ```
/// use starshackle::{store_numbers, Flags, Machine, Window};
///
/// // Nothing is active.
/// let (z, p) = ([0; 32 * 16], [0; 2 * 16]);
/// let machine = Machine { vb: 16, flags: Flags::SVE, z: &z, p: &p, ..Machine::default() };
/// let window = Window { base: 0, memory: &mut [] };
/// let (mut patch, mut answer) = ([0; 4], [1; 6]);
/// assert_eq!(store_numbers(&machine, window, 0xE442_8001, &mut patch, &mut answer), 0);
/// assert_eq!((&patch, answer), (b"PE\0\0", [0, 0, 0, 0, 4, 0]));
/// ```
pub fn store_numbers(
    machine: &Machine,
    window: Window,
    word: u32,
    patch: &mut [u8],
    answer: &mut StoreAnswer,
) -> u64 {
    let Machine { vb, ref x, sp, z, p, .. } = *machine;
    let flags = machine.flag_bits();
    let Window { base, memory } = window;
    let (z_len, p_len, memory_len, patch_len) = (z.len(), p.len(), memory.len(), patch.len());
    let (z, p, memory, patch) = (z.as_ptr(), p.as_ptr(), memory.as_mut_ptr(), patch.as_mut_ptr());
    // SAFETY: each buffer comes with its length, and the library stays within it, so that the
    // pointer of an empty one is never followed. It writes to the memory, the patch and the six
    // entries alone, which overlap neither each other nor what it reads, and keeps no pointer.
    unsafe {
        starshackle_store(
            vb, flags, x, sp, z, z_len, p, p_len, base, memory, memory_len, word, patch, patch_len,
            answer,
        )
    }
}

/// Tells what an element of a word's store is, writes all of `answer` and returns the verdict's
/// number. The entries: whether it is active, its first address, the index of its first byte in the
/// Z buffer, its bytes, and how many elements the store has.
///
/// ```
/// use starshackle::{element_numbers, Machine};
///
/// let (z, p) = ([0; 32 * 16], [0; 2 * 16]);
/// let machine = Machine { vb: 16, z: &z, p: &p, ..Machine::default() };
/// let mut answer = [0; 5];
/// assert_eq!(element_numbers(&machine, 0xA160_6000, 3, &mut answer), 0);
/// assert_eq!(answer, [0, 24, 8 * 16 + 8, 8, 4]);
/// ```
pub fn element_numbers(machine: &Machine, word: u32, number: u64, answer: &mut Answer) -> u64 {
    let Machine { vb, ref x, sp, z, p, .. } = *machine;
    let flags = machine.flag_bits();
    let (z_len, p_len) = (z.len(), p.len());
    let (z, p) = (z.as_ptr(), p.as_ptr());
    // SAFETY: as above; it writes to the five entries alone.
    unsafe { starshackle_element(vb, flags, x, sp, z, z_len, p, p_len, word, number, answer) }
}
