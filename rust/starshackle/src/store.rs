//! Running a store over a window of memory, and making its patch.

use crate::{store_numbers, Machine, Refusal, Window};

/// What a store that is done has written.
#[derive(Clone, Copy, Debug, PartialEq, Eq, Hash)]
pub struct Stored {
    /// How many elements were active.
    pub elements: u64,
    /// How many bytes they moved. An address that two elements write counts twice.
    pub bytes: u64,
    /// How many bytes the patch has.
    pub length: usize,
    /// How many active elements don't start where the active one before them, the next lower in
    /// number, ends. The first has none before it and counts.
    pub steps: u64,
}

/// Runs the store that a word names and makes its patch: writes every active element to the window,
/// lowest first, and the patch to the first bytes of `patch`, or nothing to either. Bytes behind
/// the patch are as they came.
///
/// With [`Flags::STRICT`](crate::Flags::STRICT) a store of which two active elements share a byte is
/// refused with [`Refusal::Overlap`]; the flag changes no other answer.
///
/// Answer and patch don't depend on the window's bytes, and applying the patch there leaves what
/// the store leaves. Who wants only the patch lends a scratch window, with anything in it; who wants
/// only the memory lends a scratch buffer of [`LARGEST_STORE_PATCH`](crate::LARGEST_STORE_PATCH)
/// bytes.
///
/// ```
/// use starshackle::patch::{Patch, Run};
/// use starshackle::{store, Flags, Machine, Refusal, Stored, Window};
///
/// // st1d { z0.d, z8.d }, pn8, [x0]
/// let mut z = [0; 32 * 16];
/// z[..16].copy_from_slice(b"0123456789abcdef");
/// z[8 * 16..9 * 16].copy_from_slice(b"ghijklmnopqrstuv");
/// let mut p = [0; 2 * 16];
/// p[8 * 2] = 0x38; // the first three elements of 64 bits
/// let flags = Flags::SME2 | Flags::STREAMING;
/// let machine = Machine { vb: 16, flags, z: &z, p: &p, ..Machine::default() };
///
/// let (mut memory, mut buffer) = ([b'.'; 28], [b'.'; 42]);
/// let window = Window { base: 0, memory: &mut memory };
/// let done = store(&machine, window, 0xA160_6000, &mut buffer)?;
/// assert_eq!(done, Stored { elements: 3, bytes: 24, length: 40, steps: 1 });
/// assert_eq!(&memory, b"0123456789abcdefghijklmn....");
///
/// let patch = Patch::read(&buffer[..done.length])?;
/// let runs: Vec<Run> = patch.runs().collect();
/// assert_eq!(runs, [Run { offset: 0, address: 0, bytes: b"0123456789abcdefghijklmn" }]);
/// assert_eq!(&buffer[done.length..], b"..");
///
/// let window = Window { base: 0, memory: &mut memory[..20] };
/// let fault = Refusal::Fault { element: 2, address: 20 }; // its first byte outside
/// assert_eq!(store(&machine, window, 0xA160_6000, &mut buffer), Err(fault));
///
/// let window = Window { base: 0, memory: &mut memory };
/// assert_eq!(store(&machine, window, 0xA160_6000, &mut buffer[..39]), Err(Refusal::NoRoom));
/// # Ok::<(), Refusal>(())
/// ```
pub fn store(
    machine: &Machine,
    window: Window,
    word: u32,
    patch: &mut [u8],
) -> Result<Stored, Refusal> {
    let mut answer = [0; 6];
    let verdict = store_numbers(machine, window, word, patch, &mut answer);
    let [element, address, elements, bytes, length, steps] = answer;
    match verdict {
        0 => Ok(Stored { elements, bytes, length: length as usize, steps }),
        verdict => Err(Refusal::answered(verdict, [element, address])),
    }
}

#[cfg(test)]
mod tests {
    use super::*;
    use crate::example::{machine, z, PATCH, SCATTER};
    use crate::{apply, Applied, Flags, LARGEST_STORE_PATCH};

    /// What the example's store has written in so many steps.
    fn done(steps: u64) -> Result<Stored, Refusal> {
        Ok(Stored { elements: 4, bytes: 4, length: PATCH.len(), steps })
    }

    /// A byte of a buffer before the call.
    const OLD: u8 = 0x77;

    fn store_at(machine: &Machine, memory: &mut [u8], patch: &mut [u8]) -> Result<Stored, Refusal> {
        store(machine, Window { base: 0x1000, memory }, SCATTER, patch)
    }

    /// The whole example's vector registers, and those of its second form, with their steps.
    fn forms() -> [(Vec<u8>, u64); 2] {
        let first = z([0xA1, 0xA2, 0xA3, 0xA4], [0, 1, 1, 5]);
        [(first, 3), (z([0xA3, 0xA1, 0x00, 0xA4], [1, 0, 5, 5]), 4)]
    }

    #[test]
    fn stores_that_are_done() {
        for (z, steps) in forms() {
            for room in [PATCH.len(), PATCH.len() + 1, LARGEST_STORE_PATCH] {
                let (mut memory, mut patch) = ([OLD; 8], vec![OLD; room]);
                assert_eq!(store_at(&machine(&z), &mut memory, &mut patch), done(steps));
                assert_eq!(memory, [0xA1, 0xA3, OLD, OLD, OLD, 0xA4, OLD, OLD]);
                assert_eq!(patch[..PATCH.len()], PATCH);
                assert!(patch[PATCH.len()..].iter().all(|byte| *byte == OLD));
            }
        }
    }

    /// The patch is the same, and applied to any filling it leaves what the store leaves there.
    #[test]
    fn whatever_the_window_holds() {
        let fillings = [[0x00; 8], [0xFF; 8], [0xA1, 0xA3, 0, 0, 0, 0xA4, 0, 0], *b"anything"];
        for (z, steps) in forms() {
            for filling in fillings {
                let (mut memory, mut patch) = (filling, PATCH.map(|byte| !byte));
                assert_eq!(store_at(&machine(&z), &mut memory, &mut patch), done(steps));
                assert_eq!(patch, PATCH);
                let mut patched = filling;
                let window = Window { base: 0x1000, memory: &mut patched };
                assert_eq!(apply(window, &patch), Ok(Applied { runs: 2, bytes: 3 }));
                assert_eq!(patched, memory);
            }
        }
    }

    /// Doublewords side by side, with every lane active and with none.
    #[test]
    fn a_whole_register_is_a_step() {
        const ST1D: u32 = 0xE582_A001; // st1d { z1.d }, p0, [x0, z2.d]
        for vb in [16, 32, 64, 128, 256] {
            let mut z = vec![0; 32 * vb];
            for (offset, element) in (0u64..).step_by(8).zip(z[2 * vb..3 * vb].chunks_mut(8)) {
                element.copy_from_slice(&offset.to_le_bytes());
            }
            for active in [true, false] {
                let p = vec![if active { 0xFF } else { 0 }; 2 * vb];
                let machine = Machine { vb, flags: Flags::SVE, z: &z, p: &p, ..Machine::default() };
                let (mut memory, mut patch) = (vec![OLD; vb], vec![OLD; LARGEST_STORE_PATCH]);
                let window = Window { base: 0, memory: &mut memory };
                let (elements, bytes) = if active { (vb as u64 / 8, vb as u64) } else { (0, 0) };
                let (length, steps) = if active { (12 + vb + 4, 1) } else { (4, 0) };
                let stored = Stored { elements, bytes, length, steps };
                assert_eq!(store(&machine, window, ST1D, &mut patch), Ok(stored));
            }
        }
    }

    #[test]
    fn stores_that_are_refused() {
        let [(z, _), _] = forms();
        let good = machine(&z);
        let refused = |machine: Machine, length: usize, room: usize| {
            let (mut memory, mut patch) = (vec![OLD; length], vec![OLD; room]);
            let refusal = store_at(&machine, &mut memory, &mut patch).unwrap_err();
            assert!(memory.iter().chain(&patch).all(|byte| *byte == OLD), "{refusal}");
            refusal
        };
        let (length, room) = (8, PATCH.len());
        assert_eq!(refused(Machine { vb: 17, ..good }, length, room), Refusal::Length);
        assert_eq!(refused(Machine { z: &[], ..good }, length, room), Refusal::Registers);
        assert_eq!(refused(Machine { p: &[], ..good }, length, room), Refusal::Registers);
        assert_eq!(refused(good, 65_537, room), Refusal::Window);
        let sme2 = Machine { flags: Flags::SME2, ..good };
        assert_eq!(refused(sme2, length, room), Refusal::Undefined);
        let streaming = Machine { flags: Flags::SVE | Flags::STREAMING, ..good };
        assert_eq!(refused(streaming, length, room), Refusal::Illegal);
        let fault = |element, address| Refusal::Fault { element, address };
        assert_eq!(refused(good, 5, room), fault(3, 0x1005));
        assert_eq!(refused(good, 0, room), fault(0, 0x1000));
        assert_eq!(refused(good, 5, 0), fault(3, 0x1005)); // before what is said of the room
        assert_eq!(refused(good, length, room - 1), Refusal::NoRoom);
        assert_eq!(refused(good, length, 0), Refusal::NoRoom);
    }
}
