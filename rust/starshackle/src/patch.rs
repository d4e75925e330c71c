//! Judging patches, and applying them to a window of memory.

use crate::{apply_numbers, judge_numbers, Refusal, Verdict, Window};
use std::error::Error;
use std::fmt::{self, Display, Formatter};

/// What bytes that are a patch have in them.
#[derive(Clone, Copy, Debug, PartialEq, Eq, Hash)]
pub struct Judged {
    /// How many runs.
    pub runs: u64,
    /// How many payload bytes in all runs.
    pub bytes: u64,
}

/// Where bytes stop being a patch.
///
/// ```
/// let problem = starshackle::judge(b"PR").unwrap_err();
/// let text = "bad patch (verdict 9): the bytes are not a patch: \
///             acceptable runs from the front 0, what can't be accepted begins at offset 0";
/// assert_eq!(problem.to_string(), text);
/// ```
#[derive(Clone, Copy, Debug, PartialEq, Eq, Hash)]
pub struct NoPatch {
    /// How many runs from the front are whole and acceptable.
    pub runs: u64,
    /// Where these end: what follows can't be accepted.
    pub offset: u64,
}

impl Display for NoPatch {
    fn fmt(&self, f: &mut Formatter) -> fmt::Result {
        let (NoPatch { runs, offset }, verdict) = (self, Verdict::BadPatch);
        write!(f, "{verdict}: {}: acceptable runs from the front {runs}, ", verdict.cause())?;
        write!(f, "what can't be accepted begins at offset {offset}")
    }
}

impl Error for NoPatch {}

/// What applying says of such bytes.
impl From<NoPatch> for Refusal {
    fn from(_: NoPatch) -> Refusal {
        Refusal::BadPatch
    }
}

/// What applying a patch did.
#[derive(Clone, Copy, Debug, PartialEq, Eq, Hash)]
pub struct Applied {
    /// How many runs the patch has.
    pub runs: u64,
    /// How many bytes they wrote.
    pub bytes: u64,
}

/// Judges whether bytes are a patch.
///
/// ```
/// use starshackle::{judge, Judged, NoPatch};
///
/// assert_eq!(judge(b"PE\0\0"), Ok(Judged { runs: 0, bytes: 0 }));
/// assert_eq!(judge(b"PE\x01\0"), Err(NoPatch { runs: 0, offset: 0 }));
/// ```
pub fn judge(patch: &[u8]) -> Result<Judged, NoPatch> {
    let mut answer = [0; 5];
    let verdict = judge_numbers(patch, &mut answer);
    let [acceptable, offset, runs, bytes, _] = answer;
    match verdict {
        0 => Ok(Judged { runs, bytes }),
        _ => Err(NoPatch { runs: acceptable, offset }),
    }
}

/// Applies a patch to the window: every byte of it, or none. Refused with [`Refusal::Window`],
/// [`Refusal::BadPatch`] or [`Refusal::Outside`].
///
/// ```
/// use starshackle::{apply, Applied, Refusal, Window};
///
/// let patch = b"PR\x05\x10\0\0\0\0\0\0\x01\0\xA4PE\x01\0"; // A4 at 1005h
/// let mut memory = [0; 8];
/// let window = Window { base: 0x1000, memory: &mut memory };
/// assert_eq!(apply(window, patch), Ok(Applied { runs: 1, bytes: 1 }));
/// assert_eq!(memory, [0, 0, 0, 0, 0, 0xA4, 0, 0]);
///
/// let window = Window { base: 0x2000, memory: &mut memory };
/// assert_eq!(apply(window, patch), Err(Refusal::Outside { run: 0, address: 0x1005 }));
/// ```
pub fn apply(window: Window, patch: &[u8]) -> Result<Applied, Refusal> {
    let mut answer = [0; 5];
    let verdict = apply_numbers(window.base, window.memory, patch, &mut answer);
    let [run, address, runs, bytes, _] = answer;
    match verdict {
        0 => Ok(Applied { runs, bytes }),
        verdict => Err(Refusal::answered(verdict, [run, address])),
    }
}

/// Bytes that the model has judged to be a patch. Two are equal exactly when they write the same
/// bytes to the same addresses.
///
/// ```
/// use starshackle::patch::{Patch, Run};
///
/// let patch = Patch::read(b"PR\x05\x10\0\0\0\0\0\0\x01\0\xA4PE\x01\0")?;
/// let runs: Vec<Run> = patch.runs().collect();
/// assert_eq!(runs, [Run { offset: 0, address: 0x1005, bytes: &[0xA4] }]);
/// # Ok::<(), starshackle::NoPatch>(())
/// ```
#[derive(Clone, Debug, PartialEq, Eq, Hash)]
pub struct Patch(Vec<u8>);

impl Patch {
    /// Takes bytes that are a patch.
    ///
    /// ```
    /// use starshackle::{NoPatch, Patch};
    ///
    /// assert!(Patch::read(b"PE\0\0").is_ok());
    /// assert_eq!(Patch::read(b"no patch"), Err(NoPatch { runs: 0, offset: 0 }));
    /// ```
    pub fn read(bytes: &[u8]) -> Result<Patch, NoPatch> {
        judge(bytes).map(|_| Patch(bytes.to_vec()))
    }

    /// The bytes.
    ///
    /// ```
    /// let patch = starshackle::Patch::read(b"PE\0\0")?;
    /// assert_eq!(patch.as_bytes(), b"PE\0\0");
    /// # Ok::<(), starshackle::NoPatch>(())
    /// ```
    pub fn as_bytes(&self) -> &[u8] {
        &self.0
    }

    /// The runs, by ascending address.
    ///
    /// ```
    /// let patch = starshackle::Patch::read(b"PE\0\0")?;
    /// assert_eq!(patch.runs().count(), 0);
    /// # Ok::<(), starshackle::NoPatch>(())
    /// ```
    pub fn runs(&self) -> Runs<'_> {
        runs(&self.0)
    }

    /// Applies it as [`apply`] does.
    ///
    /// ```
    /// use starshackle::{Applied, Patch, Window};
    ///
    /// let patch = Patch::read(b"PE\0\0").unwrap();
    /// let window = Window { base: 0x1000, memory: &mut [0; 8] };
    /// assert_eq!(patch.apply(window), Ok(Applied { runs: 0, bytes: 0 }));
    /// ```
    pub fn apply(&self, window: Window) -> Result<Applied, Refusal> {
        apply(window, &self.0)
    }
}

impl AsRef<[u8]> for Patch {
    fn as_ref(&self) -> &[u8] {
        &self.0
    }
}

/// A run of a patch.
#[derive(Clone, Copy, Debug, PartialEq, Eq, Hash)]
pub struct Run<'a> {
    /// Where it stands in the patch.
    pub offset: usize,
    /// Where its first byte goes.
    pub address: u64,
    /// What it writes.
    pub bytes: &'a [u8],
}

/// The bytes of a run before its payload: the mark, the address and the length.
const HEAD: usize = 12;

impl<'a> Run<'a> {
    /// The run at an offset, where the model has found one.
    fn at(patch: &'a [u8], offset: usize) -> Option<Run<'a>> {
        let (head, behind) = (patch.get(offset..)?.get(..HEAD)?, &patch[offset + HEAD..]);
        let address = u64::from_le_bytes(head[2..10].try_into().ok()?);
        let length = u16::from_le_bytes(head[10..].try_into().ok()?);
        Some(Run { offset, address, bytes: behind.get(..length.into())? })
    }
}

/// The runs of a patch, in order.
#[derive(Clone, Debug)]
pub struct Runs<'a> {
    patch: &'a [u8],
    offset: usize,
    left: u64,
}

impl<'a> Iterator for Runs<'a> {
    type Item = Run<'a>;

    fn next(&mut self) -> Option<Run<'a>> {
        self.left = self.left.checked_sub(1)?;
        let run = Run::at(self.patch, self.offset)?;
        self.offset += HEAD + run.bytes.len();
        Some(run)
    }
}

/// The runs from the front that [`judge`] accepts: all of a patch, and of other bytes those before
/// [`NoPatch::offset`].
///
/// ```
/// use starshackle::patch::runs;
///
/// let cut = b"PR\x05\x10\0\0\0\0\0\0\x01\0\xA4PR\x07\x10";
/// let addresses: Vec<u64> = runs(cut).map(|run| run.address).collect();
/// assert_eq!(addresses, [0x1005]);
/// ```
pub fn runs(bytes: &[u8]) -> Runs<'_> {
    let left = judge(bytes).map_or_else(|problem| problem.runs, |judged| judged.runs);
    Runs { patch: bytes, offset: 0, left }
}

#[cfg(test)]
mod tests {
    use super::*;
    use crate::example::PATCH;

    fn apply_at(base: u64, memory: &mut [u8], patch: &[u8]) -> Result<Applied, Refusal> {
        apply(Window { base, memory }, patch)
    }

    #[test]
    fn judging() {
        let no_patch = |runs, offset| Err(NoPatch { runs, offset });
        assert_eq!(judge(&PATCH), Ok(Judged { runs: 2, bytes: 3 }));
        assert_eq!(judge(&PATCH[..30]), no_patch(2, 27));
        assert_eq!(judge(&PATCH[..26]), no_patch(1, 14));
        assert_eq!(judge(&[]), no_patch(0, 0));
    }

    #[test]
    fn runs_of_a_patch() {
        let first = Run { offset: 0, address: 0x1000, bytes: &[0xA1, 0xA3] };
        let second = Run { offset: 14, address: 0x1005, bytes: &[0xA4] };
        let all = |bytes| runs(bytes).collect::<Vec<Run>>();
        assert_eq!(all(&PATCH), [first, second]);
        assert_eq!(all(&PATCH[..30]), [first, second]);
        assert_eq!(all(&PATCH[..26]), [first]);
        assert_eq!(all(&PATCH[..13]), []);
        assert_eq!(Patch::read(&PATCH).unwrap().runs().count(), 2);
    }

    #[test]
    fn a_patch_that_is_applied() {
        let mut memory = [0; 8];
        let done = Ok(Applied { runs: 2, bytes: 3 });
        assert_eq!(apply_at(0x1000, &mut memory, &PATCH), done);
        assert_eq!(memory, [0xA1, 0xA3, 0, 0, 0, 0xA4, 0, 0]);
        let nothing = Ok(Applied { runs: 0, bytes: 0 });
        assert_eq!(apply_at(0, &mut [], b"\x50\x45\0\0"), nothing);
    }

    #[test]
    fn patches_that_are_not() {
        let mut memory = [0; 8];
        let outside = |run, address| Err(Refusal::Outside { run, address });
        assert_eq!(apply_at(0x1001, &mut memory, &PATCH), outside(0, 0x1000));
        assert_eq!(apply_at(0x1000, &mut memory[..5], &PATCH), outside(1, 0x1005));
        assert_eq!(apply_at(0x1000, &mut memory, &PATCH[1..]), Err(Refusal::BadPatch));
        assert_eq!(apply_at(u64::MAX - 6, &mut memory, &PATCH[1..]), Err(Refusal::Window));
        assert_eq!(apply_at(0x1000, &mut [0; 65_537], &PATCH), Err(Refusal::Window));
        assert_eq!(memory, [0; 8]);
    }
}
