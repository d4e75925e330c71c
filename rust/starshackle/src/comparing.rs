//! Comparing two patches.

use crate::{compare_numbers, Patch, Refusal, Verdict};
use std::error::Error;
use std::fmt::{self, Display, Formatter};

/// An address where two patches differ.
#[derive(Clone, Copy, Debug, PartialEq, Eq, Hash)]
pub struct Difference {
    /// The address.
    pub address: u64,
    /// The byte that the first writes there, if it writes one.
    pub first: Option<u8>,
    /// The byte that the second writes there, if it writes one.
    pub second: Option<u8>,
}

/// Two patches have no more differences: each writes 1,024 bytes at most.
pub const MOST_DIFFERENCES: usize = 2_048;

/// Numbers of a list that [`compare_into`] and [`compare_numbers`] take for a difference.
pub const ENTRY_NUMBERS: usize = 3;

/// What a list holds for a byte that isn't written.
pub const NOT_WRITTEN: u64 = 256;

impl Difference {
    /// The difference that three numbers of a list are.
    ///
    /// ```
    /// use starshackle::{Difference, NOT_WRITTEN};
    ///
    /// let numbers = [0x1005, 0xA4, NOT_WRITTEN];
    /// let difference = Difference { address: 0x1005, first: Some(0xA4), second: None };
    /// assert_eq!(Difference::listed(numbers), difference);
    /// ```
    pub fn listed([address, first, second]: [u64; ENTRY_NUMBERS]) -> Difference {
        let byte = |number: u64| u8::try_from(number).ok();
        Difference { address, first: byte(first), second: byte(second) }
    }
}

/// Which of two strings is no patch: the first where neither is.
///
/// ```
/// let problem = starshackle::compare(b"PE\0\0", b"PE").unwrap_err();
/// assert_eq!(problem.to_string(), "bad patch (verdict 9): the second string is not a patch");
/// ```
#[derive(Clone, Copy, Debug, PartialEq, Eq, Hash)]
pub enum NotAPatch {
    /// The first, whatever the second is.
    First,
    /// The second; the first is one.
    Second,
}

impl Display for NotAPatch {
    fn fmt(&self, f: &mut Formatter) -> fmt::Result {
        let which = match self {
            NotAPatch::First => "first",
            NotAPatch::Second => "second",
        };
        write!(f, "{}: the {which} string is not a patch", Verdict::BadPatch)
    }
}

impl Error for NotAPatch {}

impl From<NotAPatch> for Refusal {
    fn from(_: NotAPatch) -> Refusal {
        Refusal::BadPatch
    }
}

/// Why [`compare_into`] has listed nothing.
///
/// ```
/// use starshackle::NotCompared;
///
/// let text = "no room (verdict 8): the list is too short: entries needed 5";
/// assert_eq!(NotCompared::NoRoom { needed: 5 }.to_string(), text);
/// ```
#[derive(Clone, Copy, Debug, PartialEq, Eq, Hash)]
pub enum NotCompared {
    /// [`Verdict::NoRoom`].
    NoRoom {
        /// How many differences there are.
        needed: usize,
    },
    /// [`Verdict::BadPatch`].
    BadPatch(NotAPatch),
}

impl Display for NotCompared {
    fn fmt(&self, f: &mut Formatter) -> fmt::Result {
        match self {
            NotCompared::NoRoom { needed } => {
                write!(f, "{}: the list is too short: entries needed {needed}", Verdict::NoRoom)
            }
            NotCompared::BadPatch(which) => which.fmt(f),
        }
    }
}

impl Error for NotCompared {}

impl From<NotCompared> for Refusal {
    fn from(problem: NotCompared) -> Refusal {
        match problem {
            NotCompared::NoRoom { .. } => Refusal::NoRoom,
            NotCompared::BadPatch(which) => which.into(),
        }
    }
}

/// Compares two patches: each address where they differ, by ascending address. There is none exactly
/// when the strings are equal.
///
/// ```
/// use starshackle::{compare, Difference, NotAPatch};
///
/// let first = b"PR\x05\x10\0\0\0\0\0\0\x02\0\xA4\xA5PE\x01\0"; // A4 A5 at 1005h
/// let second = b"PR\x05\x10\0\0\0\0\0\0\x01\0\xA7PE\x01\0"; // A7 at 1005h
/// let differences = [
///     Difference { address: 0x1005, first: Some(0xA4), second: Some(0xA7) },
///     Difference { address: 0x1006, first: Some(0xA5), second: None },
/// ];
/// assert_eq!(compare(first, second)?, differences);
/// assert_eq!(compare(first, first)?, []);
///
/// assert_eq!(compare(first, &second[1..]), Err(NotAPatch::Second));
/// assert_eq!(compare(&first[1..], &second[1..]), Err(NotAPatch::First));
/// # Ok::<(), NotAPatch>(())
/// ```
pub fn compare(first: &[u8], second: &[u8]) -> Result<Vec<Difference>, NotAPatch> {
    let mut list = vec![0; ENTRY_NUMBERS * MOST_DIFFERENCES];
    match compare_into(first, second, &mut list) {
        Ok(count) => Ok(differences(&list).take(count).collect()),
        Err(NotCompared::BadPatch(which)) => Err(which),
        Err(NotCompared::NoRoom { needed }) => unreachable!("two patches have no {needed}"),
    }
}

/// Compares two patches as [`compare`] does, and fills a lent list from its front, with
/// [`ENTRY_NUMBERS`] numbers each, as [`Difference::listed`] takes them. Tells how many differences
/// there are. The numbers behind them are as they came, in a refusal all of them.
///
/// ```
/// use starshackle::{compare_into, Difference, NotCompared};
///
/// let patch = b"PR\x05\x10\0\0\0\0\0\0\x02\0\xA4\xA5PE\x01\0"; // A4 A5 at 1005h
/// let mut list = [7; 7];
/// assert_eq!(compare_into(b"PE\0\0", patch, &mut list), Ok(2));
/// assert_eq!(list, [0x1005, 256, 0xA4, 0x1006, 256, 0xA5, 7]);
///
/// let no_room = NotCompared::NoRoom { needed: 2 };
/// assert_eq!(compare_into(b"PE\0\0", patch, &mut list[..5]), Err(no_room));
/// ```
pub fn compare_into(first: &[u8], second: &[u8], list: &mut [u64]) -> Result<usize, NotCompared> {
    let mut answer = [0; 5];
    let verdict = compare_numbers(first, second, list, &mut answer);
    let [which, _, count, ..] = answer;
    match (Verdict::numbered(verdict), which) {
        (Some(Verdict::Done), _) => Ok(count as usize),
        (Some(Verdict::NoRoom), _) => Err(NotCompared::NoRoom { needed: count as usize }),
        (Some(Verdict::BadPatch), 0) => Err(NotCompared::BadPatch(NotAPatch::First)),
        (Some(Verdict::BadPatch), _) => Err(NotCompared::BadPatch(NotAPatch::Second)),
        // That there is no other number is proved of the library.
        _ => unreachable!("comparing has no verdict {verdict}"),
    }
}

/// What the numbers of a list are.
fn differences(list: &[u64]) -> impl Iterator<Item = Difference> + '_ {
    list.chunks_exact(ENTRY_NUMBERS).map(|entry| Difference::listed([entry[0], entry[1], entry[2]]))
}

impl Patch {
    /// Compares it with another as [`compare`] does.
    ///
    /// ```
    /// use starshackle::{Difference, Patch};
    ///
    /// let nothing = Patch::read(b"PE\0\0")?;
    /// let patch = Patch::read(b"PR\x05\x10\0\0\0\0\0\0\x01\0\xA4PE\x01\0")?;
    /// let difference = Difference { address: 0x1005, first: None, second: Some(0xA4) };
    /// assert_eq!(nothing.differences(&patch), [difference]);
    /// # Ok::<(), starshackle::NoPatch>(())
    /// ```
    pub fn differences(&self, other: &Patch) -> Vec<Difference> {
        compare(self.as_bytes(), other.as_bytes()).expect("both were judged to be patches")
    }
}
