//! Verdicts: what every call ends with.

use std::error::Error;
use std::fmt::{self, Display, Formatter};

/// A verdict by its number in the papers. They are checked in the order in which they stand here, in
/// which [`Verdict::Overlap`] comes before [`Verdict::NoRoom`]: a call answers the first that is due.
/// Comparing looks at [`Verdict::BadPatch`] first.
///
/// ```
/// use starshackle::Verdict;
///
/// assert_eq!(Verdict::Fault.number(), 7);
/// assert_eq!(Verdict::Fault.to_string(), "fault (verdict 7)");
/// ```
#[derive(Clone, Copy, Debug, PartialEq, Eq, PartialOrd, Ord, Hash)]
#[non_exhaustive]
pub enum Verdict {
    /// Not refused.
    Done = 0,
    /// VB isn't 16, 32, 64, 128 or 256; under the early edition, with streaming off: it isn't a
    /// multiple of 16 from 16 to 256.
    Length = 1,
    /// The Z buffer has other than 32 times VB bytes, or the P buffer other than twice VB.
    Registers = 2,
    /// The window has more than 65,536 bytes, or passes 2^64.
    Window = 3,
    /// The word has no class, or its class needs a flag that is off.
    Undefined = 4,
    /// Streaming mode is on or off where the class needs it otherwise.
    Illegal = 5,
    /// SP is the base, it is checked, and it isn't a multiple of 16.
    Stack = 6,
    /// An active element has a byte outside the window.
    Fault = 7,
    /// Two active elements share a byte, and the flag [`STRICT`](crate::Flags::STRICT) is on.
    Overlap = 12,
    /// The buffer is shorter than the patch, or the list too short for the differences.
    NoRoom = 8,
    /// The bytes are not a patch; of two strings one isn't.
    BadPatch = 9,
    /// A run isn't wholly in the window.
    Outside = 10,
    /// No word has these fields.
    Fields = 11,
}

const LENGTH: &str = "VB isn't 16, 32, 64, 128 or 256 (early edition, streaming off: \
                      any multiple of 16 from 16 to 256)";
const UNDEFINED: &str = "the word has no class, or its class needs a flag that is off: \
                         sve for 1 to 7 and 13 to 24, sme2 for 8 to 11 and 25 to 36, \
                         sve2p1 for 12";
const ILLEGAL: &str = "classes 1 to 7 and 12 to 24 need streaming off or fa64 on, \
                       classes 8 to 11 and 25 to 36 need streaming on";

const OVERLAP: &str = "two active elements share a byte, and strict is on";

/// In the order in which they are checked: the verdict, its name, and when it is given.
const VERDICTS: [(Verdict, &str, &str); 13] = [
    (Verdict::Done, "done", ""),
    (Verdict::Length, "length", LENGTH),
    (Verdict::Registers, "registers", "the Z or P buffer has another size"),
    (
        Verdict::Window,
        "window",
        "the window has more than 65,536 bytes, or passes the top of the address space",
    ),
    (Verdict::Undefined, "undefined", UNDEFINED),
    (Verdict::Illegal, "illegal", ILLEGAL),
    (Verdict::Stack, "stack", "SP is the base, it is checked, and it isn't a multiple of 16"),
    (Verdict::Fault, "fault", "an active element has a byte outside the window"),
    (Verdict::Overlap, "overlap", OVERLAP),
    (Verdict::NoRoom, "no room", "the buffer is shorter than the patch, or the list too short"),
    (Verdict::BadPatch, "bad patch", "the bytes are not a patch"),
    (Verdict::Outside, "outside", "a run isn't wholly in the window"),
    (Verdict::Fields, "fields", "no word has these fields"),
];

impl Verdict {
    /// The verdict with this number, if there is one.
    ///
    /// ```
    /// use starshackle::Verdict;
    ///
    /// assert_eq!(Verdict::numbered(8), Some(Verdict::NoRoom));
    /// assert_eq!(Verdict::numbered(13), None);
    /// ```
    pub fn numbered(number: u64) -> Option<Verdict> {
        VERDICTS.iter().map(|(verdict, ..)| *verdict).find(|verdict| verdict.number() == number)
    }

    /// The verdict of a call.
    ///
    /// ```
    /// use starshackle::{decode, Verdict};
    ///
    /// assert_eq!(Verdict::of(&decode(0xA16F_6000)), Verdict::Done);
    /// assert_eq!(Verdict::of(&decode(0)), Verdict::Undefined);
    /// ```
    pub fn of<T>(outcome: &Result<T, Refusal>) -> Verdict {
        match outcome {
            Ok(_) => Verdict::Done,
            Err(refusal) => refusal.verdict(),
        }
    }

    /// Its number.
    ///
    /// ```
    /// assert_eq!(starshackle::Verdict::Fields.number(), 11);
    /// ```
    pub fn number(self) -> u64 {
        self as u64
    }

    /// Its name.
    ///
    /// ```
    /// assert_eq!(starshackle::Verdict::NoRoom.name(), "no room");
    /// ```
    pub fn name(self) -> &'static str {
        self.line().1
    }

    /// When it is given; nothing for [`Verdict::Done`].
    ///
    /// ```
    /// assert_eq!(starshackle::Verdict::Fields.cause(), "no word has these fields");
    /// ```
    pub fn cause(self) -> &'static str {
        self.line().2
    }

    /// Its line of the table, which has one for each.
    fn line(self) -> &'static (Verdict, &'static str, &'static str) {
        VERDICTS.iter().find(|(verdict, ..)| *verdict == self).unwrap_or(&VERDICTS[0])
    }
}

impl Display for Verdict {
    fn fmt(&self, f: &mut Formatter) -> fmt::Result {
        write!(f, "{} (verdict {})", self.name(), self.number())
    }
}

/// A verdict other than done, with its detail. Nothing has been written.
///
/// ```
/// use starshackle::{decode, Refusal, Verdict};
///
/// let refusal = decode(0xE420_8000).unwrap_err();
/// assert_eq!(refusal, Refusal::Undefined);
/// assert_eq!(refusal.verdict(), Verdict::Undefined);
///
/// let fault = Refusal::Fault { element: 3, address: 0x1005 };
/// let text = "fault (verdict 7): an active element has a byte outside the window: \
///             element 3, first byte outside at 0x0000000000001005";
/// assert_eq!(fault.to_string(), text);
/// ```
#[derive(Clone, Copy, Debug, PartialEq, Eq, Hash)]
#[non_exhaustive]
pub enum Refusal {
    /// [`Verdict::Length`].
    Length,
    /// [`Verdict::Registers`].
    Registers,
    /// [`Verdict::Window`].
    Window,
    /// [`Verdict::Undefined`].
    Undefined,
    /// [`Verdict::Illegal`].
    Illegal,
    /// [`Verdict::Stack`].
    Stack,
    /// [`Verdict::Fault`].
    Fault {
        /// The lowest active element with a byte outside the window.
        element: u64,
        /// The address, modulo 2^64, of the first of its bytes, in its own byte order, that isn't
        /// in the window: the element's first address, or else the one behind the window.
        address: u64,
    },
    /// [`Verdict::Overlap`].
    Overlap {
        /// The lowest active element that shares a byte with a lower active element.
        element: u64,
        /// Its first address.
        address: u64,
    },
    /// [`Verdict::NoRoom`].
    NoRoom,
    /// [`Verdict::BadPatch`].
    BadPatch,
    /// [`Verdict::Outside`].
    Outside {
        /// The lowest run that isn't wholly in the window.
        run: u64,
        /// Where it starts.
        address: u64,
    },
    /// [`Verdict::Fields`].
    Fields,
}

impl Refusal {
    /// The refusal with this number. Its detail is an element or a run, and an address. That there
    /// is no other number is proved of the library.
    pub(crate) fn answered(number: u64, [lowest, address]: [u64; 2]) -> Refusal {
        match Verdict::numbered(number) {
            Some(Verdict::Length) => Refusal::Length,
            Some(Verdict::Registers) => Refusal::Registers,
            Some(Verdict::Window) => Refusal::Window,
            Some(Verdict::Undefined) => Refusal::Undefined,
            Some(Verdict::Illegal) => Refusal::Illegal,
            Some(Verdict::Stack) => Refusal::Stack,
            Some(Verdict::Fault) => Refusal::Fault { element: lowest, address },
            Some(Verdict::Overlap) => Refusal::Overlap { element: lowest, address },
            Some(Verdict::NoRoom) => Refusal::NoRoom,
            Some(Verdict::BadPatch) => Refusal::BadPatch,
            Some(Verdict::Outside) => Refusal::Outside { run: lowest, address },
            Some(Verdict::Fields) => Refusal::Fields,
            Some(Verdict::Done) | None => unreachable!("no refusal has the number {number}"),
        }
    }

    /// The verdict without its detail.
    ///
    /// ```
    /// use starshackle::{Refusal, Verdict};
    ///
    /// assert_eq!(Refusal::Outside { run: 0, address: 0x1000 }.verdict(), Verdict::Outside);
    /// ```
    pub fn verdict(&self) -> Verdict {
        match self {
            Refusal::Length => Verdict::Length,
            Refusal::Registers => Verdict::Registers,
            Refusal::Window => Verdict::Window,
            Refusal::Undefined => Verdict::Undefined,
            Refusal::Illegal => Verdict::Illegal,
            Refusal::Stack => Verdict::Stack,
            Refusal::Fault { .. } => Verdict::Fault,
            Refusal::Overlap { .. } => Verdict::Overlap,
            Refusal::NoRoom => Verdict::NoRoom,
            Refusal::BadPatch => Verdict::BadPatch,
            Refusal::Outside { .. } => Verdict::Outside,
            Refusal::Fields => Verdict::Fields,
        }
    }
}

impl Display for Refusal {
    fn fmt(&self, f: &mut Formatter) -> fmt::Result {
        let verdict = self.verdict();
        write!(f, "{verdict}: {}", verdict.cause())?;
        match self {
            Refusal::Fault { element, address } => {
                write!(f, ": element {element}, first byte outside at {address:#018X}")
            }
            Refusal::Overlap { element, address } => {
                write!(f, ": element {element} at {address:#018X} and a lower one")
            }
            Refusal::Outside { run, address } => write!(f, ": run {run} at {address:#018X}"),
            _ => Ok(()),
        }
    }
}

impl Error for Refusal {}

#[cfg(test)]
mod tests {
    use super::*;

    #[test]
    fn numbers() {
        let numbers: Vec<u64> = VERDICTS.iter().map(|(verdict, ..)| verdict.number()).collect();
        assert_eq!(numbers, [0, 1, 2, 3, 4, 5, 6, 7, 12, 8, 9, 10, 11]);
        for (verdict, name, cause) in &VERDICTS {
            assert_eq!(Verdict::numbered(verdict.number()), Some(*verdict));
            assert_eq!((verdict.name(), verdict.cause()), (*name, *cause));
        }
        assert_eq!(Verdict::numbered(13), None);
        assert_eq!(Verdict::numbered(u64::MAX), None);
    }

    #[test]
    fn refusals() {
        for (verdict, ..) in &VERDICTS[1..] {
            let refusal = Refusal::answered(verdict.number(), [1, 2]);
            assert_eq!(refusal.verdict(), *verdict);
        }
        let fault = Refusal::Fault { element: 1, address: 2 };
        assert_eq!(Refusal::answered(7, [1, 2]), fault);
        let byte = ": element 1, first byte outside at 0x0000000000000002";
        assert!(fault.to_string().ends_with(byte));
        let overlap = Refusal::Overlap { element: 1, address: 2 };
        assert_eq!(Refusal::answered(12, [1, 2]), overlap);
        assert!(overlap.to_string().ends_with(": element 1 at 0x0000000000000002 and a lower one"));
        let outside = Refusal::Outside { run: 1, address: 2 };
        assert_eq!(Refusal::answered(10, [1, 2]), outside);
        assert!(outside.to_string().ends_with(": run 1 at 0x0000000000000002"));
    }
}
