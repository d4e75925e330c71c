"""Verdicts, and what all answers have."""

from dataclasses import dataclass
from enum import IntEnum

from ._enums import Named


class Verdict(Named, IntEnum):
    """What a call answers, in the order in which it is checked, in which 12 stands before 8; all but DONE are refusals.

    DONE is true and every refusal is false, though DONE is 0 and a refusal isn't. A text has the name, on every version of Python:

    >>> bool(Verdict.DONE), bool(Verdict.FAULT), str(Verdict.FAULT), f"{Verdict.FAULT}, which is {Verdict.FAULT:d}"
    (True, False, 'FAULT', 'FAULT, which is 7')
    """

    DONE = 0
    LENGTH = 1  # vb is none of LENGTHS; under the early edition with streaming off: none of EARLY_LENGTHS
    REGISTERS = 2  # z has other than 32 * vb bytes, or p other than 2 * vb
    WINDOW = 3  # the window is longer than LARGEST_WINDOW, or passes 2**64
    UNDEFINED = 4  # the word is of no class, or its flag is off
    ILLEGAL = 5  # classes 1 to 7 and 12 to 24: streaming on and FA64 off; 8 to 11 and 25 to 36: streaming off
    STACK = 6  # SP is the base, is checked, and isn't a multiple of 16
    FAULT = 7  # an active element has a byte outside the window
    OVERLAP = 12  # two active elements share a byte, and STRICT is on
    NO_ROOM = 8  # the patch buffer is shorter than the patch
    BAD_PATCH = 9  # the bytes are no patch; of two strings one isn't
    OUTSIDE = 10  # a run isn't wholly in the window
    FIELDS = 11  # no word has these fields

    def __bool__(self) -> bool:
        return self is Verdict.DONE


# By number: quicker than to ask the class.
VERDICTS = tuple(Verdict(number) for number in range(13))


@dataclass(frozen=True)
class Answer:
    """An answer is true when its verdict is DONE, and false when it is a refusal."""

    verdict: Verdict

    @property
    def done(self) -> bool:
        """Whether the verdict is DONE."""
        return self.verdict is Verdict.DONE

    def __bool__(self) -> bool:
        return self.verdict is Verdict.DONE
