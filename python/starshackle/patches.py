"""Patches: applying them, what is one, and where two differ."""

import ctypes
from dataclasses import dataclass
from typing import List, Optional

from ._arguments import Buffer, apart, changed, integer, place, read
from ._library import Answers, library
from .verdicts import VERDICTS, Answer

LARGEST_PATCH = 7172
"""No patch is longer."""

LARGEST_WINDOW = 65536
"""No window is longer."""

MOST_DIFFERENCES = 2048
"""No two patches differ at more addresses."""


@dataclass(frozen=True)
class Applied(Answer):
    """What applying a patch answers.

    DONE: its runs and payload bytes. OUTSIDE: the lowest run that isn't wholly in the window, and its first address. What a verdict
    doesn't have is 0.
    """

    run: int
    address: int
    runs: int
    bytes: int


@dataclass(frozen=True)
class Judged(Answer):
    """Whether bytes are a patch.

    DONE: its runs and payload bytes. BAD_PATCH: how many runs from the front are acceptable, and the offset where these end and
    something begins that isn't. What a verdict doesn't have is 0.
    """

    acceptable: int
    offset: int
    runs: int
    bytes: int


@dataclass(frozen=True)
class Difference:
    """An address where two patches differ, and the byte that each writes there; None where it doesn't write the address."""

    address: int
    first: Optional[int]
    second: Optional[int]


@dataclass(frozen=True)
class Compared(Answer):
    """Where two patches differ.

    DONE: the differences, by ascending address; there is none exactly when the strings are equal. BAD_PATCH: which string is no patch, 0
    for the first, whatever the second is, and 1 for the second. What a verdict doesn't have is None.
    """

    string: Optional[int]
    differences: Optional[List[Difference]]


def apply(base: int, memory: Buffer, patch: Buffer) -> Applied:
    """Applies a patch to the window of `memory`, whose first byte has the address `base`. Answers `Applied`.

    memory is a buffer that shares no byte with patch, changed in place: by all of the patch when the verdict is DONE, and else not at
    all.

    >>> patch = bytes.fromhex("5052 0510000000000000 0100 a4 5045 0100")
    >>> memory = bytearray(8)
    >>> apply(0x1000, memory, patch)
    Applied(verdict=<Verdict.DONE: 0>, run=0, address=0, runs=1, bytes=1)
    >>> memory.hex(" ")
    '00 00 00 00 00 a4 00 00'
    >>> apply(0x2000, memory, patch)
    Applied(verdict=<Verdict.OUTSIDE: 10>, run=0, address=4101, runs=0, bytes=0)
    """
    base = integer("base", base, 64)
    window, string = changed("memory", memory), read("patch", patch)
    apart("memory", window, [place("patch", string)])
    answer = Answers()
    verdict = VERDICTS[library.starshackle_apply(base, window[0], window[1], string[0], string[1], answer)]
    return Applied(verdict, *answer[:4])


def judge(patch: Buffer) -> Judged:
    """Whether bytes are a patch. Answers `Judged`.

    >>> judge(b"PE\\0\\0")
    Judged(verdict=<Verdict.DONE: 0>, acceptable=0, offset=0, runs=0, bytes=0)
    >>> judge(bytes.fromhex("5052 0510000000000000 0100 a4 5045 0200"))
    Judged(verdict=<Verdict.BAD_PATCH: 9>, acceptable=1, offset=13, runs=0, bytes=0)
    """
    string = read("patch", patch)
    answer = Answers()
    verdict = VERDICTS[library.starshackle_judge(string[0], string[1], answer)]
    return Judged(verdict, *answer[:4])


_ENTRY_NUMBERS, _NOT_WRITTEN = 3, 256
_List = ctypes.c_uint64 * (_ENTRY_NUMBERS * MOST_DIFFERENCES)


def compare(first: Buffer, second: Buffer) -> Compared:
    """Each address where two patches differ, by ascending address, and the byte that each writes there. Answers `Compared`.

    The model is lent a list with room for every difference, so that NO_ROOM is never answered. `judge` tells where a string that is no
    patch stops being one.

    >>> first = bytes.fromhex("5052 0510000000000000 0200 a4a5 5045 0100")
    >>> second = bytes.fromhex("5052 0510000000000000 0100 a7 5045 0100")
    >>> for difference in compare(first, second).differences:
    ...     print(difference)
    Difference(address=4101, first=164, second=167)
    Difference(address=4102, first=165, second=None)
    >>> compare(first, first)
    Compared(verdict=<Verdict.DONE: 0>, string=None, differences=[])
    >>> compare(first, second[:-1])
    Compared(verdict=<Verdict.BAD_PATCH: 9>, string=1, differences=None)
    """
    one, other = read("first", first), read("second", second)
    entries, answer = _List(), Answers()
    verdict = VERDICTS[library.starshackle_compare(one[0], one[1], other[0], other[1], ctypes.addressof(entries), len(entries), answer)]
    if not verdict:
        return Compared(verdict, answer[0], None)
    numbers = iter(entries[:_ENTRY_NUMBERS * answer[2]])
    sides = ((address, *(None if side == _NOT_WRITTEN else side for side in both)) for address, *both in zip(numbers, numbers, numbers))
    return Compared(verdict, None, [Difference(*difference) for difference in sides])
