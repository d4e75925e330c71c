"""Running a store and making its patch."""

from dataclasses import dataclass

from ._arguments import Buffer, apart, changed, instance, integer, place
from ._library import StoreAnswers, library
from .machine import Machine
from .verdicts import VERDICTS, Answer

LARGEST_STORE_PATCH = 6660
"""No store's patch is longer: a buffer for `store` with room for all.

With 1,040 bytes, which classes 1 to 24 need at most, a store of classes 25 to 36 that leaves gaps may get NO_ROOM.
"""


@dataclass(frozen=True)
class Stored(Answer):
    """What a store has written.

    DONE: elements that were active, bytes that they moved, the patch's length, and steps: how many active elements don't start where
    the active one before them, the next lower in number, ends; the first has none before it and counts. FAULT: the lowest active
    element with a byte outside the window, and the address, modulo 2**64, of the first of its bytes, in its own byte order, that
    isn't in the window: the element's first address, or else the one behind the window. OVERLAP: the lowest active element that
    shares a byte with a lower active element, and its first address. What a verdict doesn't have is 0.
    """

    element: int
    address: int
    elements: int
    bytes: int
    length: int
    steps: int


def store(machine: Machine, base: int, memory: Buffer, word: int, patch: Buffer) -> Stored:
    """Runs the store that a word names over the window of `memory`, whose first byte has the address `base`, and makes its patch.
    Answers `Stored`.

    memory and patch are buffers that share no byte, changed in place when the verdict is DONE, and else not at all. All active elements
    go to memory, lowest first. The patch is the first bytes of patch, as many as the answer's length; bytes behind it are as they came.

    With `Flags.STRICT` a store of which two active elements share a byte is refused with OVERLAP; the flag changes no other answer.

    Answer and patch don't depend on what memory holds, and applying the patch there leaves what the store leaves. Who wants only
    the patch lends a scratch window, with anything in it; who wants only the memory a scratch `bytearray(LARGEST_STORE_PATCH)`.

    >>> from starshackle import Flags
    >>> machine = Machine(flags=Flags.SME2 | Flags.STREAMING)  # st1d { z0.d, z8.d }, pn8, [x0]
    >>> machine.z[0:16], machine.z[128:144] = b"0123456789abcdef", b"ghijklmnopqrstuv"
    >>> machine.p[16:18] = b"\\x38\\x00"  # the first three elements of 64 bits
    >>> memory, patch = bytearray(b"." * 28), bytearray(b"." * 42)
    >>> store(machine, 0, memory, 0xA1606000, patch)
    Stored(verdict=<Verdict.DONE: 0>, element=0, address=0, elements=3, bytes=24, length=40, steps=1)
    >>> memory
    bytearray(b'0123456789abcdefghijklmn....')
    >>> patch[12:]
    bytearray(b'0123456789abcdefghijklmnPE\\x01\\x00..')
    >>> store(machine, 0, bytearray(20), 0xA1606000, patch)
    Stored(verdict=<Verdict.FAULT: 7>, element=2, address=20, elements=0, bytes=0, length=0, steps=0)
    >>> store(machine, 0, memory, 0xA1606000, bytearray(39)).verdict
    <Verdict.NO_ROOM: 8>
    """
    base, word = integer("base", base, 64), integer("word", word, 32)
    arguments, places, _ = instance("machine", machine, Machine)._lend()
    window, string = changed("memory", memory), changed("patch", patch)
    apart("memory", window, (*places, place("patch", string)))
    apart("patch", string, places)
    answer = StoreAnswers()
    verdict = VERDICTS[library.starshackle_store(*arguments, base, window[0], window[1], word, string[0], string[1], answer)]
    return Stored(verdict, *answer[:])
