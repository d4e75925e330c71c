"""One element of a store."""

from dataclasses import dataclass

from ._arguments import instance, integer
from ._library import Answers, library
from .machine import Machine
from .verdicts import VERDICTS, Answer


@dataclass(frozen=True)
class Element(Answer):
    """What one element of a store is.

    DONE: whether it is active, its first address, the index of its first byte in z, how many bytes it writes, and how many elements
    the store has, active or not. Past the last element all but that number is 0, as all is in a refusal.
    """

    active: bool
    address: int
    index: int
    bytes: int
    elements: int


def element(machine: Machine, word: int, number: int) -> Element:
    """What the element with this number of the word's store is. No window is looked at, and of the flags only streaming, with the
    edition, for LENGTH, which a strided word gets at every vb that is none of LENGTHS. Answers `Element`.

    >>> element(Machine(), 0xA1606000, 3)
    Element(verdict=<Verdict.DONE: 0>, active=False, address=24, index=136, bytes=8, elements=4)
    >>> element(Machine(), 0xA1606000, 4)
    Element(verdict=<Verdict.DONE: 0>, active=False, address=0, index=0, bytes=0, elements=4)
    """
    arguments, _, _ = instance("machine", machine, Machine)._lend()
    word, number = integer("word", word, 32), integer("number", number, 64)
    answer = Answers()
    verdict = VERDICTS[library.starshackle_element(*arguments, word, number, answer)]
    active, *others = answer[:]
    return Element(verdict, active == 1, *others)
