"""Words and the stores that they name."""

import ctypes
from dataclasses import dataclass
from enum import IntEnum
from typing import Optional

from ._arguments import instance, integer
from ._enums import Named
from ._library import Answers, Fields, library
from .verdicts import VERDICTS, Answer, Verdict


class Extension(Named, IntEnum):
    """How a 32-bit offset becomes a 64-bit one, in classes 1, 2, 5, 6, 13, 14, 17 to 20, 23 and 24."""

    NONE = 0
    UXTW = 1
    SXTW = 2


@dataclass(frozen=True)
class Store:
    """A store as its word names it. A field that the class lacks is 0.

    index is Zm, or Rm in class 12 and the strided classes, 8 to 11 and 25 to 36; predicate is Pg, or the counter's register less 8 in
    these; base is Rn, or Zn in class 12; register is Zt, or the first of the registers in the strided classes; multiple is the
    immediate, in vectors.
    """

    class_: int
    index: int = 0
    extension: int = Extension.NONE
    predicate: int = 0
    base: int = 0
    register: int = 0
    multiple: int = 0


@dataclass(frozen=True)
class Decoded(Answer):
    """What a word is: DONE with its store, or UNDEFINED."""

    store: Optional[Store]


@dataclass(frozen=True)
class Encoded(Answer):
    """The word that names a store: DONE with the word, or FIELDS."""

    word: Optional[int]


def decode(word: int) -> Decoded:
    """What a word is; no flag is looked at. Answers `Decoded`.

    >>> decode(0xA16F6000).store
    Store(class_=10, index=0, extension=<Extension.NONE: 0>, predicate=0, base=0, register=0, multiple=-2)
    >>> decode(0xE4208000)
    Decoded(verdict=<Verdict.UNDEFINED: 4>, store=None)
    """
    fields = Fields()
    verdict = VERDICTS[library.starshackle_decode(integer("word", word, 32), fields)]
    if verdict is not Verdict.DONE:
        return Decoded(verdict, None)
    class_, index, extension, predicate, base, register, multiple, _ = fields
    multiple = ctypes.c_int64(multiple).value
    return Decoded(verdict, Store(class_, index, Extension(extension), predicate, base, register, multiple))


def encode(store: Store) -> Encoded:
    """The word that names a `Store`. Answers `Encoded`.

    >>> hex(encode(Store(10, multiple=-2)).word)
    '0xa16f6000'
    >>> encode(Store(10, multiple=-1))
    Encoded(verdict=<Verdict.FIELDS: 11>, word=None)
    """
    instance("store", store, Store)
    names = ["class_", "index", "extension", "predicate", "base", "register"]
    numbers = [integer(name, getattr(store, name), 64) for name in names]
    multiple = integer("multiple", store.multiple, 64, signed=True) % (1 << 64)
    answer = Answers()
    verdict = VERDICTS[library.starshackle_encode(Fields(*numbers, multiple, 0), answer)]
    return Encoded(verdict, answer[4] if verdict is Verdict.DONE else None)
