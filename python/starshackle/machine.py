"""The machine that is lent to the model."""

from dataclasses import dataclass
from enum import IntEnum, IntFlag
from typing import Any, Iterable, NamedTuple, Optional, Tuple, Union

from ._arguments import Buffer, Lent, Place, instance, integer, place, read
from ._enums import Named
from ._library import General

LENGTHS = (16, 32, 64, 128, 256)
"""The lengths that a vector may have, in bytes."""

EARLY_LENGTHS = tuple(range(16, 257, 16))
"""Those that it may have under the early edition with streaming off."""


class Flags(Named, IntFlag):
    """What the machine has, and which state it is in. Other bits mean nothing.

    >>> str(Flags.SVE | Flags.STREAMING)
    'SVE|STREAMING'
    """

    SVE = 1
    SME2 = 2
    SVE2P1 = 4
    STREAMING = 8
    FA64 = 16
    SP_CHECK = 32
    SP_CHECK_NONE_ACTIVE = 64
    STRICT = 128  # a store of which two active elements share a byte is refused

    def __str__(self) -> str:
        known = [flag for flag in Flags.__members__.values() if int(self) & int(flag)]
        names, others = [flag.name for flag in known], int(self) & ~sum(map(int, known))
        return "|".join(names + [hex(others)] * bool(others)) or "0"


class Edition(Named, IntEnum):
    """Which edition of Arm's SVE supplement the machine follows; they differ in the lengths that there are. The number is its bit beside
    the flags, as the library takes it."""

    LATE = 0
    EARLY = 256


class X(General):
    """X0 to X30, kept as the library takes them. Like a list of 31 integers, except that its length stays.

    >>> x = X()
    >>> x[29:31] = 0x1000, 0x2000
    >>> x[30] = 2**64
    Traceback (most recent call last):
    ValueError: x[30] must be from 0x0 to 0xffffffffffffffff, not 0x10000000000000000
    >>> x[28:]
    [0, 4096, 8192]
    """

    def __init__(self, values: Optional[Iterable[int]] = None) -> None:
        super().__init__()
        if values is None:
            return
        if isinstance(values, (str, bytes, bytearray)):
            raise TypeError(f"x must be 31 integers, not {type(values).__name__}")
        try:
            numbers = list(values)
        except TypeError:
            raise TypeError(f"x must be 31 integers, not {type(values).__name__}") from None
        if len(numbers) != 31:
            raise ValueError(f"x must have 31 numbers, X0 to X30, not {len(numbers)}")
        self[:] = numbers

    def __setitem__(self, index: Union[int, slice], value: Any) -> None:
        if not isinstance(index, slice):
            super().__setitem__(index, integer(f"x[{index}]", value, 64))
            return
        places, values = range(31)[index], list(value)
        if len(values) != len(places):
            raise ValueError(f"x has 31 numbers, and {len(places)} of them can't be replaced by {len(values)}")
        checked = [integer(f"x[{place}]", one, 64) for place, one in zip(places, values)]
        for place, one in zip(places, checked):
            super().__setitem__(place, one)

    def __eq__(self, other: Any) -> bool:
        return list(self) == list(other) if isinstance(other, (X, list, tuple)) else NotImplemented

    __hash__ = None  # it can be changed

    def __repr__(self) -> str:
        return f"X({list(self)})"


class Registers(bytearray):
    """The bytes of the Z or the P registers, all zero at first. A machine lends them as they are, so that their length stays.

    >>> machine = Machine(vb=16)
    >>> machine.z[16:32] = b"four"
    Traceback (most recent call last):
    ValueError: a register buffer keeps its length of 512 bytes; this slice takes 16
    """

    def __setitem__(self, index: Union[int, slice], value: Any) -> None:
        try:
            super().__setitem__(index, value)
        except BufferError:
            taken = len(range(len(self))[index])
            raise ValueError(f"a register buffer keeps its length of {len(self)} bytes; this slice takes {taken}") from None


class LentMachine(NamedTuple):
    """A machine as the library takes it: the arguments, where its buffers are, and what keeps them there."""

    arguments: Tuple[Any, ...]
    places: Tuple[Place, ...]
    lent: Tuple[Lent, ...]


@dataclass(init=False)
class Machine:
    """The registers that a store reads, and the machine's flags. What isn't given is zero.

    vb is the vector length in bytes: one of `lengths`, which edition and streaming decide. x has X0 to X30. Z register r starts at byte
    r * vb of z, P register g at byte g * vb // 8 of p; bit i of it is bit i % 8 of its byte i // 8.

    z and p may be any buffers: bytes, a bytearray, a memoryview, an array, an mmap, an array of ctypes. The machine keeps the buffer
    itself and not a copy: a call sees what stands in it by then. As long as it is a machine's, a buffer can't be resized or closed,
    which raises a BufferError or a ValueError at once. x is copied, unless it is the `x` of a machine, which both then have. What
    can't be lent is refused when it is put into the machine.

    The low 16 bits of P register 8 + Pc are the counter of a strided store. Its element size is 8, 16, 32 or 64 bits, as its lowest set
    bit is bit 0, 1, 2 or 3; where none of these is set nothing is active. Its count is the number above that bit, up to bit
    log2(4 * vb), which is bit 6 for 16 bytes and bit 10 for 256; the bits above it up to 14 are ignored. Elements of that size lie one
    behind the other through all registers of the store. An element of the store is active if it starts where one of the first `count`
    of them starts, or, where bit 15 is set, where another of them starts. So a counter of a wider size than the store's elements leaves
    gaps.

    >>> machine = Machine(vb=32)
    >>> len(machine.x), len(machine.z), len(machine.p)
    (31, 1024, 64)
    >>> machine.sp = -1
    Traceback (most recent call last):
    ValueError: sp must be from 0x0 to 0xffffffffffffffff, not -0x1

    Three quadwords in 48 bytes, under the early edition alone:

    >>> from starshackle import element
    >>> element(Machine(vb=48, edition=Edition.EARLY), 0xE4202000, 0).elements
    3
    >>> late = Machine(vb=48)
    >>> element(late, 0xE4202000, 0).verdict
    <Verdict.LENGTH: 1>
    >>> late.length_rule()
    'vb is 48; under the late edition it may be 16, 32, 64, 128 or 256'
    """

    vb: int
    flags: int
    x: X
    sp: int
    z: Buffer
    p: Buffer
    edition: Edition

    def __init__(self, vb: int = 16, flags: int = 0, x: Optional[Iterable[int]] = None, sp: int = 0, z: Optional[Buffer] = None,
                 p: Optional[Buffer] = None, edition: Edition = Edition.LATE) -> None:
        self.vb, self.flags, self.edition = vb, flags, edition
        length = self.vb if self.vb in EARLY_LENGTHS else 0
        self.x, self.sp = X() if x is None else x, sp
        self.z = Registers(32 * length) if z is None else z
        self.p = Registers(2 * length) if p is None else p

    def __setattr__(self, name: str, value: Any) -> None:
        if name in ("vb", "flags", "sp"):
            integer(name, value, 64)
        elif name == "edition":
            instance(name, value, Edition)
        elif name == "x":
            value = value if isinstance(value, X) else X(value)
        elif name in ("z", "p"):
            self.__dict__[f"_{name}"] = read(name, value)  # which keeps the length, before a call too
        self.__dict__[name] = value
        self.__dict__["_kept"] = None

    def __reduce__(self) -> Tuple[Any, ...]:
        """For copies, which have pointers of their own."""
        return Machine, (self.vb, self.flags, self.x, self.sp, self.z, self.p, self.edition)

    def _lend(self) -> LentMachine:
        """The machine as the library takes it, which is kept until something is put into it."""
        if self._kept is not None:
            return self._kept
        x, z, p = read("x", self.x), read("z", self.z), read("p", self.p)
        flags = integer("flags", self.flags, 64) & ~Edition.EARLY | self.edition
        numbers = integer("vb", self.vb, 64), int(flags), self.x, integer("sp", self.sp, 64)
        lent = LentMachine((*numbers, *z[:2], *p[:2]), (place("x", x), place("z", z), place("p", p)), (x, z, p))
        if not any(isinstance(pointer, bytes) and pointer is not buffer for (pointer, _, _), buffer in [(z, self.z), (p, self.p)]):
            self.__dict__["_kept"] = lent  # no copy, which would get old
        return lent

    @property
    def lengths(self) -> Tuple[int, ...]:
        """The lengths that the machine may have. What is said of the rule explains verdict LENGTH and is no part of it."""
        any_multiple = self.edition is Edition.EARLY and not self.flags & Flags.STREAMING
        return EARLY_LENGTHS if any_multiple else LENGTHS

    def length_rule(self) -> str:
        """The rule by which verdict LENGTH is given or not, as a text."""
        if self.lengths is EARLY_LENGTHS:
            return f"vb is {self.vb}; under the early edition it may be any multiple of 16 from 16 to 256"
        cause = "with streaming on, under both editions," if self.edition is Edition.EARLY else "under the late edition"
        return f"vb is {self.vb}; {cause} it may be 16, 32, 64, 128 or 256"
