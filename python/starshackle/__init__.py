"""Arm's predicated vector stores: the proved model, from Python.

The model is the shared object in this folder, which `python/build` makes from the static library. This package gives its numbers
names and refuses arguments that the model can't be lent; what is proved is said of the library.

A machine has zeros where nothing is given. Its registers are bytes in a buffer, little-endian, which can be changed in place. The
whole example of document 01, `st1b { z1.s }, p0, [x0, z2.s, uxtw]`:

>>> import struct
>>> machine = Machine(vb=16, flags=Flags.SVE)
>>> machine.x[0] = 0x1000
>>> machine.z[16:32] = struct.pack("<4I", 0xA1, 0xA2, 0xA3, 0xA4)
>>> machine.z[32:48] = struct.pack("<4I", 0, 1, 1, 5)
>>> machine.p[0:2] = b"\\xff\\xff"
>>> memory, patch = bytearray(8), bytearray(LARGEST_STORE_PATCH)
>>> stored = store(machine, 0x1000, memory, 0xE4428001, patch)
>>> stored
Stored(verdict=<Verdict.DONE: 0>, element=0, address=0, elements=4, bytes=4, length=31, steps=3)
>>> memory.hex(" ")
'a1 a3 00 00 00 a4 00 00'

The patch says the same without the memory:

>>> patch[:stored.length].hex()
'505200100000000000000200a1a3505205100000000000000100a450450200'

Memory and patch are buffers that a call changes in place; every verdict but DONE leaves them as they came. All other buffers are only
read. A buffer is whatever Python lends bytes of: bytes where nothing is changed, a bytearray, a memoryview, an array, an mmap, an array
of ctypes; it has no gaps, and shares no byte with one that is changed. An argument of another type is a TypeError, a number that is out
of range a ValueError; both are raised before the model is called. Whatever passes gets a verdict, and a verdict never raises anything.
An answer is true when its verdict is DONE, so that `if store(...)` asks whether the store was done.

>>> decode("A16F6000")
Traceback (most recent call last):
TypeError: word must be an integer, not str
>>> decode(1 << 32)
Traceback (most recent call last):
ValueError: word must be from 0x0 to 0xffffffff, not 0x100000000

A call holds the interpreter's lock, so that no other thread changes what is lent. That no other process does, which could in an mmap, is
the caller's to see to.
"""

from .elements import Element, element
from .files import Described, read_store
from .machine import EARLY_LENGTHS, LENGTHS, Edition, Flags, Machine, X
from .patches import LARGEST_PATCH, LARGEST_WINDOW, MOST_DIFFERENCES, Applied, Compared, Difference, Judged, apply, compare, judge
from .pictures import Picture, picture
from .storing import LARGEST_STORE_PATCH, Stored, store
from .verdicts import Verdict
from .words import Decoded, Encoded, Extension, Store, decode, encode

__version__ = "0.1.0"

__all__ = [
    "Verdict", "Flags", "Edition", "Extension", "Machine", "X", "Store", "Decoded", "Encoded", "Stored", "Element", "Applied", "Judged",
    "Difference", "Compared", "Described", "Picture",
    "decode", "encode", "store", "element", "apply", "judge", "compare", "read_store", "picture",
    "LENGTHS", "EARLY_LENGTHS", "LARGEST_STORE_PATCH", "LARGEST_PATCH", "LARGEST_WINDOW", "MOST_DIFFERENCES",
]
