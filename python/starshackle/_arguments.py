"""Arguments as the library takes them, or an error that names the argument."""

import array
import ctypes
import mmap
import operator
from ctypes import addressof
from typing import Any, Iterable, Tuple, Type, Union

# What Python lends bytes of. Others that have its buffer protocol are taken too; Python has a name for all of them from 3.12 on.
Buffer = Union[bytes, bytearray, memoryview, array.array, mmap.mmap, ctypes.Array]

from_buffer = ctypes.c_char.from_buffer


def integer(name: str, value: Any, bits: int, signed: bool = False) -> int:
    """The number, which fits so many bits."""
    if type(value) is int and not signed and 0 <= value < 1 << bits:
        return value
    try:
        checked = operator.index(value)
    except TypeError:
        raise TypeError(f"{name} must be an integer, not {type(value).__name__}") from None
    least, most = (-1 << bits - 1, (1 << bits - 1) - 1) if signed else (0, (1 << bits) - 1)
    if not least <= checked <= most:
        found = f"{checked:#x}" if checked.bit_length() <= 128 else f"a number of {checked.bit_length()} bits"
        raise ValueError(f"{name} must be from {least:#x} to {most:#x}, not {found}")
    return checked


def instance(name: str, value: Any, kind: Type) -> Any:
    if not isinstance(value, kind):
        raise TypeError(f"{name} must be a {kind.__name__}, not {type(value).__name__}")
    return value


# A buffer as the library takes it: pointer, length, and what keeps the buffer from being resized, so that the pointer stays right.
# Plain tuples, since each call makes some.
Lent = Tuple[Union[int, bytes, None], int, Any]

# A buffer by name, with its first address and the one behind its last; 0 and 0 where it is of bytes, which nothing changes.
Place = Tuple[str, int, int]


def _view(name: str, value: Buffer, kind: str) -> memoryview:
    try:
        view = memoryview(value)
    except TypeError:
        raise TypeError(f"{name} must be a {kind}, not {type(value).__name__}") from None
    except ValueError as error:  # closed or released
        raise ValueError(f"{name}: {error}") from None
    if not view.c_contiguous:
        raise ValueError(f"{name} must be contiguous, and this {type(value).__name__} has gaps between its bytes")
    return view


def _writable(value: Buffer, length: int) -> Lent:
    if not length:
        return None, 0, memoryview(value)
    owner = from_buffer(value)
    return addressof(owner), length, owner


def read(name: str, value: Buffer) -> Lent:
    """A buffer that a call only reads. One that is read-only and not of bytes is copied, and then the pointer is other bytes."""
    if type(value) is bytes:
        return value, len(value), value
    if type(value) is bytearray:
        return _writable(value, len(value))
    view = _view(name, value, "buffer of bytes")
    if view.readonly:
        copy = view.tobytes()
        return copy, len(copy), copy
    return _writable(value, view.nbytes)


def changed(name: str, value: Buffer) -> Lent:
    """A buffer that a call changes."""
    if type(value) is bytearray:
        return _writable(value, len(value))
    view = _view(name, value, "buffer that can be changed in place")
    if view.readonly:
        raise TypeError(f"{name} must be a buffer that can be changed in place, and this {type(value).__name__} is read-only")
    return _writable(value, view.nbytes)


def place(name: str, lent: Lent) -> Place:
    pointer, length, _ = lent
    return (name, pointer, pointer + length) if isinstance(pointer, int) else (name, 0, 0)


def apart(name: str, lent: Lent, others: Iterable[Place]) -> None:
    """Refuses a buffer that a call changes and that shares a byte with another."""
    start, length, _ = lent
    if not length:
        return
    end = start + length
    for other, first, behind in others:
        if start < behind and first < end:
            raise ValueError(f"{name} and {other} must not share a byte")
