"""What a notebook shows of a store: its elements, and the window with each byte in the colour of the element that wrote it.

The verdict, and what each element is, are the model's. The rest explains them, and is no part of what is proved.
"""

from dataclasses import dataclass
from typing import List, Optional, Tuple

from ._arguments import Buffer
from .elements import Element, element
from .machine import Machine
from .storing import LARGEST_STORE_PATCH, Stored, store
from .verdicts import Verdict
from .words import Store, decode

_LINE = 16  # bytes in a line of the window
_LINES = 16  # up to so many lines all are shown
_ROWS = 256  # of elements


@dataclass(frozen=True)
class Picture:
    """A store that was run over a copy of its window's memory.

    elements are all of the store's, active or not, and values their bytes. memory is what the store left. writers has for each byte of
    it the number of the element that wrote it last, or None.
    """

    stored: Stored
    word: int
    store: Optional[Store]
    elements: Tuple[Element, ...]
    values: Tuple[bytes, ...]
    base: int
    memory: bytes
    writers: Tuple[Optional[int], ...]
    length_rule: str

    def outside(self, number: int) -> bool:
        """Whether an element is active and has a byte outside the window."""
        one = self.elements[number]
        return one.active and not 0 <= one.address - self.base <= len(self.memory) - one.bytes

    def _repr_html_(self) -> str:
        parts = [self._verdict(), self._word(), self._table(), self._window()]
        note = "Verdict and elements are the model's answers. Marks and colours are derived from them, and are not proved."
        return f'<div style="font-family: monospace">{"".join(parts)}<p><small>{note}</small></p></div>'

    def _verdict(self) -> str:
        stored = self.stored
        if stored.verdict is Verdict.DONE:
            told = f": active elements {stored.elements}, bytes moved {stored.bytes}, steps {stored.steps}, patch of {stored.length} bytes"
        elif stored.verdict in (Verdict.FAULT, Verdict.OVERLAP):
            told = f": element {stored.element}, address {_address(stored.address)}"
        else:
            told = f": {self.length_rule}" if stored.verdict is Verdict.LENGTH else ""
        return f"<p><b>{stored.verdict}</b> (verdict {stored.verdict:d}){told}</p>"

    def _word(self) -> str:
        if self.store is None:
            return f"<p>{self.word:08X}: no class</p>"
        names = ["class_", "index", "extension", "predicate", "base", "register", "multiple"]
        fields = ", ".join(f"{name.rstrip('_')} {getattr(self.store, name)}" for name in names)
        return f"<p>{self.word:08X}: {fields}</p>"

    def _state(self, number: int) -> str:
        if not self.elements[number].active:
            return "inactive"
        if self.stored.verdict is Verdict.FAULT and self.outside(number):
            return "active, fault"
        if self.stored.verdict is Verdict.OVERLAP and number == self.stored.element:
            return "active, overlap"
        return "active"

    def _table(self) -> str:
        if not self.elements:
            return ""
        rows = ["<tr><th>element</th><th>state</th><th>address</th><th>bytes</th></tr>"]
        for number, (one, value) in enumerate(zip(self.elements[:_ROWS], self.values)):
            cells = [str(number), self._state(number), _address(one.address), value.hex(" ").upper()]
            style = f' style="{_colour(number)}"' if one.active else ""
            rows.append(f"<tr{style}>" + "".join(f"<td>{cell}</td>" for cell in cells) + "</tr>")
        if len(self.elements) > _ROWS:
            rows.append(f'<tr><td colspan="4">.. {len(self.elements) - _ROWS} more</td></tr>')
        return f"<table>{''.join(rows)}</table>"

    def _window(self) -> str:
        if self.stored.verdict not in (Verdict.DONE, Verdict.FAULT, Verdict.OVERLAP):
            return ""
        starts = range(0, len(self.memory), _LINE)
        written = [any(writer is not None for writer in self.writers[start:start + _LINE]) for start in starts]
        shown = [len(starts) <= _LINES or any(written[max(line - 1, 0):line + 2]) for line in range(len(starts))]
        lines, hidden = [f"window at {_address(self.base)}, length {len(self.memory)}"], 0
        for start, is_shown in zip([*starts, None], [*shown, True]):
            if not is_shown:
                hidden += 1
                continue
            if hidden:
                lines.append(f"  .. {hidden} line{'s' * (hidden > 1)} with no written byte")
                hidden = 0
            if start is not None:
                line = range(start, min(start + _LINE, len(self.memory)))
                lines.append(f"  {_address(self.base + start)} {' '.join(map(self._byte, line))}")
        return "<pre>" + "\n".join(lines) + "</pre>"

    def _byte(self, index: int) -> str:
        writer = self.writers[index]
        digits = f"{self.memory[index]:02X}"
        return digits if writer is None else f'<span style="{_colour(writer)}" title="element {writer}">{digits}</span>'


def _address(address: int) -> str:
    return f"0x{address % 2**64:016X}"


def _colour(number: int) -> str:
    """Neighbours differ much, and black can be read on each."""
    return f"background: hsl({number * 137 % 360}, 75%, 80%); color: black"


def picture(machine: Machine, base: int, memory: Buffer, word: int) -> Picture:
    """What a store does, for a notebook to show. It is run over a copy of memory, which stays as it is.

    >>> machine = Machine(flags=2 | 8, z=bytes(range(256)) * 2)  # st1d { z0.d, z8.d }, pn8, [x0]
    >>> machine.p[16:18] = b"\\x38\\x00"
    >>> shown = picture(machine, 0, bytes(28), 0xA1606000)
    >>> shown.memory.hex(), shown.writers[0], shown.writers[23], shown.writers[24]
    ('000102030405060708090a0b0c0d0e0f808182838485868700000000', 0, 2, None)
    """
    after = bytearray(bytes(memoryview(memory)))
    stored = store(machine, base, after, word, bytearray(LARGEST_STORE_PATCH))
    registers = bytes(memoryview(machine.z))
    elements = [element(machine, word, number) for number in range(element(machine, word, 0).elements)]
    writers: List[Optional[int]] = [None] * len(after)
    for number, one in enumerate(elements):
        if stored and one.active:
            writers[one.address - base:one.address - base + one.bytes] = [number] * one.bytes
    values = tuple(registers[one.index:one.index + one.bytes] for one in elements)
    return Picture(stored, word, decode(word).store, tuple(elements), values, base, bytes(after), tuple(writers), machine.length_rule())
