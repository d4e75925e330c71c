"""Registers as gdb prints them: values in braces, or several views of one register, which have to agree."""

import re
from typing import Callable, List, Optional, Protocol, Tuple

_DEEPEST = 3  # the register, a width, a kind
_BRACES = "in braces with commas between them, as gdb prints them"
_WIDTHS = {"b": 1, "h": 2, "s": 4, "d": 8, "q": 16}
_NAME = re.compile(r",?\s*([^\W_]+)\s*=")
_REPEATED = re.compile(r"(.*?)<repeats\s*([0-9]+|0[xX][0-9a-fA-F]+)\s*times>", re.DOTALL)
_OCTAL = re.compile(r"-*0[0-9]+")

# A reader of an element: from its text, its size in bytes and its kind (f, u, s or none).
Element = Callable[[str, int, Optional[str]], Optional[int]]


class Line(Protocol):
    """A line of a file, with the width and the kind behind its register's name."""

    value: str
    width: Optional[str]
    kind: Optional[str]

    @property
    def name(self) -> str:
        """What messages call it."""

    def unexpected(self, found: str, expected: str) -> ValueError:
        """What is wrong with the value."""


def open_braces(text: str) -> int:
    """How many braces a text leaves open."""
    return text.count("{") - text.count("}")


def kind_of(name: str, width: str) -> Optional[str]:
    """The kind of a name that elements of a width may be."""
    return name if name in ("u", "s") or name == "f" and width in ("h", "s", "d") else None


def vector(line: Line, length: int, element: Element) -> bytes:
    """The bytes of a Z register."""
    lists = _lists(line.value)
    if lists is None:
        raise line.unexpected("is no such value", f"values {_BRACES}")
    views = [view for path, text in lists for view in _view(line, path, text, length, element)]
    whole = next((view for view in views if len(view[1]) == length), None)
    if whole is None:
        raise line.unexpected("has no view that isn't cut by ...", "`set print elements 0` in gdb")
    for name, content in views:
        if not whole[1].startswith(content):
            raise line.unexpected(f"has views {name} and {whole[0]} that differ", "views of one register")
    return whole[1]


def _view(line: Line, path: List[str], text: str, length: int, element: Element) -> List[Tuple[str, bytes]]:
    """A view with its name, or none where it is passed over: gdb's numbers of 16 bits with an exponent of 8."""
    width, kind = line.width, line.kind
    for name in path:
        if width is None and name in _WIDTHS:
            width = name
        elif width == "h" and name == "bf":
            return []
        elif width is not None and kind is None and kind_of(name, width):
            kind = name
        else:
            raise line.unexpected(f"has a view {ascii(name[:40])}", "q, d, s, h or b, and in them f, u or s")
    size = _WIDTHS[width or "b"]
    numbers = _row(line, text, lambda value: element(value, size, kind), length // size, f"numbers of {8 * size} bits, {_BRACES}")
    return [(".".join(path) or line.name, b"".join(number.to_bytes(size, "little") for number in numbers))]


def plain(line: Line, reader: Callable[[str], Optional[int]], length: int, expected: str) -> List[int]:
    """The values in braces of a line that has no views."""
    lists = _lists(line.value) or []
    if len(lists) != 1 or lists[0][0]:
        raise line.unexpected("is no such value", expected)
    values = _row(line, lists[0][1], reader, length, expected)
    if len(values) < length:
        raise line.unexpected("is cut", "`set print elements 0` in gdb")
    return values


def _lists(text: str) -> Optional[List[Tuple[List[str], str]]]:
    """What is in the innermost braces, each with the names before them."""
    lists: List[Tuple[List[str], str]] = []
    path: List[str] = []
    start, innermost = 0, False
    for brace in re.finditer("[{}]", text):
        before = text[start:brace.start()].strip()
        start = brace.end()
        if brace.group() == "{":
            found = _NAME.fullmatch(before)
            if bool(found) != bool(path) or not path and before:
                return None
            path.append(found.group(1) if found else "")
            innermost = True
        else:
            if not path or not innermost and before:
                return None
            if innermost:
                lists.append((path[1:], before))
            path.pop()
            innermost = False
        if len(path) > _DEEPEST or not path and text[start:].strip():
            return None
    return None if path else lists


def _row(line: Line, text: str, reader: Callable[[str], Optional[int]], length: int, expected: str) -> List[int]:
    """As many values as there have to be, or fewer where gdb has cut them."""
    cut = text.endswith("...")
    values: List[int] = []
    total = 0
    for item in text[:-3 if cut else None].split(","):
        item = item.strip()
        found = _REPEATED.fullmatch(item)
        times = _times(found.group(2)) if found else 1
        value = (found.group(1) if found else item).strip()
        number = None if not times or _OCTAL.fullmatch(value) else reader(value)
        if number is None:
            raise line.unexpected(f"is {ascii(item[:40])}", expected)
        total += times
        values += [number] * min(times, length - len(values))
    if total != length and not (cut and total < length):
        raise line.unexpected(f"has {total} values", expected)
    return values


def _times(digits: str) -> int:
    hexadecimal = digits[:2] in ("0x", "0X")
    digits = digits[2:] if hexadecimal else digits
    number = int(digits, 16 if hexadecimal else 10) if len(digits.lstrip("0")) <= 40 else 0
    return number if number < 1 << 64 else 0
