"""Reading a file that describes a store, as the command line takes it: `starshackle run --help` says how one is written."""

import os
import re
from dataclasses import dataclass
from typing import Callable, Dict, Iterator, List, Optional, Tuple, TypeVar, Union

from . import _assembly, _floats, _gdb
from .machine import Edition, Flags, Machine
from .patches import LARGEST_WINDOW
from .pictures import Picture, picture
from .storing import LARGEST_STORE_PATCH, Stored, store
from .verdicts import Verdict
from .words import Extension, Store, encode

T = TypeVar("T")

_LONGEST = 16 << 20
_WIDTHS = {"b": 1, "h": 2, "s": 4, "d": 8, "q": 16}
_FLAGS = {flag.name.lower().replace("_", "-"): flag for flag in Flags.__members__.values()}
_EDITIONS = {"early": Edition.EARLY, "late": Edition.LATE}
_EXTENSIONS = {"none": Extension.NONE, "uxtw": Extension.UXTW, "sxtw": Extension.SXTW}
# The fields by name, each with the entry of `Store` that it gives.
_FIELDS = {"class": "class_", "zm": "index", "rm": "index", "extension": "extension", "pg": "predicate", "pc": "predicate", "rn": "base",
           "zn": "base", "zt": "register", "first": "register", "multiple": "multiple"}
_STRIDED = {8, 9, 10, 11, *range(25, 37)}
_PLAIN = ["word", "vb", "flags", "edition", "window", "length", "memory"]
_NAMES = ("word, a field as `starshackle encode` takes it, vb, flags, edition, x0 to x30, sp, z0 to z31, p0 to p15, window, length or "
          "memory")
_NUMBER = "an unsigned number of 64 bits, decimal or 0x hexadecimal"


@dataclass
class Described:
    """A store with all that it works on. In a notebook it shows what the store does.

    word is None where the given fields have none. length is the window's; of one that is too long, memory has only as much as the model
    has to see to refuse it.
    """

    machine: Machine
    base: int
    memory: bytearray
    word: Optional[int]
    length: int

    def run(self, patch: Optional[bytearray] = None) -> Stored:
        """Runs the store over `memory`, and puts its patch into the buffer, if one is given."""
        if self.word is None:
            return Stored(Verdict.FIELDS, 0, 0, 0, 0, 0, 0)
        return store(self.machine, self.base, self.memory, self.word, bytearray(LARGEST_STORE_PATCH) if patch is None else patch)

    def picture(self) -> Picture:
        """What the store does to a copy of `memory`. Fields that have no word raise a ValueError."""
        if self.word is None:
            raise ValueError("no word has these fields")
        return picture(self.machine, self.base, self.memory, self.word)

    def _repr_html_(self) -> str:
        return "<p><b>FIELDS</b> (verdict 11)</p>" if self.word is None else self.picture()._repr_html_()


class _Line:
    """A line with something in it: its place, what it is about, width and kind behind a register's name, and its value."""

    def __init__(self, path: str, number: int, text: str) -> None:
        self.path, self.number = path, number
        parts = _parts(text)
        if parts is None:
            raise self.problem(f"{_shown(text)}; expected NAME = VALUE")
        name, self.value = parts
        known = _name(name.lower())
        if known is None:
            raise self.problem(f"unknown name {_shown(name)}; expected {_NAMES}")
        self.subject, self.width, self.kind = known

    @property
    def name(self) -> str:
        return ".".join(part for part in (self.subject, self.width, self.kind) if part is not None)

    def problem(self, message: str) -> ValueError:
        return ValueError(f"{self.path}:{self.number}: {message}")

    def unexpected(self, found: str, expected: str) -> ValueError:
        return self.problem(f"{self.name} {found}; expected {expected}")

    def read(self, reader: Callable[[str], Optional[T]], expected: str, text: Optional[str] = None) -> T:
        """A value through a reader, which has None for what it doesn't take."""
        text = self.value if text is None else text
        value = reader(text)
        if value is None:
            raise self.unexpected(f"is {_shown(text)}", expected)
        return value

    def finish(self, texts: Iterator[str]) -> None:
        """Adds the lines up to the brace that closes the value's first one."""
        braces = _gdb.open_braces(self.value) if self.value.startswith("{") else 0
        parts = [self.value]
        while braces > 0:
            text = next(texts, None)
            if text is None:
                raise self.unexpected("has no closing brace", "} behind its values")
            parts.append(text.strip())
            braces += _gdb.open_braces(text)
        self.value = " ".join(parts)

    def repeats(self, other: "_Line") -> bool:
        """Whether both are about the same thing."""
        entry, other_entry = _FIELDS.get(self.subject), _FIELDS.get(other.subject)
        if entry is None or other_entry is None:
            return self.subject == other.subject or "word" in (self.subject, other.subject) and bool(entry or other_entry)
        return entry == other_entry


def _parts(text: str) -> Optional[Tuple[str, str]]:
    """Name and value. Between those that gdb prints there is no =, and it prints a general register's value twice."""
    end = re.search("[={]", text)
    if end:
        return text[:end.start()].strip(), text[end.end() if end.group() == "=" else end.start():].strip()
    name, *values = text.split()
    return (name, " ".join(values)) if len(values) == 2 and re.fullmatch("[xX][0-9]+|[sS][pP]", name) else None


def _shown(text: str) -> str:
    """A text as messages show it: quoted, not too long, and with no letter that a terminal obeys."""
    return ascii(text[:40] + ".." * (len(text) > 40))


def _name(name: str) -> Optional[Tuple[str, Optional[str], Optional[str]]]:
    """What a line with this name is about, its width and its kind."""
    if name in _PLAIN or name in _FIELDS or name == "sp":
        return name, None, None
    name, point, behind = name.partition(".")
    width, second_point, kind = behind.partition(".")
    if second_point and (not name.startswith("z") or width not in _WIDTHS or not _gdb.kind_of(kind, width)):
        return None
    letter, digits = name.rstrip("0123456789"), name[len(name.rstrip("0123456789")):]
    if not digits or digits != str(int(digits[:3])):
        return None
    number = int(digits)
    if letter == "x" and number <= 30 and not point:
        return name, None, None
    if not point or width in _WIDTHS:
        if letter == "z" and number <= 31 or letter == "p" and number <= 15 or letter == "pn" and 8 <= number <= 15:
            return f"{letter[0]}{number}", width or None, kind or None
    return None


# ---- numbers: None for what is none

def _digits(text: str, base: int) -> Optional[int]:
    plain = "0123456789abcdefABCDEF"[:10 if base == 10 else None]
    if not text or any(digit not in plain for digit in text) or len(text.lstrip("0")) > 64:  # more has no place anywhere
        return None
    return int(text, base)


def _wide(text: str) -> Optional[int]:
    return _digits(text[2:], 16) if text[:2] in ("0x", "0X") else _digits(text, 10)


def _number(text: str) -> Optional[int]:
    number = _wide(text)
    return number if number is not None and number < 1 << 64 else None


def _of_bits(text: str, bits: int) -> Optional[int]:
    """A number of some bits that may have a minus, then in two's complement."""
    number = _wide(text[1:] if text.startswith("-") else text)
    if number is None or number > (1 << bits - 1 if text.startswith("-") else (1 << bits) - 1):
        return None
    return -number % (1 << bits) if text.startswith("-") else number


def _signed(text: str) -> Optional[int]:
    number = _number(text[1:] if text[:1] in ("-", "+") else text)
    if number is None:
        return None
    number = -number if text.startswith("-") else number
    return number if -1 << 63 <= number < 1 << 63 else None


def _word(text: str) -> Optional[int]:
    """A number, or eight hexadecimal digits with a letter among them."""
    number = _number(text)
    number = _digits(text, 16) if number is None and len(text) == 8 else number
    return number if number is not None and number < 1 << 32 else None


def _general(text: str) -> Optional[int]:
    """A number, or, as gdb prints it, the same number twice."""
    numbers = [_of_bits(one, 64) for one in text.split()]
    return numbers[0] if len(numbers) in (1, 2) and len(set(numbers)) == 1 else None


def _given_word(line: _Line) -> int:
    """A word by its number or its assembly text, which starts as no number does."""
    if line.value[:2].lower() != "st":
        return line.read(_word, "a word of 32 bits, such as 0xA16F6000, or assembly text")
    word, misread = _assembly.word(line.value)
    if word is None:
        raise line.problem(f"word has {misread}")
    return word


# ---- values of registers and memory

def _items(text: str) -> Tuple[List[str], bool]:
    """What spaces part, and whether the last of it is repeated."""
    items = text.split()
    return (items[:-1], True) if items[-1:] == ["..."] else (items, False)


def _filled(values: List[T], goes_on: bool, count: int) -> Optional[List[T]]:
    if goes_on and values and len(values) < count:
        values = values + [values[-1]] * (count - len(values))
    return values if len(values) == count else None


def _count(number: int, thing: str) -> str:
    return f"{number} {thing}" + "s" * (number != 1)


def _row(line: _Line, reader: Callable[[str], Optional[T]], count: int, expected: str) -> List[T]:
    texts, goes_on = _items(line.value)
    values = [line.read(reader, expected, text) for text in texts]
    filled = _filled(values, goes_on, count)
    if filled is None:
        raise line.unexpected(f"has {_count(len(values), 'value')}", expected)
    return filled


def _bytes(text: str) -> Optional[Tuple[List[int], bool]]:
    """Bytes in hexadecimal, two digits each, with or without spaces between them."""
    texts, goes_on = _items(text)
    values: List[int] = []
    for item in texts:
        pairs = [_digits(item[k:k + 2], 16) if len(item[k:k + 2]) == 2 else None for k in range(0, len(item), 2)]
        if None in pairs:
            return None
        values += pairs
    return values, goes_on


def _whole(line: _Line, length: int) -> bytes:
    """A whole register: bytes, or a number."""
    expected = f"{length} bytes in hexadecimal, or 0x and a number of {8 * length} bits"
    if line.value.startswith("{"):
        return bytes(_gdb.plain(line, lambda text: _of_bits(text, 8), length, expected))
    if line.value[:2] in ("0x", "0X"):
        digits = line.value[2:]
        if not digits or any(digit not in "0123456789abcdefABCDEF" for digit in digits) or int(digits, 16) >> 8 * length:
            raise line.unexpected(f"is {_shown(line.value)}", expected)
        return int(digits, 16).to_bytes(length, "little")
    values, goes_on = line.read(_bytes, expected)
    filled = _filled(values, goes_on, length)
    if filled is None:
        raise line.unexpected(f"has {_count(len(values), 'byte')}", expected)
    return bytes(filled)


def _element(text: str, size: int, kind: Optional[str]) -> Optional[int]:
    """An element. Where its kind isn't given it is how it is written."""
    if kind == "f" and text[:2] not in ("0x", "0X"):
        return _floats.of_bits(text, size, integers=True)
    number = _of_bits(text, 8 * size)
    return _floats.of_bits(text, size) if number is None and kind is None else number


def _vector(line: _Line, length: int) -> bytes:
    if line.value.startswith("{"):
        return _gdb.vector(line, length, _element)
    if line.width is None:
        return _whole(line, length)
    size = _WIDTHS[line.width]
    floating = ", or floating-point" * (2 <= size <= 8)
    expected = f"{_count(length // size, 'number')} of {8 * size} bits, decimal or 0x hexadecimal{floating}, with spaces between them"
    numbers = _row(line, lambda text: _element(text, size, line.kind), length // size, expected)
    return b"".join(number.to_bytes(size, "little") for number in numbers)


def _predicate(line: _Line, length: int) -> bytes:
    """A bit is that of an element's first byte."""
    if line.width is None:
        return _whole(line, length)
    size = _WIDTHS[line.width]
    expected = f"{_count(8 * length // size, 'bit')}, each 0 or 1, with spaces between them"
    read = _gdb.plain if line.value.startswith("{") else _row
    bits = read(line, {"0": 0, "1": 1}.get, 8 * length // size, expected)
    return sum(bit << k * size for k, bit in enumerate(bits)).to_bytes(length, "little")


def _contents(line: _Line, folder: str, length: Optional[int]) -> bytearray:
    """The bytes of a file that a line names, as many as a line about the length says, if there is one."""
    name = line.value[1:]
    shown = f"is {_shown(line.value)}"
    if name in ("", "-"):
        raise line.unexpected(shown, "@ and the name of a file")
    try:
        with open(os.path.join(folder, name), "rb") as file:
            content = file.read(LARGEST_WINDOW + 1)
    except OSError as error:
        raise line.unexpected(f"{shown}: {error.strerror}", "a file of bytes") from error
    if len(content) > LARGEST_WINDOW:
        raise line.unexpected(f"{shown}, which has more than {LARGEST_WINDOW} bytes", "no more than a window has")
    if length is not None and len(content) != length:
        raise line.unexpected(f"{shown}, which has {_count(len(content), 'byte')}", f"{length} as length says")
    return bytearray(content)


def _memory(line: _Line, length: Optional[int]) -> bytearray:
    values, goes_on = line.read(_bytes, "bytes in hexadecimal")
    if length is None:
        if goes_on:
            raise line.unexpected("is repeated", "a line length = N too")
        return bytearray(values)
    if goes_on and 0 < len(values) < length:
        return bytearray(_filled(values, True, min(length, max(LARGEST_WINDOW + 1, len(values)))))
    if len(values) != length:
        expected = f"{length} as length says, or ... behind the last to repeat it"
        raise line.unexpected(f"has {_count(len(values), 'byte')}", expected)
    return bytearray(values)


# ---- the parts of a store

def _class_has(class_: int, name: str) -> Optional[str]:
    """The name that a class has for the entry of a field, where it is another one."""
    strided, quadword = class_ in _STRIDED, class_ == 12
    names = {"index": "rm" if strided or quadword else "zm", "predicate": "pc" if strided else "pg", "base": "zn" if quadword else "rn",
             "register": "first" if strided else "zt"}
    if strided and (class_ - 8 if class_ < 12 else class_ - 25) % 4 >= 2:
        del names["index"]  # the immediate ones
    right = names.get(_FIELDS[name], name)
    return right if 1 <= class_ <= 36 and right != name else None


def _encoded(lines: List[_Line]) -> Optional[int]:
    """The word of the given fields."""
    entries: Dict[str, int] = {"class_": 0}
    for line in lines:
        if line.subject == "extension":
            entries["extension"] = line.read(lambda text: _EXTENSIONS.get(text.lower()), "none, uxtw or sxtw")
        elif line.subject == "multiple":
            entries["multiple"] = line.read(_signed, "a number of 64 bits with its sign, decimal or 0x hexadecimal")
        else:
            entries[_FIELDS[line.subject]] = line.read(_number, _NUMBER)
    for line in lines:
        right = _class_has(entries["class_"], line.subject)
        if right is not None:
            raise line.problem(f"class {entries['class_']} has no {line.subject}; expected {right}")
    return encode(Store(**entries)).word


def _flags(line: _Line) -> Flags:
    flags = Flags(0)
    for name in line.value.split():
        flags |= line.read(lambda text: _FLAGS.get(text.lower()), f"names with spaces between them: {', '.join(_FLAGS)}", name)
    return flags


def _machine(lines: Dict[str, _Line]) -> Machine:
    vb = lines["vb"].read(_number, _NUMBER) if "vb" in lines else 0
    flags = _flags(lines["flags"]) if "flags" in lines else Flags(0)
    edition = lines["edition"].read(lambda text: _EDITIONS.get(text.lower()), "early or late") if "edition" in lines else Edition.LATE
    machine = Machine(vb=vb, flags=flags, edition=edition)
    length = vb if vb in machine.lengths else 0
    if not length:  # the model refuses it, and there are no registers
        machine.z, machine.p = bytearray(), bytearray()
    general = "a number of 64 bits, decimal or 0x hexadecimal"
    for subject, line in lines.items():
        number = int(subject[1:]) if subject[1:].isdigit() else -1
        if subject == "sp":
            machine.sp = line.read(_general, general)
        elif subject == f"x{number}":
            machine.x[number] = line.read(_general, general)
        elif subject == f"z{number}" and length:
            machine.z[number * length:(number + 1) * length] = _vector(line, length)
        elif subject == f"p{number}" and length:
            machine.p[number * length // 8:(number + 1) * length // 8] = _predicate(line, length // 8)
    return machine


def _text(path: str) -> str:
    with open(path, "rb") as file:
        content = file.read(_LONGEST + 1)
    if len(content) > _LONGEST:
        raise ValueError(f"{path}: more than 16 MiB; expected a text that describes a store")
    try:
        end = content.find(b"\0")
        content[:end if end >= 0 else None].decode("utf-8")
    except UnicodeDecodeError as error:
        end = error.start
    if end >= 0:
        raise ValueError(f"{path}:{1 + content[:end].count(10)}: bytes that are no text; expected UTF-8")
    return content.decode("utf-8")


def _without_comment(text: str) -> str:
    """A # starts one, except in [ ]."""
    inside = False
    for index, letter in enumerate(text):
        inside = (inside or letter == "[") and letter != "]"
        if letter == "#" and not inside:
            return text[:index]
    return text


def read_store(path: Union[str, "os.PathLike[str]"]) -> Described:
    """The store that a file describes. What is wrong with a file raises a ValueError that names its line.

    >>> import pathlib, tempfile
    >>> with tempfile.TemporaryDirectory() as folder:
    ...     file = pathlib.Path(folder, "some.store")
    ...     _ = file.write_text("word = 0xA1606000\\nvb = 16\\nflags = sme2 streaming\\nz0.d = 1 2\\np8 = 0x18\\nlength = 8")
    ...     described = read_store(file)
    >>> described.run().elements, described.memory.hex()
    (1, '0100000000000000')
    """
    path = os.fspath(path)
    text = _text(path)
    lines: Dict[str, _Line] = {}
    texts = enumerate(map(_without_comment, text.lstrip("\ufeff").split("\n")), 1)
    for number, content in texts:
        if not content.strip():
            continue
        line = _Line(path, number, content.strip())
        line.finish(text for _, text in texts)
        for other in lines.values():
            if line.repeats(other):
                given = f"{line.name} given twice, first" if line.name == other.name else f"{line.name} given beside {other.name}"
                raise line.problem(f"{given} in line {other.number}; expected one")
        lines[line.subject] = line
    fields = [line for line in lines.values() if line.subject in _FIELDS]
    if "word" in lines:
        word = _given_word(lines["word"])
    elif fields:
        word = _encoded(fields)
    else:
        last = max(text.count("\n") + (not text.endswith("\n")), 1)
        raise ValueError(f"{path}:{last}: the end, and no word; expected a line word = WORD, or class = N and other fields")
    machine = _machine(lines)
    base = lines["window"].read(_number, _NUMBER) if "window" in lines else 0
    length = lines["length"].read(_number, _NUMBER) if "length" in lines else None
    if "memory" in lines and lines["memory"].value.startswith("@"):
        memory = _contents(lines["memory"], os.path.dirname(path), length)
    elif "memory" in lines:
        memory = _memory(lines["memory"], length)
    else:
        memory = bytearray(min(length or 0, LARGEST_WINDOW + 1))
    return Described(machine, base, memory, word, len(memory) if length is None else length)
