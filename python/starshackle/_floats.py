"""Floating-point numbers of 2, 4 and 8 bytes as files have them: rounded to the nearest, of two to the even one."""

import re
from typing import Optional

# For each size the bits of the exponent and of the fraction.
_FORMATS = {2: (5, 10), 4: (8, 23), 8: (11, 52)}
_DECIMAL = re.compile(r"([0-9]*)(\.?)([0-9]*)([eE][-+]?[0-9]+)?")
_FRACTION = re.compile(r"nan\(0x([0-9a-f]+)\)")
_MOST = 800  # no number of 64 bits, and nothing halfway between two, has more significant digits


def of_bits(text: str, size: int, integers: bool = False) -> Optional[int]:
    """The bits of a number that is written as no integer is, unless integers are taken too; None for what is none or too large."""
    if size not in _FORMATS or not integers and not any(letter in text for letter in ".eEnN"):
        return None
    exponent, fraction = _FORMATS[size]
    magnitude = text[1:] if text.startswith("-") else text
    bits = _special(magnitude, exponent, fraction)
    bits = _finite(magnitude, exponent, fraction) if bits is None else bits
    return bits if bits is None or magnitude == text else bits | 1 << exponent + fraction


def _special(text: str, exponent: int, fraction: int) -> Optional[int]:
    text = text.lower() if text.isascii() and len(text) < 100 else ""
    infinity = (1 << exponent) - 1 << fraction
    if text in ("inf", "infinity"):
        return infinity
    if text == "nan":
        return infinity | 1 << fraction - 1
    found = _FRACTION.fullmatch(text)
    number = int(found.group(1), 16) if found else 0
    return infinity | number if 0 < number < 1 << fraction else None


def _finite(text: str, exponent: int, fraction: int) -> Optional[int]:
    found = _DECIMAL.fullmatch(text)
    if not found or not found.group(1) + found.group(3):
        return None
    whole, _, places, power = found.groups()
    digits = (whole + places).lstrip("0")
    power_digits = (power or "")[1:].lstrip("+-").lstrip("0")
    ten = int(power_digits[:13] or "0") * (-1 if (power or "").startswith(("e-", "E-")) else 1) - len(places)
    if len(digits) > _MOST:
        ten += len(digits) - _MOST - 1
        digits = digits[:_MOST] + ("1" if digits[_MOST:].strip("0") else "0")
    if not digits or len(digits) + ten < -400:
        return 0
    if len(digits) + ten > 400:
        return None
    bits = _rounded(int(digits) * 10 ** max(ten, 0), 10 ** max(-ten, 0), exponent, fraction)
    return bits if bits < (1 << exponent) - 1 << fraction else None


def _rounded(above: int, below: int, exponent: int, fraction: int) -> int:
    """The bits of the number that is nearest to a ratio."""
    lowest = 2 - (1 << exponent - 1) - fraction  # the exponent of the smallest number
    unit = max(above.bit_length() - below.bit_length() - fraction - 1, lowest)
    if above << max(-unit, 0) >= below << max(unit, 0) + fraction + 1:
        unit += 1
    scale = below << max(unit, 0)
    kept, rest = divmod(above << max(-unit, 0), scale)
    kept += 2 * rest > scale or 2 * rest == scale and kept % 2 == 1
    # The highest bit of what is kept, if it has all of them, adds 1 to the exponent.
    return (unit - lowest << fraction) + kept
