"""Reading assembly text: the word whose text it is. Which registers and immediates there are is asked of the model, by encoding."""

from dataclasses import replace
from typing import List, Optional, Tuple

from .words import Extension, Store, decode, encode

# A line for each class, in order: its syntax as Arm's pages give it, in lower case.
SYNTAX = [
    "st1d { <Zt>.d }, <Pg>, [<Xn|SP>, <Zm>.d, <mod> #3]",
    "st1d { <Zt>.d }, <Pg>, [<Xn|SP>, <Zm>.d, <mod>]",
    "st1d { <Zt>.d }, <Pg>, [<Xn|SP>, <Zm>.d, lsl #3]",
    "st1d { <Zt>.d }, <Pg>, [<Xn|SP>, <Zm>.d]",
    "st1b { <Zt>.d }, <Pg>, [<Xn|SP>, <Zm>.d, <mod>]",
    "st1b { <Zt>.s }, <Pg>, [<Xn|SP>, <Zm>.s, <mod>]",
    "st1b { <Zt>.d }, <Pg>, [<Xn|SP>, <Zm>.d]",
    "st1d { <Zt1>.d, <Zt2>.d }, <PNg>, [<Xn|SP>, <Xm>, lsl #3]",
    "st1d { <Zt1>.d, <Zt2>.d, <Zt3>.d, <Zt4>.d }, <PNg>, [<Xn|SP>, <Xm>, lsl #3]",
    "st1d { <Zt1>.d, <Zt2>.d }, <PNg>, [<Xn|SP>{, #<imm>, mul vl}]",
    "st1d { <Zt1>.d, <Zt2>.d, <Zt3>.d, <Zt4>.d }, <PNg>, [<Xn|SP>{, #<imm>, mul vl}]",
    "st1q { <Zt>.q }, <Pg>, [<Zn>.d{, <Xm>}]",
    "st1h { <Zt>.d }, <Pg>, [<Xn|SP>, <Zm>.d, <mod> #1]",
    "st1h { <Zt>.d }, <Pg>, [<Xn|SP>, <Zm>.d, <mod>]",
    "st1h { <Zt>.d }, <Pg>, [<Xn|SP>, <Zm>.d, lsl #1]",
    "st1h { <Zt>.d }, <Pg>, [<Xn|SP>, <Zm>.d]",
    "st1h { <Zt>.s }, <Pg>, [<Xn|SP>, <Zm>.s, <mod> #1]",
    "st1h { <Zt>.s }, <Pg>, [<Xn|SP>, <Zm>.s, <mod>]",
    "st1w { <Zt>.d }, <Pg>, [<Xn|SP>, <Zm>.d, <mod> #2]",
    "st1w { <Zt>.d }, <Pg>, [<Xn|SP>, <Zm>.d, <mod>]",
    "st1w { <Zt>.d }, <Pg>, [<Xn|SP>, <Zm>.d, lsl #2]",
    "st1w { <Zt>.d }, <Pg>, [<Xn|SP>, <Zm>.d]",
    "st1w { <Zt>.s }, <Pg>, [<Xn|SP>, <Zm>.s, <mod> #2]",
    "st1w { <Zt>.s }, <Pg>, [<Xn|SP>, <Zm>.s, <mod>]",
    "st1b { <Zt1>.b, <Zt2>.b }, <PNg>, [<Xn|SP>, <Xm>]",
    "st1b { <Zt1>.b, <Zt2>.b, <Zt3>.b, <Zt4>.b }, <PNg>, [<Xn|SP>, <Xm>]",
    "st1b { <Zt1>.b, <Zt2>.b }, <PNg>, [<Xn|SP>{, #<imm>, mul vl}]",
    "st1b { <Zt1>.b, <Zt2>.b, <Zt3>.b, <Zt4>.b }, <PNg>, [<Xn|SP>{, #<imm>, mul vl}]",
    "st1h { <Zt1>.h, <Zt2>.h }, <PNg>, [<Xn|SP>, <Xm>, lsl #1]",
    "st1h { <Zt1>.h, <Zt2>.h, <Zt3>.h, <Zt4>.h }, <PNg>, [<Xn|SP>, <Xm>, lsl #1]",
    "st1h { <Zt1>.h, <Zt2>.h }, <PNg>, [<Xn|SP>{, #<imm>, mul vl}]",
    "st1h { <Zt1>.h, <Zt2>.h, <Zt3>.h, <Zt4>.h }, <PNg>, [<Xn|SP>{, #<imm>, mul vl}]",
    "st1w { <Zt1>.s, <Zt2>.s }, <PNg>, [<Xn|SP>, <Xm>, lsl #2]",
    "st1w { <Zt1>.s, <Zt2>.s, <Zt3>.s, <Zt4>.s }, <PNg>, [<Xn|SP>, <Xm>, lsl #2]",
    "st1w { <Zt1>.s, <Zt2>.s }, <PNg>, [<Xn|SP>{, #<imm>, mul vl}]",
    "st1w { <Zt1>.s, <Zt2>.s, <Zt3>.s, <Zt4>.s }, <PNg>, [<Xn|SP>{, #<imm>, mul vl}]",
]

# What may be in the place of a symbol: the entry of `Store` that it gives, and its values.
_ENTRIES = {"Zt": "register", "Zt1": "register", "Pg": "predicate", "PNg": "predicate", "Xn|SP": "base", "Zn": "base", "Xm": "index",
            "Zm": "index", "imm": "multiple", "mod": "extension"}
_VALUES = {"multiple": range(-64, 64), "extension": (Extension.UXTW, Extension.SXTW)}


def word(text: str) -> Tuple[Optional[int], str]:
    """The word whose text this is; otherwise None, and what isn't understood."""
    given = _tokens("".join(letter.lower() if letter.isascii() else letter for letter in text))
    furthest, expected = -1, []
    for class_, syntax in enumerate(SYNTAX, 1):
        for keeps in (True, False):
            store, place, wanted = _read(class_, _with_option(syntax, keeps), given)
            if store is not None:
                found = encode(store).word
                if given in [_text(decode(found).store, syntax, keeps) for keeps in (True, False)]:
                    return found, ""
                return None, "a text that isn't that of its word"
            if place > furthest:
                furthest, expected = place, []
            if place == furthest and wanted not in expected:
                expected.append(wanted)
    found = ascii(given[furthest][:40]) if furthest < len(given) else "the end"
    return None, f"{found}; expected {' or '.join(expected)}"


def _with_option(syntax: str, keeps: bool) -> str:
    """The syntax with its optional part, `{, ..}`, kept or left away."""
    before, brace, rest = syntax.partition("{,")
    option, _, after = rest.partition("}")
    return syntax if not brace else f"{before},{option}{after}" if keeps else before + after


def _tokens(text: str) -> List[str]:
    """What spaces and marks part. An immediate is # and a decimal number."""
    tokens: List[str] = []
    goes_on = False
    for letter in text:
        if letter.isspace():
            goes_on = goes_on and tokens[-1] == "#"
        elif goes_on and letter not in "{}[],":
            tokens[-1] += letter
        else:
            tokens.append(letter)
            goes_on = letter not in "{}[],"
    return [_immediate(token) or token for token in tokens]


def _immediate(token: str) -> Optional[str]:
    signed = token[1:] if token.startswith("#") else token
    digits = signed[1:] if signed.startswith("-") else signed
    base = 16 if digits.startswith("0x") else 10
    digits = digits[2:] if base == 16 else digits
    if not digits or any(digit not in "0123456789abcdef"[:base] for digit in digits) or len(digits.lstrip("0")) > 40:
        return None
    number = int(digits, base)
    return f"#{-number if signed.startswith('-') else number}" if number < 1 << 63 else None


def _symbol(token: str) -> Optional[Tuple[str, str, str]]:
    before, mark, rest = token.partition("<")
    symbol, _, behind = rest.partition(">")
    return (before, symbol, behind) if mark else None


def _operand(symbol: str, syntax: str, store: Store) -> str:
    """What stands for a symbol."""
    stride = 4 if "<Zt4>" in syntax else 8
    if symbol.startswith("Zt"):
        return f"z{store.register + stride * (int(symbol[2:] or 1) - 1)}"
    if symbol == "mod":
        return str(Extension(store.extension)).lower()
    number = getattr(store, _ENTRIES[symbol])
    if symbol in ("Xn|SP", "Xm"):
        return f"x{number}" if number != 31 else {"Xn|SP": "sp", "Xm": "xzr"}[symbol]
    return {"Pg": f"p{number}", "PNg": f"pn{8 + number}", "imm": str(number)}.get(symbol, f"z{number}")


def _text(store: Optional[Store], syntax: str, keeps: bool) -> List[str]:
    """The tokens of a store's text."""
    tokens = []
    for token in _tokens(_with_option(syntax, keeps)):
        parts = _symbol(token)
        tokens.append(token if parts is None else parts[0] + _operand(parts[1], syntax, store) + parts[2])
    return tokens


def _read(class_: int, syntax: str, given: List[str]) -> Tuple[Optional[Store], int, str]:
    """The store of a class that these tokens name; otherwise None, how many of them are right, and what is expected then."""
    store = Store(class_, index=31 if "<Zn>" in syntax else 0, extension=Extension.UXTW if "<mod>" in syntax else Extension.NONE)
    wanted = _tokens(syntax)
    for place, token in enumerate(wanted):
        found = _take(token, syntax, given[place], store) if place < len(given) else None
        if found is None:
            return None, place, token
        store = found
    return (store, 0, "") if len(given) == len(wanted) else (None, len(wanted), "the end")


def _take(token: str, syntax: str, found: str, store: Store) -> Optional[Store]:
    """The store with what a token says of it, if it says what the syntax wants."""
    parts = _symbol(token)
    if parts is None:
        return store if token == found else None
    before, symbol, behind = parts
    entry = _ENTRIES.get(symbol)
    values = _VALUES.get(entry, range(32)) if entry else [None]
    for value in values:
        candidate = store if value is None else replace(store, **{entry: value})
        if before + _operand(symbol, syntax, candidate) + behind == found and encode(candidate):
            return candidate
    return None
