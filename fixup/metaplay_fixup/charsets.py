"""Strings as characters: bytes by a charset, and UTF-16."""

from __future__ import annotations

from dataclasses import dataclass

from .faults import Fault, FaultName

DEFAULT_CHARSET = 1
SYMBOL_CHARSET = 2
OEM_CHARSET = 255
"""Values of [MS-WMF] 2.1.1.5."""

SYMBOL_BASE = 0xF000
"""Windows has the characters of its symbol fonts at F000 to F0FF."""

_CODE_PAGES = {
    0: "cp1252",
    77: "mac_roman",
    128: "cp932",
    129: "cp949",
    130: "johab",
    134: "cp936",
    136: "cp950",
    161: "cp1253",
    162: "cp1254",
    163: "cp1258",
    177: "cp1255",
    178: "cp1256",
    186: "cp1257",
    204: "cp1251",
    222: "cp874",
    238: "cp1250",
    255: "cp437",
}


_ANSI_PAGES = (874, 932, 936, 949, 950, *range(1250, 1259))
_OEM_PAGES = (437, 720, 737, 775, 850, 852, 855, 857, 858, *range(860, 867), 869)
CODE_PAGES = frozenset((*_ANSI_PAGES, *_OEM_PAGES))
"""The code pages that a caller may choose for the default charset: Windows' own, of at most two bytes a character."""


@dataclass(frozen=True, slots=True)
class Characters:
    """A string as Unicode characters, with the distances of each in page units.

    `code_page` is the one that bytes were read by; it is None for UTF-16 and for bytes of the Symbol charset.
    """

    codes: tuple[int, ...]
    distances_x: tuple[int, ...] | None
    distances_y: tuple[int, ...] | None
    code_page: str | None


Distances = tuple[int, ...] | None


def code_page_named(number: int) -> str:
    """Python's name of a code page. Raises ValueError if it isn't one of CODE_PAGES."""
    if number not in CODE_PAGES:
        raise ValueError(f"there is no code page {number}")
    return f"cp{number}"


def code_page_of(charset: int, default: str) -> str:
    """The code page of a charset.

    `default` is that of DEFAULT_CHARSET and of numbers that the standard doesn't have.
    """
    return _CODE_PAGES.get(charset, default)


def from_bytes(text: bytes, charset: int, default: str, xs: Distances, ys: Distances) -> Characters:
    """The characters of a string of bytes. A character of several bytes has the sum of their distances.

    Raises Fault with MissingGlyph if the code page has no character for a byte.
    """
    if charset == SYMBOL_CHARSET:
        codes = tuple(SYMBOL_BASE + byte for byte in text)
        return Characters(codes, _cut(xs, len(codes)), _cut(ys, len(codes)), None)
    page = code_page_of(charset, default)
    lengths, codes = _decoded(text, page)
    return Characters(codes, _joined(xs, lengths), _joined(ys, lengths), page)


def from_utf16(units: tuple[int, ...], xs: Distances, ys: Distances) -> Characters:
    """The characters of UTF-16 code units. A pair of surrogates has the sum of both distances.

    A surrogate without its other half stays as it is.
    """
    lengths: list[int] = []
    codes: list[int] = []
    index = 0
    while index < len(units):
        length, code = _character_at(units, index)
        lengths.append(length)
        codes.append(code)
        index += length
    return Characters(tuple(codes), _joined(xs, lengths), _joined(ys, lengths), None)


def _character_at(units: tuple[int, ...], index: int) -> tuple[int, int]:
    """The number of code units of a character, and the character."""
    unit = units[index]
    if 0xD800 <= unit < 0xDC00 and index + 1 < len(units) and 0xDC00 <= units[index + 1] < 0xE000:
        return 2, 0x10000 + ((unit - 0xD800) << 10) + units[index + 1] - 0xDC00
    return 1, unit


def _decoded(text: bytes, page: str) -> tuple[list[int], tuple[int, ...]]:
    """The number of bytes of each character, and the characters."""
    lengths: list[int] = []
    codes: list[int] = []
    index = 0
    while index < len(text):
        length, code = _byte_character_at(text, index, page)
        lengths.append(length)
        codes.append(code)
        index += length
    return lengths, tuple(codes)


def _byte_character_at(text: bytes, index: int, page: str) -> tuple[int, int]:
    """The number of bytes of a character, one or two, and the character."""
    for length in (1, 2):
        end = index + length
        character = _decoded_whole(text[index:end], page)
        if len(character) == 1:
            return length, ord(character)
    raise Fault(FaultName.MissingGlyph, f"byte {text[index]:02X} isn't a character of {page}")


def _decoded_whole(part: bytes, page: str) -> str:
    """The bytes as a string, which is empty if they aren't whole characters."""
    try:
        return part.decode(page)
    except UnicodeDecodeError:
        return ""


def _joined(distances: Distances, lengths: list[int]) -> Distances:
    """The sum of the distances of each character's codes. Distances that a record lacks count as 0."""
    if distances is None:
        return None
    sums: list[int] = []
    first = 0
    for length in lengths:
        end = first + length
        sums.append(sum(distances[first:end]))
        first = end
    return tuple(sums)


def _cut(distances: Distances, count: int) -> Distances:
    return None if distances is None else (distances + (0,) * count)[:count]
