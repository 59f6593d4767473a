"""Palettes, and the colours that they give to indexes ([MS-WMF] 2.2.1.3, 2.2.2.8, [MS-EMF] 2.3.7.6, 2.3.8).

A record may change a palette after it was selected, for all states that have it.
"""

from __future__ import annotations

from typing import NamedTuple

from .files import number

_UNKNOWN = -1
_MOST_ENTRIES = 1 << 16
_ANIMATED = 1


class Palette:
    """The entries of a palette: four bytes each, with red in the first and flags in the last."""

    def __init__(self, is_stock: bool = False) -> None:
        """An empty palette. One of the stock can't be changed."""
        self._data = bytearray()
        self._is_stock = is_stock

    def resize(self, count: int) -> None:
        """Cuts the palette, or adds black to it."""
        if not self._is_stock:
            size = 4 * min(count, _MOST_ENTRIES)
            self._data = self._data[:size].ljust(size, b"\0")

    def set(self, start: int, entries: bytes, only_animated: bool = False) -> None:
        """Sets the entries from an index on that the palette has; if asked for, only those whose flags allow it."""
        for at in range(0, min(len(entries) - 3, len(self._data) - 4 * start), 4):
            place = 4 * start + at
            if not only_animated or self._data[place + 3] & _ANIMATED:
                self._data[place : place + 4] = entries[at : at + 4]

    def colour(self, reference: int) -> int:
        """Red, green and blue of a COLORREF, with red in the lowest byte; below 0 if it isn't known."""
        kind, at = reference >> 24, 4 * (reference & 0xFFFF)
        if kind in (0, 2):
            return reference & 0xFFFFFF
        return number(self._data, at, 3) if kind == 1 and at < len(self._data) else _UNKNOWN


def entries_of(record: bytes, at: int, count: int) -> bytes:
    """Whole entries of a record from a place on, at most so many."""
    part = record[at : at + 4 * count]
    return part[: len(part) // 4 * 4]


class PaletteChange(NamedTuple):
    """A record that changes a palette: where its count lies, the bytes of a count, and what it does.

    A record of entries has their first index before the count, and the entries after it. A record that isn't whole
    changes nothing.
    """

    at: int
    width: int
    is_size: bool = False
    only_animated: bool = False

    def take(self, palette: Palette, record: bytes) -> None:
        """Changes a palette."""
        end, count = self.at + self.width, number(record, self.at, self.width)
        if end > len(record):
            return
        if self.is_size:
            palette.resize(count)
        elif end + 4 * count <= len(record):
            start = number(record, self.at - self.width, self.width)
            palette.set(start, entries_of(record, end, count), self.only_animated)


PALETTE_CHANGES = {
    (True, 50): PaletteChange(16, 4),
    (True, 51): PaletteChange(12, 4, is_size=True),
    (False, 0x0037): PaletteChange(8, 2),
    (False, 0x0139): PaletteChange(6, 2, is_size=True),
    (False, 0x0436): PaletteChange(8, 2, only_animated=True),
}
"""The records that change palettes, by whether the file is an EMF, and the kind."""
