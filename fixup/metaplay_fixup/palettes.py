"""Palettes, and the colours that records name ([MS-WMF] 2.2.1.3, 2.2.2.8, 2.2.2.13, [MS-EMF] 2.2.17, 2.2.18).

GDI looks an index up when it draws, in the palette that is selected then, with the entries that it has then. A device
with 24 bits a pixel shows the entry as it is, so realizing a palette changes nothing.

- An index in the colour of text, or of its background, is looked up for each text.
- An index in a pen, a brush or the background of other drawings is replaced where its record stands, since the player
  reads no index. `PaletteUse` remembers what was found. A drawing for which the selected palette has another colour
  there by then is rejected.
- The stock palette has no entry here: its colours are those of whoever shows the file.

The standards list an entry's bytes from the last to the first. GDI's files have red first, then green, blue and flags.
"""

from __future__ import annotations

from collections.abc import Iterable
from dataclasses import dataclass

from .faults import Fault, FaultName
from .records import numbers_at
from .text import Colour

# The flag of an entry that META_ANIMATEPALETTE may change ([MS-WMF] 2.1.1.22).
_RESERVED = 1
_ENTRY_SIZE = 4
_MOST_ENTRIES = 1 << 16


class Palette:
    """A palette, which later records may change for all states that have it selected.

    An index has 16 bits, so entries beyond 65,536 are left out.
    """

    def __init__(self, colours: Iterable[Colour] = (), is_stock: bool = False) -> None:
        """A palette of colours without flags. One of the stock never changes."""
        self._entries = bytearray(byte for colour in colours for byte in (*colour, 0))
        self._is_stock = is_stock

    def colour(self, index: int) -> Colour | None:
        """The colour of an index from 0 on, or None if the palette hasn't so many entries."""
        at = _ENTRY_SIZE * index
        if at >= len(self._entries):
            return None
        red, green, blue = self._entries[at : at + 3]
        return red, green, blue

    def resize(self, count: int) -> None:
        """Drops entries from a count on, or adds black ones up to it."""
        size = _ENTRY_SIZE * min(count, _MOST_ENTRIES)
        if not self._is_stock:
            del self._entries[size:]
            self._entries += bytes(size - len(self._entries))

    def set_entries(self, start: int, entries: bytes) -> None:
        """Sets whole entries of four bytes from an index on; those beyond the palette's end are left out."""
        at = _ENTRY_SIZE * start
        size = min(len(entries) // _ENTRY_SIZE * _ENTRY_SIZE, max(0, len(self._entries) - at))
        self._entries[at : at + size] = entries[:size]

    def animate(self, start: int, entries: bytes) -> None:
        """The same for entries that have the flag for it."""
        most = min(len(entries) // _ENTRY_SIZE, max(0, len(self._entries) // _ENTRY_SIZE - start))
        for place in range(most):
            if self._entries[_ENTRY_SIZE * (start + place) + 3] & _RESERVED:
                self.set_entries(start + place, entries[_ENTRY_SIZE * place : _ENTRY_SIZE * (place + 1)])


STOCK_PALETTE = Palette(is_stock=True)


@dataclass(frozen=True, slots=True)
class PaletteUse:
    """The indexes that a record named and the colours that were found for them."""

    colours: tuple[tuple[int, Colour], ...] = ()

    def holds(self, palette: Palette) -> bool:
        """Whether a palette has all these colours."""
        return all(palette.colour(index) == colour for index, colour in self.colours)


NO_USE = PaletteUse()


def read_colour(reference: int, palette: Palette) -> Colour:
    """The colour of a COLORREF ([MS-WMF] 2.2.2.8), whose highest byte is its type.

    Types 0 and 2 have red, green and blue; type 1 is an index into the palette. Raises Fault PaletteColour for other
    types, and for an index that the palette doesn't have.
    """
    if plays_as_written(reference):
        return reference & 0xFF, reference >> 8 & 0xFF, reference >> 16 & 0xFF
    found = palette.colour(reference & 0xFFFF) if reference >> 24 == 1 else None
    if found is None:
        raise Fault(FaultName.PaletteColour, f"colour {reference:08X}")
    return found


def colour_use(reference: int, palette: Palette) -> PaletteUse:
    """What a COLORREF takes from a palette. Raises Fault as `read_colour` does."""
    if plays_as_written(reference):
        return NO_USE
    return PaletteUse(((reference & 0xFFFF, read_colour(reference, palette)),))


def colour_word(colour: Colour) -> int:
    """The COLORREF of a colour, of type 0."""
    red, green, blue = colour
    return red | green << 8 | blue << 16


def plays_as_written(reference: int) -> bool:
    """Whether the checker takes a COLORREF as it is."""
    return reference >> 24 in (0, 2)


def read_palette(data: bytes, at: int, count: int) -> Palette:
    """A palette of so many entries, which begin at a place. Entries that aren't there are left out."""
    entries = data[at : at + _ENTRY_SIZE * count]
    palette = Palette()
    palette.resize(len(entries) // _ENTRY_SIZE)
    palette.set_entries(0, entries)
    return palette


def entries_at(data: bytes, at: int, count: int) -> bytes:
    """The bytes of so many entries. Raises Fault BadParams if they aren't there."""
    return bytes(numbers_at(data, at, _ENTRY_SIZE * count, "B"))
