"""The objects that records make and select, as far as they matter here."""

from __future__ import annotations

from dataclasses import dataclass

from .palettes import NO_USE, STOCK_PALETTE, Palette, PaletteUse
from .pens import PenLook
from .records import Fields
from .text import LogicalFont


@dataclass(frozen=True, slots=True)
class Pen:
    """A pen.

    `width` is in page units, 0 for the thinnest line. `data` is the record that makes it, or None for a stock pen.
    `look` is what it says of its strokes, if that matters. `use` is the colour that its record took from a palette.
    """

    width: int
    is_null: bool
    data: bytes | None
    look: PenLook | None = None
    use: PaletteUse = NO_USE


@dataclass(frozen=True, slots=True)
class Brush:
    """A brush of any kind.

    Blocks draw with the one that is selected, so nothing of it needs to be known but the colours that its record took
    from a palette.
    """

    use: PaletteUse = NO_USE


Object = Pen | Brush | Palette | LogicalFont

FIRST_STOCK = 0x80000000
NULL_BRUSH = FIRST_STOCK + 5
NULL_PEN = FIRST_STOCK + 8

_ANSI, _OEM = 0, 255


def _stock_font(height: int, weight: int, charset: int, face: str) -> LogicalFont:
    return LogicalFont(height, 0, 0, 0, weight, False, False, False, charset, face)


SYSTEM_FONT = _stock_font(16, 700, _ANSI, "System")
BLACK_PEN = Pen(0, False, None)
WHITE_BRUSH = Brush()

_STOCK_FONTS = {
    10: _stock_font(12, 400, _OEM, "Courier New"),
    11: _stock_font(12, 400, _ANSI, "Courier New"),
    12: _stock_font(12, 400, _ANSI, "MS Sans Serif"),
    13: SYSTEM_FONT,
    14: SYSTEM_FONT,
    16: _stock_font(15, 400, _ANSI, "Courier New"),
    17: _stock_font(-11, 400, _ANSI, "MS Shell Dlg"),
}


def stock_object(index: int) -> Object | None:
    """The stock object of an index from 0x80000000 on ([MS-EMF] 2.1.31), or None if there is none."""
    place = index - FIRST_STOCK
    if place in (6, 7, 8, 19):
        return Pen(0, place == 8, None)
    if 0 <= place <= 5 or place == 18:
        return Brush()
    if place == 15:
        return STOCK_PALETTE
    return _STOCK_FONTS.get(place)


def logical_font(fields: Fields, face: str) -> LogicalFont:
    """The font of a record with the fields of [MS-WMF] 2.2.1.2 or [MS-EMF] 2.2.13."""
    return LogicalFont(
        height=fields["height"],
        width=fields["width"],
        escapement=fields["escapement"],
        orientation=fields["orientation"],
        weight=fields["weight"],
        italic=fields["italic"] != 0,
        underline=fields["underline"] != 0,
        strike_out=fields["strike_out"] != 0,
        charset=fields["charset"],
        face=face,
    )
