"""Fonts made for tests: their glyphs are squares, so that texts can be worked out by hand.

An em has 1,000 units, the cell reaches from 900 above to 300 below the baseline, the average width is 500. The
middle of the underline is 100 below the baseline, of the strike-out 300 above; they are 50 and 60 thick.
"""

from __future__ import annotations

from dataclasses import dataclass, field
from pathlib import Path
from typing import Any

from fontTools.fontBuilder import FontBuilder  # type: ignore[import]
from fontTools.pens.t2CharStringPen import T2CharStringPen  # type: ignore[import]
from fontTools.pens.ttGlyphPen import TTGlyphPen  # type: ignore[import]

UNITS_PER_EM = 1000
ASCENT, DESCENT = 900, 300
AVERAGE_WIDTH = 500


@dataclass(frozen=True, slots=True)
class Square:
    """A square glyph: its lower left corner, its side, its advance. A side of 0 is a blank."""

    left: int
    bottom: int
    side: int
    advance: int


A = Square(0, 0, 500, 600)
"""The glyph of A: from the origin to (500, 500), with an advance of 600."""
B = Square(100, -200, 300, 400)
SPACE = Square(0, 0, 0, 250)
OTHER = Square(0, 0, 200, 300)


@dataclass(frozen=True, slots=True)
class MadeFont:
    """What a made font has. `characters` maps codes to squares; `localised` are family names by language numbers."""

    family: str = "Squares"
    style: str = "Regular"
    characters: dict[int, Square] = field(default_factory=lambda: {0x41: A, 0x42: B, 0x20: SPACE})
    localised: dict[int, str] = field(default_factory=dict)
    weight: int = 400
    selection: int = 0x40
    permission: int = 0
    is_symbol: bool = False
    is_postscript: bool = False
    units_per_em: int = UNITS_PER_EM


def write_font(folder: Path, name: str, made: MadeFont) -> Path:
    """Writes a made font into a folder."""
    path = folder / name
    built(made).save(str(path))
    return path


def built(made: MadeFont) -> Any:
    """The builder of a made font, with all tables set."""
    builder = FontBuilder(made.units_per_em, isTTF=not made.is_postscript)
    names = {code: f"g{code:04X}" for code in made.characters}
    builder.setupGlyphOrder([".notdef", *names.values()])
    builder.setupCharacterMap(names)
    squares = {".notdef": OTHER, **{names[code]: square for code, square in made.characters.items()}}
    _add_outlines(builder, squares, made)
    builder.setupHorizontalMetrics({name: (square.advance, square.left) for name, square in squares.items()})
    builder.setupHorizontalHeader(ascent=ASCENT, descent=-DESCENT)
    builder.setupNameTable({"familyName": made.family, "styleName": made.style}, mac=False)
    _add_names(builder, made)
    _add_metrics(builder, made)
    return builder


def _add_outlines(builder: Any, squares: dict[str, Square], made: MadeFont) -> None:
    if made.is_postscript:
        strings = {name: _char_string(square) for name, square in squares.items()}
        builder.setupCFF(made.family.replace(" ", ""), {}, strings, {})
    else:
        builder.setupGlyf({name: _glyph(square) for name, square in squares.items()})


def _corners(square: Square) -> list[tuple[int, int]]:
    """The corners in TrueType's direction: from the lower left one up, with the clock."""
    left, bottom = square.left, square.bottom
    right, top = left + square.side, bottom + square.side
    return [(left, bottom), (left, top), (right, top), (right, bottom)]


def _draw(pen: Any, corners: list[tuple[int, int]]) -> None:
    pen.moveTo(corners[0])
    for corner in corners[1:]:
        pen.lineTo(corner)
    pen.closePath()


def _glyph(square: Square) -> Any:
    pen = TTGlyphPen(None)
    if square.side:
        _draw(pen, _corners(square))
    return pen.glyph()


def _char_string(square: Square) -> Any:
    """The square in PostScript's direction, against the clock."""
    pen = T2CharStringPen(square.advance, None)
    if square.side:
        _draw(pen, _corners(square)[::-1])
    return pen.getCharString()


def _add_names(builder: Any, made: MadeFont) -> None:
    whole = made.family if made.style == "Regular" else f"{made.family} {made.style}"
    table = builder.font["name"]
    table.setName(whole, 4, 3, 1, 0x409)
    for language, family in made.localised.items():
        table.setName(family, 1, 3, 1, language)


def _add_metrics(builder: Any, made: MadeFont) -> None:
    builder.setupOS2(
        version=3,
        usWinAscent=ASCENT,
        usWinDescent=DESCENT,
        xAvgCharWidth=AVERAGE_WIDTH,
        usWeightClass=made.weight,
        fsSelection=made.selection,
        fsType=made.permission,
        yStrikeoutPosition=300,
        yStrikeoutSize=60,
    )
    builder.font["head"].macStyle = bool(made.selection & 0x20) | bool(made.selection & 0x01) << 1
    builder.setupPost(underlinePosition=-100, underlineThickness=50)
    if made.is_symbol:
        for table in builder.font["cmap"].tables:
            table.platformID, table.platEncID = 3, 0
