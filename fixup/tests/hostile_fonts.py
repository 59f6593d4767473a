"""Fonts that mean harm: small files whose glyphs would never be read to the end."""

from __future__ import annotations

from pathlib import Path
from typing import Any

from fontTools.misc.psCharStrings import T2CharString  # type: ignore[import]
from fontTools.pens.ttGlyphPen import TTGlyphPen  # type: ignore[import]

from .made_fonts import A, MadeFont, Square, built

LEVELS = 32


def composite_bomb(path: Path, has_points: bool) -> None:
    """Writes a font in which each of 32 glyphs has the one before twice. The first is a square or has no points."""
    first = A if has_points else Square(0, 0, 0, 600)
    builder = built(MadeFont(characters={0x41 + level: first for level in range(LEVELS)}))
    font = builder.font
    # fontTools would follow the composites itself.
    font.recalcBBoxes = False
    for level in range(1, LEVELS):
        font["glyf"][f"g{0x41 + level:04X}"] = _composite(f"g{0x40 + level:04X}", 2)
    font["maxp"].maxComponentDepth = 0xFFFF
    font.save(str(path))


def parts_font(path: Path, parts: int) -> None:
    """Writes a font in which A is B twice, B is C so many times, and C is a square."""
    builder = built(MadeFont(characters={0x41: A, 0x42: A, 0x43: A}))
    builder.font.recalcBBoxes = False
    builder.font["glyf"]["g0041"] = _composite("g0042", 2)
    builder.font["glyf"]["g0042"] = _composite("g0043", parts)
    builder.font["maxp"].maxComponentDepth = 2
    builder.font.save(str(path))


def _composite(name: str, count: int) -> Any:
    """A glyph that is another one so many times, each a unit further right."""
    pen = TTGlyphPen({name: None})
    for number in range(count):
        pen.addComponent(name, (1, 0, 0, 1, number, 0))
    glyph = pen.glyph()
    glyph.xMin = glyph.yMin = glyph.xMax = glyph.yMax = 0
    return glyph


def subroutine_bomb(path: Path) -> None:
    """Writes a CFF font whose glyph calls a subroutine that calls the one before 100 times, nine levels deep."""
    builder = built(MadeFont(is_postscript=True))
    font = builder.font
    font.recalcBBoxes = False
    cff = font["CFF "].cff
    # Numbers of global subroutines are counted from -107 ([CFF] Type 2 charstrings, section 4.7).
    cff.GlobalSubrs.append(T2CharString(program=[1, "drop"] * 20 + ["return"], globalSubrs=cff.GlobalSubrs))
    for level in range(1, 9):
        program = [level - 1 - 107, "callgsubr"] * 100 + ["return"]
        cff.GlobalSubrs.append(T2CharString(program=program, globalSubrs=cff.GlobalSubrs))
    strings = cff[cff.fontNames[0]].CharStrings
    strings["g0041"].program = [8 - 107, "callgsubr", "endchar"]
    font.save(str(path))


def point_bomb(path: Path, houses: int) -> None:
    """Writes a font whose A has so many contours of five points."""
    pen = TTGlyphPen(None)
    for _ in range(houses):
        pen.moveTo((0, 0))
        pen.lineTo((0, 100))
        pen.lineTo((50, 200))
        pen.lineTo((100, 100))
        pen.lineTo((100, 0))
        pen.closePath()
    builder = built(MadeFont())
    builder.font["glyf"]["g0041"] = pen.glyph()
    builder.save(str(path))
