"""Files of both formats with texts in made fonts, laid out by a table that is worked out by hand.

An em has 20 units, so the letter A is a square of 10 on the baseline, with an advance of 12, and a space has 5. The
cell reaches from 18 above to 6 below the baseline. Texts are at (20, 50), black, in the transparent mode.
"""

from __future__ import annotations

import struct
from collections.abc import Sequence
from dataclasses import dataclass, replace
from fractions import Fraction

from metaplay_fixup.convert import convert
from metaplay_fixup.options import Options
from metaplay_verify import verify

from .made_folder import MadeFolder
from .made_fonts import OTHER, SPACE, A, B, MadeFont
from .oracle import NO_BOUNDS, emf_file, emf_record, i16, i32, placeable_file, refusal_of, u16, u32, wmf_record
from .parts import number, places_of

Box = tuple[float, float, float, float]
BLACK, GREEN = 0, 0x00FF00
UPDATE, RIGHT, CENTRE, BOTTOM, BASELINE = 1, 2, 6, 8, 24
OPAQUE_BOX, CLIPPED = 2, 4
CYRILLIC, SYMBOL, DEFAULT = 204, 2, 1


@dataclass(frozen=True)
class Row:
    """A text and what it is drawn under; the fills that stand for it, and the box that they are clipped by."""

    string: bytes = b"A"
    align: int = BASELINE
    distances: tuple[int, ...] = ()
    options: int = 0
    box: tuple[int, int, int, int] = (0, 0, 0, 0)
    escapement: int = 0
    width: int = 0
    italic: bool = False
    underline: bool = False
    strike_out: bool = False
    charset: int = 0
    face: str = "Squares"
    is_opaque: bool = False
    justified: tuple[int, int] = (0, 0)
    viewport: tuple[int, int] = (100, 100)
    times: int = 1
    fills: tuple[tuple[int, Box], ...] = ()
    clip: Box | None = None


def glyphs(*boxes: Box, colour: int = BLACK) -> tuple[tuple[int, Box], ...]:
    """Fills of one colour."""
    return tuple((colour, box) for box in boxes)


ROWS = {
    "top": Row(align=0, fills=glyphs((20, 58, 30, 68))),
    "baseline": Row(fills=glyphs((20, 40, 30, 50))),
    "bottom": Row(align=BOTTOM, fills=glyphs((20, 34, 30, 44))),
    "right": Row(align=BASELINE | RIGHT, fills=glyphs((8, 40, 18, 50))),
    "centre": Row(align=BASELINE | CENTRE, fills=glyphs((14, 40, 24, 50))),
    "own widths": Row(b"A A", fills=glyphs((20, 40, 30, 50), (37, 40, 47, 50))),
    "distances": Row(b"AA", distances=(15, 9), fills=glyphs((20, 40, 30, 50), (35, 40, 45, 50))),
    "right by distances": Row(b"A", BASELINE | RIGHT, (15,), fills=glyphs((5, 40, 15, 50))),
    "descending": Row(b"B", fills=glyphs((22, 48, 28, 54))),
    "turned": Row(escapement=900, fills=glyphs((10, 40, 20, 50))),
    "turned twice": Row(b"AA", escapement=2700, fills=glyphs((20, 50, 30, 60), (20, 62, 30, 72))),
    "narrow": Row(b"AA", width=5, fills=glyphs((20, 40, 25, 50), (26, 40, 31, 50))),
    "slanted": Row(italic=True, fills=glyphs((20, 40, 32.5, 50))),
    "underlined": Row(underline=True, fills=glyphs((20, 40, 30, 50), (20, 51.5, 32, 52.5))),
    "struck out": Row(strike_out=True, fills=glyphs((20, 40, 30, 50), (20, 43.4, 32, 44.6))),
    "justified": Row(b"A A", justified=(10, 1), fills=glyphs((20, 40, 30, 50), (47, 40, 57, 50))),
    "opaque": Row(is_opaque=True, fills=((GREEN, (20, 32, 32, 56)), (BLACK, (20, 40, 30, 50)))),
    "opaque box": Row(
        options=OPAQUE_BOX, box=(10, 30, 40, 60), fills=((GREEN, (10, 30, 40, 60)), (BLACK, (20, 40, 30, 50)))
    ),
    "clipped": Row(options=CLIPPED, box=(10, 30, 25, 60), fills=glyphs((20, 40, 30, 50)), clip=(10, 30, 25, 60)),
    "within the clip": Row(options=CLIPPED, box=(10, 30, 35, 60), fills=glyphs((20, 40, 30, 50))),
    "moves": Row(align=BASELINE | UPDATE, times=2, fills=glyphs((30, 50, 40, 60), (42, 50, 52, 60))),
    "code page": Row(b"\xc0", charset=CYRILLIC, fills=glyphs((20, 46, 24, 50))),
    "default code page": Row(b"\xc0", charset=DEFAULT, fills=glyphs((20, 46, 24, 50))),
    "symbols": Row(charset=SYMBOL, face="Signs", fills=glyphs((20, 46, 24, 50))),
    "stretched": Row(b"AA", distances=(15, 9), viewport=(200, 50), fills=glyphs((40, 20, 45, 25), (70, 20, 75, 25))),
    "stretched by itself": Row(b"AA", viewport=(200, 50), fills=glyphs((40, 20, 45, 25), (46, 20, 51, 25))),
}


def emf(row: Row, is_wide: bool = False) -> bytes:
    """The row as an EMF, whose text has code units if it is wide."""
    flags = bytes([row.italic, row.underline, row.strike_out, row.charset, 0, 0, 0, 0])
    sizes = i32(-20, row.width, row.escapement, 0, 400)
    codes = b"".join(bytes([code, 0]) for code in row.string) if is_wide else row.string
    codes += bytes(-len(codes) % 4)
    at = 76 + len(codes) if row.distances else 0
    numbers = u32(1, 0, 0) + i32(20, 50) + u32(len(row.string), 76, row.options) + i32(*row.box) + u32(at)
    records = [
        emf_record(17, u32(8)),
        emf_record(9, i32(100, 100)),
        emf_record(11, i32(*row.viewport)),
        emf_record(82, u32(1) + sizes + flags + row.face.encode("utf-16-le").ljust(64, b"\0")),
        emf_record(37, u32(1)),
        emf_record(18, u32(1 + row.is_opaque)),
        emf_record(25, u32(GREEN)),
        emf_record(22, u32(row.align)),
        emf_record(120, i32(*row.justified)),
        emf_record(27, i32(30, 60)),
    ]
    return emf_file(
        [*records, *[emf_record(84 if is_wide else 83, NO_BOUNDS + numbers + codes + i32(*row.distances))] * row.times]
    )


def wmf(row: Row) -> bytes:
    """The row as a WMF."""
    flags = bytes([row.italic, row.underline, row.strike_out, row.charset, 0, 0, 0, 0])
    face = row.face.encode("ascii") + bytes(2 - len(row.face) % 2)
    box = i16(*row.box) if row.options else b""
    string = row.string + bytes(len(row.string) % 2)
    records = [
        wmf_record(0x020E, i16(row.viewport[1], row.viewport[0])),
        wmf_record(0x02FB, i16(-20, row.width, row.escapement, 0, 400) + flags + face),
        wmf_record(0x012D, u16(0)),
        wmf_record(0x0102, u16(1 + row.is_opaque)),
        wmf_record(0x0201, u32(GREEN)),
        wmf_record(0x012E, u16(row.align)),
        wmf_record(0x020A, i16(row.justified[1], row.justified[0])),
        wmf_record(0x0214, i16(60, 30)),
    ]
    text = wmf_record(0x0A32, i16(50, 20, len(row.string), row.options) + box + string + i16(*row.distances))
    return placeable_file([*records, *[text] * row.times])


class Fills:
    """Reads blocks: the fills, as boxes in device units with their colours, and the clip."""

    def __init__(self, is_emf: bool, viewport: tuple[int, int]) -> None:
        self.is_emf = is_emf
        self.origin, self.extent = (0, 0), (1, 1)
        self.corner, self.viewport = (0, 0), (1, 1) if is_emf else viewport
        self.colour = -1
        self.found: list[tuple[int, Box]] = []
        self.clip: Box | None = None

    def see(self, record: bytes) -> None:
        """Takes a record of a block."""
        kind = number(record, 0) if self.is_emf else number(record, 4, 2)
        at = 8 if self.is_emf else 6
        if kind in (9, 0x020C):
            self.extent = self._pair(record, at)
        elif kind == 12:
            self.corner = self._pair(record, at)
        elif kind == 0x020B:
            self.origin = self._pair(record, at)
        elif kind in (39, 0x02FC):
            self.colour = number(record, 16 if self.is_emf else 8)
        elif kind == (30 if self.is_emf else 0x0416):
            sides = struct.unpack_from("<4i" if self.is_emf else "<4h", record, at)
            self.clip = self._box([(x, y) for x, y in (sides[:2], sides[2:])] if self.is_emf else self._turned(sides))
        elif kind in (3, 86, 8, 91, 0x0324, 0x0538):
            self.found += [(self.colour, self._box(points)) for points in self._lists(kind, record)]

    def _pair(self, record: bytes, at: int) -> tuple[int, int]:
        one, two = struct.unpack_from("<ii" if self.is_emf else "<hh", record, at)
        return (one, two) if self.is_emf else (two, one)

    def _turned(self, sides: Sequence[int]) -> list[tuple[int, int]]:
        bottom, right, top, left = sides
        return [(left, top), (right, bottom)]

    def _lists(self, kind: int, record: bytes) -> list[list[tuple[int, int]]]:
        at, width = (24, 4) if self.is_emf else (6, 2)
        count = number(record, at, width) if kind in (8, 91, 0x0538) else 1
        start = at + width * (2 if self.is_emf and count > 1 else 1)
        sizes = [number(record, start + width * place, width) for place in range(count)]
        if count == 1:
            sizes, start = [number(record, at, width)], at + width
        else:
            start += width * count
        code = "i" if kind in (3, 8) else "h"
        numbers = struct.unpack_from(f"<{2 * sum(sizes)}{code}", record, start)
        points, lists = list(zip(numbers[::2], numbers[1::2])), []
        for size in sizes:
            lists.append(points[:size])
            points = points[size:]
        return lists

    def _box(self, points: Sequence[tuple[int, int]]) -> Box:
        xs, ys = ([self._device(axis, point[axis]) for point in points] for axis in (0, 1))
        return min(xs), min(ys), max(xs), max(ys)

    def _device(self, axis: int, place: int) -> float:
        scaled = Fraction((place - self.origin[axis]) * self.viewport[axis], self.extent[axis])
        return float(self.corner[axis] + scaled)


class MadeTexts(MadeFolder):
    """Each row in both formats, and in EMF with bytes and with code units."""

    made = (
        MadeFont(characters={0x41: A, 0x42: B, 0x20: SPACE, 0x410: OTHER, 0xC0: OTHER}),
        MadeFont("Signs", characters={0xF041: OTHER}, is_symbol=True),
    )

    def check(self, name: str, row: Row, data: bytes) -> None:
        """The fills and the clip are the row's. The file plays, and the second reader accepts it."""
        fixed = convert(data, Options(text_only=True), self.layer).data
        self.assertTrue(verify(data, fixed, True).holds, name)
        self.assertIsNone(refusal_of(convert(data, Options(), self.layer).data), name)
        fills = Fills(data[:4] == u32(1), row.viewport)
        for place in places_of(data, fixed):
            for record in place.records:
                fills.see(record)
        self.assertEqual([colour for colour, _ in fills.found], [colour for colour, _ in row.fills], name)
        for (_, found), (_, wanted) in zip(fills.found, row.fills):
            for side, other in zip(found, wanted):
                self.assertAlmostEqual(side, other, delta=0.01, msg=f"{name}: {fills.found}")
        self.assertEqual(fills.clip, row.clip, name)

    def test_emf(self) -> None:
        for name, row in ROWS.items():
            self.check(name, row, emf(row))

    def test_emf_of_code_units(self) -> None:
        for name, row in ROWS.items():
            if max(row.string) < 0x80:
                self.check(name, replace(row, charset=0) if row.face == "Squares" else row, emf(row, True))

    def test_wmf(self) -> None:
        for name, row in ROWS.items():
            self.check(name, row, wmf(row))
