"""Bitmaps of each depth, of each width and height up to 64 and of some above, stored from the bottom and from the top: as sources of a blit and as
brushes. Each is red but for a blue pixel in its left top corner."""

import itertools
import unittest
from typing import NamedTuple

from metafile.bitmaps import entry, header
from metafile.blits import PATCOPY, SRCCOPY, stretch_dib
from metafile.fields import BLUE, RED, joined, u16
from metafile.files import wmf_record
from metafile.scripts import WMF
from whole_runs import Run, RunsTest

# Sides beside powers of two, up to the largest of a surface.
GREAT_SIDES = [127, 128, 129, 255, 256, 257, 1023, 1024, 1025, 4095, 4096, 4097, 8191, 8192]

# How each depth ([MS-WMF] 2.1.1.3) stores a red pixel, or the first byte of a row of them, and a blue one, or the first byte of a row that begins
# with one. In the first three depths red is entry 0 of the colour table, and blue is entry 1.
DEPTHS = {
    1: (b"\0", b"\x80"),
    4: (b"\0", b"\x10"),
    8: (b"\0", b"\x01"),
    16: (b"\0\x7c", b"\x1f\0"),
    24: (b"\0\0\xff", b"\xff\0\0"),
    32: (b"\0\0\xff\0", b"\xff\0\0\0"),
}

# A bitmap that is tiled is painted on so many columns and rows.
TILED = 65


class Bitmap(NamedTuple):
    """A bitmap's depth, sides, and order of rows."""

    depth: int
    width: int
    height: int
    is_top_down: bool

    def row(self, first):
        """A row that begins with the bytes of this pixel, filled up to a multiple of four bytes."""
        red, _ = DEPTHS[self.depth]
        pixels = first + red * (self.width - 1) if self.depth > 8 else first
        return pixels.ljust((self.width * self.depth + 31) // 32 * 4, b"\0")

    def packed(self):
        """Its bytes: a header, where pixels are indexes a table of red and blue, and rows."""
        red, blue = DEPTHS[self.depth]
        entries = [entry(RED), entry(BLUE)] if self.depth < 16 else []
        info = header(self.width, -self.height if self.is_top_down else self.height, self.depth, used=len(entries)) + b"".join(entries)
        rows = [self.row(blue), *[self.row(red)] * (self.height - 1)]
        return info + b"".join(rows if self.is_top_down else rows[::-1])


def copied(bitmap):
    """The run of a file as large as a bitmap, which is copied onto all of it (META_STRETCHDIB, [MS-WMF] 2.3.1.6)."""
    width, height = sides = bitmap.width, bitmap.height
    blit = wmf_record(0x0F43, joined(stretch_dib(SRCCOPY, 0, 0, *sides, 0, 0, *sides, packed=bitmap.packed()), {}))
    colours = dict.fromkeys([(width - 1, 0), (0, height - 1), (width - 1, height - 1)], RED) | {(0, 0): BLUE}
    return Run(WMF.file([blit], sides, 0), sides, 40, width * height, colours)


def tiled(bitmap):
    """The run of a file that paints by a brush of a bitmap, which repeats it (META_DIBCREATEPATTERNBRUSH, [MS-WMF] 2.3.4.8)."""
    brush = wmf_record(0x0142, u16(5, 0) + bitmap.packed())
    records = [brush, WMF.step("select", 0), WMF.step("pat_blt", PATCOPY, 0, 0, TILED, TILED)]
    places = [(0, 0), (64, 0), (0, 64), (64, 64), (1, 0)]
    colours = {(x, y): RED if x % bitmap.width or y % bitmap.height else BLUE for x, y in places}
    return Run(WMF.file(records, TILED, 0), (TILED, TILED), 9, TILED * TILED, colours)


def runs(sides):
    """The runs of bitmaps of some sides, in each depth and stored from either end."""
    for (width, height), depth, is_top_down in itertools.product(sides, DEPTHS, (False, True)):
        bitmap = Bitmap(depth, width, height, is_top_down)
        yield copied(bitmap)
        yield tiled(bitmap)


class BitmapSizes(RunsTest):
    """Bitmaps that are copied and repeated."""

    def test_each_small_size(self):
        self.check_runs(runs([sides for side in range(1, 65) for sides in [(side, 1), (1, side), (side, side), (side, 65 - side)]]))

    def test_greater_sizes(self):
        self.check_runs(runs([sides for side in GREAT_SIDES for sides in [(side, 1), (3, side)]]))


if __name__ == "__main__":
    unittest.main()
