"""A page of tiles and lines on surfaces of many heights and on small ones, with the writes and some pixels by hand. At each of these sizes a run has
its memory."""

import itertools
import unittest

from metafile.bitmaps import GREEN, bitmap
from metafile.blits import BLACKNESS, PATCOPY
from metafile.drawings import number_of
from metafile.fields import BLACK, BLUE, RED, u16
from metafile.files import wmf_record
from metafile.scripts import WMF
from request_program import PROGRAMS
from surface_sizes_test import HEIGHTS, SOME_SIDES
from whole_runs import Run, RunsTest

# A brush with a red column and a blue one as its pattern (META_DIBCREATEPATTERNBRUSH, [MS-WMF] 2.3.4.8), and a pen of width 3; both are selected.
TILE = wmf_record(0x0142, u16(5, 0) + bitmap([[RED, BLUE]], 24).packed) + WMF.step("select", 0)
PEN = WMF.step("styled_pen", 1, 0, 3, number_of(GREEN)) + WMF.step("select", 1)


def page(width, height):
    """A file whose box is as large as its surface: all of it is black, then a tile of a red and a blue column, then there is a black line along the
    first row, a green line of width 3 along the last and back, and a red pixel at the end of the first row."""
    right, bottom = width - 1, height - 1
    records = [
        WMF.step("pat_blt", BLACKNESS, 0, 0, width, height),
        TILE,
        WMF.step("pat_blt", PATCOPY, 0, 0, width, height),
        WMF.step("line", width, 0),
        PEN,
        WMF.step("polyline", 0, bottom, width, bottom, 0, bottom),
        WMF.step("pixel", right, 0),
    ]
    return WMF.file(records, (width, height), 0)


def page_run(width, height, rows):
    """The page's run. It writes two pixels for each of the surface, one for each of the first row, as many for each row that the green line has,
    which are two, or one where there is no other, and one for the red pixel."""
    colours = {(width - 1, 0): RED}
    if width > 1:
        colours |= {(0, 0): BLACK if height > 2 else GREEN, (width - 2, height - 1): GREEN}
    if height > 3:
        colours |= {(0, 1): RED} | ({(1, height - 3): BLUE} if width > 1 else {})
    writes = width * (2 * height + 1 + min(height, 2)) + 1
    return Run(page(width, height), (width, height), rows, writes, colours)


class Page(RunsTest):
    """The page with a tile and lines."""

    def test_many_heights(self):
        self.check_runs(page_run(1, height, 8192) for height in HEIGHTS)
        self.check_runs(page_run(2, height, 1000) for height in HEIGHTS)

    def test_each_two_small_sides(self):
        sides = range(1, 41)
        self.check_runs((page_run(width, height, 7) for height, width in itertools.product(sides, sides)), PROGRAMS)
        for height in (1, 2, 3, 33, 129):
            self.check_runs((page_run(width, height, 10) for width in SOME_SIDES), PROGRAMS)
            self.check_runs((page_run(height, width, 100) for width in SOME_SIDES), PROGRAMS)


if __name__ == "__main__":
    unittest.main()
