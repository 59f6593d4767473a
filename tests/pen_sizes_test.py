"""Pens of each width and nibs of each size, along one line and along several: the writes and some pixels by hand."""

import unittest

from metafile.bitmaps import WHITE
from metafile.fields import BLACK
from metafile.scripts import WMF
from request_program import PREPARE, PROGRAMS, asked
from whole_runs import FIRST, Run, RunsTest, all_replies

# Widths beside powers of two, above those that are tried one by one.
GREAT_WIDTHS = [383, 384, 385, 511, 512, 513, 1023, 1024, 1025, 2047, 2048, 2049, 3000, 4094, 4095, 4096]

# The side of the surface that pens are tried on.
SIDE = 24


def covered(first, last, before, after):
    """How many of the columns or rows lie from so many before the first one of a line to so many after its last."""
    return max(0, min(last + after + 1, SIDE) - max(0, first - before))


def reach(size):
    """How many columns or rows a nib of this size has before a line's pixel, and how many after it."""
    before = max(0, size - 1) // 2
    return before, max(0, size - 1) - before


def line_run(width):
    """The run of a line of five pixels along a row, by a pen of this width."""
    before, after = reach(width)
    writes = covered(9, 13, before, after) * covered(11, 11, before, after)
    colours = {(9, 11): BLACK, (0, 11): WHITE if before < 9 else BLACK}
    given = WMF.file(WMF.records(f"styled_pen 0 0 {width} 0; select 0; move 9 11; line 14 11"), SIDE, 0)
    return Run(given, (SIDE, SIDE), 5, writes, colours)


def corner_run(width):
    """The run of two lines, of five pixels along a row and then of four down a column, by a pen of this width. They cover two boxes."""
    before, after = reach(width)
    rows, columns = covered(11, 11, before, after), covered(14, 14, before, after)
    # What both cover: from the left of the second to the right of the first, on the rows of the first.
    shared = covered(14, 13, before, after) * rows
    writes = covered(9, 13, before, after) * rows + covered(11, 14, before, after) * columns - shared
    given = WMF.file(WMF.records(f"styled_pen 0 0 {width} 0; select 0; polyline 9 11 14 11 14 15"), SIDE, 0)
    return Run(given, (SIDE, SIDE), 7, writes, {(9, 11): BLACK, (14, 14): BLACK})


class Widths(RunsTest):
    """Pens of each width."""

    def test_a_pen_has_each_width(self):
        for run_of in (line_run, corner_run):
            self.check_runs([run_of(width) for width in [*range(301), *GREAT_WIDTHS]], PROGRAMS)


# A file one unit wide and four high, or four wide and one high: a unit is a whole side of the surface, and so is the nib of a pen of width 1.
WIDE, HIGH = (1, 4), (4, 1)


def page(frame, script):
    """A file of this box with the pen and these records."""
    return WMF.file(WMF.records(f"styled_pen 0 0 1 0; select 0; {script}"), frame, 0)


# Along row 1 from the left to the right; and to the right, back, and down to row 3.
LINE = page(WIDE, "move 0 1; line 1 1")
LINES = page(WIDE, "polyline 0 1 1 1 0 1 0 3")

# The same down column 1, and to column 3.
COLUMN = page(HIGH, "move 1 0; line 1 1")
COLUMNS = page(HIGH, "polyline 1 0 1 1 1 0 3 0")


def row_run(given, width, writes):
    """The run of a stroke that has the first and the last pixel of row 1."""
    return Run(given, (width, 4), 3, writes, {(0, 1): BLACK, (width - 1, 1): BLACK})


def column_run(given, height, writes):
    """The run of a stroke that has the first and the last pixel of column 1."""
    return Run(given, (4, height), 1000, writes, {(1, 0): BLACK, (1, height - 1): BLACK})


class Nibs(RunsTest):
    """Nibs of each count of columns and of each count of rows."""

    def check_nibs(self, run_of, line, lines):
        """The runs of a line, and of several, by nibs as large as the surface. Of row 2, or of column 2, the nib covers the pixels from the first one
        to half of its own size."""
        for given, writes_of in [(line, lambda size: size), (lines, lambda size: size + size // 2 + 1)]:
            self.check_runs(run_of(given, size, writes_of(size)) for size in range(1, 4097))

    def test_each_count_of_columns(self):
        self.check_nibs(row_run, LINE, LINES)

    def test_each_count_of_rows(self):
        self.check_nibs(column_run, COLUMN, COLUMNS)

    def test_a_wider_nib_is_rejected(self):
        sides = range(4097, 8193)
        requests = [asked(PREPARE, (side, 4), LINE) for side in sides] + [asked(PREPARE, (4, side), COLUMN) for side in sides]
        self.assertEqual(set(all_replies(FIRST[0], requests)), {("NibTooWide at record 3", b"")})


if __name__ == "__main__":
    unittest.main()
