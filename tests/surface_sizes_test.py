"""A dot and a polygon on surfaces of each width and of many heights, with the writes and some pixels by hand. At each of these sizes a run has its
memory."""

import struct
import unittest

from built import DOT
from metafile.bitmaps import WHITE
from metafile.fields import BLACK, RED
from request_program import PREPARE, asked
from small_certificates_test import POLYGON
from whole_runs import FIRST, Run, RunsTest, all_replies

LONGEST = 8192

# Sides beside powers of two, and the last two.
SOME_SIDES = [1, 2, 7, 8, 9, 63, 64, 65, 255, 256, 257, 1023, 1024, 1025, 2049, 4095, 4096, 4097, 8191, 8192]

# Each height up to 2,048, and each fifth of the others.
HEIGHTS = [*range(1, 2049), *range(2050, 8190, 5)]


def edge_run(width, height):
    """The polygon's run on a surface of one row or of one column. Its outline has each pixel, and left of its slope, or above it, half of them are
    filled."""
    longer = max(width, height)
    return Run(POLYGON, (width, height), height, longer + longer // 2, {(0, 0): BLACK, (width - 1, height - 1): BLACK})


def square_run(side):
    """The polygon's run on a square. Of n rows the first has n - 1 pixels inside, and each later one has one less. The outline has n pixels in the
    first row, and two in each other."""
    writes = side * (side - 1) // 2 + 3 * side - 2
    return Run(POLYGON, (side, side), 16, writes, {(side - 1, side - 1): BLACK if side < 3 else WHITE})


class Dot(RunsTest):
    """A file of a pixel at (2,1), in a box of 4 by 4."""

    def test_on_each_width(self):
        # Column 2 of 4 begins at half the width.
        self.check_runs(Run(DOT, (width, 1), 1, 1, {(width // 2, 0): RED}) for width in range(1, LONGEST + 1))

    def test_on_each_height(self):
        # Row 1 of 4 begins at a quarter of the height.
        self.check_runs(Run(DOT, (1, height), 8192, 1, {(0, height // 4): RED}) for height in range(1, LONGEST + 1))


class Polygon(RunsTest):
    """The polygon, which is half of its box."""

    def test_each_width(self):
        self.check_runs(edge_run(width, 1) for width in range(1, LONGEST + 1))

    def test_many_heights(self):
        self.check_runs(edge_run(1, height) for height in [*HEIGHTS, *SOME_SIDES])

    def test_each_small_square(self):
        self.check_runs(square_run(side) for side in range(1, 301))

    def test_a_certificate_has_each_bound(self):
        # It lets a fill and a stroke write each pixel, and has the polygon's three points and its box.
        for sides_of in [lambda side: (side, 1), lambda side: (1, side), lambda side: (side, side), lambda side: (side, LONGEST)]:
            bounds = [sides_of(side) for side in range(1, LONGEST + 1)]
            texts = [b"MPC1" + struct.pack("<14I", *bound, 2 * bound[0] * bound[1], 0, 0, 0, 3, 0, 1, 0, 0, 0, 4, 4) for bound in bounds]
            found = all_replies(FIRST[0], [asked(PREPARE, bound, POLYGON) for bound in bounds])
            wrong = [it for it in zip(bounds, texts, found, strict=True) if it[2] != (f"prepared {len(it[1])}", it[1])]
            self.assertEqual(wrong[:3], [])


if __name__ == "__main__":
    unittest.main()
