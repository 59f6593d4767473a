"""Surfaces shown in bands of each height: the writes and the image are those of the whole."""

import unittest

from metafile.bitmaps import WHITE
from metafile.blits import WHITENESS
from metafile.fields import BLACK
from metafile.scripts import WMF
from request_program import PLAY_COMMAND, PREPARE, PROGRAMS, Command, CommandsTest, Ended, asked, replies
from whole_runs import Run, faults


def column(height):
    """A file of a column of this height: a line down all of it, and white again from row 5 to before row 8."""
    return WMF.file(WMF.records(f"line 0 {height}; pat_blt {WHITENESS} 0 5 1 3"), (1, height), 0)


def image(height):
    """Its image."""
    return b"P6\n1 %d\n255\n" % height + bytes(BLACK) * 5 + bytes(WHITE) * 3 + bytes(BLACK) * (height - 8)


class BandHeights(CommandsTest):
    """Columns in bands."""

    def check_bands(self, height, bands, programs):
        """A column is played in bands of some heights."""
        given = column(height)
        for program in programs:
            self.assertEqual(list(faults(program, [Run(given, (1, height), height, height + 3)])), [])
            [(_, text)] = replies(program, [asked(PREPARE, (1, height), given)])
            self.check([(Command(PLAY_COMMAND, given, text, (1, height), rows), Ended(0, image(height))) for rows in bands], [program])

    def test_a_band_of_the_tallest_surface_has_each_height(self):
        self.check_bands(8192, [*range(1, 8194), 16_384, 65_535, 65_536, 2_147_483_648, 0xFFFFFFFF], PROGRAMS[:1])

    def test_a_band_of_a_low_surface_has_each_height(self):
        for height in range(9, 80):
            self.check_bands(height, range(1, 82), PROGRAMS)


if __name__ == "__main__":
    unittest.main()
