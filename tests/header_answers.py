"""What the program answers to files with some headers, on a surface that is a square."""

import unittest

from answers import refused, shown
from built import answer
from metafile.fields import RED

# The side of a surface on which frames that differ by one show a pixel in different places.
SIDE = 20

NOT_METAFILE = refused("NotMetafile")
SHORT_HEADER = refused("ShortHeader")
BAD_HEADER = refused("BadHeader")
NO_FRAME = refused("NoFrame")


class HeaderTest(unittest.TestCase):
    """What the program answers to files with some headers."""

    def check(self, program, given, wanted, *what):
        """The program's answer to a file on a surface that is a square."""
        side = str(SIDE)
        self.assertEqual(answer(program, ["show", "stdin", side, side], given), wanted, what)

    def check_fields(self, program, file, wanted, fields):
        """The answer to a file wherever one of its header's fields has one of some values."""
        for field, values in fields.items():
            for value in values:
                self.check(program, file(**{field: value}), wanted, field, value.hex(" "))


def pixel_at(x, y):
    """The answer that shows a red pixel, if it lies on the surface."""
    on_surface = 0 <= x < SIDE and 0 <= y < SIDE
    return shown({(x, y): RED} if on_surface else {}, SIDE, SIDE)
