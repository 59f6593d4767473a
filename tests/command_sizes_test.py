"""Commands at each width and at each height, under both profiles: the certificate, its report, and the image that three commands write."""

import itertools
import unittest

from built import DOT
from metafile.fields import u32
from reading.rules import CORE, PRINT
from request_program import CHECK_COMMAND, OVER, PLAY_COMMAND, PREPARE_COMMAND, PROGRAMS, SHOW, Command, CommandsTest, Ended, Output

LARGEST_SIDE = 8192

# The sides that a surface may have.
EACH_SIDE = range(1, LARGEST_SIDE + 1)


def white(width, height):
    """The P6 text of a white image."""
    return b"P6\n%d %d\n255\n" % (width, height) + b"\xff" * (3 * width * height)


def image_of(width, height):
    """The P6 text of a white image with the dot: column 2 of 4 begins at half of the width, and row 1 of 4 at a quarter of the height."""
    before = 3 * (height // 4 * width + width // 2)
    return b"P6\n%d %d\n255\n" % (width, height) + b"\xff" * (before + 1) + b"\0\0" + b"\xff" * (3 * width * height - before - 3)


def certificate_of(width, height, rules):
    """The dot's certificate at a bound: one write, in record 0, at (2,1). Under print a unit has 4,096 parts, and each drawing a nib."""
    if rules == CORE:
        return b"MPC1" + u32(width, height, 1, 0, 0, 0, 0, 0, 1, 0, 2, 1, 2, 1)
    return b"MPC3" + u32(0, width, height, 1, 0, 0, 0, 0, 0, 1, 0, 8192, 4096, 8192, 4096) + b"\1\0\1\0"


def report_of(width, height, rules):
    """The report of that certificate."""
    allowed, profile = (b"", b"") if rules == CORE else (b'"allowed":{},', b'"profile":"print",')
    return (
        b'{"accepted":true,%s"drawings":1,"format":"placeable","frame":[4,4],"max":[%d,%d],'
        b'"needs":{"depth":0,"edges":0,"pieces":0,"slots":0},"notes":{},%s"records":2,"writes":1}\n' % (allowed, width, height, profile)
    )


def painted(sizes):
    """The commands that write an image, at these sizes, and how they end: the file is shown, played in bands of 1,000 rows and in bands that
    the command chooses, and played over white."""
    for sides, rules in itertools.product(sizes, (CORE, PRINT)):
        certificate, done = certificate_of(*sides, rules), Ended(0, image_of(*sides))
        yield Command(SHOW, DOT, sides=sides, rules=rules), done
        yield Command(PLAY_COMMAND, DOT, certificate, sides, rows=1000), done
        yield Command(PLAY_COMMAND, DOT, certificate, sides), done
        yield Command(OVER, DOT, certificate, image=white(*sides)), done


def certified(bounds):
    """The commands that write a certificate of these bounds, and a report of it, and how they end."""
    for bound, rules in itertools.product(bounds, (CORE, PRINT)):
        certificate = certificate_of(*bound, rules)
        yield Command(PREPARE_COMMAND, DOT, sides=bound, rules=rules), Ended(0, certificate)
        yield Command(CHECK_COMMAND, DOT, certificate), Ended(0, report_of(*bound, rules))


class EachSize(CommandsTest):
    """Each side of an image and of a bound, and each height of a band."""

    def test_an_image_has_each_width(self):
        self.check(painted((width, 1) for width in EACH_SIDE), PROGRAMS[:1])

    def test_an_image_has_each_height(self):
        self.check(painted((1, height) for height in EACH_SIDE), PROGRAMS[:1])

    def test_an_image_has_each_two_small_dimensions(self):
        self.check(painted((width, height) for height in range(1, 51) for width in range(1, 51)))

    def test_a_certificate_has_each_bound(self):
        self.check(certified(bound for side in EACH_SIDE for bound in [(side, 1), (1, side), (side, side)]), PROGRAMS[:1])

    def test_an_image_is_played_in_bands_of_each_height(self):
        sides = (1, LARGEST_SIDE)
        done = Ended(0, image_of(*sides))
        for rules in (CORE, PRINT):
            certificate = certificate_of(*sides, rules)
            self.check([(Command(PLAY_COMMAND, DOT, certificate, sides, rows), done) for rows in range(1, LARGEST_SIDE + 2)], PROGRAMS[:1])


# Images of one row or one column: their sides, and the pixels before the red one. Column 2 of 4 begins at half of the width, and row 1 of 4 at a
# quarter of the height.
STRIPS = {(1, 1): 0, (1, 8191): 2047, (1, 8192): 2048, (8191, 1): 4095, (8192, 1): 4096}


class Strips(CommandsTest):
    """The smallest and the largest sides, with pixels worked by hand."""

    def test_dimensions_of_1_8191_and_8192_are_shown(self):
        cases = []
        for sides, before in STRIPS.items():
            pixels = b"\xff\xff\xff" * before + b"\xff\0\0" + b"\xff\xff\xff" * (sides[0] * sides[1] - before - 1)
            cases.append((Command(SHOW, DOT, sides=sides, out=Output(100_000)), Ended(0, b"P6\n%d %d\n255\n" % sides + pixels)))
        self.check(cases)


if __name__ == "__main__":
    unittest.main()
