"""The reference's own rules of bitmaps and blits, on values that were worked by hand."""

import unittest

from metafile.bitmaps import QUAD, QUAD_ROWS, header
from metafile.blits import BLACKNESS, MASKED, PATCOPY, SRCCOPY
from metafile.fields import BLACK, BLUE, RED, u32
from reference.bitmaps import (
    BadDib,
    CompressedDib,
    ShortDib,
    Source,
    SourceOutside,
    depends_on_pattern,
    depends_on_source,
    joined_by,
    picture_of,
    read_place,
)
from reference.pixels import Axis
from reference.player import WHITE, Reference


class Pictures(unittest.TestCase):
    def test_the_picture_of_the_rows(self):
        for picture in (picture_of(QUAD.info, QUAD.bits), picture_of(QUAD.packed, None)):
            shown = [[picture.colour(x, y) for x in range(2)] for y in range(2)]
            self.assertEqual(shown, QUAD_ROWS)

    def test_one_bit_33_wide(self):
        info = header(33, 2, 1, used=1) + bytes.fromhex("0000ff00")
        bits = bytes.fromhex("0000000080000000 8000000000000000")
        picture = picture_of(info, bits)
        # Of one entry the index 1 is black.
        self.assertEqual([picture.colour(x, 0) for x in (0, 1, 32)], [BLACK, RED, RED])
        self.assertEqual([picture.colour(x, 1) for x in (0, 31, 32)], [RED, RED, BLACK])
        with self.assertRaises(ShortDib):
            picture_of(info, bits[:15])

    def test_five_bits_of_sixteen(self):
        stored = bytes.fromhex("0000 0004 e001 1000 ff7f 0000")
        picture = picture_of(header(5, 1, 16), stored)
        parts = [(0, 0, 0), (8, 0, 0), (0, 123, 0), (0, 0, 132), WHITE]
        self.assertEqual([picture.colour(x, 0) for x in range(5)], parts)

    def test_faults(self):
        for fault, info in [
            (BadDib, u32(12)),
            (ShortDib, u32(40)),
            (ShortDib, b""),
            (CompressedDib, header(0, 0, 3, compression=u32(1))),
            (BadDib, header(0, 1, 24)),
            (BadDib, header(1, -32769, 24)),
            (BadDib, header(1, 1, 1, used=3) + bytes(12)),
            (ShortDib, header(1, 1, 8) + bytes(1020)),
        ]:
            with self.assertRaises(fault):
                picture_of(info, bytes(64))


class Places(unittest.TestCase):
    def check_columns(self, near, far, least, extent, wanted):
        """The columns that a box's pixels read, from the left."""
        box = range(min(near, far), max(near, far))
        self.assertEqual([read_place(x, near, far, least, extent) for x in box], wanted)

    def test_columns_of_boxes(self):
        self.check_columns(0, 4, 0, 2, [0, 0, 1, 1])
        self.check_columns(4, 0, 0, 2, [1, 1, 0, 0])
        self.check_columns(0, 4, 0, -2, [1, 1, 0, 0])
        self.check_columns(4, 0, 0, -2, [0, 0, 1, 1])
        self.check_columns(-3, 4, 5, 3, [5, 5, 6, 6, 6, 7, 7])
        self.check_columns(0, 3, 0, 7, [1, 3, 5])
        self.check_columns(9, 10, 1, 2, [2])

    def test_sources(self):
        picture = picture_of(QUAD.info, QUAD.bits)
        corners = ((0, 0), (4, 4))
        below = Source(picture, (0, 0), (2, 1), from_bottom=True)
        above = Source(picture, (0, 0), (2, 1))
        self.assertEqual([below.colour((x, 3), corners) for x in (1, 2)], QUAD_ROWS[1])
        self.assertEqual([above.colour((x, 3), corners) for x in (1, 2)], QUAD_ROWS[0])
        for extents in [(3, 2), (0, 2), (2, 0), (2, 3), (-1, 2)]:
            with self.assertRaises(SourceOutside):
                Source(picture, (0, 0), extents).check()
        Source(picture, (2, 2), (-2, -2)).check()


class Operations(unittest.TestCase):
    def test_what_they_depend_on(self):
        for operation, source, pattern in [
            (SRCCOPY, True, False),
            (PATCOPY, False, True),
            (MASKED, True, True),
            (BLACKNESS, False, False),
            (0x00550009, False, False),
            (0x005A0049, False, True),
            (0x00660046, True, False),
        ]:
            self.assertEqual(depends_on_source(operation), source)
            self.assertEqual(depends_on_pattern(operation), pattern)

    def test_bits(self):
        colours = (0xF0, 0, 255), (0xCC, 255, 0), (0xAA, 0, 255)
        self.assertEqual(joined_by(SRCCOPY, *colours), colours[1])
        self.assertEqual(joined_by(PATCOPY, *colours), colours[0])
        self.assertEqual(joined_by(MASKED, *colours), (0xE2, 0, 255))


class Player(unittest.TestCase):
    def image(self, steps, fault=None):
        """The rows of a surface of two by two, behind steps of which the last has a fault."""
        image, refusal = Reference((Axis(0, 2, 0, 2, 0, 2, 2),) * 2, inclusive=False).play(steps)
        self.assertEqual(refusal, fault)
        return [[image[x, y] for x in range(2)] for y in range(2)]

    def test_blits_and_tiles(self):
        copied = ("stretch_dib", [SRCCOPY, 0, 0, 2, 2, 0, 0, 2, 2, str(QUAD)])
        self.assertEqual(self.image([copied]), QUAD_ROWS)
        tile = [("tiled_brush", [0, str(QUAD)]), ("select", [0])]
        painted = [*tile, ("pat_blt", [PATCOPY, 1, 0, 1, 2])]
        self.assertEqual(self.image(painted), [[WHITE, QUAD_ROWS[0][1]], [WHITE, QUAD_ROWS[1][1]]])
        null = [("null_brush", [0]), ("select", [0])]
        self.assertEqual(self.image([*null, ("pat_blt", [PATCOPY, 0, 0, 2, 2])]), [[WHITE] * 2] * 2)
        black = [*null, ("pat_blt", [BLACKNESS, 0, 0, 2, 1])]
        self.assertEqual(self.image(black), [[BLACK] * 2, [WHITE] * 2])
        blue = [("solid_brush", [0, 0x0000FF]), ("select", [0])]
        blue += [("pat_blt", [PATCOPY, 2, 2, -1, -1])]
        self.assertEqual(self.image(blue), [[WHITE, WHITE], [WHITE, BLUE]])

    def test_faults(self):
        lacking = ("pat_blt", [SRCCOPY, 0, 0, 2, 2])
        self.image([("pixel", [0, 0]), lacking], ("SourceMissing", 1))
        outside = ("bit_blt", [SRCCOPY, 0, 0, 3, 2, 0, 0, str(QUAD)])
        self.image([outside], ("SourceOutside", 0))
        short = ("bit_blt", [PATCOPY, 0, 0, 3, 2, 0, 0, str(QUAD._replace(bits=b""))])
        self.image([short], ("ShortDib", 0))


if __name__ == "__main__":
    unittest.main()
