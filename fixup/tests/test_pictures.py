"""Pictures of converted files, drawn by the repository's second player, which decides each pixel separately.

They are compared with files that say the same without what is replaced, and with the equations of ellipses.
"""

import struct
import unittest

from metaplay_fixup.convert import convert
from metaplay_fixup.options import Options

from .oracle import (
    NO_BOUNDS,
    emf_file,
    emf_record,
    emf_script,
    i16,
    i32,
    parted_bitmap,
    picture_of,
    placeable_file,
    u32,
    wmf_record,
    wmf_script,
)
from .emf_records import singles, world

SIDE = 50
# A pixel and a half, 3 units, of the shorter half axis of the ellipses.
NEAR = 3 / 25
WHITE = b"\xff\xff\xff"
RED, GREEN, BLUE, GREY = (255, 0, 0), (0, 255, 0), (0, 0, 255), (128, 128, 128)

BRUSH = "solid_brush 0 0x0000ff; select 0"


def shown(data: bytes) -> bytes:
    """The picture of a converted file."""
    return picture_of(convert(data, Options(), None).data, SIDE, SIDE)


class Emf(unittest.TestCase):
    """EMF files."""

    def check(self, records: list[bytes], plain: list[bytes]) -> None:
        """Records that are converted look as plain ones do, and aren't blank."""
        expected = picture_of(emf_file(plain), SIDE, SIDE)
        self.assertEqual(shown(emf_file(records)), expected)
        self.assertNotEqual(expected, WHITE * SIDE * SIDE)

    def test_worlds(self) -> None:
        """Each shape under a world of twice and (10, 20) further, beside the same with its points moved."""
        shapes = [
            ("polygon 1 1 30 4 12 35", "polygon 12 22 70 28 34 90"),
            ("move 1 1; line 30 4; line 12 35", "move 12 22; line 70 28; line 34 90"),
            ("polygons 1 1 30 4 12 35 | 5 5 20 5 20 20", "polygons 12 22 70 28 34 90 | 20 30 50 30 50 60"),
            ("polylines 1 1 30 4 | 12 35 5 5", "polylines 12 22 70 28 | 34 90 20 30"),
            ("rectangle 3 4 20 30", "rectangle 16 28 50 80"),
            ("keep 5 5 20 20; polygon 1 1 30 4 12 35", "keep 20 30 50 60; polygon 12 22 70 28 34 90"),
            ("cut 5 5 20 20; polygon 1 1 30 4 12 35", "cut 20 30 50 60; polygon 12 22 70 28 34 90"),
        ]
        for under, plain in shapes:
            brush = emf_script(BRUSH)
            self.check([*brush, world(2, 0, 0, 2, 10, 20), *emf_script(under)], [*brush, *emf_script(plain)])

    def test_turned_world(self) -> None:
        """A quarter turn: (x, y) goes to (90 - y, x)."""
        shape, plain = emf_script("polygon 10 20 60 30 40 80"), emf_script("polygon 70 10 60 60 10 40")
        self.check([*emf_script(BRUSH), world(0, 1, -1, 0, 90, 0), *shape], [*emf_script(BRUSH), *plain])

    def test_paths(self) -> None:
        """Paths with a straight curve in them, filled, stroked, and both, beside paths of lines."""
        begin, move, line, close, end = emf_script("begin_path; move 10 10; line 40 80; close_figure; end_path")
        curve = emf_record(88, NO_BOUNDS + u32(3) + i16(30, 10, 50, 10, 70, 10))
        lines = emf_script("line 70 10")
        for paint in emf_script("fill_path; stroke_path; stroke_and_fill_path"):
            records, plain = ([begin, move, *one, line, close, end, paint] for one in ([curve], lines))
            self.check([*emf_script(BRUSH), *records], [*emf_script(BRUSH), *plain])

    def test_metric_mode(self) -> None:
        """Tenths of a millimetre, 4 pixels to a millimetre, upwards: (100, -200) is (40, 80) in pixels."""
        mode = emf_record(17, u32(2))
        records = [mode, *emf_script("polygon 50 -50 200 -50 100 -200")]
        self.check([*emf_script(BRUSH), *records], [*emf_script(BRUSH), *emf_script("polygon 20 20 80 20 40 80")])

    def test_region(self) -> None:
        """A region of two columns, beside a kept box and a cut."""
        region = u32(32, 1, 2, 32) + i32(10, 10, 90, 90) + i32(10, 10, 30, 90) + i32(60, 10, 90, 90)
        shape = [*emf_script(BRUSH), *emf_script("polygon 0 0 99 0 99 99 0 99")]
        record = emf_record(75, u32(len(region), 5) + region)
        self.check([record, *shape], [*emf_script("keep 10 10 90 90; cut 30 10 60 90"), *shape])

    def test_ellipse(self) -> None:
        """Pixels whose middles are inside of the ellipse are filled, and those outside aren't.

        Those within a pixel and a half of it aren't looked at: points are rounded down to whole pixels.
        """
        pen = emf_script("null_pen 1; select 1")
        picture = shown(emf_file([*emf_script(BRUSH), *pen, emf_record(42, i32(10, 20, 90, 70))]))
        for place in range(SIDE * SIDE):
            x, y = 2 * (place % SIDE) + 1, 2 * (place // SIDE) + 1
            distance = (((x - 50) / 40) ** 2 + ((y - 45) / 25) ** 2) ** 0.5
            if abs(distance - 1) > NEAR:
                expected = b"\0\0\xff" if distance < 1 else WHITE
                self.assertEqual(picture[3 * place : 3 * place + 3], expected, (x, y))

    def bitmap(self, kind: int, operation: int, info: bytes, bits: bytes, sides: tuple[int, int]) -> bytes:
        """A record that shows a whole bitmap from (10, 20) over 80 by 60."""
        transform = singles(1, 0, 0, 1, 0, 0)
        parts = u32(0, 0, 108, len(info), 108 + len(info), len(bits))
        numbers = i32(10, 20, 80, 60) + u32(operation) + i32(0, 0) + transform + parts + i32(*sides)
        return emf_record(kind, NO_BOUNDS + numbers + info + bits)

    def test_bitmaps(self) -> None:
        """Masks of 16 bits and runs beside the same picture in 24 bits."""
        rows = [[RED, GREEN, BLUE], [BLUE, RED, GREEN]]
        plain = self.bitmap(77, 0xCC0020, *parted_bitmap(rows, 24), (3, 2))
        head = struct.pack("<IiiHHIIiiII", 40, 3, 2, 1, 16, 3, 0, 0, 0, 0, 0)
        masks = struct.pack("<III", 0xF800, 0x07E0, 0x001F)
        words = struct.pack("<8H", 0x1F, 0xF800, 0x07E0, 0, 0xF800, 0x07E0, 0x1F, 0)
        table = bytes([0, 0, 255, 0, 0, 255, 0, 0, 255, 0, 0, 0])
        runs = struct.pack("<IiiHHIIiiII", 40, 3, 2, 1, 8, 1, 0, 0, 0, 3, 0) + table
        coded = bytes([0, 3, 2, 0, 1, 0, 0, 0, 1, 0, 1, 1, 1, 2, 0, 1])
        for info, bits in ((head + masks, words), (runs, coded)):
            self.check([self.bitmap(77, 0xCC0020, info, bits, (3, 2))], [plain])

    def test_masked_bitmaps(self) -> None:
        """Pixels of one colour, or without alpha, show what is below, beside a picture that has it."""
        below = emf_script("solid_brush 0 0x808080; select 0; null_pen 1; select 1; polygon 0 0 99 0 99 99 0 99")
        plain = self.bitmap(77, 0xCC0020, *parted_bitmap([[RED, GREY, BLUE]], 24), (3, 1))
        keyed = self.bitmap(116, 0x00FF00, *parted_bitmap([[RED, GREEN, BLUE]], 24), (3, 1))
        info = struct.pack("<IiiHHIIiiII", 40, 3, 1, 1, 32, 0, 0, 0, 0, 0, 0)
        alpha = self.bitmap(114, 0x01FF0000, info, bytes([0, 0, 255, 255, 0, 0, 0, 0, 255, 0, 0, 255]), (3, 1))
        for record in (keyed, alpha):
            self.check([*below, record], [*below, plain])

    def test_mirrored_crop(self) -> None:
        """A source that is turned round and reaches outside, beside the half of the box that it fills."""
        info, bits = parted_bitmap([[RED, GREEN], [BLUE, GREY]], 24)
        parts = u32(80, len(info), 80 + len(info), len(bits), 0, 0xCC0020)
        # Columns 3 down to 0 over 80 units: columns 1 and 0 fill the right half.
        outside = emf_record(81, NO_BOUNDS + i32(10, 20, 4, 0, -4, 2) + parts + i32(80, 60) + info + bits)
        inside = emf_record(81, NO_BOUNDS + i32(50, 20, 2, 0, -2, 2) + parts + i32(40, 60) + info + bits)
        self.check([outside], [inside])


class Wmf(unittest.TestCase):
    """WMF files."""

    def test_ellipse(self) -> None:
        """As in EMF, on a page that points up."""
        setup = wmf_script("brush 0; select 0; null_pen 1; select 1; window_origin 0 100; window_extent 100 -100")
        picture = shown(placeable_file([*setup, wmf_record(0x0418, i16(70, 90, 20, 10))]))
        for place in range(SIDE * SIDE):
            x, y = 2 * (place % SIDE) + 1, 100 - 2 * (place // SIDE) - 1
            distance = (((x - 50) / 40) ** 2 + ((y - 45) / 25) ** 2) ** 0.5
            if abs(distance - 1) > NEAR:
                is_filled = picture[3 * place : 3 * place + 3] != WHITE
                self.assertEqual(is_filled, distance < 1, (x, y))

    def test_scaled_viewport(self) -> None:
        """A viewport of half and twice the size, beside the window of twice and half."""
        shape = wmf_script("brush 0; select 0; polygon 10 10 90 10 50 45")
        records = [wmf_record(0x0412, i16(1, 2, 2, 1)), *shape]
        plain = [*wmf_script("window_extent 200 50"), *shape]
        self.assertEqual(shown(placeable_file(records)), picture_of(placeable_file(plain), SIDE, SIDE))

    def test_cropped_bitmap(self) -> None:
        """A source that reaches outside, in a WMF whose source counts rows as they are stored."""
        info, bits = parted_bitmap([[RED, GREEN], [BLUE, GREY]], 24)
        outside = u32(0xCC0020) + i16(0, 4, 4, -1, 0, 60, 80, 20, 10)
        # The second and third of four rows and the first two of four columns are there.
        inside = u32(0xCC0020) + i16(0, 2, 2, 0, 0, 30, 40, 35, 10)
        records = [wmf_record(0x0F43, numbers + info + bits) for numbers in (outside, inside)]
        cropped, plain = (placeable_file([record]) for record in records)
        self.assertEqual(shown(cropped), picture_of(plain, SIDE, SIDE))


if __name__ == "__main__":
    unittest.main()
