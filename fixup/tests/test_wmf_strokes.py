"""Records of WMF whose pens need lines or polygons, with values worked out by hand."""

import unittest

from metaplay_fixup.convert import convert

from .oracle import i16, picture_of, placeable_file, plain_file, u16, u32, wmf_record, wmf_script
from .parts import Place
from .stroke_records import FLAT, MITER, RED, STROKES, WHITE_PIXEL, places, wmf_pen


def wmf_block(window: list[bytes], *inner: bytes, before: tuple[bytes, ...] = (), objects: int = 2) -> list[bytes]:
    """A block of WMF whose first object is the null pen, at index 1: the pen of the file has index 0."""
    null_pen = [wmf_record(0x02FA, u16(5) + i16(0, 0) + u32(0)), wmf_record(0x012D, u16(1))]
    deleted = [wmf_record(0x01F0, u16(1 + at)) for at in range(objects)]
    end = [wmf_record(0x0127, i16(-1)), *deleted]
    return [wmf_record(0x001E, b""), *null_pen, *before, *window, *inner, *end]


def wmf_brush(index: int) -> list[bytes]:
    """The winding mode, and a red brush."""
    return [wmf_record(0x0106, u16(2)), wmf_record(0x02FC, u16(0) + u32(RED) + u16(0)), wmf_record(0x012D, u16(index))]


def wmf_thin_pen(index: int, colour: int = RED) -> list[bytes]:
    """A thin solid pen."""
    return [wmf_record(0x02FA, u16(0) + i16(0, 0) + u32(colour)), wmf_record(0x012D, u16(index))]


def window(origin: tuple[int, int], extent: tuple[int, int]) -> list[bytes]:
    """The window of a block."""
    return [wmf_record(0x020B, i16(origin[1], origin[0])), wmf_record(0x020C, i16(extent[1], extent[0]))]


class WmfStrokes(unittest.TestCase):
    """Records of WMF, in a placeable file whose units are pixels. A block has 256 parts of a unit."""

    def only(self, records: list[bytes]) -> list[bytes]:
        """What stands in the one replaced place."""
        (place,) = places(placeable_file(records))
        return place.records

    def test_flat_line(self) -> None:
        """A line of 20 units with a flat pen of 4 is one box, counted from the line's start."""
        nothing: list[bytes] = []
        lines = {"polyline 10 10 30 10": nothing, "line 30 10": wmf_script("move 10 10")}
        for line, before in lines.items():
            records = self.only([*wmf_pen(FLAT | MITER, 4), *before, *wmf_script(line)])
            box = [number * 256 for number in (0, -2, 20, -2, 20, 2, 0, 2)]
            polygon = wmf_record(0x0324, i16(4, *box))
            drawn = wmf_block(window((-2560, -2560), (25600, 25600)), *wmf_brush(2), polygon)
            self.assertEqual(records, drawn)

    def test_position(self) -> None:
        """The position goes on from a line that was replaced, also for one that isn't."""
        pens = [*wmf_pen(FLAT | MITER, 4), *wmf_thin_pen(1)]
        script = [*wmf_script("move 10 10"), *wmf_script("line 30 10"), pens[2], pens[3], *wmf_script("line 5 5")]
        found = places(placeable_file([*pens[:2], *script]))
        self.assertEqual(found[1], Place(6, 0, [wmf_record(0x0214, i16(10, 30))]))

    def test_polygons(self) -> None:
        """The records of polygons and rectangles fill by themselves, without a pen."""
        for script in (
            "polygon 10 10 30 10 30 20",
            "polygons 10 10 30 10 30 20 | 1 1 5 5 1 5",
            "rectangle 10 10 30 20",
        ):
            record = wmf_script(script)
            records = self.only([*wmf_pen(FLAT | MITER, 4), *record])
            self.assertEqual(records[3:4], record)
            self.assertEqual(records[6:9], wmf_brush(2))
            self.assertEqual(len(records), 13)

    def test_picture(self) -> None:
        """A rectangle's frame of 4 pixels with mitred corners, also where the page points up."""
        pen, rectangle = wmf_pen(FLAT | MITER, 4), wmf_script("rectangle 10 10 30 30")
        flipped = [wmf_record(0x020C, i16(-100, 100)), wmf_record(0x020B, i16(100, 0))]
        nothing: list[bytes] = []
        for before, top in ((nothing, 8), (flipped, 68)):
            data = placeable_file([*before, *pen, *rectangle])
            places(data)
            picture = picture_of(convert(data, STROKES, None).data, 100, 100)
            red = {at for at in range(10000) if picture[3 * at : 3 * at + 3] != WHITE_PIXEL}
            outer = {100 * y + x for y in range(top, top + 24) for x in range(8, 32)}
            inner = {100 * y + x for y in range(top + 4, top + 20) for x in range(12, 28)}
            self.assertEqual(red, outer - inner)

    def test_thin_dashes(self) -> None:
        """Thin dashes and, in the opaque mode, gaps of the background's colour, as lines."""
        line = wmf_script("polyline 10 10 50 10")
        here = window((-2560, -2560), (25600, 25600))
        dashes = [wmf_record(0x0325, i16(2, x * 256, 0, end * 256, 0)) for x, end in ((0, 18), (24, 40))]
        gap = wmf_record(0x0325, i16(2, 18 * 256, 0, 24 * 256, 0))
        clear = self.only([*wmf_script("back_mode 1"), *wmf_pen(1, 1), *line])
        self.assertEqual(clear, wmf_block(here, *wmf_thin_pen(2), *dashes))
        opaque = self.only([*wmf_script("back_colour 0x00ff00"), *wmf_pen(1, 0), *line])
        inner = [*wmf_thin_pen(2, 0x00FF00), gap, *wmf_thin_pen(3), *dashes]
        self.assertEqual(opaque, wmf_block(here, *inner, objects=3))

    def test_dashed_rectangle(self) -> None:
        """The outline of 40 by 20 goes from the upper right corner to the left: 18 on, 6 off, five times around it."""
        box = wmf_script("rectangle 50 30 10 10")
        records = self.only([*wmf_script("back_mode 1"), *wmf_pen(1, 1), *box])
        lines = [
            (50, 10, 32, 10),
            (26, 10, 10, 10, 10, 12),
            (10, 18, 10, 30, 16, 30),
            (22, 30, 40, 30),
            (46, 30, 50, 30, 50, 16),
        ]
        shifted = [[256 * (place - (50, 10)[at % 2]) for at, place in enumerate(line)] for line in lines]
        dashes = [wmf_record(0x0325, i16(len(numbers) // 2, *numbers)) for numbers in shifted]
        here = window((-12800, -2560), (25600, 25600))
        self.assertEqual(records, wmf_block(here, *wmf_thin_pen(2), *dashes, before=tuple(box)))

    def test_pixels(self) -> None:
        """A placeable file of 960 units an inch has pixels of 10 units, and a plain one has 1,024 on a side.

        Both make the dashes ten times as long.
        """
        drawing = [*wmf_script("back_mode 1"), *wmf_pen(1, 0), *wmf_script("polyline 0 0 300 0")]
        placeable = bytearray(placeable_file(drawing, 1000, 1000))
        placeable[14:16] = u16(960)
        placeable[20:22] = bytes(a ^ b for a, b in zip(placeable[20:22], u16(960 ^ 96)))
        plain = plain_file([*wmf_script("window_extent 10240 100"), *drawing])
        for data in (bytes(placeable), plain):
            (place,) = places(data)
            ends = [record for record in place.records if record[4:6] == u16(0x0325)]
            first = [int.from_bytes(ends[0][at : at + 2], "little", signed=True) for at in (8, 12)]
            second = int.from_bytes(ends[1][8:10], "little", signed=True)
            self.assertEqual((second - first[0]) * 180, (first[1] - first[0]) * 240)
            self.assertEqual(len(ends), 2)


if __name__ == "__main__":
    unittest.main()
