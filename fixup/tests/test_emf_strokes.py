"""Records of EMF whose pens need lines or polygons, with values worked out by hand."""

import unittest
from math import hypot

from metaplay_fixup.convert import Converted, convert
from metaplay_fixup.faults import Fault, FaultName
from metaplay_fixup.options import Options
from metaplay_fixup.output import Action

from .emf_records import PARTS, map_to, world
from .oracle import emf_file, emf_record, emf_script, i16, i32, picture_of, refusal_of, u32
from .parts import Place, places_of
from .stroke_records import (
    DASHED,
    DELETE,
    EXTRA,
    FLAT,
    GEOMETRIC,
    MITER,
    RED,
    RESTORE,
    SAVE,
    STROKES,
    WHITE_PIXEL,
    long_pen,
    old_pen,
    places,
    select,
)


def polygon16(box: tuple[int, ...], *numbers: int) -> bytes:
    """EMR_POLYGON16 of points in whole device units."""
    return emf_record(86, i32(*box, len(numbers) // 2) + i16(*(number * PARTS for number in numbers)))


def line16(box: tuple[int, ...], *numbers: int) -> bytes:
    """EMR_POLYLINE16 of points in whole device units."""
    return emf_record(87, i32(*box, len(numbers) // 2) + i16(*(number * PARTS for number in numbers)))


NULL_PEN = select(0x80000008)


def brush(colour: int = RED) -> list[bytes]:
    """The winding mode, no pen, and a brush of a colour."""
    return [emf_record(19, u32(2)), NULL_PEN, emf_record(39, u32(EXTRA, 0, colour, 0)), select(EXTRA)]


def thin_pen(colour: int = RED) -> list[bytes]:
    """A thin solid pen of a colour."""
    return [emf_record(38, u32(EXTRA, 0) + i32(0, 0) + u32(colour)), select(EXTRA)]


class EmfStrokes(unittest.TestCase):
    """Records of EMF."""

    def only(self, records: list[bytes]) -> list[bytes]:
        """What stands in the one replaced place."""
        (place,) = places(emf_file(records))
        return place.records

    def test_flat_line(self) -> None:
        """A line of 20 units with a flat pen of 4 is one box."""
        records = self.only([*long_pen(GEOMETRIC | FLAT | MITER, 4), *emf_script("polyline 10 10 30 10")])
        box = polygon16((10, 8, 30, 12), 0, -2, 20, -2, 20, 2, 0, 2)
        self.assertEqual(records, [SAVE, *map_to(10, 10), *brush(), box, RESTORE, DELETE])

    def test_miter(self) -> None:
        """A mitred corner: two boxes and a kite in one polypolygon, whose picture is the two boxes to the corner."""
        drawing = [*long_pen(GEOMETRIC | FLAT | MITER, 4), *emf_script("polyline 10 10 30 10 30 30")]
        records = self.only(drawing)
        lists = [
            (0, -2, 20, -2, 20, 0, 20, 2, 0, 2),
            (22, 0, 22, 20, 18, 20, 18, 0, 20, 0),
            (20, 0, 20, -2, 22, -2, 22, 0),
        ]
        numbers = [number * PARTS for numbers in lists for number in numbers]
        drawn = emf_record(91, i32(10, 8, 32, 30, 3, 14, 5, 5, 4) + i16(*numbers))
        self.assertEqual(records, [SAVE, *map_to(10, 10), *brush(), drawn, RESTORE, DELETE])
        picture = picture_of(convert(emf_file(drawing), STROKES, None).data, 100, 100)
        expected = [
            [8 <= y < 12 and 10 <= x < 32 or 28 <= x < 32 and 8 <= y < 30 for x in range(100)] for y in range(100)
        ]
        self.assertEqual(
            [[picture[3 * at : 3 * at + 3] != WHITE_PIXEL for at in range(100 * y, 100 * y + 100)] for y in range(100)],
            expected,
        )

    def test_miter_limit(self) -> None:
        """EMR_SETMITERLIMIT: at a right angle the miter is 1.41 of the width, so a limit of 1 makes a bevel.

        It is saved and restored; a limit below 1 changes nothing.
        """
        limit, none = emf_record(58, u32(0x3F800000)), emf_record(58, u32(0x3F000000))
        line = emf_script("polyline 10 10 30 10 30 30")
        pen = long_pen(GEOMETRIC | FLAT | MITER, 4)
        found = places(emf_file([*pen, SAVE, limit, none, *line, RESTORE, *line]))
        counts = [int.from_bytes(place.records[10][28:32], "little") for place in found]
        self.assertEqual(counts, [5 + 5 + 3, 5 + 5 + 4])

    def test_dashed_line(self) -> None:
        """A flat dashed pen of 2: dashes of 6 and gaps of 2, along a line of 10."""
        records = self.only([*long_pen(GEOMETRIC | FLAT | DASHED, 2), *emf_script("move 10 10; line 20 10")])
        lists = [(0, -1, 6, -1, 6, 1, 0, 1), (8, -1, 10, -1, 10, 1, 8, 1)]
        numbers = [number * PARTS for numbers in lists for number in numbers]
        drawn = emf_record(91, i32(10, 9, 20, 11, 2, 8, 4, 4) + i16(*numbers))
        self.assertEqual(records, [SAVE, *map_to(10, 10), *brush(), drawn, RESTORE, DELETE])

    def test_user_pattern(self) -> None:
        """A pattern of a pen's own, of 3 and 2 page units."""
        records = self.only([*long_pen(GEOMETRIC | FLAT | 7, 2, 3, 2), *emf_script("polyline 10 10 15 10")])
        self.assertEqual(records[10], polygon16((10, 9, 13, 11), 0, -1, 3, -1, 3, 1, 0, 1))

    def test_position(self) -> None:
        """The position goes on from a line that was replaced, also for one that isn't."""
        pen, plain = long_pen(GEOMETRIC | FLAT | MITER, 4), select(0x80000007)
        found = places(
            emf_file([*pen, *emf_script("move 10 10; line 30 10; line 30 30"), plain, *emf_script("line 5 5")])
        )
        self.assertEqual(found[0].count, 2)
        self.assertEqual(found[0].records[4], emf_record(12, i32(10, 10)))
        self.assertIn(emf_record(12, i32(30, 10)), found[0].records)
        self.assertEqual(found[1], Place(7, 0, [emf_record(27, i32(30, 30))]))

    def test_polygon(self) -> None:
        """The record itself fills, without a pen, and the stroke follows."""
        polygon = emf_script("polygon 10 10 30 10 30 20 10 20")
        records = self.only([*long_pen(GEOMETRIC | FLAT | MITER, 4), *polygon])
        self.assertEqual(records[:3], [SAVE, NULL_PEN, *polygon])
        self.assertEqual(records[3:12], [*map_to(10, 10), *brush()])
        self.assertEqual(int.from_bytes(records[12][24:28], "little"), 8)
        self.assertEqual(records[13:], [RESTORE, DELETE])

    def test_rectangle(self) -> None:
        """A rectangle with a white brush: its frame has mitred corners, and its inside stays white."""
        drawing = [*long_pen(GEOMETRIC | FLAT | MITER, 4), *emf_script("rectangle 10 10 30 30")]
        records = self.only(drawing)
        self.assertEqual(records[:3], [SAVE, NULL_PEN, drawing[-1]])
        picture = picture_of(convert(emf_file(drawing), STROKES, None).data, 100, 100)
        red = sum(picture[at : at + 3] != WHITE_PIXEL for at in range(0, len(picture), 3))
        self.assertEqual(red, 24 * 24 - 16 * 16)

    def test_ellipse(self) -> None:
        """An ellipse with a wide pen: a fill and a stroke in one block."""
        data = emf_file([*long_pen(GEOMETRIC, 4), emf_record(42, i32(10, 10, 50, 50))])
        result = convert(data, STROKES, None)
        self.assertIsNone(refusal_of(result.data))
        self.assertEqual([replacement.action for replacement in result.replacements], [Action.CURVE])
        (place,) = places_of(data, result.data)
        kinds = [int.from_bytes(record[:4], "little") for record in place.records]
        self.assertEqual(kinds, [33, 17, 10, 9, 12, 11, 37, 3, 19, 37, 39, 37, 8, 34, 40])
        picture = picture_of(convert(data, Options(bound=100, strokes=True), None).data, 100, 100)
        for x, y, is_red in (
            (8, 30, True),
            (11, 30, True),
            (13, 30, False),
            (30, 30, False),
            (7, 30, False),
            (50, 30, True),
        ):
            self.assertEqual(picture[3 * (100 * y + x) :][:3] != WHITE_PIXEL, is_red, (x, y))

    def test_no_cracks(self) -> None:
        """A wide ellipse on a surface much coarser than the bound: no pixel within its stroke is left white."""
        data = emf_file([*long_pen(GEOMETRIC, 12), emf_record(42, i32(10, 10, 90, 90))])
        picture = picture_of(convert(data, Options(bound=1000, strokes=True), None).data, 100, 100)
        for at in range(10000):
            distance = hypot(at % 100 + 0.5 - 50, at // 100 + 0.5 - 50)
            if 36 <= distance <= 44:
                self.assertNotEqual(picture[3 * at : 3 * at + 3], WHITE_PIXEL, divmod(at, 100))

    def test_path(self) -> None:
        """A path that plays as it is: its records leave, and its figures are stroked, closed ones with joins."""
        pen = long_pen(GEOMETRIC | FLAT | MITER, 4)
        path = emf_script(
            "begin_path; move 10 10; line 30 10; line 30 30; close_figure; polyline 50 50 60 50; end_path"
        )
        found = places(emf_file([*pen, *path, *emf_script("stroke_path")]))
        drawn = [place for place in found if place.records]
        counts = drawn[-1].records[-3][24:32]
        self.assertEqual(counts, u32(3 + 3 + 1, 3 * 6 + 3 * 4 + 4))
        filled = places(emf_file([*pen, *path, *emf_script("fill_path")]))
        self.assertEqual(filled, [])

    def test_filled_path(self) -> None:
        """A path that is filled and stroked is filled as polygons first."""
        pen = long_pen(GEOMETRIC | FLAT | MITER, 4)
        path = emf_script("begin_path; polygon 10 10 30 10 30 30; end_path; stroke_and_fill_path")
        records = places(emf_file([*pen, *path]))[-1].records
        fill = polygon16((10, 10, 30, 30), 0, 0, 20, 0, 20, 20)
        self.assertEqual(records[:12], [SAVE, *map_to(10, 10), NULL_PEN, fill, *brush()])

    def test_world(self) -> None:
        """Under a world that doubles, the pen is twice as wide; the record isn't the fill, since its world is gone."""
        pen = long_pen(GEOMETRIC | FLAT | MITER, 2)
        data = emf_file([*pen, world(2, 0, 0, 2, 0, 0), *emf_script("polyline 5 5 15 5; rectangle 5 5 15 15")])
        result = convert(data, STROKES, None)
        self.assertIsNone(refusal_of(result.data))
        (place,) = places_of(data, result.data)
        self.assertIn(polygon16((10, 8, 30, 12), 0, -2, 20, -2, 20, 2, 0, 2), place.records)
        self.assertIn(polygon16((10, 10, 30, 30), 0, 0, 20, 0, 20, 20, 0, 20), place.records)

    def test_thin_dashes(self) -> None:
        """Thin dashes are lines: 18 units and gaps of 6, which have the background's colour if the mode is opaque."""
        line = emf_script("polyline 10 10 50 10")
        # 40 units have more than 15 bits at 1,024 parts, so numbers have 32 bits.
        numbers = [number * PARTS for number in (0, 0, 18, 0, 24, 0, 40, 0)]
        dashes = emf_record(7, i32(10, 10, 50, 10, 2, 4, 2, 2) + i32(*numbers))
        clear = self.only([*emf_script("back_mode 1"), *old_pen(1, 1), *line])
        self.assertEqual(clear, [SAVE, *map_to(10, 10), *thin_pen(), dashes, RESTORE, DELETE])
        opaque = self.only([*emf_script("back_mode 2; back_colour 0x00ff00"), *old_pen(1, 0), *line])
        gap = line16((28, 10, 34, 10), 18, 0, 24, 0)
        under = [*thin_pen(0x00FF00), gap, NULL_PEN, DELETE]
        self.assertEqual(opaque, [SAVE, *map_to(10, 10), *under, *thin_pen(), dashes, RESTORE, DELETE])
        extended = self.only([*emf_script("back_mode 2"), *long_pen(1, 1), *line])
        self.assertEqual(extended, clear)
        steep = self.only([*emf_script("back_mode 1"), *old_pen(1, 1), *emf_script("polyline 10 10 22 34")])
        self.assertEqual(steep[8], line16((10, 10, 19, 28), 0, 0, 9, 18))

    def test_picture_of_thin_dashes(self) -> None:
        """On a surface with a pixel for each of the device, PS_DASH shows 18 pixels and leaves out 6."""
        line = [*emf_script("back_mode 1"), *old_pen(1, 1), *emf_script("polyline 10 10 90 10")]
        picture = picture_of(convert(emf_file(line), Options(bound=100, strokes=True), None).data, 100, 100)
        shown = "".join("#" if picture[3 * at : 3 * at + 3] != WHITE_PIXEL else "." for at in range(1000, 1100))
        self.assertEqual(shown, "." * 10 + ("#" * 18 + "." * 6) * 3 + "#" * 8 + "." * 10)

    def test_thin_patterns(self) -> None:
        """A thin geometric pen: dashes of 3 pixels and gaps of 1. A cosmetic pattern of 1 and 2: 3 and 6 pixels."""
        line = emf_script("polyline 10 10 20 10")
        numbers = [number * PARTS for number in (0, 0, 3, 0, 4, 0, 7, 0, 8, 0, 10, 0)]
        geometric = self.only([*long_pen(GEOMETRIC | FLAT | MITER | DASHED, 1), *line])
        self.assertEqual(geometric[8], emf_record(90, i32(10, 10, 20, 10, 3, 6, 2, 2, 2) + i16(*numbers)))
        numbers = [number * PARTS for number in (0, 0, 3, 0, 9, 0, 10, 0)]
        own = self.only([*long_pen(7, 1, 1, 2), *line])
        self.assertEqual(own[8], emf_record(90, i32(10, 10, 20, 10, 2, 4, 2, 2) + i16(*numbers)))

    def test_kept(self) -> None:
        """Pens that the player's box draws, and null pens, stay; so does everything where only text is replaced."""
        line = emf_script("polyline 10 10 30 10 30 30; rectangle 1 1 9 9; move 1 1; line 5 5")
        no_pen: list[bytes] = []
        for pen in (long_pen(GEOMETRIC | 0x100 | MITER, 4), long_pen(0, 1), old_pen(0, 1), old_pen(5, 9), no_pen):
            self.assertEqual(places(emf_file([*pen, *line])), [])
        data = emf_file([*long_pen(GEOMETRIC, 4), *line])
        self.assertEqual(convert(data, Options(strokes=True, text_only=True), None), Converted(data, ()))

    def test_short_pattern(self) -> None:
        """A pattern that goes past the record's end is rejected, but only if strokes are replaced."""
        pen = emf_record(95, u32(1, 0, 0, 0, 0, GEOMETRIC | 7, 2, 0, RED, 0, 3, 1, 1))
        data = emf_file([pen])
        self.assertEqual(convert(data, Options(), None), Converted(data, ()))
        with self.assertRaises(Fault) as raised:
            convert(data, STROKES, None)
        self.assertIs(raised.exception.name, FaultName.BadParams)


if __name__ == "__main__":
    unittest.main()
