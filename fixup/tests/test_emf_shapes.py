"""Conversion of EMF, record by record, with values worked out by hand: curves and paths."""

import struct
import unittest

from metaplay_fixup.convert import convert
from metaplay_fixup.faults import Fault, FaultName
from metaplay_fixup.options import Options

from .emf_records import PARTS, block, contents, modify, world
from .oracle import NO_BOUNDS, emf_file, emf_record, emf_script, i16, i32, refusal_of, u32
from .parts import number, places_of


class Curves(unittest.TestCase):
    """Curves are chords, in blocks or in paths."""

    def test_straight_curve(self) -> None:
        """Evenly spaced points make one chord; then the position is the curve's end."""
        records = [
            *emf_script("move 0 0"),
            emf_record(5, NO_BOUNDS + u32(3) + i32(1, 0, 2, 0, 3, 0)),
            *emf_script("line 9 9"),
        ]
        line = emf_record(87, i32(0, 0, 3, 0) + u32(2) + i16(0, 0, 3072, 0))
        self.assertEqual(contents(records), [[*block(0, 0, line), emf_record(27, i32(3, 0))]])

    def test_ellipse(self) -> None:
        """The points of a circle of radius 40 are within its chords' tolerance of it."""
        (records_there,) = contents([emf_record(42, i32(10, 10, 90, 90))])
        polygon = records_there[6]
        self.assertEqual(number(polygon, 0), 3)
        count = number(polygon, 24)
        numbers = struct.unpack_from(f"<{2 * count}i", polygon, 28)
        for x, y in zip(numbers[::2], numbers[1::2]):
            # The origin is (90, 50), the circle's centre 40 units to its left.
            self.assertLess(abs(((x + 40 * PARTS) ** 2 + y**2) ** 0.5 - 40 * PARTS), 1)

    def test_faults(self) -> None:
        """Records that neither play nor become others."""
        for kind in (26, 41, 53, 66, 71, 78, 79, 80, 96, 118):
            with self.assertRaises(Fault) as raised:
                convert(emf_file([emf_record(kind, bytes(100))]), Options(), None)
            self.assertEqual(raised.exception.name, FaultName.Unsupported, kind)


class Paths(unittest.TestCase):
    """Paths are held until they are painted."""

    def test_curve_in_a_path(self) -> None:
        """State records stay in their places, the path's go, and its figures are filled by a polygon without a pen."""
        curve = emf_record(5, NO_BOUNDS + u32(3) + i32(1, 0, 2, 0, 3, 0))
        begin, move, line, close, end, fill = emf_script(
            "begin_path; move 0 0; line 0 6; close_figure; end_path; fill_path"
        )
        fill_mode = emf_script("fill_mode 2")[0]
        data = emf_file([begin, move, curve, fill_mode, line, close, end, fill])
        result = convert(data, Options(), None)
        self.assertIsNone(refusal_of(result.data))
        places = places_of(data, result.data)
        self.assertEqual([(place.first, place.count) for place in places], [(1, 1), (3, 1), (5, 4)])
        polygon = emf_record(86, i32(0, 0, 3, 6) + u32(3) + i16(0, 0, 3072, 0, 0, 6144))
        null_pen = emf_record(37, u32(0x80000008))
        self.assertEqual(places[2].records, block(0, 0, null_pen, polygon))

    def test_stroked(self) -> None:
        """A closed figure ends where it began, an open one doesn't; both are one drawing."""
        script = "begin_path; move 0 0; line 4 0; line 4 4; close_figure; move 1 1; line 2 2; end_path; stroke_path"
        records = [world(1, 0, 0, 1, 10, 0), *emf_script(script)]
        numbers = [0, 0, 4096, 0, 4096, 4096, 0, 0, 1024, 1024, 2048, 2048]
        lines = emf_record(90, i32(10, 0, 14, 4) + u32(2, 6, 4, 2) + i16(*numbers))
        self.assertEqual(contents(records)[-1], block(10, 0, lines))

    def test_position_after_an_arc(self) -> None:
        """EMR_ARCTO leaves the position at the arc's end: from the right end of the ellipse to its top."""
        arc = emf_record(55, i32(0, 0, 80, 60, 80, 30, 40, 0))
        (place,) = contents([*emf_script("move 80 30"), arc, *emf_script("line 9 9")])
        self.assertEqual(place[-1], emf_record(27, i32(40, 0)))

    def test_saved_position_in_a_path(self) -> None:
        """Where lines of a path are gone, a state that was saved between has a position that the player hasn't."""
        begin, move, line, *rest = emf_script("begin_path; move 0 0; line 4 0; end_path; stroke_path; restore -1")
        records = [begin, move, line, emf_record(33), emf_record(42, i32(1, 1, 9, 9)), *rest]
        self.assertEqual(contents([*records, *emf_script("line 7 7")])[-1][-1], emf_record(27, i32(4, 0)))

    def test_position_before_a_path(self) -> None:
        """Where a line that moved the position is gone, the first line of a path that stays gets it."""
        line, *path = emf_script("line 3 1; begin_path; line 4 9; line 5 9; end_path; stroke_path")
        records = [world(2, 0, 0, 2, 0, 0), line, modify(1, 0, 0, 0, 0, 0, 0), *path]
        self.assertEqual(contents(records)[1:], [[emf_record(27, i32(3, 1))]])

    def test_line_after_a_polygon(self) -> None:
        """A polygon is closed and leaves the position, so a line after it is another figure."""
        script = "begin_path; move 1 1; polygon 5 5 9 5 9 9; line 2 2; end_path; stroke_path"
        numbers = [0, 0, 4096, 0, 4096, 4096, 0, 0, -4096, -4096, -3072, -3072]
        lines = emf_record(90, i32(11, 1, 19, 9) + u32(2, 6, 4, 2) + i16(*numbers))
        self.assertEqual(contents([world(1, 0, 0, 1, 10, 0), *emf_script(script)])[-1], block(15, 5, lines))

    def test_stroked_and_filled(self) -> None:
        """EMR_STROKEANDFILLPATH closes the figures that are open ([MS-EMF] 2.3.5.38)."""
        script = emf_script("begin_path; move 0 0; line 4 0; line 4 4; end_path")
        records = [world(1, 0, 0, 1, 10, 0), *script, emf_record(63, NO_BOUNDS)]
        polygon = emf_record(86, i32(10, 0, 14, 4) + u32(3) + i16(0, 0, 4096, 0, 4096, 4096))
        self.assertEqual(contents(records)[-1], block(10, 0, polygon))

    def test_dropped_path(self) -> None:
        """After EMR_ABORTPATH drawings are shown, and another path may begin."""
        dropped = [*emf_script("begin_path; line 4 4"), emf_record(68)]
        data = emf_file([*dropped, *emf_script("begin_path; polygon 1 1 9 1 9 9; end_path; fill_path")])
        self.assertEqual(convert(data, Options(), None).data, data)
        line = emf_record(87, i32(0, 0, 10, 0) + u32(2) + i16(0, 0, 10240, 0))
        records = [*dropped, world(2, 0, 0, 2, 0, 0), *emf_script("polyline 0 0 5 0")]
        self.assertEqual(contents(records), [block(0, 0, line)])

    def test_position_after_a_path(self) -> None:
        """Where lines of a path are gone, the next line that stays gets its position."""
        script = "begin_path; move 0 0; line 4 0; end_path; stroke_path"
        records = [
            *emf_script(script)[:3],
            emf_record(42, i32(1, 1, 9, 9)),
            *emf_script(script)[3:],
            *emf_script("line 7 7"),
        ]
        places = contents(records)
        self.assertEqual(places[-1][-1], emf_record(27, i32(4, 0)))

    def test_faults(self) -> None:
        """Records out of order."""
        for script in ("begin_path; begin_path", "end_path", "close_figure", "begin_path; fill_path", "stroke_path"):
            with self.assertRaises(Fault) as raised:
                convert(emf_file(emf_script(script)), Options(), None)
            self.assertEqual(raised.exception.name, FaultName.PathState, script)


if __name__ == "__main__":
    unittest.main()
