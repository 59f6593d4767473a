"""Lists of as many points as a drawing may have, and of one more, and a polygon that goes round and
round, in the built programs."""

import time
import unittest

from answers import refused, shown
from built import answer, for_each_program
from metafile.fields import BLACK, RED, i16, i32, u16, u32
from metafile.files import EMF_END, WMF_END, emf_file, emf_record, placeable_file, wmf_record
from metafile.scripts import EMF
from script_answers import StateTest
from shape_pictures import drawing

# No drawing has more points.
MOST = 1 << 20

BOUNDS = i32(0, 0, -1, -1)

# A triangle, and its last point again and again.
TRIANGLE = [0, 0, 4, 0, 0, 4]
STROKED = "#### #..# #.#. ##.."
OPEN = "#### ...# ..#. .#.."


def repeated(signed, count):
    """The triangle's points, the last one as often as makes this count."""
    return signed(*TRIANGLE) + signed(*TRIANGLE[-2:]) * (count - 3)


def one_list(kind, signed, count):
    """A record of one list of EMF."""
    return emf_record(kind, BOUNDS + u32(count) + repeated(signed, count))


def lists(kind, signed, counts):
    """A record of lists of EMF: all their points are the triangle's."""
    told = u32(len(counts), sum(counts), *counts)
    return emf_record(kind, BOUNDS + told + repeated(signed, sum(counts)))


# Records of EMF by their types: one list of points of two bytes a number, one of four, and several
# lists. A list that begins at the position has it as a point besides.
POLYGON, POLYLINE, POLYLINE_TO = 86, 87, 89
LONG_POLYGON, LONG_POLYLINE, LONG_POLYLINE_TO = 3, 4, 6
POLYLINES, POLYGONS = 90, 91


class Limits(unittest.TestCase):
    """The count of one drawing's points is limited, over all its lists."""

    def check_emf(self, program, record, wanted):
        """The answer to an EMF of one record of 4 by 4."""
        shown_by = answer(program, ["show", "stdin", "4", "4"], emf_file([record, EMF_END]))
        self.assertEqual(shown_by, wanted)

    @for_each_program
    def test_one_list_of_emf(self, program):
        # The position is at (0,0), where the triangle begins.
        for kind, signed, rows, most in [
            (POLYGON, i16, STROKED, MOST),
            (LONG_POLYGON, i32, STROKED, MOST),
            (POLYLINE, i16, OPEN, MOST),
            (POLYLINE_TO, i16, OPEN, MOST - 1),
        ]:
            with self.subTest(kind=kind):
                self.check_emf(program, one_list(kind, signed, most), drawing(rows))

    @for_each_program
    def test_one_list_of_one_point_too_many(self, program):
        for kind, signed, most in [
            (POLYGON, i16, MOST),
            (LONG_POLYGON, i32, MOST),
            (POLYLINE, i16, MOST),
            (LONG_POLYLINE, i32, MOST),
            (POLYLINE_TO, i16, MOST - 1),
            (LONG_POLYLINE_TO, i32, MOST - 1),
        ]:
            with self.subTest(kind=kind):
                record = one_list(kind, signed, most + 1)
                self.check_emf(program, record, refused("TooManyEdges", 1))

    @for_each_program
    def test_several_lists_of_emf(self, program):
        for kind, rows, counts in [
            (POLYLINES, OPEN, [3, MOST - 3]),
            (POLYGONS, STROKED, [3, 0, MOST - 4, 1]),
        ]:
            with self.subTest(kind=kind, counts=counts):
                self.check_emf(program, lists(kind, i16, counts), drawing(rows))
        for kind in (POLYLINES, POLYGONS):
            for counts in ([3, MOST - 2], [MOST, 1], [1, MOST], [MOST, MOST]):
                with self.subTest(kind=kind, counts=counts):
                    self.check_emf(program, lists(kind, i16, counts), refused("TooManyEdges", 1))

    @for_each_program
    def test_several_lists_of_wmf(self, program):
        # Sixteen of the longest lists have 16 points fewer than there may be.
        for last, wanted in [(16, drawing(STROKED)), (17, refused("TooManyEdges", 0))]:
            counts = [3, 0xFFFF - 3, 3 + last - 3] + [0xFFFF] * 15
            self.assertEqual(sum(counts), MOST - 16 + last)
            parameters = u16(len(counts), *counts) + repeated(i16, sum(counts))
            given = placeable_file([wmf_record(0x0538, parameters), WMF_END])
            self.assertEqual(answer(program, ["show", "stdin", "4", "4"], given), wanted)

    @for_each_program
    def test_pens_and_brushes_do_not_count(self, program):
        select = [emf_record(37, u32(0x80000000 + stock)) for stock in (5, 8)]
        for count, wanted in [(MOST, drawing(".... .... .... ....")), (MOST + 1, None)]:
            given = emf_file([*select, one_list(POLYGON, i16, count), EMF_END])
            shown_by = answer(program, ["show", "stdin", "4", "4"], given)
            self.assertEqual(shown_by, wanted or refused("TooManyEdges", 3))

    @for_each_program
    def test_too_many_points_come_before_one_off_the_plane(self, program):
        far = u32(MOST + 1) + i32(0x7FFFFFFF, 0) + i32(0, 0) * MOST
        record = emf_record(LONG_POLYGON, BOUNDS + far)
        self.check_emf(program, record, refused("TooManyEdges", 1))
        far = u32(MOST) + i32(0, 0) * (MOST - 1) + i32(0x7FFFFFFF, 0)
        record = emf_record(LONG_POLYGON, BOUNDS + far)
        self.check_emf(program, record, refused("OffPlane", 1))


# The side of a surface, and how often a polygon goes round it.
SIDE = 1024
ROUNDS = 16384

# The three runs together take no longer: it would take a test of each pixel against each line days.
SECONDS = 60


class RoundAndRound(StateTest):
    """A square as large as the surface, 16,384 times over: 65,536 points."""

    def shown_by(self, program, front):
        """The answer to the square behind records, and the seconds that it took."""
        square = i16(0, 0, SIDE, 0, SIDE, SIDE, 0, SIDE) * ROUNDS
        record = emf_record(POLYGON, BOUNDS + u32(4 * ROUNDS) + square)
        given = EMF.file([*EMF.records(front), record], SIDE, 16)
        before = time.monotonic()
        shown_by = answer(program, ["show", "stdin", str(SIDE), str(SIDE)], given)
        return shown_by, time.monotonic() - before

    @for_each_program
    def test_three_runs(self, program):
        fill = "null_pen 0; solid_brush 1 0xFF0000; select 0; select 1"
        stroke = "null_brush 0; select 0"
        whole = {(x, y): RED for x in range(SIDE) for y in range(SIDE)}
        # Each corner's line has its first pixel and not its last: the right and the lower side lie
        # beyond the surface.
        rim = {(x, 0): BLACK for x in range(SIDE)} | {(0, y): BLACK for y in range(SIDE)}
        self.assertEqual((len(whole), len(rim)), (1048576, 2047))
        taken = 0
        for front, drawn in [
            (f"{fill}; fill_mode 1", {}),
            (f"{fill}; fill_mode 2", whole),
            (stroke, rim),
        ]:
            shown_by, seconds = self.shown_by(program, front)
            # Images of three megabytes aren't printed.
            self.assertTrue(shown_by == shown(drawn, SIDE, SIDE), front)
            taken += seconds
        self.assertLess(taken, SECONDS)


if __name__ == "__main__":
    unittest.main()
