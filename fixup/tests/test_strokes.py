"""Segments, caps and joins of strokes, beside polygons worked out by hand. Numbers are whole units; ONE is a unit."""

import unittest
from math import hypot

from metaplay_fixup.affine import Point
from metaplay_fixup.budgets import Budget
from metaplay_fixup.curves import Direction
from metaplay_fixup.fixed import ONE
from metaplay_fixup.joins import join
from metaplay_fixup.pens import Cap, Join, PenShape
from metaplay_fixup.singles import Ratio

from .strokes import TOLERANCE, points, shape, strokes


class Segments(unittest.TestCase):
    """Lines with flat and square caps."""

    def test_flat(self) -> None:
        """A flat stroke is one box, as wide as the pen."""
        self.assertEqual(strokes(shape(2), False, 0, 0, 10, 0), [points(0, -1, 10, -1, 10, 1, 0, 1)])
        self.assertEqual(strokes(shape(2), False, 10, 0, 0, 0), [points(10, 1, 0, 1, 0, -1, 10, -1)])

    def test_slanted(self) -> None:
        """Along (3, 4) the sides are 5 units away by (4, -3) and (-4, 3)."""
        self.assertEqual(strokes(shape(10), False, 0, 0, 30, 40), [points(4, -3, 34, 37, 26, 43, -4, 3)])

    def test_square(self) -> None:
        """Square caps are boxes of half the width before the start and after the end."""
        caps = [points(0, 1, -1, 1, -1, -1, 0, -1), points(10, -1, 11, -1, 11, 1, 10, 1)]
        self.assertEqual(strokes(shape(2, Cap.SQUARE), False, 0, 0, 10, 0)[1:], caps)

    def test_repeated_points(self) -> None:
        """A point that repeats the one before makes no segment."""
        once = strokes(shape(2, Cap.SQUARE), False, 0, 0, 10, 0, 10, 5)
        self.assertEqual(strokes(shape(2, Cap.SQUARE), False, 0, 0, 0, 0, 10, 0, 10, 0, 10, 5), once)

    def test_points_alone(self) -> None:
        """One point is no line, and neither is an empty list."""
        self.assertEqual(strokes(shape(2, Cap.ROUND), False, 3, 3), [])
        self.assertEqual(strokes(shape(2, Cap.ROUND), True), [])


class RoundParts(unittest.TestCase):
    """Round caps and joins."""

    def check_arc(self, arc: list[Point], centre: Point, radius: int) -> None:
        """The points are on the circle, and the chords within the tolerance of it."""
        for point in arc:
            self.assertAlmostEqual(hypot(point.x - centre.x, point.y - centre.y), radius, delta=1)
        for one, two in zip(arc, arc[1:]):
            middle = hypot((one.x + two.x) / 2 - centre.x, (one.y + two.y) / 2 - centre.y)
            self.assertLessEqual(radius - middle, TOLERANCE + 1)

    def test_caps(self) -> None:
        """A round cap is half a disc: from one side over the far end to the other side."""
        _, start, end = strokes(shape(20, Cap.ROUND), False, 0, 0, 50, 0)
        for cap, centre, way in ((start, points(0, 0)[0], -1), (end, points(50, 0)[0], 1)):
            self.check_arc(cap, centre, 10 * ONE)
            self.assertEqual(cap[0], Point(centre.x, -way * 10 * ONE))
            self.assertEqual(cap[-1], Point(centre.x, way * 10 * ONE))
            self.assertTrue(all((point.x - centre.x) * way >= 0 for point in cap))
            self.assertIn(Point(centre.x + way * 10 * ONE, 0), cap)

    def test_join(self) -> None:
        """A round join is a quarter of a disc at a right angle, on the outer side."""
        contours = strokes(shape(20, Cap.FLAT, Join.ROUND), False, 0, 0, 50, 0, 50, 50)
        corner, *arc = contours[2]
        self.assertEqual(len(contours), 3)
        self.assertEqual((corner, arc[0], arc[-1]), tuple(points(50, 0, 50, -10, 60, 0)))
        self.check_arc(arc, corner, 10 * ONE)

    def test_turning_back(self) -> None:
        """A line that turns back has half a disc at a round join, and nothing at others."""
        contours = strokes(shape(20, Cap.FLAT, Join.ROUND), False, 0, 0, 50, 0, 0, 0)
        self.check_arc(contours[2][1:], points(50, 0)[0], 10 * ONE)
        self.assertIn(points(60, 0)[0], contours[2])
        for corner in (Join.MITER, Join.BEVEL):
            self.assertEqual(len(strokes(shape(20, Cap.FLAT, corner), False, 0, 0, 50, 0, 0, 0)), 2)

    def test_dots(self) -> None:
        """A line without length is a disc or a square; with flat caps it is nothing."""
        for is_closed in (False, True):
            (disc,) = strokes(shape(20, Cap.ROUND), is_closed, 5, 5, 5, 5)
            self.check_arc([*disc, disc[0]], points(5, 5)[0], 10 * ONE)
            self.assertLessEqual({*points(15, 5, 5, 15, -5, 5, 5, -5)}, set(disc))
            self.assertEqual(strokes(shape(2, Cap.SQUARE), is_closed, 5, 5, 5, 5), [points(4, 4, 6, 4, 6, 6, 4, 6)])
            self.assertEqual(strokes(shape(2, Cap.FLAT), is_closed, 5, 5, 5, 5), [])


class Corners(unittest.TestCase):
    """Bevels and miters."""

    def test_right_angles(self) -> None:
        """A bevel joins the outer corners; a miter goes on to where the sides meet. Both turns."""
        after = {10: ((10, 0, 10, -1), (11, -1), (11, 0)), -10: ((10, 0, 11, 0), (11, 1), (10, 1))}
        for y, (first, tip, last) in after.items():
            bevel = strokes(shape(2, Cap.FLAT, Join.BEVEL), False, 0, 0, 10, 0, 10, y)
            self.assertEqual(bevel[2:], [points(*first, *last)])
            miter = strokes(shape(2), False, 0, 0, 10, 0, 10, y)
            self.assertEqual(miter[2:], [points(*first, *tip, *last)])

    def test_straight_on(self) -> None:
        """Where a line goes straight on there is no join."""
        for kind in Join:
            self.assertEqual(len(strokes(shape(2, Cap.FLAT, kind), False, 0, 0, 10, 0, 20, 0)), 2)

    def test_limit(self) -> None:
        """After a turn to (-7, 24) / 25 the miter is 5 / 3 of the width.

        Its tip is (4, -3) from the corner for a radius of 3. A limit of 5 / 3 is enough; one below it makes a bevel.
        """
        turn = (Point(0, 0), Direction(1, 0, 1), Direction(-7, 24, 25))
        first, last = Point(0, -3 * ONE), Point(72 * ONE // 25, 21 * ONE // 25)
        (enough,) = join(*turn, shape(6, limit=Ratio(5, 3)), Budget(TOLERANCE))
        (less,) = join(*turn, shape(6, limit=Ratio(4999, 3000)), Budget(TOLERANCE))
        self.assertEqual(enough[2], Point(4 * ONE, -3 * ONE))
        self.assertEqual([*enough[:2], enough[3]], less)
        self.assertEqual(less[:2], [Point(0, 0), first])
        self.assertAlmostEqual(less[2].x, last.x, delta=1)
        self.assertAlmostEqual(less[2].y, last.y, delta=1)

    def test_default_limit(self) -> None:
        """The limit is 10 by default: at 12 degrees between two lines the miter is 9.6 long, and at 11 degrees 10.4."""
        for y, count in ((2126, 4), (1944, 3)):
            contours = strokes(PenShape(2 * ONE, Cap.FLAT, Join.MITER), False, 0, 0, 10000, 0, 0, y)
            self.assertEqual(len(contours[2]), count)

    def test_closed(self) -> None:
        """A closed figure has a join at its start and no caps."""
        contours = strokes(shape(2, Cap.SQUARE), True, 0, 0, 10, 0, 10, 10, 0, 10)
        self.assertEqual(len(contours), 8)
        self.assertEqual(contours[-1], points(0, 0, -1, 0, -1, -1, 0, -1))
        again = strokes(shape(2, Cap.SQUARE), True, 0, 0, 10, 0, 10, 10, 0, 10, 0, 0)
        self.assertEqual(again, contours)

    def test_open_ring(self) -> None:
        """An open figure that ends where it begins has caps there."""
        contours = strokes(shape(2, Cap.SQUARE), False, 0, 0, 10, 0, 10, 10, 0, 10, 0, 0)
        self.assertEqual(contours[-2:], [points(0, 1, -1, 1, -1, -1, 0, -1), points(-1, 0, -1, -1, 1, -1, 1, 0)])


if __name__ == "__main__":
    unittest.main()
