"""Curves as chords: their points are on the curve, and no point of the curve is farther from them than the
tolerance.
"""

import unittest
from fractions import Fraction
from math import hypot

from metaplay_fixup.affine import IDENTITY, Affine, Point
from metaplay_fixup.budgets import Budget
from metaplay_fixup.faults import Fault, FaultName
from metaplay_fixup.curves import Cubic, Direction, Oval, direction_of, flattened
from metaplay_fixup.fixed import ONE
from metaplay_fixup.rounds import PageBox
from metaplay_fixup.text import Box

TOLERANCE = ONE // 8

CURVES = [
    Cubic(Point(0, 0), Point(0, 100 * ONE), Point(100 * ONE, 100 * ONE), Point(100 * ONE, 0)),
    Cubic(Point(0, 0), Point(300 * ONE, 0), Point(-200 * ONE, 10 * ONE), Point(100 * ONE, 10 * ONE)),
    Cubic(Point(-7, 5), Point(40 * ONE, 70 * ONE), Point(40 * ONE, 70 * ONE), Point(3, 3)),
]


def distance(point: tuple[float, float], start: Point, end: Point) -> float:
    """How far a point is from a chord."""
    along = (end.x - start.x, end.y - start.y)
    length = along[0] ** 2 + along[1] ** 2
    off = (point[0] - start.x, point[1] - start.y)
    part = 0.0 if length == 0 else max(0.0, min(1.0, (off[0] * along[0] + off[1] * along[1]) / length))
    return hypot(off[0] - part * along[0], off[1] - part * along[1])


def on_curve(curve: Cubic, part: Fraction) -> tuple[Fraction, Fraction]:
    """The point of a curve by de Casteljau's construction."""
    points = [(Fraction(point.x), Fraction(point.y)) for point in curve]
    while len(points) > 1:
        points = [(a + (c - a) * part, b + (d - b) * part) for (a, b), (c, d) in zip(points, points[1:])]
    return points[0]


class Beziers(unittest.TestCase):
    """Bezier curves ([MS-EMF] 2.3.5.16)."""

    def test_points(self) -> None:
        """Each end of a chord is the curve's point, rounded to the nearest fixed unit."""
        for curve in CURVES:
            count = curve.chords(TOLERANCE)
            points = curve.points(count)
            self.assertEqual(len(points), count - 1)
            for step, point in enumerate(points, 1):
                x, y = on_curve(curve, Fraction(step, count))
                self.assertLessEqual(max(abs(point.x - x), abs(point.y - y)), Fraction(1, 2))

    def test_within_tolerance(self) -> None:
        """Forty points of each chord's part of the curve are near it."""
        for curve in CURVES:
            count = curve.chords(TOLERANCE)
            points = [curve.start, *flattened(curve.start, curve[1:], Budget(TOLERANCE))]
            self.assertEqual(len(points), count + 1)
            for part in range(40 * count):
                x, y = on_curve(curve, Fraction(part, 40 * count))
                off = distance((float(x), float(y)), points[part // 40], points[part // 40 + 1])
                self.assertLessEqual(off, TOLERANCE + 1)

    def test_number_of_chords(self) -> None:
        """Second differences of (-100, 0) and (0, -100) units times 3 / 4, by an eighth: the root of 600 is below
        25.
        """
        curve = Cubic(Point(0, 0), Point(100 * ONE, 0), Point(100 * ONE, 0), Point(100 * ONE, -100 * ONE))
        self.assertEqual(curve.chords(TOLERANCE), 25)

    def test_straight(self) -> None:
        """Evenly spaced points on a line need one chord; points beyond the last whole three are left out."""
        points = [Point(place * ONE, 0) for place in range(1, 6)]
        self.assertEqual(flattened(Point(0, 0), points, Budget(TOLERANCE)), [Point(3 * ONE, 0)])

    def test_limits(self) -> None:
        """A curve out of all proportion is OffPlane; all of a file may have as many chords as its budget has points."""
        with self.assertRaises(Fault) as raised:
            flattened(Point(0, 0), [Point(0, 0), Point(1 << 50, 0), Point(0, 0)], Budget(TOLERANCE))
        self.assertEqual(raised.exception.name, FaultName.OffPlane)
        points = [Point(place * ONE, 0) for place in range(1, 13)]
        self.assertEqual(len(flattened(Point(0, 0), points, Budget(TOLERANCE, points=4))), 4)
        with self.assertRaises(Fault) as raised:
            flattened(Point(0, 0), points, Budget(TOLERANCE, points=3))
        self.assertEqual(raised.exception.name, FaultName.TooManyEdges)


class Ovals(unittest.TestCase):
    """Ellipses."""

    def test_vertices(self) -> None:
        """With two chords a quarter, the half angle of the middle one has the tangent 1 / 2: it is (3/5, 4/5)."""
        oval = Oval(Point(100, 200), Point(50, 0), Point(0, 50))
        expected = [(150, 200), (130, 240), (100, 250), (60, 230), (50, 200), (70, 160), (100, 150), (140, 170)]
        self.assertEqual([oval.vertex(place, 2) for place in range(8)], expected)

    def test_within_tolerance(self) -> None:
        """The middle of each chord is within the tolerance of the ellipse, also of a turned one."""
        ovals = [
            Oval(Point(0, 0), Point(50 * ONE, 0), Point(0, 20 * ONE)),
            Oval(Point(ONE, ONE), Point(30 * ONE, 40 * ONE), Point(-40 * ONE, 35 * ONE)),
        ]
        for oval in ovals:
            steps = oval.steps(TOLERANCE)
            ring = oval.ring(Budget(TOLERANCE))
            for place, point in enumerate(ring):
                following = ring[(place + 1) % len(ring)]
                step = place % steps
                quarter = place // steps
                # The direction whose half angle has the tangent between those of the chord's ends.
                x, y = (2 * steps) ** 2 - (2 * step + 1) ** 2, 4 * steps * (2 * step + 1)
                middle = Direction(x, y, (2 * steps) ** 2 + (2 * step + 1) ** 2).turned_back(-quarter)
                shown = oval.point(middle)
                self.assertLessEqual(distance((shown.x, shown.y), point, following), TOLERANCE + 2)

    def test_directions(self) -> None:
        """A direction's length is that of its vector, and its quarter the one where it lies."""
        three = direction_of(Point(3, 4))
        self.assertEqual((three.x * 5, three.y * 5), (three.length * 3, three.length * 4))
        vectors = [(1, 0), (1, 1), (0, 1), (-1, 1), (-1, 0), (-1, -1), (0, -1), (1, -1)]
        self.assertEqual([direction_of(Point(*vector)).quarter() for vector in vectors], [0, 0, 1, 1, 2, 2, 3, 3])


class Arcs(unittest.TestCase):
    """Arcs by two rays ([MS-EMF] 2.3.5.2)."""

    BOX = PageBox.ordered(Box(0, 0, 100, 60), IDENTITY)

    def arc(self, start: Point, end: Point, is_clockwise: bool) -> list[Point]:
        """The points of an arc with the tolerance of this test."""
        return self.BOX.arc(start, end, is_clockwise, Budget(TOLERANCE))

    def test_ends(self) -> None:
        """The ends are where the rays meet the ellipse, however long the rays are."""
        points = self.arc(Point(1000, 30), Point(50, 29), False)
        self.assertEqual((points[0], points[-1]), ((100 * ONE, 30 * ONE), (50 * ONE, 0)))

    def test_counterclockwise(self) -> None:
        """From the right to the top is a quarter, all of it in the upper right, since y points down."""
        for point in self.arc(Point(100, 30), Point(50, 0), False):
            self.assertTrue(point.x >= 50 * ONE and point.y <= 30 * ONE)

    def test_clockwise(self) -> None:
        """The other way goes through the bottom and the left."""
        points = self.arc(Point(100, 30), Point(50, 0), True)
        self.assertIn((50 * ONE, 60 * ONE), points)
        self.assertIn((0, 30 * ONE), points)

    def test_same_rays(self) -> None:
        """Two equal rays give the whole ellipse."""
        points = self.arc(Point(100, 30), Point(200, 30), False)
        self.assertEqual((points[0], points[-1]), ((100 * ONE, 30 * ONE), (100 * ONE, 30 * ONE)))
        for corner in ((50 * ONE, 0), (0, 30 * ONE), (50 * ONE, 60 * ONE)):
            self.assertIn(corner, points)

    def test_small_arcs(self) -> None:
        """Rays within one chord: the short arc has its two ends alone, and the long one goes round."""
        short = self.arc(Point(100, 29), Point(100, 28), False)
        self.assertEqual(len(short), 2)
        self.assertIn((0, 30 * ONE), self.arc(Point(100, 28), Point(100, 29), False))

    def test_page_that_points_up(self) -> None:
        """The direction is that of the device: on a page whose y points up, from the right to the top of the page."""
        box = PageBox.ordered(Box(0, 0, 100, 60), Affine(1, 0, 0, -1, 0, 60))
        for point in box.arc(Point(100, 30), Point(50, 60), False, Budget(TOLERANCE)):
            self.assertTrue(point.x >= 50 * ONE and point.y <= 30 * ONE)

    def test_round_rectangle(self) -> None:
        """Corners of 20 by 10 in a box of 100 by 60: the straight parts begin 10 and 5 from its corners."""
        points = self.BOX.round_rectangle(Point(20, 10), Budget(TOLERANCE))
        ends = [(100, 55), (90, 60), (10, 60), (0, 55), (0, 5), (10, 0), (90, 0), (100, 5)]
        for x, y in ends:
            self.assertIn((x * ONE, y * ONE), points)
        self.assertNotIn((100 * ONE, 60 * ONE), points)

    def test_corners_larger_than_the_box(self) -> None:
        """They make an ellipse."""
        middle = [(100, 30), (50, 60), (0, 30), (50, 0)]
        for corner in (Point(500, -500), Point(-500, 500)):
            points = self.BOX.round_rectangle(corner, Budget(TOLERANCE))
            for x, y in middle:
                self.assertIn((x * ONE, y * ONE), points)


if __name__ == "__main__":
    unittest.main()
