"""Whole numbers, angles and flattening."""

from __future__ import annotations

import unittest
from math import isqrt

from metaplay_fixup.affine import Point
from metaplay_fixup.angles import cosine_and_sine
from metaplay_fixup.faults import Fault, FaultName
from metaplay_fixup.flattening import MOST_CHORDS, chords_of_cubic, chords_of_quadratic, flattened
from metaplay_fixup.outlines import GlyphContour

ONE = 1 << 40


def root_part(square: int, divisor: int) -> int:
    """The square root of a whole number over a divisor, in units of 2^-40, rounded."""
    return (2 * isqrt((square << 120)) + (divisor << 20)) // (divisor << 21)


class Angles(unittest.TestCase):
    """Cosines and sines against values that have roots."""

    def test_quarter_turns_are_exact(self) -> None:
        for tenths, expected in (
            (0, (1, 0)),
            (900, (0, 1)),
            (1800, (-1, 0)),
            (2700, (0, -1)),
            (-900, (0, -1)),
            (3600, (1, 0)),
        ):
            self.assertEqual(cosine_and_sine(tenths), (expected[0] * ONE, expected[1] * ONE), tenths)

    def test_thirty_and_sixty_degrees(self) -> None:
        self.assertEqual(cosine_and_sine(300), (root_part(3, 2), ONE // 2))
        self.assertEqual(cosine_and_sine(600), (ONE // 2, root_part(3, 2)))
        self.assertEqual(cosine_and_sine(1200), (-ONE // 2, root_part(3, 2)))

    def test_forty_five_degrees(self) -> None:
        self.assertEqual(cosine_and_sine(450), (root_part(2, 2), root_part(2, 2)))

    def test_every_tenth_lies_on_the_unit_circle(self) -> None:
        """Half a unit off in each number is less than 2^-39 off in the sum of squares."""
        for tenths in range(3600):
            cosine, sine = cosine_and_sine(tenths)
            self.assertLess(abs(cosine * cosine + sine * sine - ONE * ONE), ONE * 2, tenths)


class Flattening(unittest.TestCase):
    """Chords of curves."""

    def test_least_chords_of_a_quadratic(self) -> None:
        """The middle of this curve is off its chord by |0 - 2 * 16 + 0| / 4 = 8; n chords are off by 8 / n^2."""
        for tolerance, count in ((8, 1), (7, 2), (2, 2), (1, 3)):
            chords = chords_of_quadratic(Point(0, 0), Point(0, 16), Point(0, 0), tolerance)
            self.assertEqual(chords, count, tolerance)

    def test_least_chords_of_a_cubic(self) -> None:
        """The second differences are (0, -16) and (0, -16): n chords are off by 3 / 4 * 16 / n^2 = 12 / n^2 at most."""
        curve = (Point(0, 0), Point(0, 16), Point(0, 16), Point(0, 0))
        for tolerance, count in ((12, 1), (11, 2), (3, 2), (2, 3)):
            self.assertEqual(chords_of_cubic(curve, tolerance), count, tolerance)

    def test_chords_of_a_cubic_that_bends_at_one_end(self) -> None:
        """The second differences are (0, 0) and (0, 16), or the other way round: the greater one counts."""
        curve = (Point(0, 0), Point(0, 0), Point(0, 0), Point(0, 16))
        back = (Point(0, 16), Point(0, 0), Point(0, 0), Point(0, 0))
        for tolerance, count in ((12, 1), (11, 2), (3, 2), (2, 3)):
            for piece in (curve, back):
                self.assertEqual(chords_of_cubic(piece, tolerance), count, tolerance)

    def test_most_chords(self) -> None:
        self.assertEqual(chords_of_quadratic(Point(0, 0), Point(1 << 40, 0), Point(0, 0), 1), MOST_CHORDS)

    def test_points_of_a_quadratic_lie_on_it(self) -> None:
        """(0,0), (8,16), (16,0) at 1/2 is (8, 8); the line back to the start closes the contour."""
        contour = GlyphContour(Point(0, 0), ((Point(8, 16), Point(16, 0)), (Point(0, 0),)))
        self.assertEqual(flattened((contour,), 2), [[Point(0, 0), Point(8, 8), Point(16, 0)]])

    def test_points_of_a_cubic_lie_on_it(self) -> None:
        """(0,0), (0,16), (16,16), (16,0) at 1/2 is (8, 12).

        Both second differences are (±16, -16), 23 long: 17.25 / n^2.
        """
        contour = GlyphContour(Point(0, 0), ((Point(0, 16), Point(16, 16), Point(16, 0)), (Point(0, 0),)))
        self.assertEqual(flattened((contour,), 5), [[Point(0, 0), Point(8, 12), Point(16, 0)]])

    def test_contours_without_an_area_are_left_out(self) -> None:
        contour = GlyphContour(Point(0, 0), ((Point(4, 0),), (Point(4, 0),), (Point(0, 0),)))
        self.assertEqual(flattened((contour,), 1), [])

    def test_too_many_points(self) -> None:
        bend = (Point(1 << 30, 0), Point(0, 0))
        contour = GlyphContour(Point(0, 0), (bend,) * 1025)
        with self.assertRaises(Fault) as caught:
            flattened((contour,), 1)
        self.assertIs(caught.exception.name, FaultName.TooManyEdges)


if __name__ == "__main__":
    unittest.main()
