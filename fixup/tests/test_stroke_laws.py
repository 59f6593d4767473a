"""What holds of all strokes and dashes, tried with random ones."""

import random
import unittest
from collections.abc import Sequence
from math import hypot

from metaplay_fixup.affine import Point
from metaplay_fixup.budgets import Budget
from metaplay_fixup.dashes import along_line, dashes, gaps
from metaplay_fixup.fixed import ONE
from metaplay_fixup.pens import Cap, Join
from metaplay_fixup.shapes import Figure
from metaplay_fixup.stroke_shapes import aligned, stroke_contours, twice_area

from .strokes import TOLERANCE, points, shape


class Laws(unittest.TestCase):
    """What holds of each stroke."""

    def test_random_strokes(self) -> None:
        """All contours have one direction; the area is at least that of the longest segment; none reaches beyond the
        caps and miters.
        """
        source = random.Random(500)
        for _ in range(500):
            line = [
                Point(source.randrange(200 * ONE), source.randrange(200 * ONE)) for _ in range(source.randrange(2, 9))
            ]
            pen = shape(source.randrange(1, 30), source.choice([*Cap]), source.choice([*Join]))
            is_closed = source.random() < 0.5
            contours = stroke_contours([Figure(line, is_closed)], pen, Budget(TOLERANCE))
            areas = [twice_area(contour) for contour in contours]
            self.assertGreater(min(areas), 0)
            ends = [*line[1:], line[0]] if is_closed else line[1:]
            longest = max(hypot(end.x - start.x, end.y - start.y) for start, end in zip(line, ends))
            self.assertGreaterEqual(max(areas) / 2, 0.999999 * longest * pen.width)
            reach = 10 * pen.width
            across = [point.x for contour in contours for point in contour]
            self.assertGreaterEqual(min(across), min(point.x for point in line) - reach)
            self.assertLessEqual(max(across), max(point.x for point in line) + reach)

    def test_random_dashes(self) -> None:
        """The lengths of dashes and gaps add up to the line's; dashes of a dashed stroke have one direction too."""
        source = random.Random(501)
        for _ in range(100):
            line = [
                Point(source.randrange(200 * ONE), source.randrange(200 * ONE)) for _ in range(source.randrange(2, 9))
            ]
            pattern = tuple(source.randrange(1, 20) for _ in range(2 * source.randrange(1, 4)))
            pen = shape(source.randrange(1, 9), source.choice([*Cap]), source.choice([*Join]), pattern)
            figure, budget = Figure(line, source.random() < 0.5), Budget(TOLERANCE)
            self.assertTrue(all(twice_area(contour) > 0 for contour in stroke_contours([figure], pen, budget)))
            parts = [*dashes(figure, pen.pattern, budget, along_line), *gaps(figure, pen.pattern, budget, along_line)]
            whole_line = [*line, line[0]] if figure.is_closed else line
            total = sum(length_of(part.points) for part in parts)
            self.assertAlmostEqual(total / ONE, length_of(whole_line) / ONE, places=2)

    def test_rounded_contours(self) -> None:
        """Contours that rounding turns over are turned back, and those without an area are left out."""
        contours = [points(0, 0, 4, 0, 0, 4), points(0, 0, 0, 4, 4, 0), points(0, 0, 1, 0, 0, 1)]

        def halves(contour: Sequence[Point]) -> list[Point]:
            return [Point(point.x // (2 * ONE), point.y // (2 * ONE)) for point in contour]

        forward, back = points(0, 0, 4, 0, 0, 4), points(4, 0, 0, 4, 0, 0)
        self.assertEqual(aligned(contours, halves, False), [forward, back])
        self.assertEqual(aligned(contours, halves, True), [forward[::-1], contours[1]])


def length_of(line: list[Point]) -> float:
    """The length of a line."""
    return sum(hypot(two.x - one.x, two.y - one.y) for one, two in zip(line, line[1:]))


if __name__ == "__main__":
    unittest.main()
