"""Dashes of strokes, beside polygons worked out by hand. Numbers are whole units; ONE is a unit."""

import unittest

from metaplay_fixup.affine import Point
from metaplay_fixup.budgets import Budget
from metaplay_fixup.dashes import along_axis, along_line, dashes, gaps, whole
from metaplay_fixup.faults import Fault, FaultName
from metaplay_fixup.fixed import ONE
from metaplay_fixup.pens import Cap
from metaplay_fixup.shapes import Figure

from .strokes import TOLERANCE, points, shape, strokes


class Dashes(unittest.TestCase):
    """Lines that are cut."""

    def cut(self, pattern: tuple[int, ...], is_closed: bool, *numbers: int) -> list[list[Point]]:
        """The points of a figure's dashes."""
        lengths = tuple(length * ONE for length in pattern)
        found = dashes(Figure(points(*numbers), is_closed), lengths, Budget(TOLERANCE), along_line)
        self.assertTrue(all(not dash.is_closed for dash in found))
        return [dash.points for dash in found]

    def test_around_a_corner(self) -> None:
        """A dash of 6 goes 2 units around a corner after 4; the line's end cuts the last one."""
        line = (0, 0, 4, 0, 4, 11)
        self.assertEqual(self.cut((6, 2), False, *line), [points(0, 0, 4, 0, 4, 2), points(4, 4, 4, 10)])
        self.assertEqual(
            self.cut((6, 1), False, *line), [points(0, 0, 4, 0, 4, 2), points(4, 3, 4, 9), points(4, 10, 4, 11)]
        )

    def test_gaps(self) -> None:
        """Gaps are what the dashes leave."""
        left = gaps(Figure(points(0, 0, 4, 0, 4, 11), False), (6 * ONE, 2 * ONE), Budget(TOLERANCE), along_line)
        self.assertEqual([gap.points for gap in left], [points(4, 2, 4, 4), points(4, 10, 4, 11)])
        self.assertEqual(gaps(Figure(points(0, 0, 4, 0), False), (6 * ONE, 2 * ONE), Budget(TOLERANCE), along_line), [])

    def test_along_an_axis(self) -> None:
        """A thin pen counts pixels on the longer axis, so a dash of 6 goes 6 across and 3 down; at a corner it goes on.

        Along the line itself a dash of 5 goes 3 across and 4 down.
        """
        steep = Figure(points(0, 0, 20, 10, 20, 18), False)
        lines = [dash.points for dash in dashes(steep, (6 * ONE, 2 * ONE), Budget(TOLERANCE), along_axis)]
        self.assertEqual(
            lines, [points(0, 0, 6, 3), points(8, 4, 14, 7), points(16, 8, 20, 10, 20, 12), points(20, 14, 20, 18)]
        )
        spaces = [gap.points for gap in gaps(steep, (6 * ONE, 2 * ONE), Budget(TOLERANCE), along_axis)]
        self.assertEqual(spaces, [points(6, 3, 8, 4), points(14, 7, 16, 8), points(20, 12, 20, 14)])
        self.assertEqual(self.cut((5, 5), False, 0, 0, 9, 12), [points(0, 0, 3, 4), points(6, 8, 9, 12)])

    def test_cut_at_a_corner(self) -> None:
        """A dash that ends at a corner doesn't turn, and one that begins there doesn't either."""
        self.assertEqual(self.cut((4, 2), False, 0, 0, 4, 0, 4, 4), [points(0, 0, 4, 0), points(4, 2, 4, 4)])
        self.assertEqual(self.cut((2, 2), False, 0, 0, 4, 0, 4, 2), [points(0, 0, 2, 0), points(4, 0, 4, 2)])

    def test_end_of_a_dash(self) -> None:
        """No dot follows a dash, or a gap, that ends with the line."""
        self.assertEqual(self.cut((4, 2), False, 0, 0, 10, 0), [points(0, 0, 4, 0), points(6, 0, 10, 0)])
        self.assertEqual(self.cut((4, 2), False, 0, 0, 6, 0), [points(0, 0, 4, 0)])

    def test_closed(self) -> None:
        """The last dash of a square goes on into the first: one dash around the corner at the start."""
        square = (0, 0, 10, 0, 10, 10, 0, 10)
        first, second, third = points(0, 4, 0, 0, 8, 0), points(10, 2, 10, 10), points(6, 10, 0, 10, 0, 8)
        self.assertEqual(self.cut((8, 4), True, *square), [first, second, third])
        self.assertEqual(self.cut((6, 4), True, *square)[0], points(0, 0, 6, 0))

    def test_one_dash(self) -> None:
        """A closed figure that is shorter than the first dash stays closed; an open one stays whole."""
        for is_closed in (False, True):
            figure = Figure(points(0, 0, 4, 0, 4, 3), is_closed)
            self.assertEqual(dashes(figure, (12 * ONE, ONE), Budget(TOLERANCE), along_line), whole(figure))

    def test_dots(self) -> None:
        """Dashes without length are squares along the line: here along (3, 4), with sides of 10."""
        pen = shape(10, Cap.SQUARE, pattern=(0, 50))
        boxes = [points(1, -7, 7, 1, -1, 7, -7, -1), points(31, 33, 37, 41, 29, 47, 23, 39)]
        self.assertEqual(strokes(pen, False, 0, 0, 33, 44), boxes)

    def test_dashed_stroke(self) -> None:
        """Each dash has its own caps, and a corner within one has a join."""
        pen = shape(2, Cap.SQUARE, pattern=(6, 4))
        contours = strokes(pen, False, 0, 0, 4, 0, 4, 8)
        corner = [
            points(0, -1, 4, -1, 4, 0, 4, 1, 0, 1),
            points(5, 0, 5, 2, 3, 2, 3, 0, 4, 0),
            points(4, 0, 4, -1, 5, -1, 5, 0),
        ]
        caps = [points(0, 1, -1, 1, -1, -1, 0, -1), points(5, 2, 5, 3, 3, 3, 3, 2)]
        last = [points(5, 6, 5, 8, 3, 8, 3, 6), points(3, 6, 3, 5, 5, 5, 5, 6), points(5, 8, 5, 9, 3, 9, 3, 8)]
        self.assertEqual(contours, corner + caps + last)

    def test_too_many(self) -> None:
        """A line with more dashes than a file may have is rejected before it is cut."""
        with self.assertRaises(Fault) as raised:
            dashes(Figure(points(0, 0, 1 << 30, 0), False), (1, 1), Budget(TOLERANCE), along_line)
        self.assertIs(raised.exception.name, FaultName.TooManyEdges)


if __name__ == "__main__":
    unittest.main()
