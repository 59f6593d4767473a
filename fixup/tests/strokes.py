"""Pens and strokes for tests. Numbers are whole units; ONE is a unit."""

from metaplay_fixup.affine import Contour, Point
from metaplay_fixup.budgets import Budget
from metaplay_fixup.fixed import ONE
from metaplay_fixup.pens import Cap, Join, PenShape
from metaplay_fixup.shapes import Figure
from metaplay_fixup.singles import Ratio
from metaplay_fixup.stroke_shapes import stroke_contours

BLACK = (0, 0, 0)
TOLERANCE = ONE // 8


def points(*numbers: int) -> list[Point]:
    """Points of whole units."""
    return [Point(x * ONE, y * ONE) for x, y in zip(numbers[::2], numbers[1::2])]


def shape(
    width: int, cap: Cap = Cap.FLAT, join: Join = Join.MITER, pattern: tuple[int, ...] = (), limit: Ratio = Ratio(10, 1)
) -> PenShape:
    """A pen whose lengths are whole units."""
    return PenShape(width * ONE, cap, join, limit, tuple(length * ONE for length in pattern))


def strokes(pen: PenShape, is_closed: bool, *numbers: int) -> list[Contour]:
    """The contours of one figure."""
    return stroke_contours([Figure(points(*numbers), is_closed)], pen, Budget(TOLERANCE))
