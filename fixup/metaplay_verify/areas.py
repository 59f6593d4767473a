"""Boxes and their corners."""

from __future__ import annotations

from typing import NamedTuple

Pair = tuple[float, float]


class Area(NamedTuple):
    """A box, left to right and top to bottom."""

    left: float
    top: float
    right: float
    bottom: float

    def grown(self, x: float, y: float) -> Area:
        """The box with more room on each side."""
        return Area(self.left - x, self.top - y, self.right + x, self.bottom + y)

    def holds(self, other: Area) -> bool:
        """Whether another box lies in it."""
        over = self.left > other.left or self.top > other.top
        return not (over or self.right < other.right or self.bottom < other.bottom)


def around(points: list[Pair]) -> Area:
    """The box around points."""
    xs, ys = [x for x, _ in points], [y for _, y in points]
    return Area(min(xs), min(ys), max(xs), max(ys))


def corners(area: Area) -> list[Pair]:
    """The corners of a box, in turn."""
    left, top, right, bottom = area
    return [(left, top), (right, top), (right, bottom), (left, bottom)]
