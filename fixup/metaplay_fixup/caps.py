"""The ends of strokes as contours whose area is positive, where y grows by a quarter of a turn from x."""

from __future__ import annotations

from functools import lru_cache

from .affine import Contour, Point
from .budgets import Budget
from .curves import Direction, Oval, place_of
from .fixed import rounded_quotient
from .pens import Cap, PenShape


def circle(point: Point, pen: PenShape) -> Oval:
    """The circle around a point with the pen's width."""
    return Oval(point, Point(pen.radius, 0), Point(0, pen.radius))


def left_of(heading: Direction) -> Direction:
    """A quarter of a turn before a direction."""
    return heading.turned_back(1)


def right_of(heading: Direction) -> Direction:
    """A quarter of a turn after a direction."""
    return heading.turned_back(3)


def moved(point: Point, heading: Direction, length: int) -> Point:
    """A point moved in a direction."""
    x = rounded_quotient(heading.x * length, heading.length)
    y = rounded_quotient(heading.y * length, heading.length)
    return Point(point.x + x, point.y + y)


@lru_cache(maxsize=16)
def _ring(radius: int, tolerance: int) -> tuple[Point, ...]:
    """The vectors from the centre of a circle to the ends of its chords: the same for each cap and join of a pen."""
    circle_there = Oval(Point(0, 0), Point(radius, 0), Point(0, radius))
    return tuple(circle_there.ring(Budget(tolerance)))


def disc(centre: Point, pen: PenShape, budget: Budget) -> Contour:
    """A whole circle. Raises Fault TooManyEdges if the file gets too many points."""
    ring = _ring(pen.radius, budget.tolerance)
    budget.take_points(len(ring))
    return [Point(centre.x + vector.x, centre.y + vector.y) for vector in ring]


def arc(centre: Point, start: Direction, end: Direction, pen: PenShape, budget: Budget) -> list[Point]:
    """Part of a circle, from one direction to another that differs. Raises Fault as `disc` does."""
    ring, around = _ring(pen.radius, budget.tolerance), circle(centre, pen)
    first, last = (place_of(heading, len(ring) // 4) for heading in (start, end))
    if last < first or (last == first and start.x * end.y - start.y * end.x < 0):
        last += len(ring)
    budget.take_points(last - first + 2)
    between = [ring[place % len(ring)] for place in range(first + 1, last + 1)]
    moved_there = [Point(centre.x + vector.x, centre.y + vector.y) for vector in between]
    return [around.point(start), *moved_there, around.point(end)]


def cap(point: Point, heading: Direction, pen: PenShape, budget: Budget) -> list[Contour]:
    """The cap of a stroke that ends at a point, where `heading` leads out of the stroke. A flat cap is nothing.

    Raises Fault TooManyEdges if the file gets too many points.
    """
    if pen.cap is Cap.FLAT:
        return []
    left, right = left_of(heading), right_of(heading)
    if pen.cap is Cap.ROUND:
        return [arc(point, left, right, pen, budget)]
    around = circle(point, pen)
    return [_box(around.point(left), around.point(right), heading, pen.radius)]


def dot(point: Point, heading: Direction, pen: PenShape, budget: Budget) -> list[Contour]:
    """A stroke without length: a disc for round caps, a square along the heading for square ones, else nothing.

    Raises Fault as `cap` does.
    """
    if pen.cap is Cap.FLAT:
        return []
    if pen.cap is Cap.ROUND:
        return [disc(point, pen, budget)]
    back = moved(point, heading, -pen.radius)
    start = circle(back, pen)
    return [_box(start.point(left_of(heading)), start.point(right_of(heading)), heading, 2 * pen.radius)]


def _box(left: Point, right: Point, heading: Direction, length: int) -> Contour:
    """The box that stands on a side of the stroke."""
    return [left, moved(left, heading, length), moved(right, heading, length), right]
