"""The corners of strokes as contours whose area is positive, where y grows by a quarter of a turn from x."""

from __future__ import annotations

from .affine import Contour, Point
from .budgets import Budget
from .caps import arc, circle, left_of, right_of
from .curves import Direction
from .fixed import rounded_quotient
from .pens import Join, PenShape


def join(corner: Point, before: Direction, after: Direction, pen: PenShape, budget: Budget) -> list[Contour]:
    """What fills the outer side of a corner between two lines, given the directions before and after it.

    Nothing, if the line goes straight on. A miter beyond the limit becomes a bevel. Raises Fault TooManyEdges if the
    file gets too many points.
    """
    turn = before.x * after.y - before.y * after.x
    if turn == 0 and before.x * after.x + before.y * after.y > 0:
        return []
    if turn >= 0:
        first, last = left_of(before), left_of(after)
    else:
        first, last = right_of(after), right_of(before)
    if pen.join is Join.ROUND:
        return [[corner, *arc(corner, first, last, pen, budget)]]
    if turn == 0:
        return []
    tip = [_tip(corner, first, last, pen)] if pen.join is Join.MITER and _is_within_limit(first, last, pen) else []
    around = circle(corner, pen)
    return [[corner, around.point(first), *tip, around.point(last)]]


def _is_within_limit(first: Direction, last: Direction, pen: PenShape) -> bool:
    """Whether the miter's length over the width is at most the limit.

    For a turn by the angle t it is 1 / cos(t / 2), and its square 2 / (1 + cos t).
    """
    lengths, limit = first.length * last.length, pen.miter_limit
    return 2 * lengths * limit.denominator**2 <= limit.numerator**2 * (lengths + _product(first, last))


def _tip(corner: Point, first: Direction, last: Direction, pen: PenShape) -> Point:
    """Where the outer sides meet: the corner plus (u + v) / (1 + u v) times the radius, for the unit vectors of the
    sides.
    """
    divisor = first.length * last.length + _product(first, last)
    x = pen.radius * (first.x * last.length + last.x * first.length)
    y = pen.radius * (first.y * last.length + last.y * first.length)
    return Point(corner.x + rounded_quotient(x, divisor), corner.y + rounded_quotient(y, divisor))


def _product(first: Direction, last: Direction) -> int:
    return first.x * last.x + first.y * last.y
