"""Outlines as polygons: curves become chords."""

from __future__ import annotations

from math import isqrt

from .affine import Contour, Point
from .faults import Fault, FaultName
from .fixed import rounded_quotient
from .outlines import GlyphContour, Piece

MOST_CHORDS = 256
"""A curve has at most so many chords."""
MOST_FLAT_POINTS = 1 << 18
"""A flattened glyph has at most so many points."""


def chords_of_quadratic(start: Point, control: Point, end: Point, tolerance: int) -> int:
    """The least number of chords that stay within the tolerance of the curve, at most MOST_CHORDS.

    n chords of equal parameter steps are off by at most |start - 2 control + end| / (4 n^2). The tolerance is above 0,
    in the points' units.
    """
    bend = _length_above(start.x - 2 * control.x + end.x, start.y - 2 * control.y + end.y)
    return _chords(bend, 4 * tolerance)


def chords_of_cubic(piece: tuple[Point, Point, Point, Point], tolerance: int) -> int:
    """As for a quadratic curve, by the greater of the two second differences: n chords are off by 3 / (4 n^2) of it."""
    start, one, two, end = piece
    bend = max(
        _length_above(start.x - 2 * one.x + two.x, start.y - 2 * one.y + two.y),
        _length_above(one.x - 2 * two.x + end.x, one.y - 2 * two.y + end.y),
    )
    return _chords(3 * bend, 4 * tolerance)


def flattened(contours: tuple[GlyphContour, ...], tolerance: int) -> list[Contour]:
    """Polygons within the tolerance of the contours, in the same units, but for those of fewer than three points.

    Raises Fault with TooManyEdges if there are more than MOST_FLAT_POINTS.
    """
    polygons: list[Contour] = []
    total = 0
    for contour in contours:
        polygon = _polygon(contour, tolerance)
        total += len(polygon)
        _check_count(total)
        if len(polygon) > 2:
            polygons.append(polygon)
    return polygons


def _polygon(contour: GlyphContour, tolerance: int) -> Contour:
    points = [contour.start]
    for piece in contour.pieces:
        points += _chord_ends(points[-1], piece, tolerance)
        _check_count(len(points))
    return _without_repeats(points)


def _check_count(points: int) -> None:
    if points > MOST_FLAT_POINTS:
        raise Fault(FaultName.TooManyEdges, f"a glyph has more than {MOST_FLAT_POINTS} points")


def _chord_ends(start: Point, piece: Piece, tolerance: int) -> list[Point]:
    if len(piece) == 1:
        return [piece[0]]
    if len(piece) == 2:
        control, end = piece
        count = chords_of_quadratic(start, control, end, tolerance)
        return [_on_quadratic(start, piece, step, count) for step in range(1, count)] + [end]
    one, two, end = piece
    count = chords_of_cubic((start, one, two, end), tolerance)
    return [_on_cubic(start, piece, step, count) for step in range(1, count)] + [end]


def _on_quadratic(start: Point, piece: Piece, step: int, count: int) -> Point:
    """The point of a quadratic curve at step / count, rounded."""
    control, end = piece
    rest = count - step
    first, second, third = rest * rest, 2 * rest * step, step * step
    whole = count * count
    return Point(
        rounded_quotient(first * start.x + second * control.x + third * end.x, whole),
        rounded_quotient(first * start.y + second * control.y + third * end.y, whole),
    )


def _on_cubic(start: Point, piece: Piece, step: int, count: int) -> Point:
    """The point of a cubic curve at step / count, rounded."""
    one, two, end = piece
    rest = count - step
    weights = (rest * rest * rest, 3 * rest * rest * step, 3 * rest * step * step, step * step * step)
    whole = count * count * count
    first, second, third, fourth = weights
    return Point(
        rounded_quotient(first * start.x + second * one.x + third * two.x + fourth * end.x, whole),
        rounded_quotient(first * start.y + second * one.y + third * two.y + fourth * end.y, whole),
    )


def _without_repeats(points: list[Point]) -> Contour:
    """The points without equal neighbours; the last and the first are neighbours too."""
    kept = [point for index, point in enumerate(points) if index == 0 or point != points[index - 1]]
    if len(kept) > 1 and kept[-1] == kept[0]:
        kept.pop()
    return kept


def _length_above(x: int, y: int) -> int:
    """The length of a vector, rounded up."""
    square = x * x + y * y
    root = isqrt(square)
    return root if root * root == square else root + 1


def _chords(bend: int, divisor: int) -> int:
    """The least n of 1 to MOST_CHORDS with n * n * divisor >= bend, or MOST_CHORDS."""
    least = -(-bend // divisor)
    if least <= 1:
        return 1
    return min(MOST_CHORDS, isqrt(least - 1) + 1)
