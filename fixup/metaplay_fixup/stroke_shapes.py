"""Strokes as contours of one direction, which are filled together in the winding mode."""

from __future__ import annotations

from collections.abc import Callable, Iterable, Sequence

from .affine import Contour, Point
from .budgets import Budget
from .caps import cap, circle, dot, left_of, right_of
from .curves import Direction, direction_of
from .dashes import Dash, along_line, dashes, line_of, whole
from .faults import Fault, FaultName
from .joins import join
from .pens import PenShape
from .shapes import MOST_POINTS, Figure

# The player's widest nib, in pixels, and how many times the tolerance goes into a pixel at the bound.
_WIDEST_NIB = 4096
_TOLERANCES_OF_PIXEL = 8

Place = Callable[[Sequence[Point]], Sequence[tuple[int, int]]]
"""Gives where the player has the points of a list, in its own units."""


def stroke_contours(figures: Iterable[Figure], pen: PenShape, budget: Budget) -> list[Contour]:
    """The segments, joins and caps of the strokes of figures, all with a positive area, where y grows by a quarter of a
    turn from x.

    The union of the contours is what the pen covers. Round caps and joins are chords within the budget's tolerance.
    Raises Fault TooManyEdges if the stroke or the file gets too many points, and NibTooWide if the pen has more than
    4,096 pixels at the bound, as the player does.
    """
    if pen.width > _WIDEST_NIB * _TOLERANCES_OF_PIXEL * budget.tolerance:
        raise Fault(FaultName.NibTooWide)
    own = Budget(budget.tolerance, MOST_POINTS)
    parts = [dash for figure in figures for dash in _parts(figure, pen, own)]
    contours = [contour for dash in parts for contour in _dash_contours(dash, pen, own)]
    budget.take_points(sum(map(len, contours)))
    return [contour for contour in contours if twice_area(contour) > 0]


def twice_area(contour: Sequence[tuple[int, int]]) -> int:
    """Twice a contour's area, which is negative if the contour goes against the direction from x to y."""
    following = [*contour[1:], *contour[:1]]
    return sum(x * below - y * right for (x, y), (right, below) in zip(contour, following))


def aligned(contours: Iterable[Contour], place: Place, is_mirrored: bool) -> list[Contour]:
    """The contours that have an area after `place` has rounded their points, all of one direction.

    Rounding may turn a narrow contour over, and then it would cut a hole. `is_mirrored` says that `place` turns all of
    them over.
    """
    areas = [(contour, twice_area(place(contour))) for contour in contours]
    return [contour if (area > 0) != is_mirrored else contour[::-1] for contour, area in areas if area]


def _parts(figure: Figure, pen: PenShape, budget: Budget) -> list[Dash]:
    return dashes(figure, pen.pattern, budget, along_line) if pen.pattern else whole(figure)


def _dash_contours(dash: Dash, pen: PenShape, budget: Budget) -> list[Contour]:
    points = dash.points
    if len(points) < 2:
        return dot(points[0], dash.heading, pen, budget)
    ring = line_of(dash)
    headings = [direction_of(Point(end.x - start.x, end.y - start.y)) for start, end in zip(ring, ring[1:])]
    budget.take_points(4 * len(headings))
    ends = zip(ring, ring[1:])
    corners = set(ring) if dash.is_closed else set(ring[1:-1])
    contours = [_segment(*line, heading, pen, corners) for line, heading in zip(ends, headings)]
    contours += _corners(ring, headings, pen, budget)
    if dash.is_closed:
        return contours + join(ring[0], headings[-1], headings[0], pen, budget)
    back = headings[0].turned_back(2)
    return contours + cap(ring[0], back, pen, budget) + cap(ring[-1], headings[-1], pen, budget)


def _segment(start: Point, end: Point, heading: Direction, pen: PenShape, corners: set[Point]) -> Contour:
    """The box around a line. At corners it has the corner itself too, where the join begins.

    Otherwise the player, which rounds points to pixels, could leave a crack between the box and the join.
    """
    left, right = left_of(heading), right_of(heading)
    first, last = circle(start, pen), circle(end, pen)
    middle_of_end = [end] if end in corners else []
    middle_of_start = [start] if start in corners else []
    return [
        first.point(left),
        last.point(left),
        *middle_of_end,
        last.point(right),
        first.point(right),
        *middle_of_start,
    ]


def _corners(ring: Sequence[Point], headings: Sequence[Direction], pen: PenShape, budget: Budget) -> list[Contour]:
    """The joins between neighbouring lines, but for that at the start of a closed figure."""
    turns = zip(ring[1:], headings, headings[1:])
    return [contour for corner, one, two in turns for contour in join(corner, one, two, pen, budget)]
