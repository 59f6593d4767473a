"""Lists of points made ready for records: in the units of a block, without repeated points."""

from __future__ import annotations

from collections.abc import Iterable, Sequence
from itertools import islice
from typing import NamedTuple, TypeVar

from .affine import Point
from .faults import Fault, FaultName
from .fixed import ceiling_units, floor_units
from .text import Box

MOST_POINTS = 1_048_576


class Figure(NamedTuple):
    """A list of points in fixed device units, closed or not."""

    points: list[Point]
    is_closed: bool


Pair = TypeVar("Pair", bound=tuple[int, int])


def without_repeats(points: Sequence[Pair], is_closed: bool) -> list[Pair]:
    """The points without those that equal the one before; of a closed list also without a last one that equals the
    first.
    """
    kept = [*points[:1], *(point for before, point in zip(points, points[1:]) if point != before)]
    while is_closed and len(kept) > 1 and kept[-1] == kept[0]:
        kept.pop()
    return kept


def parted(points: Iterable[Pair], lists: Iterable[Sequence[Point]], is_closed: bool) -> list[list[Pair]]:
    """The points of all lists after a change, as lists again, without repeats, and without lists of fewer than two."""
    rest = iter(points)
    parts = (without_repeats(list(islice(rest, len(part))), is_closed) for part in lists)
    return [part for part in parts if len(part) > 1]


def check_count(lists: Iterable[Sequence[Point]]) -> None:
    """Raises Fault TooManyEdges if one drawing has more points than the checker allows."""
    if sum(map(len, lists)) > MOST_POINTS:
        raise Fault(FaultName.TooManyEdges)


def bounds(points: Iterable[Point]) -> Box:
    """The least box of whole device units around points in fixed units, of which there is at least one."""
    left, top, right, bottom = fixed_bounds(points)
    return Box(floor_units(left), floor_units(top), ceiling_units(right), ceiling_units(bottom))


def fixed_bounds(points: Iterable[Point]) -> Box:
    """The least box around points, in the same units. There is at least one point."""
    across, down = zip(*points)
    return Box(min(across), min(down), max(across), max(down))


def corners_of(box: Box) -> list[Point]:
    """The corners of a box, in the order in which a rectangle is drawn."""
    return [
        Point(box.left, box.top),
        Point(box.right, box.top),
        Point(box.right, box.bottom),
        Point(box.left, box.bottom),
    ]
