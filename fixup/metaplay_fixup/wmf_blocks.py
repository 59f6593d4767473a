"""Blocks of WMF: drawings between META_SAVEDC and META_RESTOREDC, in a window that is finer than the file's.

The viewport stays, since a program that shows the file has set it. Coordinates have 16 bits, so the window's origin
moves near the drawing, and its extent grows by a whole factor that still fits.
"""

from __future__ import annotations

import struct
from collections.abc import Sequence
from dataclasses import dataclass
from itertools import chain
from typing import NamedTuple

from .affine import Point
from .faults import Fault, FaultName
from .fixed import FRACTION_BITS, ONE
from .shapes import check_count, parted
from .state import ANISOTROPIC, PageMap
from .wmf_kinds import WMF

_LARGEST = 0x7FFF
# A finer window has no more parts to a unit than the print profile can tell apart at usual sizes.
_FINEST = 256


@dataclass(frozen=True, slots=True)
class FineWindow:
    """A window of a block: `page` is the file's map, `base` the page units from which the block counts, `factors`
    its parts of one.
    """

    page: PageMap
    base: Point
    factors: Point

    @staticmethod
    def around(page: PageMap, points: Sequence[Point], is_even: bool) -> FineWindow:
        """The finest window that has room for points in fixed device units, of which there is at least one.

        `is_even` makes it as fine on both axes. Raises Fault OffPlane if the window needs more than 16 bits.
        """
        axes = [_factor(page, axis, [point[axis] for point in points]) for axis in (0, 1)]
        base, factors = Point(axes[0][0], axes[1][0]), Point(axes[0][1], axes[1][1])
        if is_even:
            factors = Point(min(factors), min(factors))
        window = FineWindow(page, base, factors)
        if max(abs(number) for number in (*window.origin, *window.extent)) > _LARGEST:
            raise Fault(FaultName.OffPlane, "a block needs more than 16 bits")
        return window

    @property
    def origin(self) -> Point:
        """The origin of the block's window."""
        origin = self.page.window_origin
        return Point((origin.x - self.base.x) * self.factors.x, (origin.y - self.base.y) * self.factors.y)

    @property
    def extent(self) -> Point:
        """The extent of the block's window."""
        return Point(self.page.window_extent.x * self.factors.x, self.page.window_extent.y * self.factors.y)

    def records(self) -> list[bytes]:
        """The records that set the window."""
        mode = [] if self.page.mode == ANISOTROPIC else [WMF.named("META_SETMAPMODE").write(ANISOTROPIC)]
        origin = WMF.named("META_SETWINDOWORG").write(self.origin.y, self.origin.x)
        return [*mode, origin, WMF.named("META_SETWINDOWEXT").write(self.extent.y, self.extent.x)]

    def units(self, point: Point) -> Point:
        """A fixed device point in the block's units. Raises Fault OffPlane if it doesn't fit 16 bits."""
        ((x, y),) = self.placed([point])
        return Point(x, y)

    def placed(self, points: Sequence[Point]) -> list[tuple[int, int]]:
        """The same for a list of points."""
        across, down = (_parts(self.page, axis, self.base[axis], self.factors[axis]) for axis in (0, 1))
        xs = [(place * across.factor + across.move) // across.divisor for place, _ in points]
        ys = [(place * down.factor + down.move) // down.divisor for _, place in points]
        if points and max(max(xs), -min(xs), max(ys), -min(ys)) > _LARGEST:
            raise Fault(FaultName.OffPlane, "a point has more than 16 bits")
        return list(zip(xs, ys))


class _Parts(NamedTuple):
    """What makes parts of a page unit of a fixed device coordinate: (coordinate * factor + move) / divisor, rounded
    down. The divisor is above 0.
    """

    factor: int
    move: int
    divisor: int


def _parts(page: PageMap, axis: int, base: int, factor: int) -> _Parts:
    """The parts are counted from a page coordinate, and rounded to the nearest: half of the divisor is added."""
    viewport, window = page.viewport_extent[axis], page.window_extent[axis]
    divisor = viewport * ONE
    move = (page.window_origin[axis] - base) * divisor - (page.viewport_origin[axis] << FRACTION_BITS) * window
    sign = 1 if divisor > 0 else -1
    return _Parts(2 * window * factor * sign, 2 * move * factor * sign + abs(divisor), 2 * abs(divisor))


def _page_parts(page: PageMap, axis: int, place: int, base: int, factor: int) -> int:
    """A fixed device coordinate in parts of a page unit, counted from a page coordinate, rounded to the nearest."""
    parts = _parts(page, axis, base, factor)
    return (place * parts.factor + parts.move) // parts.divisor


def _factor(page: PageMap, axis: int, places: Sequence[int]) -> tuple[int, int]:
    """The page coordinate to count from on an axis, and how many parts of a page unit fit."""
    base = _page_parts(page, axis, places[0], 0, 1)
    # One unit more than the farthest, for the rounding of both.
    reach = max(abs(_page_parts(page, axis, place, base, 1)) + 1 for place in (min(places), max(places)))
    reach = max(reach, abs(page.window_origin[axis] - base), abs(page.window_extent[axis]))
    return base, max(1, min(_FINEST, _LARGEST // (reach + 1)))


def _lists(window: FineWindow, lists: Sequence[Sequence[Point]], is_closed: bool) -> list[list[tuple[int, int]]]:
    placed = parted(window.placed(list(chain.from_iterable(lists))), lists, is_closed)
    if max(map(len, placed), default=0) > _LARGEST:
        raise Fault(FaultName.TooManyEdges, "a list has more than 32,767 points")
    return placed


def _packed(points: Sequence[tuple[int, int]]) -> bytes:
    return struct.pack(f"<{2 * len(points)}h", *chain.from_iterable(points))


def polygons(window: FineWindow, contours: Sequence[Sequence[Point]]) -> list[bytes]:
    """The record that fills contours together, or none if no contour has two points that differ."""
    check_count(contours)
    lists = _lists(window, contours, True)
    if not lists:
        return []
    if len(lists) == 1:
        return [WMF.named("META_POLYGON").write(len(lists[0]), rest=_packed(lists[0]))]
    if len(lists) > 0xFFFF:
        raise Fault(FaultName.TooManyEdges, "more than 65,535 polygons")
    counts = struct.pack(f"<{len(lists)}H", *map(len, lists))
    rest = counts + _packed(list(chain.from_iterable(lists)))
    return [WMF.named("META_POLYPOLYGON").write(len(lists), rest=rest)]


def lines(window: FineWindow, points: Sequence[Point]) -> list[bytes]:
    """The record that draws a line through points, or none if it has no two points that differ."""
    placed = _lists(window, [points], False)
    return [WMF.named("META_POLYLINE").write(len(part), rest=_packed(part)) for part in placed]
