"""Blocks of EMF: drawings in parts of a device unit, between EMR_SAVEDC and EMR_RESTOREDC."""

from __future__ import annotations

import struct
from collections.abc import Sequence
from dataclasses import dataclass
from enum import Enum
from itertools import chain

from .affine import Point
from .emf_kinds import EMF
from .faults import Fault, FaultName
from .fixed import FRACTION_BITS, ONE, rounded_quotient
from .records import Fields
from .shapes import bounds, check_count, fixed_bounds, parted
from .text import Box

# The print profile divides a unit of the frame into at most 4,096 parts, and the longer side of the frame into at most
# 2^20.
_MOST_PARTS = 4096
_MOST_PARTS_OF_SIDE = 1 << 20
# A coordinate of the plane is at most so many parts from the frame's corner.
_PLANE = 1 << 30
# How far a clip's sides are kept: 256 times the parts that the longer side of a frame has at least.
_CLIP_REACH = 1 << 24

# Eight parts for each pixel of the bound: then rounding moves a point by at most a sixteenth of a pixel.
_PARTS_OF_PIXEL = 8


@dataclass(frozen=True, slots=True)
class Grid:
    """How finely blocks count. A device unit has `parts` parts in blocks, and `plane_parts` in the print profile.

    `corner` is the frame's corner in device units; `tolerance` is how far chords may be from a curve, in fixed device
    units.
    """

    parts: int
    plane_parts: int
    corner: Point
    tolerance: int

    @staticmethod
    def of_header(header: Fields, bound: int) -> Grid:
        """The grid for a file's header and the longer side of the largest surface, in pixels.

        Raises Fault NoFrame as the checker.
        """
        left, top, right, bottom = header.several("bounds_left", "bounds_top", "bounds_right", "bounds_bottom")
        longer = max(1, right - left + 1, bottom - top + 1)
        if longer > 1 << 28:
            raise Fault(FaultName.NoFrame)
        room = max(1, _MOST_PARTS_OF_SIDE // longer)
        plane_parts = min(_MOST_PARTS, 1 << (room.bit_length() - 1))
        wanted = -(-_PARTS_OF_PIXEL * bound // longer)
        parts = min(plane_parts, 1 << (wanted - 1).bit_length())
        tolerance = max(1, longer * ONE // (_PARTS_OF_PIXEL * bound))
        return Grid(parts, plane_parts, Point(left, top), tolerance)

    def units(self, point: Point, origin: Point) -> Point:
        """A fixed device point in parts, counted from an origin in device units.

        Raises Fault OffPlane if it is too far out.
        """
        ((x, y),) = self.placed([point], origin)
        return Point(x, y)

    def placed(self, points: Sequence[Point], origin: Point) -> list[tuple[int, int]]:
        """The same for a list of points, of which there is at least one."""
        self.check(fixed_bounds(points))
        # The parts are a power of two, so a point is rounded by a shift.
        shift = FRACTION_BITS + 1 - self.parts.bit_length()
        half = 1 << (shift - 1)
        left, top = half - (origin.x << FRACTION_BITS), half - (origin.y << FRACTION_BITS)
        return [((x + left) >> shift, (y + top) >> shift) for x, y in points]

    def check(self, box: Box) -> None:
        """Raises Fault OffPlane if a fixed box is too far out."""
        left, top = self.corner.x << FRACTION_BITS, self.corner.y << FRACTION_BITS
        offsets = (box.left - left, box.right - left, box.top - top, box.bottom - top)
        if max(abs(offset) for offset in offsets) * self.plane_parts > _PLANE << FRACTION_BITS:
            raise Fault(FaultName.OffPlane)

    def clip_corner(self, point: Point) -> Point:
        """A corner of a clip in parts, counted from the frame's corner; one far outside of the frame is moved
        nearer.
        """
        x, y = ((place - (side << FRACTION_BITS)) * self.parts for place, side in zip(point, self.corner))
        return Point(_within(rounded_quotient(x, ONE)), _within(rounded_quotient(y, ONE)))

    def map_records(self, origin: Point) -> list[bytes]:
        """Records that set the page map of a block with an origin in device units."""
        return [
            EMF.named("EMR_SETMAPMODE").write(8),
            EMF.named("EMR_SETWINDOWORGEX").write(0, 0),
            EMF.named("EMR_SETWINDOWEXTEX").write(self.parts, self.parts),
            EMF.named("EMR_SETVIEWPORTORGEX").write(*origin),
            EMF.named("EMR_SETVIEWPORTEXTEX").write(1, 1),
        ]

    def clip_records(self, name: str, box: Box) -> bytes:
        """A record that keeps or cuts out a box of fixed device units, under the page map whose origin is the
        frame's corner.
        """
        corners = (self.clip_corner(Point(box.left, box.top)), self.clip_corner(Point(box.right, box.bottom)))
        return EMF.named(name).write(*corners[0], *corners[1])


def _within(number: int) -> int:
    return max(-_CLIP_REACH, min(_CLIP_REACH, number))


class Lines(Enum):
    """What lists of points are drawn as: names of one list and of several, with 32 bits and with 16."""

    CLOSED = ("EMR_POLYGON", "EMR_POLYGON16", "EMR_POLYPOLYGON", "EMR_POLYPOLYGON16")
    OPEN = ("EMR_POLYLINE", "EMR_POLYLINE16", "EMR_POLYPOLYLINE", "EMR_POLYPOLYLINE16")


def origin_near(point: Point) -> Point:
    """The whole device units at or before a fixed point."""
    return Point(point.x >> FRACTION_BITS, point.y >> FRACTION_BITS)


def lines_record(grid: Grid, lines: Lines, lists: Sequence[Sequence[Point]], origin: Point) -> list[bytes]:
    """The record that draws lists of fixed device points in a block, or none if no list has two points that differ."""
    check_count(lists)
    points = list(chain.from_iterable(lists))
    placed = parted(grid.placed(points, origin), lists, lines is Lines.CLOSED) if points else []
    if not placed:
        return []
    numbers = list(chain.from_iterable(chain.from_iterable(placed)))
    is_short = min(numbers) >= -0x8000 and max(numbers) <= 0x7FFF
    rest = struct.pack(f"<{len(numbers)}{'h' if is_short else 'i'}", *numbers)
    box = bounds(points)
    one, several = lines.value[is_short], lines.value[2 + is_short]
    if len(placed) == 1:
        return [EMF.named(one).write(*box, len(placed[0]), rest=rest)]
    counts = struct.pack(f"<{len(placed)}I", *map(len, placed))
    return [EMF.named(several).write(*box, len(placed), len(numbers) // 2, rest=counts + rest)]
