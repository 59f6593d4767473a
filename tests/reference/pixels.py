"""Which pixels fills, lines and boxes have, and in which colours, each pixel of the surface decided
by itself: no rows, no spans, and no order of work within a drawing.

Which pixels a drawing has is this project's own rule, and each function below is one part of it, in
whole numbers. The modes and operations are those of [MS-WMF] 2.1.1.
"""

from typing import NamedTuple

# PolyFillMode ([MS-WMF] 2.1.1.25).
ALTERNATE, WINDING = 1, 2


class Refused(Exception):
    """A record has a fault: each kind of this exception has a fault's name."""


# Where a page unit lands, and how far coordinates go on the plane and on the surface.

PLANE_END = 1 << 30
PLACED_END = 1 << 28


class OffPlane(Refused):
    """A coordinate is farther than the plane goes, or the surface's coordinates."""


# The longest side of a nib, and the nib of a pen without a width: columns, then rows.
LONGEST_NIB = 4096
ONE_PIXEL = (1, 1)


class NibTooWide(Refused):
    """A pen covers more columns or rows of the surface than a nib may have."""


class Axis(NamedTuple):
    """One axis of the page map: a window and a viewport, each by its origin and its extent, the
    frame's corner and its side, the surface's side, and how many parts of the plane a unit has."""

    window: int
    window_extent: int
    viewport: int
    viewport_extent: int
    corner: int
    frame: int
    surface: int
    parts: int = 1

    @property
    def fine(self):
        """The frame's side on the plane."""
        return self.frame * self.parts

    def plane(self, number):
        """The coordinate on the plane, rounded down, which lands within the limits."""
        scaled = (number - self.window) * self.viewport_extent * self.parts // self.window_extent
        plane = scaled + (self.viewport - self.corner) * self.parts
        if abs(plane) > PLANE_END or abs(plane * self.surface // self.fine) > PLACED_END:
            raise OffPlane
        return plane

    def placed(self, number):
        """The place on the surface, rounded down on the plane first."""
        return self.plane(number) * self.surface // self.fine

    def nib_side(self, width):
        """How many pixels of this side a pen covers, whose width is that of the page: rounded down, but one at least."""
        units = width * abs(self.viewport_extent) * self.surface
        return max(1, units // (abs(self.window_extent) * self.frame))


def nib_of(width, axes):
    """The nib of a pen of a width of the page, which may be too wide."""
    nib = tuple(axis.nib_side(width) for axis in axes)
    if max(nib) > LONGEST_NIB:
        raise NibTooWide
    return nib


# How many parts of the plane a unit may have where the plane is fine, and how many the longer side of the frame then has at most.
PARTS = [1 << power for power in range(13)]
MOST_ON_SIDE = 1 << 20


def fine_parts(frame):
    """How many parts a unit has on the fine plane of a frame: as many as its longer side has room for, or one."""
    return max((parts for parts in PARTS if parts * max(frame) <= MOST_ON_SIDE), default=1)


# Shapes.


def crossing(start, end, x, y):
    """Which way an edge runs that a pixel crosses, 1 down and -1 up, or 0 where it doesn't: its row
    is from the upper end to before the lower one, and it lies on the edge's right by its middle."""
    way = 1 if start[1] < end[1] else -1
    (x0, y0), (x1, y1) = (start, end) if way == 1 else (end, start)
    dx, dy = x1 - x0, y1 - y0
    if not y0 <= y < y1:
        return 0
    return way if 2 * dy * x0 + (2 * y + 1 - 2 * y0) * dx <= (2 * x + 1) * dy else 0


def closed(points):
    """The lines from each point to the next, and from the last to the first."""
    return list(zip(points, points[1:] + points[:1], strict=True))


def opened(points):
    """The lines from each point to the next."""
    return list(zip(points, points[1:], strict=False))


def is_filled(edges, mode, x, y):
    """A pixel of the fill crosses an odd number of edges, or edges whose ways don't add up to 0."""
    ways = [crossing(start, end, x, y) for start, end in edges]
    return sum(map(abs, ways)) % 2 == 1 if mode == ALTERNATE else sum(ways) != 0


def is_on_line(start, end, x, y):
    """A pixel of a line: its step along the longer axis isn't the last, and on the other axis it is
    the nearest, the greater one of two as near."""
    dx, dy = end[0] - start[0], end[1] - start[1]
    if abs(dx) < abs(dy):
        return is_on_line(start[::-1], end[::-1], y, x)
    if not (start[0] <= x < end[0] or end[0] < x <= start[0]):
        return False
    return -abs(dx) <= 2 * (abs(x - start[0]) * dy - abs(dx) * (y - start[1])) < abs(dx)


def reach(count):
    """How many of a nib's columns lie before the one that it is led along, and how many behind it: of an even number one more lies behind. Rows
    alike."""
    before = (count - 1) // 2
    return before, count - 1 - before


def is_under_nib(start, end, x, y, nib):
    """A pixel that a nib covers which is led along a line: it lies in the nib's box around some pixel of the line. From one step along the longer
    axis to the next a line goes at most one farther on the other, so it has pixels in all rows between those of two steps."""
    (dx, dy), (across, down) = (end[0] - start[0], end[1] - start[1]), nib
    if abs(dx) < abs(dy):
        return is_under_nib(start[::-1], end[::-1], y, x, nib[::-1])
    (left, right), (above, below) = reach(across), reach(down)
    first, last = (start[0], end[0] - 1) if dx > 0 else (end[0] + 1, start[0])
    first, last = max(first, x - right), min(last, x + left)
    if first > last:
        return False
    rows = [start[1] + (2 * abs(column - start[0]) * dy + abs(dx)) // (2 * abs(dx)) for column in (first, last)]
    return min(rows) - above <= y <= max(rows) + below


def is_stroked(lines, x, y, nib=ONE_PIXEL):
    """A pixel of a stroke is one of some line's, or one that the pen's nib covers there."""
    if nib == ONE_PIXEL:
        return any(is_on_line(start, end, x, y) for start, end in lines)
    return any(is_under_nib(start, end, x, y, nib) for start, end in lines)


def is_in_box(box, x, y):
    """A pixel of a box, which has its first edges and not its last."""
    left, top, right, bottom = box
    return left <= x < right and top <= y < bottom


# Paints. A hatch has its cells by a pixel's place on the surface, whatever it fills.
HATCHES = [
    lambda x, y: y == 0,
    lambda x, y: x == 0,
    lambda x, y: x == y,
    lambda x, y: x + y == 7,
    lambda x, y: x == 0 or y == 0,
    lambda x, y: x == y or x + y == 7,
]


def mixed(operation, paint, old):
    """The raster operation of a paint and what is there, bit by bit: of the operation less 1, the
    bit of the number 2P+D."""
    table = operation - 1

    def channel(p, d):
        """Eight bits."""
        bits = [table >> (2 * (p >> bit & 1) + (d >> bit & 1)) & 1 for bit in range(8)]
        return sum(result << bit for bit, result in enumerate(bits))

    return tuple(map(channel, paint, old))
