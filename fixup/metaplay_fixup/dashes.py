"""Lines cut into dashes.

[MS-WMF] 2.1.1.23 and [MS-EMF] 2.1.25 name the styles and leave their lengths open. The lengths here are those of GDI
on a screen, as wine 8.0 has them (dlls/win32u/dibdrv/objects.c). Its tests compare thin lines of PS_DASH with those of
Windows; for the other styles wine is the only witness:

- A thin pen, at most one device pixel wide, is drawn pixel by pixel. Its lengths count pixels along the axis on which
  the line is longer, so that a dash of a line of 45 degrees is longer by the root of two.
- A cosmetic pen, or a thin one of the older kinds: PS_DASH has a dash of 18 pixels and a gap of 6; PS_DOT a dot of 3
  and a gap of 3; PS_DASHDOT a dash of 9 and a dot of 3, with gaps of 6; PS_DASHDOTDOT a dash of 9 and two dots of 3,
  with gaps of 3. PS_ALTERNATE has dots and gaps of one pixel.
- A geometric pen counts in its width, or in pixels if it is thin: a dash is 3 long, a dot 1, a gap 1. Of a wide pen
  these lengths include the caps. With caps that aren't flat, a dash is therefore one width shorter before its caps are
  added, and a gap one width longer. Otherwise the caps would fill the gaps.
- A user style says its lengths ([MS-EMF] 2.2.20), which include no caps: in page units for a geometric pen; for a
  cosmetic one in device units, each of which is 3 pixels, as GDI draws on a screen (wine too). With an odd number of
  lengths, dashes and gaps change places each time around.

Each dash is a line of its own. A pattern begins anew with each figure, goes on around its corners, and begins with a
dash. A polygon begins with its first point. A box of a WMF begins with the upper right corner and goes against the
clock, as wine draws it in the compatible graphics mode. A box of an EMF begins with the upper left corner and goes with
the clock, as in the advanced mode. Where GDI begins an ellipse or a round box isn't known, and whether it plays an EMF
in the advanced mode isn't certain, so that dashes there may be shifted.
"""

from __future__ import annotations

from collections.abc import Callable, Iterable, Sequence
from math import isqrt
from typing import NamedTuple

from .affine import Point
from .budgets import Budget
from .curves import Direction, direction_of
from .fixed import rounded_quotient
from .pens import Cap, Measure, PenLook, Style
from .shapes import MOST_POINTS, Figure, without_repeats

# The pixels of a unit of a cosmetic pen's own pattern.
_PIXELS_OF_UNIT = 3

_WIDTHS = {
    Style.DASH: (3, 1),
    Style.DOT: (1, 1),
    Style.DASH_DOT: (3, 1, 1, 1),
    Style.DASH_DOT_DOT: (3, 1, 1, 1, 1, 1),
    Style.ALTERNATE: (1, 1),
}
_PIXELS = {
    Style.DASH: (18, 6),
    Style.DOT: (3, 3),
    Style.DASH_DOT: (9, 6, 3, 6),
    Style.DASH_DOT_DOT: (9, 3, 3, 3, 3, 3),
    Style.ALTERNATE: (1, 1),
}


def pattern_of(look: PenLook, measure: Measure, pixel: int) -> tuple[int, ...]:
    """A pen's dashes and gaps in fixed device units, or nothing if it is solid. `pixel` is a device pixel."""
    is_wide = look.is_wide(measure, pixel)
    if not look.is_dashed_at(is_wide):
        return ()
    if look.style is Style.USER:
        unit = _PIXELS_OF_UNIT * pixel
        return _even(tuple(measure(entry) if look.width else entry * unit for entry in look.entries))
    if not is_wide:
        return tuple(count * pixel for count in (_WIDTHS if look.is_geometric else _PIXELS)[look.style])
    width = measure(look.width)
    change = 0 if look.cap is Cap.FLAT else width
    lengths = [count * width for count in _WIDTHS[look.style]]
    return tuple(length + change if place % 2 else length - change for place, length in enumerate(lengths))


def _even(lengths: tuple[int, ...]) -> tuple[int, ...]:
    """A pattern that ends with a gap, or nothing if it has no length."""
    if not any(lengths):
        return ()
    return lengths if len(lengths) % 2 == 0 else lengths * 2


class Dash(NamedTuple):
    """A part of a line: its points, of which each differs from the one before, and the direction in which it starts.

    A dash of one point has no length.
    """

    points: list[Point]
    is_closed: bool
    heading: Direction


_ACROSS = Direction(1, 0, 1)


def line_of(dash: Dash) -> list[Point]:
    """The points of a dash as a line, which ends where it began if the dash is closed."""
    return [*dash.points, dash.points[0]] if dash.is_closed else dash.points


def whole(figure: Figure) -> list[Dash]:
    """A figure as one dash, or none if it has no line. A figure without length is a dash of one point."""
    points = without_repeats(figure.points, figure.is_closed)
    if len(figure.points) < 2:
        return []
    if len(points) < 2:
        return [Dash(points, False, _ACROSS)]
    return [Dash(points, figure.is_closed, _direction(points[0], points[1]))]


Length = Callable[[Point, Point], int]
"""Gives how far a line goes from one point to another, without a fraction; at least 1 for points that differ."""


def along_line(one: Point, other: Point) -> int:
    """The distance, by which the pattern of a wide pen counts."""
    return isqrt((other.x - one.x) ** 2 + (other.y - one.y) ** 2)


def along_axis(one: Point, other: Point) -> int:
    """The distance on the axis on which it is longer, by which the pattern of a thin pen counts."""
    return max(abs(other.x - one.x), abs(other.y - one.y))


def dashes(figure: Figure, pattern: tuple[int, ...], budget: Budget, length: Length) -> list[Dash]:
    """A figure's dashes by a pattern that isn't empty. A closed figure's last dash goes on into its first.

    Raises Fault TooManyEdges if the file gets too many.
    """
    return _cut(figure, _Knife(pattern, True, length), budget)


def gaps(figure: Figure, pattern: tuple[int, ...], budget: Budget, length: Length) -> list[Dash]:
    """What the dashes leave. Raises Fault as `dashes` does."""
    return _cut(figure, _Knife(pattern, False, length), budget)


def thin_lines(figures: Iterable[Figure], pattern: tuple[int, ...], budget: Budget, is_dash: bool) -> list[list[Point]]:
    """The dashes of a thin pen as lines, or the gaps, for one drawing.

    Raises Fault TooManyEdges if the drawing, or the file, gets too many points.
    """
    own, cut = Budget(budget.tolerance, MOST_POINTS), dashes if is_dash else gaps
    lines = [line_of(part) for figure in figures for part in cut(figure, pattern, own, along_axis)]
    budget.take_points(sum(map(len, lines)))
    return lines


def _cut(figure: Figure, knife: _Knife, budget: Budget) -> list[Dash]:
    found = whole(figure)
    if not found or len(found[0].points) < 2:
        return found if knife.is_dash else []
    points = [*found[0].points, found[0].points[0]] if figure.is_closed else found[0].points
    budget.take_points(len(points) + knife.most_ends(points))
    for start, end in zip(points, points[1:]):
        knife.follow(start, end)
    if not knife.has_cut:
        return found if knife.is_dash else []
    pieces = knife.finish()
    return _joined(pieces, points[0]) if figure.is_closed else pieces


def _joined(pieces: list[Dash], start: Point) -> list[Dash]:
    """The pieces of a closed line, of which the last goes on into the first if both meet at the start."""
    if len(pieces) < 2 or pieces[0].points[0] != start or pieces[-1].points[-1] != start:
        return pieces
    points = without_repeats([*pieces[-1].points, *pieces[0].points], False)
    return [Dash(points, False, pieces[-1].heading), *pieces[1:-1]]


class _Knife:
    """Cuts a line as it follows it. It collects the dashes, or the gaps if `is_dash` is false."""

    def __init__(self, pattern: tuple[int, ...], is_dash: bool, length: Length) -> None:
        self.is_dash = is_dash
        self.has_cut = False
        self._pattern = pattern
        self._length = length
        self._place = 0
        self._left = pattern[0]
        self._pieces: list[Dash] = []
        self._points: list[Point] = []
        self._heading: Direction | None = None

    def most_ends(self, points: Sequence[Point]) -> int:
        """The most ends of pieces that a line through points may be cut into."""
        total = sum(self._length(one, other) for one, other in zip(points, points[1:]))
        return 2 * len(self._pattern) * total // sum(self._pattern)

    def follow(self, start: Point, end: Point) -> None:
        """Goes on along a line that has a length, from the end of the one before."""
        length, heading, done = self._length(start, end), _direction(start, end), 0
        self._points = self._points or [start]
        self._heading = self._heading or heading
        while self._left < length - done:
            done += self._left
            self._cut_at(_between(start, end, done, length), heading)
        self._left -= length - done
        self._points.append(end)

    def _cut_at(self, point: Point, heading: Direction) -> None:
        self._points.append(point)
        self._end_piece()
        self._points, self._heading = [point], heading
        self._place = (self._place + 1) % len(self._pattern)
        self._left = self._pattern[self._place]
        self.has_cut = True

    def _end_piece(self) -> None:
        if (self._place % 2 == 0) == self.is_dash:
            heading = self._heading or _ACROSS
            self._pieces.append(Dash(without_repeats(self._points, False), False, heading))

    def finish(self) -> list[Dash]:
        """Ends the line, and gives its pieces in order."""
        self._end_piece()
        return self._pieces


def _direction(one: Point, other: Point) -> Direction:
    return direction_of(Point(other.x - one.x, other.y - one.y))


def _between(start: Point, end: Point, done: int, length: int) -> Point:
    """The point after a part of a line's length."""
    x = rounded_quotient((end.x - start.x) * done, length)
    y = rounded_quotient((end.y - start.y) * done, length)
    return Point(start.x + x, start.y + y)
