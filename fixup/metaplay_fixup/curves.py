"""Curves as chords, in whole numbers: points and tolerances are fixed device units (2^-20)."""

from __future__ import annotations

from collections.abc import Sequence
from math import isqrt
from typing import NamedTuple

from .affine import Point
from .budgets import Budget
from .faults import Fault, FaultName
from .fixed import rounded_quotient

# More chords than any curve needs whose points are on the plane.
_MOST_CHORDS = 1 << 13


def _root_above(numerator: int, denominator: int) -> int:
    """The least whole number whose square is at least a ratio of whole numbers that aren't negative."""
    ceiling = -(-numerator // denominator)
    return isqrt(ceiling - 1) + 1 if ceiling > 0 else 0


def _length_above(vector: Point) -> int:
    """A whole number that is at least a vector's length, and above it by at most 1."""
    return _root_above(vector.x**2 + vector.y**2, 1)


def _chords(numerator: int, denominator: int, least: int) -> int:
    """A number of chords from the ratio that its square must reach.

    Raises Fault OffPlane if it is out of all proportion.
    """
    count = max(least, _root_above(numerator, denominator))
    if count > _MOST_CHORDS:
        raise Fault(FaultName.OffPlane, "a curve")
    return count


class Cubic(NamedTuple):
    """A Bezier curve of four points."""

    start: Point
    first: Point
    second: Point
    end: Point

    def chords(self, tolerance: int) -> int:
        """How many chords of equal steps stay within the tolerance, which is above 0.

        With n chords no point of the curve is farther from its chord than 3 M / (4 n^2), where M is the longer of the
        two second differences of the four points.
        """
        bends = [_second_difference(*self[:3]), _second_difference(*self[1:])]
        longest = max(map(_length_above, bends))
        return _chords(3 * longest, 4 * tolerance, 1)

    def points(self, steps: int) -> list[Point]:
        """The points at 1 / steps, 2 / steps and so on, without the curve's ends, rounded to the nearest."""
        xs, ys = (_on_cubic((one, two, three, four), steps) for one, two, three, four in zip(*self))
        return list(map(Point, xs, ys))


def _on_cubic(places: tuple[int, int, int, int], steps: int) -> list[int]:
    """The same on one axis: a polynomial of the step over the cube of the steps, whose half is added for rounding."""
    one, two, three, four = places
    cube = steps**3
    third, second = 2 * (four - 3 * three + 3 * two - one), 6 * steps * (three - 2 * two + one)
    first, start = 6 * steps**2 * (two - one), (2 * one + 1) * cube
    return [(((third * step + second) * step + first) * step + start) // (2 * cube) for step in range(1, steps)]


def _second_difference(one: Point, two: Point, three: Point) -> Point:
    return Point(one.x - 2 * two.x + three.x, one.y - 2 * two.y + three.y)


def flattened(start: Point, rest: Sequence[Point], budget: Budget) -> list[Point]:
    """The chords' ends of Bezier curves that follow one another: without the start, with each curve's end.

    `rest` has three points for each curve; points beyond the last whole three are left out. Raises Fault OffPlane or
    TooManyEdges if a curve, or all of the file, needs too many chords.
    """
    ends: list[Point] = []
    for at in range(0, len(rest) - 2, 3):
        curve = Cubic(start, rest[at], rest[at + 1], rest[at + 2])
        count = curve.chords(budget.tolerance)
        budget.take_points(count)
        ends += curve.points(count)
        ends.append(curve.end)
        start = curve.end
    return ends


class Direction(NamedTuple):
    """A unit vector: (x / length, y / length), where y grows by a quarter of a turn from x."""

    x: int
    y: int
    length: int

    def quarter(self) -> int:
        """In which quarter of a turn it lies: 0 to 3, each from its axis on to before the next."""
        if self.x > 0 and self.y >= 0:
            return 0
        if self.x <= 0 < self.y:
            return 1
        if self.x < 0:
            return 2
        return 3

    def turned_back(self, quarters: int) -> Direction:
        """The direction so many quarters of a turn before it."""
        turns = ((self.x, self.y), (self.y, -self.x), (-self.x, -self.y), (-self.y, self.x))
        return Direction(*turns[quarters % 4], self.length)


def direction_of(vector: Point) -> Direction:
    """The direction of a vector of any length; that of (1, 0) if it has none."""
    if vector == (0, 0):
        return Direction(1, 0, 1)
    shift = max(0, 48 - max(abs(vector.x), abs(vector.y)).bit_length())
    x, y = vector.x << shift, vector.y << shift
    return Direction(x, y, isqrt(x * x + y * y))


class Oval(NamedTuple):
    """An ellipse, perhaps turned: its centre, and the vectors from there to where it meets its two diameters."""

    centre: Point
    across: Point
    down: Point

    def point(self, direction: Direction) -> Point:
        """The point of the ellipse in a direction of the circle that it is an image of."""
        x = self.across.x * direction.x + self.down.x * direction.y
        y = self.across.y * direction.x + self.down.y * direction.y
        length = direction.length
        return Point(self.centre.x + rounded_quotient(x, length), self.centre.y + rounded_quotient(y, length))

    def steps(self, tolerance: int) -> int:
        """How many chords a quarter needs to stay within the tolerance, which is above 0.

        The ends of chords are those whose half angle has a tangent of k / n. So a chord's angle is at most 2 / n, and
        its distance from the circle at most 1 / (2 n^2) of the radius. The image's longest radius is the greater
        singular value of its two vectors.
        """
        squares = sum(number**2 for number in (*self.across, *self.down))
        area = self.across.x * self.down.y - self.across.y * self.down.x
        longest = (squares + _root_above(max(0, squares**2 - 4 * area**2), 1) + 1) // 2
        return _chords(_root_above(longest, 1), 2 * tolerance, 2)

    def _steps_from(self, budget: Budget) -> int:
        """How many chords a quarter needs; those of all quarters are taken from what is left."""
        steps = self.steps(budget.tolerance)
        budget.take_points(4 * steps)
        return steps

    def vertex(self, place: int, steps: int) -> Point:
        """The end of a chord, by its place from 0 to 4 * steps - 1."""
        return self.point(_vertex_direction(place, steps))

    def ring(self, budget: Budget) -> list[Point]:
        """The whole ellipse as a closed polygon. Raises Fault as `flattened` does."""
        steps = self._steps_from(budget)
        return [self.vertex(place, steps) for place in range(4 * steps)]

    def quarter(self, quarter: int, budget: Budget) -> list[Point]:
        """One quarter, from its axis to the next one. Raises Fault as `flattened` does."""
        steps = self._steps_from(budget)
        return [self.vertex(quarter * steps + place, steps) for place in range(steps + 1)]

    def arc(self, start: Direction, end: Direction, budget: Budget) -> list[Point]:
        """From one direction to another by growing angles; the whole ellipse if they are the same.

        Raises Fault as `flattened` does.
        """
        steps = self._steps_from(budget)
        first, last = place_of(start, steps), place_of(end, steps)
        is_after = start.x * end.y - start.y * end.x > 0
        if last < first or (last == first and not is_after):
            last += 4 * steps
        between = [self.vertex(place, steps) for place in range(first + 1, last + 1)]
        return [self.point(start), *between, self.point(end)]


def _vertex_direction(place: int, steps: int) -> Direction:
    quarter, step = divmod(place % (4 * steps), steps)
    x, y, length = steps**2 - step**2, 2 * steps * step, steps**2 + step**2
    return Direction(x, y, length).turned_back(-quarter)


def place_of(direction: Direction, steps: int) -> int:
    """The place of the last end of a chord that isn't after a direction, where a quarter has so many chords."""
    quarter = direction.quarter()
    within = direction.turned_back(quarter)
    return quarter * steps + min(steps - 1, steps * within.y // (within.x + within.length))
