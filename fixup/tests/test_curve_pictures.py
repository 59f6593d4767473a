"""Pictures of random curves, beside the equations of their insides, which know nothing of chords.

A pixel isn't looked at if some point within one and a half pixels of its middle lies on the other side of the curve,
since the player rounds points down to pixels.
"""

from __future__ import annotations

import random
import unittest
from collections.abc import Callable
from dataclasses import dataclass
from math import atan2, cos, hypot, pi, sin

from metaplay_fixup.convert import convert
from metaplay_fixup.options import Options

from .emf_records import world
from .oracle import NO_BOUNDS, emf_file, emf_record, emf_script, i32, i16, picture_of, placeable_file, u32, wmf_record
from .oracle import wmf_script

SIDE = 40
FRAME = 100
NEAR = 1.5 * FRAME / SIDE
AROUND = [(0.0, 0.0), *((NEAR * cos(turn * pi / 4), NEAR * sin(turn * pi / 4)) for turn in range(8))]
WHITE = b"\xff\xff\xff"

Inside = Callable[[float, float], bool]
Numbers = tuple[float, float, float, float, float, float]


@dataclass(frozen=True)
class Shape:
    """A closed curve: its EMF type, its WMF function or 0, its numbers, and whether a point of the page is inside."""

    kind: int
    function: int
    numbers: tuple[int, ...]
    inside: Inside


@dataclass(frozen=True)
class Oval:
    """The ellipse in a box."""

    left: int
    top: int
    right: int
    bottom: int

    def unit(self, x: float, y: float) -> tuple[float, float]:
        """A point where the ellipse is the unit circle."""
        across, down = (self.right - self.left) / 2, (self.bottom - self.top) / 2
        return (x - self.left - across) / across, (y - self.top - down) / down

    def holds(self, x: float, y: float) -> bool:
        """Whether a point is inside."""
        return hypot(*self.unit(x, y)) <= 1

    def angle(self, x: float, y: float) -> float:
        """The angle of a point against the clock, as a screen shows it, whose y points down."""
        u, v = self.unit(x, y)
        return atan2(-v, u)


def oval_of(source: random.Random) -> Oval:
    """An ellipse that is large enough to have an inside that isn't near it."""
    left, top = source.randrange(5, 30), source.randrange(5, 30)
    return Oval(left, top, left + source.randrange(40, 66), top + source.randrange(40, 66))


def ellipse(source: random.Random) -> Shape:
    """An ellipse."""
    oval = oval_of(source)
    return Shape(42, 0x0418, (oval.left, oval.top, oval.right, oval.bottom), oval.holds)


def arc_of(source: random.Random) -> tuple[Oval, tuple[int, int, int, int]]:
    """An ellipse, and the points through which two rays go."""
    oval = oval_of(source)
    while True:
        ends = tuple(source.randrange(101) for _ in range(4))
        turn = (oval.angle(*ends[2:]) - oval.angle(*ends[:2])) % (2 * pi)
        far = min(hypot(*oval.unit(*ends[:2])), hypot(*oval.unit(*ends[2:])))
        if 0.7 < turn < 5.5 and far > 0.3:
            return oval, (ends[0], ends[1], ends[2], ends[3])


def pie(source: random.Random) -> Shape:
    """A slice, from the first ray to the second against the clock."""
    oval, ends = arc_of(source)
    start, end = oval.angle(*ends[:2]), oval.angle(*ends[2:])

    def inside(x: float, y: float) -> bool:
        return oval.holds(x, y) and (oval.angle(x, y) - start) % (2 * pi) <= (end - start) % (2 * pi)

    return Shape(47, 0x081A, (oval.left, oval.top, oval.right, oval.bottom, *ends), inside)


def chord(source: random.Random) -> Shape:
    """What the line between the two ends cuts off, on the side of the arc."""
    oval, ends = arc_of(source)
    start, end = oval.angle(*ends[:2]), oval.angle(*ends[2:])
    middle = start + (end - start) % (2 * pi) / 2

    def side(u: float, v: float) -> float:
        across, down = cos(end) - cos(start), sin(start) - sin(end)
        return across * (v + sin(start)) - down * (u - cos(start))

    def inside(x: float, y: float) -> bool:
        return oval.holds(x, y) and side(*oval.unit(x, y)) * side(cos(middle), -sin(middle)) >= 0

    return Shape(46, 0x0830, (oval.left, oval.top, oval.right, oval.bottom, *ends), inside)


def round_box(source: random.Random) -> Shape:
    """A box with round corners, given by the diameters of their ellipse."""
    oval = oval_of(source)
    wide, high = source.randrange(4, 40), source.randrange(4, 40)

    def inside(x: float, y: float) -> bool:
        across = max(oval.left + wide / 2 - x, x - oval.right + wide / 2, 0) / (wide / 2)
        down = max(oval.top + high / 2 - y, y - oval.bottom + high / 2, 0) / (high / 2)
        return across <= 1 and down <= 1 and (hypot(across, down) <= 1)

    return Shape(44, 0x061C, (oval.left, oval.top, oval.right, oval.bottom, wide, high), inside)


def loop(source: random.Random) -> Shape:
    """Two Bezier curves around a point, which de Casteljau's construction follows in small steps."""
    points = [(20 + source.randrange(10), 50), (20, 5 + source.randrange(20)), (80, 5 + source.randrange(20))]
    points += [(70 + source.randrange(10), 50), (80, 75 + source.randrange(20)), (20, 75 + source.randrange(20))]
    ring = [on_curve(part, step / 16) for part in (points[:4], [*points[3:], points[0]]) for step in range(16)]

    def inside(x: float, y: float) -> bool:
        pairs = zip(ring, [*ring[1:], ring[0]])
        crossed = [a[0] + (y - a[1]) * (b[0] - a[0]) / (b[1] - a[1]) > x for a, b in pairs if (a[1] > y) != (b[1] > y)]
        return sum(crossed) % 2 == 1

    numbers = [number for point in (*points, points[0]) for number in point]
    return Shape(85, 0, tuple(numbers), inside)


def on_curve(points: list[tuple[int, int]], part: float) -> tuple[float, float]:
    """The point of a Bezier curve."""
    left: list[tuple[float, float]] = [(float(x), float(y)) for x, y in points]
    while len(left) > 1:
        left = [(a + (c - a) * part, b + (d - b) * part) for (a, b), (c, d) in zip(left, left[1:])]
    return left[0]


SHAPES = (ellipse, pie, chord, round_box, loop)


def record_of(shape: Shape) -> list[bytes]:
    """The shape in EMF; curves of a path are filled with it."""
    if shape.kind != 85:
        return [emf_record(shape.kind, i32(*shape.numbers))]
    curve = emf_record(85, NO_BOUNDS + u32(len(shape.numbers) // 2) + i16(*shape.numbers))
    begin, end = emf_script("begin_path"), emf_script("end_path; fill_path")
    return [*begin, curve, *end]


class Curves(unittest.TestCase):
    """Filled curves. Each file has one."""

    def setUp(self) -> None:
        self.looked_at = {True: 0, False: 0}

    def check(self, data: bytes, inside: Inside) -> None:
        """The pixels inside are filled, and those outside white, but for those near the curve, which aren't counted."""
        picture = picture_of(convert(data, Options(bound=4 * SIDE), None).data, SIDE, SIDE)
        for place in range(SIDE * SIDE):
            x, y = (place % SIDE + 0.5) * FRAME / SIDE, (place // SIDE + 0.5) * FRAME / SIDE
            sides = {inside(x + across, y + down) for across, down in AROUND}
            if len(sides) == 1:
                (is_inside,) = sides
                self.looked_at[is_inside] += 1
                self.assertEqual(picture[3 * place : 3 * place + 3] != WHITE, is_inside, (x, y))

    def test_emf(self) -> None:
        """Under worlds that turn, stretch, shear and move: a point is inside if the one that lands on it is."""
        source = random.Random(747)
        fill = emf_script("solid_brush 0 0x0000ff; select 0; null_pen 1; select 1")
        for number in range(20):
            shape = SHAPES[number % len(SHAPES)](source)
            turn, wide, high, shear = (source.uniform(*part) for part in ((-3, 3), (0.6, 1.1), (0.6, 1.1), (-0.3, 0.3)))
            a, b = wide * cos(turn), wide * sin(turn)
            c, d = shear * a - high * sin(turn), shear * b + high * cos(turn)
            e, f = 50 - 50 * (a + c), 50 - 50 * (b + d)
            data = emf_file([*fill, world(a, b, c, d, e, f), *record_of(shape)])
            self.check(data, self.under((a, b, c, d, e, f), shape.inside))
        self.assertGreater(min(self.looked_at.values()), 20 * 100)

    def under(self, numbers: Numbers, inside: Inside) -> Inside:
        """Whether a point of the device is inside of what a world made of a shape."""
        a, b, c, d, e, f = numbers
        whole = a * d - b * c

        def found(x: float, y: float) -> bool:
            return inside((d * (x - e) - c * (y - f)) / whole, (a * (y - f) - b * (x - e)) / whole)

        return found

    def test_wmf(self) -> None:
        """On a page of 200 by 200 units, so that the shapes' numbers are doubled."""
        source = random.Random(748)
        fill = wmf_script("brush 0; select 0; null_pen 1; select 1; window_extent 200 200")
        for number in range(12):
            shape = SHAPES[number % 4](source)
            doubled = [2 * place for place in shape.numbers]
            rest = doubled[4:][::-1]
            if shape.function == 0x061C:
                rest = [doubled[5], doubled[4]]
            data = placeable_file([*fill, wmf_record(shape.function, i16(*rest, *doubled[:4][::-1]))])
            self.check(data, shape.inside)
        self.assertGreater(min(self.looked_at.values()), 12 * 100)


if __name__ == "__main__":
    unittest.main()
