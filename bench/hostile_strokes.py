"""Strokes that cost the most for their bytes, on the largest surface: many lines under every sort of pen, with and without a box of one pixel that is
cut out; drawings in two far corners; paths of as many pieces as there may be. Each stands beside a limit in seconds."""

import array
import random
from collections.abc import Callable, Iterator
from typing import NamedTuple

from timing import Bench, Row, least_seconds
from writers import BETWEEN, EMF

# The side of the surface.
SIDE = 8192

# The rounds in which all files are timed.
RUNS = 3

# The seed of the places, where no other is asked for.
SEED = 31

# A list of points in four bytes a point, [MS-EMF] 2.3.5.30.
SHORT_POLYLINE, BOUNDS = 87, bytes(16)

# As many records of lines as a path may have.
PATH_LINES = (1 << 16) - 1

Places = Iterator[int]

# What makes a file from a seed.
Made = Callable[[int], bytes]


class Pen(NamedTuple):
    """A pen of a nib: what selects it, the side of the surface, which is that of the frame too, and how many units of the pen's map that has on each
    axis, with the least of them."""

    script: str
    side: int
    units: tuple[int, int]
    least: tuple[int, int] = (0, 0)


def square_pen(width: int, side: int = SIDE) -> Pen:
    """A pen as high as it is wide, whose units are pixels."""
    return Pen(f"styled_pen 0 0 {width} 0x8040; select 0", side, (side, side))


# A pen of 15 units. An eighth of a pixel a unit, it covers one; at 4,096 pixels for fifteen units, it covers 4,096.
FINE, COARSE = (8, 1), (15, 4096)


def oblong_pen(across: tuple[int, int], down: tuple[int, int], side: int = SIDE) -> Pen:
    """A pen of 15 units on a map that has another scale on each axis, told by so many units for so many pixels."""
    units = tuple(side * window // viewport for window, viewport in (across, down))
    least = tuple(-count // 2 for count in units)
    script = f"map_mode 8; window_origin {least[0]} {least[1]}; window_extent {across[0]} {down[0]}; viewport_extent {across[1]} {down[1]}"
    return Pen(f"{script}; styled_pen 0 0 15 0x8040; select 0", side, units, least)


class Pens(NamedTuple):
    """The pens of a surface: of one pixel, of two, of three and of 64 on each axis, of as many as there may be on one axis, and on both."""

    thin: Pen
    narrow: Pen
    third: Pen
    broad: Pen
    flat: Pen
    upright: Pen
    widest: Pen


def pens(side: int = SIDE) -> Pens:
    """Those of a surface with this side."""
    square = [square_pen(width, side) for width in (1, 2, 3, 64)]
    return Pens(*square, oblong_pen(COARSE, FINE, side), oblong_pen(FINE, COARSE, side), square_pen(4096, side))


def anywhere(pen: Pen, count: int, seed: int) -> Places:
    """So many points anywhere on the surface: their numbers."""
    chance = random.Random(seed)
    for _ in range(count):
        for least, units in zip(pen.least, pen.units, strict=True):
            yield least + chance.randrange(units)


def steep(pen: Pen, count: int, seed: int) -> Places:
    """So many points of any column, by turns in the first row and in the last one."""
    chance, (left, top), (width, height) = random.Random(seed), pen.least, pen.units
    for number in range(count):
        yield left + chance.randrange(width)
        yield top + number % 2 * (height - 1)


def flat(pen: Pen, count: int, seed: int) -> Places:
    """So many points of any row, by turns in the first column and in the last one."""
    chance, (left, top), (width, height) = random.Random(seed), pen.least, pen.units
    for number in range(count):
        yield left + number % 2 * (width - 1)
        yield top + chance.randrange(height)


def beside(pen: Pen, count: int, seed: int) -> Places:
    """So many points anywhere on the surface, and beside it as far as it is wide and high."""
    chance = random.Random(seed)
    for _ in range(count):
        for least, units in zip(pen.least, pen.units, strict=True):
            yield least + chance.randrange(-units, 2 * units)


def zigzag(pen: Pen, count: int, seed: int) -> Places:
    """The same, but for columns that are far apart, and none of which comes again soon."""
    (left, top), (width, height) = pen.least, pen.units
    for number in range(count):
        yield left + (seed + number * 2_654_435_761) % width
        yield top + number % 2 * (height - 1)


def one_stroke(numbers: Places) -> bytes:
    """One record of the lines from each point to the next."""
    given = array.array("h", numbers)
    return EMF.record(SHORT_POLYLINE, BOUNDS + (len(given) // 2).to_bytes(4, "little") + given.tobytes())


def cut_out(pen: Pen) -> list[bytes]:
    """A box of one pixel near the middle that is cut out, told before the map is changed."""
    column, row = pen.side // 2 - 3, pen.side // 2 + 5
    return [EMF.step("cut", column, row, column + 1, row + 1)]


def stroke(pen: Pen, places: Callable[[Pen, int, int], Places], count: int, is_cut: bool = False) -> Made:
    """The maker of a file of one stroke of so many points, with a pixel that is cut out or without one."""

    def made(seed: int) -> bytes:
        """The file."""
        cut = cut_out(pen) if is_cut else []
        return framed(pen, [*cut, *EMF.records(pen.script), one_stroke(places(pen, count, seed))])

    return made


def corners(pen: Pen, count: int) -> Made:
    """The maker of a file of so many drawings, each of two short lines in two far corners."""

    def made(seed: int) -> bytes:
        """The file."""
        chance, last, records = random.Random(seed), pen.side - 1, EMF.records(pen.script)
        for _ in range(count):
            x, y = chance.randrange(8), chance.randrange(8)
            records.append(EMF.step("short_polylines", x, y, x + 1, y + 1, BETWEEN, last - x, last - y, last - x - 1, last - y - 1))
        return framed(pen, records)

    return made


def path(pen: Pen, count: int = PATH_LINES) -> Made:
    """The maker of a file that strokes a path of so many lines, each a record of its own."""

    def made(seed: int) -> bytes:
        """The file."""
        numbers = anywhere(pen, count, seed)
        lines = [EMF.step("line", *place) for place in zip(numbers, numbers)]
        return framed(pen, [*EMF.records(pen.script), EMF.step("begin_path"), *lines, EMF.step("end_path"), EMF.step("stroke_path")])

    return made


def framed(pen: Pen, records: list[bytes]) -> bytes:
    """The file of these records."""
    return EMF.file(records, pen.side, 2)


class Hostile(NamedTuple):
    """A file, made from a seed, and the most seconds that it may take."""

    made: Made
    goal: float


PENS = pens()

FILES = {
    "1,000,000 random points, nib 4,096 by 4,096": Hostile(stroke(PENS.widest, anywhere, 1_000_000), 12),
    "1,000,000 steep points, nib 1 by 4,096": Hostile(stroke(PENS.upright, steep, 1_000_000), 12),
    "1,000,000 steep points, nib 2 by 2": Hostile(stroke(PENS.narrow, steep, 1_000_000), 12),
    "100,000 steep points, nib 2 by 2, a pixel cut out": Hostile(stroke(PENS.narrow, steep, 100_000, is_cut=True), 2),
    "100,000 steep points, nib 4,096 by 1, a pixel cut out": Hostile(stroke(PENS.flat, steep, 100_000, is_cut=True), 2),
    "100,000 steep points, nib 1 by 4,096, a pixel cut out": Hostile(stroke(PENS.upright, steep, 100_000, is_cut=True), 2),
    "100,000 random points, nib 4,096 by 4,096, a pixel cut out": Hostile(stroke(PENS.widest, anywhere, 100_000, is_cut=True), 2),
    "100,000 random points, a thin pen, a pixel cut out": Hostile(stroke(PENS.thin, anywhere, 100_000, is_cut=True), 2),
    "20,000 steep points, nib 2 by 2, a pixel cut out": Hostile(stroke(PENS.narrow, steep, 20_000, is_cut=True), 2),
    "2,000 drawings in two far corners, nib 4,096 by 4,096": Hostile(corners(PENS.widest, 2_000), 3),
    "2,000 drawings in two far corners, nib 2 by 2": Hostile(corners(PENS.narrow, 2_000), 3),
    "a zigzag of 100,000 points, nib 3 by 3": Hostile(stroke(PENS.third, zigzag, 100_000), 2),
    "a zigzag of 100,000 points, a thin pen, a pixel cut out": Hostile(stroke(PENS.thin, zigzag, 100_000, is_cut=True), 2),
    "100,000 flat points, nib 2 by 2": Hostile(stroke(PENS.narrow, flat, 100_000), 2),
    "100,000 points on and beside the surface, nib 2 by 2": Hostile(stroke(PENS.narrow, beside, 100_000), 2),
    "a path of 65,536 pieces, nib 64 by 64": Hostile(path(PENS.broad), 2),
    "65,536 steep lines, a thin pen": Hostile(stroke(PENS.thin, steep, 65_537), 4),
    "a path of 65,535 lines, a thin pen": Hostile(path(PENS.thin), 2),
}


def rows(bench: Bench) -> Iterator[Row]:
    """All of them."""
    commands = {}
    for name, hostile in FILES.items():
        given = bench.write(lambda hostile=hostile: [hostile.made(SEED)])
        commands[name] = bench.show(given, SIDE)
    seconds = least_seconds(commands, runs=RUNS)
    for name, hostile in FILES.items():
        yield Row(name, "s", seconds[name], hostile.goal, "the limit", goal=hostile.goal)
