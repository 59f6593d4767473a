"""Nanoseconds of one of each sort of work at 1,024 pixels a side, from the difference between two files that are alike but
for how much of it they ask for, which is counted here. Each stands beside its goal, or beside what it is more than."""

import functools
import random

from shapes import ALTERNATE, TRANSPARENT, WINDING, XOR, corners, filled, place_in
from timing import Row, least_seconds
from writers import WMF

SIDE = 1024

# How far rectangles are apart at most where what the memory costs is to be left out.
NEAR = 32

# A file that is shown is read twice: before anything is drawn, and as it is drawn.
WALKS = 2

# How many of the 64 pixels of each hatch's square of 8 by 8 it colours.
HATCHED = [8, 8, 8, 8, 15, 16]


def rectangle(left, top, width, height):
    """A rectangle by its first corner and its sides."""
    return WMF.step("rectangle", left, top, left + width, top + height)


def lone_lines(parts):
    """50,000 lines of any slope, each of which ends after the first of so many parts: how many pixels."""
    chance, records, pixels = random.Random(6), WMF.records("solid_pen 0 0x8040; select 0"), 0
    for _ in range(50_000):
        (x, y), (far_x, far_y) = (place_in(chance, 0, 0, SIDE) for _ in range(2))
        right, down = (far_x - x) // parts, (far_y - y) // parts
        records.append(WMF.step("move", x, y) + WMF.step("line", x + right, y + down))
        pixels += max(abs(right), abs(down))
    return records, pixels


def boxes(count, width, height):
    """Rectangles of one size, so near to each other that their pixels stay in the processor's cache."""
    chance = random.Random(7)
    return [rectangle(*place_in(chance, 0, 0, NEAR), width, height) for _ in range(count)]


def solid_rectangles(width, height):
    """20,000 rectangles of one colour: how many rows, and how many pixels."""
    return filled(ALTERNATE) + boxes(20_000, width, height), 20_000 * height, 20_000 * height * width


def hatches(width):
    """6,000 transparent rectangles, 64 pixels high and as wide as some squares of a hatch: how many pixels are
    written."""
    records = WMF.records(f"null_pen 0; select 0; back_mode {TRANSPARENT}")
    for hatch in range(6):
        records += [WMF.step("hatched_brush", 1 + hatch, hatch, 0x206040), WMF.step("select", 1 + hatch)]
        records += boxes(1_000, width, 64)
    return records, 1_000 * width * sum(HATCHED)


def mixed(width):
    """2,000 rectangles in the raster operation 7: how many pixels."""
    return filled(ALTERNATE) + [WMF.step("raster", XOR)] + boxes(2_000, width, 64), 2_000 * 64 * width


def fills(times, mode):
    """The polygon of 4,000 edges, so many times: how many crossings of edges with rows, spans and pixels."""
    records = filled(mode) + times * [WMF.step("polygon", *sum(corners(SIDE), ()))]
    spans, pixels = (sum(numbers) for numbers in zip(*(row_of(crossed, mode) for crossed in crossings())))
    return records, times * sum(map(len, crossings())), times * spans, times * pixels


@functools.cache
def crossings():
    """For each row, in order, the first column to the right of each edge of the polygon that crosses it, and which way
    the edge runs."""
    crossed, places = [[] for _ in range(SIDE)], corners(SIDE)
    for upper, lower in zip(places, places[1:] + places[:1]):
        way = 1 if upper[1] <= lower[1] else -1
        cross(crossed, *sorted((upper, lower), key=lambda place: place[1]), way)
    return [sorted(row) for row in crossed]


def cross(crossed, upper, lower, way):
    """Adds an edge's first columns to the rows that it crosses."""
    across, down = lower[0] - upper[0], lower[1] - upper[1]
    for y in range(upper[1], lower[1]):
        dividend = 2 * down * upper[0] + (2 * y + 1 - 2 * upper[1]) * across
        crossed[y].append(((dividend + down - 1) // (2 * down), way))


def row_of(crossed, mode):
    """How many spans and pixels a row has: columns next to each other that are inside are in one span."""
    spans = pixels = count = turns = 0
    begin = end = None
    for column, way in crossed:
        inside = count % 2 == 1 if mode == ALTERNATE else turns != 0
        if inside and column > begin:
            spans += begin != end
            pixels += column - begin
            end = column
        count, turns, begin = count + 1, turns + way, column
    return spans, pixels


def strokes(parts):
    """200 outlines of 100 corners each, within a square that is smaller by so many times: how many pixels their lines
    have, each line by itself."""
    chance, records, pixels = random.Random(8), WMF.records("solid_pen 0 0x8040; select 0; null_brush 1; select 1"), 0
    for _ in range(200):
        places = [place_in(chance, 0, 0, SIDE) for _ in range(100)]
        places = [(x // parts, y // parts) for x, y in places]
        records.append(WMF.step("polygon", *sum(places, ())))
        sides = zip(places, places[1:] + places[:1])
        pixels += sum(max(abs(x - far_x), abs(y - far_y)) for (x, y), (far_x, far_y) in sides)
    return records, pixels


def short_lines(count):
    """Lines of one pixel: how many."""
    turn = WMF.records("line 5 4; line 4 4")
    return WMF.records("solid_pen 0 0x8040; select 0; move 4 4") + count // 2 * turn, count


def small(record, count):
    """Small shapes: how many."""
    return filled(ALTERNATE) + count * [record], count


def origins(count):
    """Records that move the window's origin to and fro: how many times each is read in all."""
    turn = WMF.records("window_origin 1 1; window_origin 0 0")
    return count // 2 * turn, count * WALKS


FILES = {
    "lines, whole": lambda: lone_lines(1),
    "lines, part": lambda: lone_lines(16),
    "rectangles, wide": lambda: solid_rectangles(260, 128),
    "rectangles, narrow": lambda: solid_rectangles(4, 128),
    "rectangles, low": lambda: solid_rectangles(4, 32),
    "hatches, wide": lambda: hatches(512),
    "hatches, narrow": lambda: hatches(64),
    "operation 7, wide": lambda: mixed(512),
    "operation 7, narrow": lambda: mixed(64),
    "fill, ALTERNATE": lambda: fills(8, ALTERNATE),
    "fill, WINDING": lambda: fills(8, WINDING),
    "fill, WINDING, half": lambda: fills(4, WINDING),
    "strokes, whole": lambda: strokes(1),
    "strokes, part": lambda: strokes(4),
    "lines of a pixel, all": lambda: short_lines(400_000),
    "lines of a pixel, half": lambda: short_lines(200_000),
    "rectangles of a pixel, all": lambda: small(rectangle(4, 4, 1, 1), 400_000),
    "rectangles of a pixel, half": lambda: small(rectangle(4, 4, 1, 1), 200_000),
    "triangles of a pixel, all": lambda: small(WMF.step("polygon", 4, 4, 6, 4, 4, 5), 200_000),
    "triangles of a pixel, half": lambda: small(WMF.step("polygon", 4, 4, 6, 4, 4, 5), 100_000),
    "rectangles of 6 by 6, all": lambda: small(rectangle(4, 4, 6, 6), 400_000),
    "rectangles of 6 by 6, half": lambda: small(rectangle(4, 4, 6, 6), 200_000),
    "triangles of 6 by 6, all": lambda: small(WMF.step("polygon", 4, 4, 10, 4, 4, 10), 200_000),
    "triangles of 6 by 6, half": lambda: small(WMF.step("polygon", 4, 4, 10, 4, 4, 10), 100_000),
    "origins, all": lambda: origins(1_000_000),
    "origins, half": lambda: origins(500_000),
}


class Differences:
    """What one of each sort of work costs, by files' processor seconds and counts."""

    def __init__(self, times, counts):
        self.times, self.counts, self.rows = times, counts, []

    def apart(self, more, less, place=0):
        """By how much two files differ: nanoseconds, and one of their counts."""
        nanoseconds = 1e9 * (self.times[more] - self.times[less])
        return nanoseconds, self.counts[more][place] - self.counts[less][place]

    def tell(self, subject, nanoseconds, goal, beside=None, beside_name="the goal"):
        """Adds a row of what one of a sort of work costs, which it answers."""
        self.rows.append(Row(subject, "ns", nanoseconds, goal if beside is None else beside, beside_name, goal))
        return nanoseconds

    def each(self, subject, more, less, goal, without=0, **beside):
        """What one of a sort of work costs, without so many nanoseconds of other work."""
        nanoseconds, count = self.apart(more, less)
        return self.tell(subject, (nanoseconds - without) / count, goal, **beside)

    def all(self):
        """All of them."""
        pixel = self.each("a lone line's pixel", "lines, whole", "lines, part", 4)
        self.spans()
        self.each("a transparent hatch's written pixel", "hatches, wide", "hatches, narrow", 3)
        self.each("a raster operation's pixel", "operation 7, wide", "operation 7, narrow", 1.5)
        beside = {"beside": pixel, "beside_name": "a lone line's"}
        self.each("a pixel of a line in a stroke of several", "strokes, whole", "strokes, part", None, **beside)
        for shape, less, goal in [("lines", pixel, 60), ("rectangles", 0, 60), ("triangles", 0, 150)]:
            all_of, half = (f"{shape} of a pixel, {part}" for part in ("all", "half"))
            _, count = self.apart(all_of, half)
            self.each(f"a record of {shape} beside its pixel", all_of, half, goal, less * count)
        self.each("a record that draws nothing, read once", "origins, all", "origins, half", 60)
        self.each("a rectangle of 6 by 6 pixels", "rectangles of 6 by 6, all", "rectangles of 6 by 6, half", 350)
        self.each("a triangle of 6 by 6 pixels", "triangles of 6 by 6, all", "triangles of 6 by 6, half", 600)
        return self.rows

    def spans(self):
        """What a span's begin and its pixels cost, in a rectangle and in a polygon, and a crossing with a row."""
        nanoseconds, pixels = self.apart("rectangles, wide", "rectangles, narrow", 1)
        wide = self.tell("a span's pixel", nanoseconds / pixels, 0.2)
        _, pixels = self.apart("rectangles, narrow", "rectangles, low", 1)
        self.each("a rectangle's span beside its pixels", "rectangles, narrow", "rectangles, low", 12, wide * pixels)
        alternate, winding, half = "fill, ALTERNATE", "fill, WINDING", "fill, WINDING, half"
        nanoseconds, spans = self.apart(alternate, winding, 1)
        _, pixels = self.apart(alternate, winding, 2)
        span = self.tell("a polygon's span beside its pixels", (nanoseconds - wide * pixels) / spans, 12)
        _, spans = self.apart(winding, half, 1)
        _, pixels = self.apart(winding, half, 2)
        self.each("a fill's crossing and row", winding, half, 15, span * spans + wide * pixels)


def rows(bench):
    """All of them."""
    counts, commands = {}, {}
    for name, make in FILES.items():
        records, *counts[name] = make()
        commands[name] = bench.show(bench.write(lambda records=records: [WMF.file(records, SIDE, 0)]), SIDE)
    return Differences(least_seconds(commands), counts).all()
