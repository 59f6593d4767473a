"""How time grows: ten times the records of a kind, from 1,000 to 1,000,000 of them at 64 by 64, and four times the spikes of one polygon at
1,024 and 4,096 a side. Startup and an empty picture are part of each time."""

import random
from itertools import islice

from shapes import FRAME, HANDLES, dense_spikes
from timing import Row, least_seconds
from writers import EMF, WMF

SIDE = 64

COUNTS = 1_000, 10_000, 100_000, 1_000_000

SPIKES = 4_000, 16_000, 64_000

# How many times as long ten times the records may take, and four times the spikes.
MOST, MOST_OF_SPIKES = 11, 4.5


def places(side):
    """Places of a square, in any order."""
    chance = random.Random(8)
    while True:
        yield chance.randrange(side), chance.randrange(side)


def shape(name, corners):
    """Small shapes of a kind of record, which have corners beside a place."""
    for x, y in places(SIDE - 8):
        yield WMF.step(name, *(number for across, down in corners for number in (x + across, y + down)))


def pairs(one, other):
    """Two records by turns."""
    while True:
        yield one
        yield other


def lines():
    """Lines from where the last one ends."""
    return (WMF.step("line", *place) for place in places(SIDE))


def paths():
    """Paths of one line: four records each."""
    for x, y in places(SIDE - 8):
        yield from EMF.records(f"begin_path; move {x} {y}; line {x + 6} {y + 3}; end_path; stroke_path")


KINDS = {
    "pixels": lambda: (WMF.step("pixel", *place) for place in places(SIDE)),
    "lines": lines,
    "rectangles": lambda: shape("rectangle", [(0, 0), (6, 6)]),
    "triangles": lambda: shape("polygon", [(0, 0), (6, 2), (3, 6)]),
    "polylines of two points": lambda: shape("polyline", [(0, 0), (6, 3)]),
    "polylines of ten points": lambda: shape("polyline", [(number % 2 * 6, number) for number in range(8)] + [(0, 0), (6, 6)]),
    "origins of the window": lambda: pairs(WMF.step("window_origin", 1, 1), WMF.step("window_origin", 0, 0)),
    "brushes, made and deleted": lambda: pairs(WMF.step("brush", 0), WMF.step("delete", 0)),
    "states, saved and restored": lambda: pairs(WMF.step("save"), WMF.step("restore", -1)),
    "records of paths": paths,
}


def form_of(kind):
    """The format whose records are counted."""
    return EMF if kind == "records of paths" else WMF


def records_rows(bench):
    """Ten times the records of each kind."""
    commands = {}
    for kind, made in KINDS.items():
        form = form_of(kind)
        for count in COUNTS:
            path = bench.write(lambda form=form, made=made, count=count: [form.file(islice(made(), count), SIDE, HANDLES)])
            commands[kind, count] = bench.show(path, SIDE)
    seconds = least_seconds(commands)
    for kind in KINDS:
        for few, many in zip(COUNTS, COUNTS[1:]):
            yield Row(f"{many:,} {kind}", "s", seconds[kind, many], seconds[kind, few], f"{few:,}", most_ratio=MOST)


def spikes_rows(bench, side):
    """Four times the spikes."""
    commands = {}
    for count in SPIKES:
        path = bench.write(lambda count=count: [EMF.file(dense_spikes(count, EMF), FRAME, HANDLES)])
        commands[count] = bench.show(path, side)
    seconds = least_seconds(commands)
    for few, many in zip(SPIKES, SPIKES[1:]):
        yield Row(f"a polygon of {many:,} spikes, {side:,} a side", "s", seconds[many], seconds[few], f"{few:,}", most_ratio=MOST_OF_SPIKES)


def rows(bench):
    """All of them."""
    return [*records_rows(bench), *spikes_rows(bench, 1024), *spikes_rows(bench, 4096)]
