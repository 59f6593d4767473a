"""Files of many shapes, at 1,024 and at 4,096 pixels a side, beside an empty picture of that size; polylines on maps that scale, as files of
EMF mostly have them, beside the same places on one that doesn't; and lines by lists of two points beside those by moves. Their goals are for
a quiet machine of 2.5 GHz. The shapes of work.py are made here, too."""

import math
import random
from collections.abc import Callable
from typing import NamedTuple

from timing import Row, least_seconds
from writers import EMF, WMF, Form

SIDES = 1024, 4096

# The side of the frame.
FRAME = 4096

# How many units of the page a map that scales has on the frame.
PAGE = 20_000

# How many indexes a file of EMF has for objects.
HANDLES = 64

# Tools that draw nothing.
NULL = "null_pen", "null_brush"

TRANSPARENT, OPAQUE = 1, 2
ALTERNATE, WINDING = 1, 2
XOR = 7


def place_in(chance, left, top, side):
    """Any place of a square."""
    return left + chance.randrange(side), top + chance.randrange(side)


def pens_and_brushes(chance, *names, form=WMF):
    """Sixteen objects of each of these kinds, by turns, in any colours if they have one."""
    for number in range(16):
        for at, name in enumerate(names):
            colour = [chance.getrandbits(24)]
            yield form.step(name, number * len(names) + at, *([] if name in NULL else colour))


def map_of(form, page):
    """Records by which the page has so many units on each side of the frame. A WMF has the frame as its viewport from the start, and a player
    of Windows the whole surface, so it sets none."""
    viewport = f"; viewport_extent {FRAME} {FRAME}" if form is EMF else ""
    return form.records(f"map_mode 8; window_extent {page} {page}{viewport}")


def on_page(places, page):
    """The numbers of places of the frame on a page of so many units."""
    return [number * page // FRAME for place in places for number in place]


def small_polygons(form=WMF, page=FRAME, corners=range(3, 9), pen="solid_pen", brush="solid_brush"):
    """10,000 polygons of any of these numbers of corners, filled and stroked, each within an eighth of the frame's sides, by turns with each
    tool."""
    chance, side = random.Random(1), FRAME // 8
    yield from pens_and_brushes(chance, pen, brush, form=form)
    for number in range(10_000):
        yield form.step("select", number % 16 * 2) + form.step("select", number % 16 * 2 + 1)
        corner = place_in(chance, 0, 0, FRAME - side)
        places = [place_in(chance, *corner, side) for _ in range(chance.choice(corners))]
        yield form.step("polygon", *on_page(places, page))


def near_places(chance, count):
    """Places of the frame, each of them at most a unit from the last on each axis."""
    place = place_in(chance, 0, 0, FRAME)
    for _ in range(count):
        yield place
        place = tuple(min(max(number + chance.randrange(-1, 2), 0), FRAME - 1) for number in place)


def polylines(form, page):
    """10,000 lists of 100 points, each near to the last: where points land is much of the work."""
    chance = random.Random(6)
    yield from form.records("solid_pen 0 0x8040; select 0")
    for _ in range(10_000):
        yield form.step("polyline", *on_page(near_places(chance, 100), page))


def any_lines(form=WMF, page=FRAME, as_lists=False, pen="solid_pen"):
    """50,000 lines of any slope between any two places, by turns with each of sixteen pens, by moves or as lists of two points."""
    chance = random.Random(2)
    yield from pens_and_brushes(chance, pen, form=form)
    for number in range(50_000):
        if number % 64 == 0:
            yield form.step("select", number // 64 % 16)
        start, end = (on_page([place_in(chance, 0, 0, FRAME)], page) for _ in range(2))
        yield form.step("polyline", *start, *end) if as_lists else form.step("move", *start) + form.step("line", *end)


def any_rectangle(chance, form=WMF, page=FRAME):
    """A rectangle with sides up to a third of the frame's."""
    width, height = (chance.randrange(1, FRAME // 3 + 1) for _ in range(2))
    left, top = chance.randrange(FRAME - width), chance.randrange(FRAME - height)
    return form.step("rectangle", *on_page([(left, top), (left + width, top + height)], page))


def hatched_rectangles(form=WMF, page=FRAME):
    """2,000 rectangles without an outline, with each hatch by turns, in both background modes."""
    chance = random.Random(3)
    yield from form.records("null_pen 0; select 0")
    for hatch in range(6):
        yield form.step("hatched_brush", 1 + hatch, hatch, chance.getrandbits(24))
    for number in range(2_000):
        yield form.step("back_mode", TRANSPARENT if number % 2 else OPAQUE) + form.step("select", 1 + number // 2 % 6)
        yield any_rectangle(chance, form, page)


def mixed_rectangles():
    """2,000 rectangles of any colour, without an outline, in the raster operation 7."""
    chance = random.Random(4)
    yield from WMF.records(f"null_pen 0; select 0; raster {XOR}")
    for number in range(16):
        yield WMF.step("solid_brush", 1 + number, chance.getrandbits(24))
    for number in range(2_000):
        yield WMF.step("select", 1 + number % 16) + any_rectangle(chance)


def corners(side):
    """4,000 places anywhere in a square."""
    chance = random.Random(5)
    return [place_in(chance, 0, 0, side) for _ in range(4_000)]


def filled(mode, form=WMF):
    """Records by which polygons have no outline, and a fill mode."""
    return form.records(f"null_pen 0; select 0; solid_brush 1 0x206040; select 1; fill_mode {mode}")


def large_polygon(mode):
    """One polygon of 4,000 edges between any places."""
    return [*filled(mode), WMF.step("polygon", *sum(corners(FRAME), ()))]


def spiked_polygon(form=WMF, page=FRAME):
    """One polygon of 4,000 edges round the middle of the frame, each corner at any distance from it between a quarter and half of a side."""
    chance = random.Random(7)
    places = []
    for number in range(4_000):
        far, angle = chance.randrange(FRAME // 4, FRAME // 2), math.tau * number / 4_000
        places.append((FRAME // 2 + round(far * math.cos(angle)), FRAME // 2 + round(far * math.sin(angle))))
    return [*filled(ALTERNATE, form), form.step("polygon", *on_page(places, page))]


def dense_spikes(count, form=WMF, page=FRAME):
    """One polygon whose corners lie at the top and at the bottom by turns, so that many edges cross each other in each row."""
    chance, quarter = random.Random(5), FRAME // 4
    places = [(chance.randrange(FRAME), chance.randrange(quarter) + number % 2 * 3 * quarter) for number in range(count)]
    return [*filled(ALTERNATE, form), form.step("polygon", *on_page(places, page))]


EMPTY, LINES = "an empty picture", "50,000 lines of any slope"


class Work(NamedTuple):
    """What the records of a file draw, its format, what it stands beside, and its goals at the two sides, if it has any."""

    records: Callable
    goals: tuple = (None, None)
    form: Form = WMF
    beside: str = EMPTY


def mapped_work(form):
    """Polylines of a format on a map that scales, beside the same places on one that doesn't."""
    what = f"{form.name}: 10,000 polylines of 100 points"
    plain = f"{what}, one to one"
    for name, page, beside in ((plain, FRAME, EMPTY), (f"{what}, on a map that scales", PAGE, plain)):
        yield name, Work(lambda page=page: [*map_of(form, page), *polylines(form, page)], form=form, beside=beside)


WORK = {
    LINES: Work(any_lines),
    "50,000 lines as lists of two points": Work(lambda: any_lines(as_lists=True), beside=LINES),
    "a polygon of 4,000 edges, ALTERNATE": Work(lambda: large_polygon(ALTERNATE), (0.03, 0.15)),
    "a polygon of 4,000 edges, WINDING": Work(lambda: large_polygon(WINDING), (0.03, 0.15)),
    "2,000 rectangles under R2_XORPEN": Work(mixed_rectangles),
    **dict(mapped_work(WMF)),
    **dict(mapped_work(EMF)),
}


def rows(bench):
    """All of them."""
    paths = {
        name: bench.write(lambda work=work: [work.form.file(list(work.records()), FRAME, HANDLES)])
        for name, work in {EMPTY: Work(list), **WORK}.items()
    }
    taken = least_seconds({(name, side): bench.show(path, side) for name, path in paths.items() for side in SIDES})
    for name, work in WORK.items():
        for side, goal in zip(SIDES, work.goals):
            beside = taken[work.beside, side]
            yield Row(f"{name}, {side:,} a side", "s", taken[name, side], beside, work.beside, goal)
