"""Bitmaps, tiles and ternary raster operations, at 1,024 and at 4,096 pixels a side.

A bitmap on the whole surface stands beside an empty picture; tiled rectangles, tiled triangles and blits beside those that have one
colour or copy. Sides are in pixels at 1,024 a side; at 4,096 they are four times as long, but the tile, whose pixels are the
surface's, and the bitmaps. A file of blits with bitmaps has 20 MB, whose reading is counted, and one of small blits 6.
"""

import random
from collections.abc import Callable
from typing import NamedTuple

from timing import Row, least_seconds
from writers import EMF, MASKED, PATCOPY, PATINVERT, SRCCOPY, WMF, Bitmap, Form, header

SIDES = 1024, 4096

# The side of the frame, in units: at 1,024 a side a unit is a pixel.
FRAME = 1024

# How much longer a file with a whole bitmap may take than an empty one, at each side.
GOALS = 0.03, 0.15

TILE, RECTANGLES, NEAR_SIDE = 24, 2000, 100

BLITS, BLIT_SIDE = 500, 200

# Triangles in squares of this side, and blits of another.
TRIANGLES, TRIANGLE_SIDE = 10_000, 64

SMALL_BLITS, SMALL_SIDE = 20_000, 8

# How many indexes a file of EMF has for objects.
HANDLES = 16

BRUSH = "solid_brush 0 0x5AA53C; select 0"


def noise(side, depth, top_down=False):
    """A bitmap of noise, with a full table of colours where it has one."""
    chance = random.Random(depth)
    table = b"" if depth > 8 else b"".join(chance.randbytes(3) + b"\0" for _ in range(1 << depth))
    info = header(side, -side if top_down else side, depth) + table
    return str(Bitmap(info, chance.randbytes((side * depth + 31) // 32 * 4 * side)))


def whole(depth, box=(0, 0, FRAME, FRAME), top_down=False, side=1024, form=WMF):
    """A bitmap on the whole surface."""
    return lambda: [form.step("stretch_dib", SRCCOPY, *box, 0, 0, side, side, noise(side, depth, top_down))]


def brushed(form, brush):
    """Records by which shapes have no outline and this brush."""
    return [*form.records("null_pen 0; select 0"), brush(form), form.step("select", 1)]


def rectangles(brush):
    """Rectangles of about 100 by 100 anywhere."""
    chance = random.Random(1)
    yield from brushed(WMF, brush)
    for _ in range(RECTANGLES):
        width, height = (chance.randint(NEAR_SIDE * 9 // 10, NEAR_SIDE * 11 // 10) for _ in range(2))
        left, top = chance.randrange(FRAME - width), chance.randrange(FRAME - height)
        yield WMF.step("rectangle", left, top, left + width, top + height)


def triangles(form, brush):
    """Triangles between any three places of small squares anywhere."""
    chance = random.Random(3)
    yield from brushed(form, brush)
    for _ in range(TRIANGLES):
        corner = [chance.randrange(FRAME - TRIANGLE_SIDE) for _ in range(2)]
        yield form.step("polygon", *[number + chance.randrange(TRIANGLE_SIDE) for _ in range(3) for number in corner])


def tiled(form):
    """A brush whose pattern is a bitmap."""
    return form.step("tiled_brush", 1, noise(TILE, 24))


def plain(form):
    """A brush of one colour."""
    return form.step("solid_brush", 1, 0x5AA53C)


def blits(operation, depth=None, count=BLITS, side=BLIT_SIDE, form=WMF):
    """Blits to any boxes of one size, with a brush of one colour, from a bitmap of as many pixels or without one."""
    chance = random.Random(2)
    source = [] if depth is None else [0, 0, side, side, noise(side, depth)]
    yield from form.records(BRUSH)
    for _ in range(count):
        box = (*(chance.randrange(FRAME - side) for _ in range(2)), side, side)
        yield form.step("stretch_dib" if source else "pat_blt", operation, *box, *source)


def small_blits(form, operation, depth=None):
    """Many of them that are small."""
    return blits(operation, depth, SMALL_BLITS, SMALL_SIDE, form)


EMPTY, COLOURED = "an empty picture", "one colour"

COPIED, COPIED_FROM = "500 blits, PATCOPY", "500 blits, SRCCOPY, of 8 bits"


class Work(NamedTuple):
    """What the records of a file draw, what it stands beside, if it has a row of its own, its format, and whether it has goals."""

    records: Callable
    beside: str | None = None
    form: Form = WMF
    has_goals: bool = False


def whole_work():
    """Bitmaps on the whole surface, which have goals."""
    made = {
        "a bitmap of 24 bits": whole(24),
        "a bitmap of 8 bits": whole(8),
        "a bitmap of 1 bit": whole(1),
        "24 bits, its top row stored first": whole(24, top_down=True),
        "24 bits, mirrored": whole(24, (FRAME, 0, -FRAME, FRAME)),
        "one pixel of 24 bits": whole(24, side=1),
    }
    return {name: Work(records, EMPTY, has_goals=True) for name, records in made.items()}


def small_work(form):
    """Tiled triangles and small blits of a format."""
    coloured, copied = f"{form.name}: 10,000 triangles in one colour", f"{form.name}: 20,000 blits of 8 by 8, PATCOPY"
    small = f"{form.name}: 20,000 blits of 8 by 8"
    return {
        f"{form.name}: 10,000 tiled triangles": Work(lambda: triangles(form, tiled), coloured, form),
        coloured: Work(lambda: triangles(form, plain), EMPTY, form),
        f"{small}, PATINVERT": Work(lambda: small_blits(form, PATINVERT), copied, form),
        f"{small}, SRCCOPY, of 24 bits": Work(lambda: small_blits(form, SRCCOPY, 24), copied, form),
        f"{small}, E2, of 24 bits": Work(lambda: small_blits(form, MASKED, 24), copied, form),
        copied: Work(lambda: small_blits(form, PATCOPY), EMPTY, form),
    }


WORK = {
    EMPTY: Work(list),
    **whole_work(),
    "2,000 tiled rectangles": Work(lambda: rectangles(tiled), COLOURED),
    COLOURED: Work(lambda: rectangles(plain)),
    "500 blits, PATINVERT": Work(lambda: blits(PATINVERT), COPIED),
    COPIED: Work(lambda: blits(PATCOPY), EMPTY),
    "500 blits, E2, of 8 bits": Work(lambda: blits(MASKED, 8), COPIED_FROM),
    COPIED_FROM: Work(lambda: blits(SRCCOPY, 8), EMPTY),
    **small_work(WMF),
    **small_work(EMF),
}


def rows(bench):
    """All of them."""
    paths = {
        name: bench.write(lambda work=work: [work.form.file(list(work.records()), FRAME, HANDLES)])
        for name, work in WORK.items()
    }
    taken = least_seconds({(name, side): bench.show(path, side) for name, path in paths.items() for side in SIDES})
    for name, work in WORK.items():
        for side, more in zip(SIDES, GOALS):
            if work.beside is not None:
                goal = round(taken[EMPTY, side] + more, 3) if work.has_goals else None
                yield Row(f"{name}, {side:,} a side", "s", taken[name, side], taken[work.beside, side], work.beside, goal)
