"""Files on which slips make slow what is done with each edge of a row, and that no other counted file shows: polygons that have edges and no pixel,
edges that cross, begin and end in each row, strokes that are cut out, and lists and paths that are gone through again in each band."""

import random

from fill_files import filled
from instruction_files import Counted
from slip_files import listed
from writers import EMF


def needles() -> Counted:
    """High polygons of no width: each of their rows is asked for its span, which has no pixel."""
    height = 8_192
    return filled([[left, 0, left, height, left, 0] for left in range(2, 14)], 64, height)


def doubled_needles() -> Counted:
    """A polygon of needles between which it goes up beside the surface, filled by windings: few edges are pairs."""
    height, places = 64, []
    for x in range(2, 2_000, 8):
        places += [x, 0, x, height, x + 9_000, height, x + 9_000, 0, x, 0, x, height, x, 0, x, height]
    return filled([places], 2_048, height, 2)


def counted_needles() -> Counted:
    """Polygons of 500 needles that cross each other between the first row and the last: in each row the edges of each column are counted, and no
    pixel is inside."""
    chance, width, height, places = random.Random(403), 900, 128, []
    for _ in range(500):
        left = chance.randrange(width)
        places += [left, 0, chance.randrange(width), height, left, 0]
    return filled([places] * 2, width, height)


def edges_of_each_row() -> Counted:
    """A polygon of 3,900 edges, of which some begin and some end in each row while 400 go on: which ones is told by one look at those."""
    chance, places = random.Random(404), []
    for _ in range(1_300):
        x, y = chance.randrange(64), chance.randrange(700)
        places += [x, y, x, y + 2, x, y]
    return filled([places], 64, 700)


def masks_behind_cuts() -> Counted:
    """Strokes of 20 short lines on a wide surface by a nib of 64 by 64, while all of it is cut out four times: the rows of a mask are joined and
    cleared, and nothing of it is painted."""
    chance, width, height = random.Random(402), 4_096, 64
    records = EMF.records("styled_pen 0 0 64 0x8040; select 0") + EMF.records(f"cut 0 0 {width} {height}") * 4
    for _ in range(55):
        lines = [[x, 30, x + 1, 30] for x in (chance.randrange(100, width - 100) for _ in range(20))]
        records.append(EMF.step("short_polylines", *listed(lines)))
    return Counted(EMF.file(records, (width, height), 16), width, height)


def in_bands(records: list[bytes]) -> Counted:
    """Records that are played in 40 bands of one row: what is made of points is made anew for each band."""
    return Counted(EMF.file(records, (8, 40), 16), 8, 40, command="play", bands=1)


def strokes_of_a_point_in_bands() -> Counted:
    """A record of 800 lists of one point, of which no line is drawn: where each list begins is told by the one before it."""
    points = [[nth % 8, nth % 40] for nth in range(800)]
    return in_bands([EMF.step("short_polylines", *listed(points))])


def long_path_in_bands() -> Counted:
    """A path of 60 lists of 10 points above the surface, and a triangle on it, filled: its figures are gone through once for each band."""
    chance = random.Random(407)
    records = EMF.records("null_pen 0; solid_brush 1 0x206040; select 0; select 1; begin_path; move 0 0; line 4 39")
    for _ in range(60):
        above = [part for _ in range(10) for part in (chance.randrange(9), -9 - chance.randrange(99))]
        records.append(EMF.step("short_polyline_to", *above))
    return in_bands(records + EMF.records("end_path; fill_path"))


def boxes_in_bands() -> Counted:
    """300 rectangles of one row: each is passed over in all bands but one."""
    return in_bands([EMF.step("rectangle", 1, nth % 40, 6, nth % 40) for nth in range(300)])


FILES = {
    "12 polygons of no width, 64 by 8,192": needles,
    "a comb of 250 doubled needles, 2,048 by 64": doubled_needles,
    "2 polygons of 500 crossing needles, 900 by 128": counted_needles,
    "3,900 edges that begin and end in each row, 64 by 700": edges_of_each_row,
    "55 strokes of which all is cut out, nib 64 by 64, 4,096 by 64": masks_behind_cuts,
    "800 lists of one point in 40 bands": strokes_of_a_point_in_bands,
    "a path of 60 lists in 40 bands": long_path_in_bands,
    "300 rectangles of one row in 40 bands": boxes_in_bands,
}
