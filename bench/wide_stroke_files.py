"""Files on which slips make wide strokes slow that no other counted file shows: strokes in two corners of many lines and of high ones, outlines of
filled polygons whose lines lie beside the surface, and lines from the leftmost column of their box."""

import random

from instruction_files import Counted
from slip_files import listed
from writers import EMF


def strokes_of_500_lines_in_two_corners() -> Counted:
    """Strokes of 500 short lines by a nib of 2 by 2, half of them in one corner and half in the other: no mask of all between them is made."""
    chance, side = random.Random(226), 2048
    records = EMF.records("styled_pen 0 0 2 0x8040; select 0")
    for _ in range(6):
        lines = [[corner + chance.randrange(12) for _ in range(4)] for corner in (0, side - 12) for _ in range(250)]
        records.append(EMF.step("short_polylines", *listed(lines)))
    return Counted(EMF.file(records, side, 16), side, side)


def high_strokes_in_two_corners() -> Counted:
    """Strokes of 17 lines of a hundred rows in each of two corners of a wide surface: the mask of a band has the columns of one corner alone."""
    chance, width, height = random.Random(230), 8192, 512
    records = EMF.records("styled_pen 0 0 2 0x8040; select 0")
    for _ in range(10):
        corners = [(left, top) for left, top in ((0, 4), (width - 12, 400)) for _ in range(17)]
        lines = [[left + chance.randrange(12), top, left + chance.randrange(12), top + 100] for left, top in corners]
        records.append(EMF.step("short_polylines", *listed(lines)))
    return Counted(EMF.file(records, (width, height), 16), width, height)


def scaled_outlines_above_a_surface() -> Counted:
    """Polygons of 1,000 lines, of which all but three points lie above a surface of 4 by 4, on a map that scales, filled, and stroked by a wide pen:
    their lines are placed once, though the outlines are looked at twice."""
    chance, side = random.Random(227), 4
    records = EMF.records("map_mode 8; window_extent 3000 3000; viewport_extent 2000 2000; styled_pen 0 0 9 0x8040; select 0")
    for _ in range(20):
        above = [part for _ in range(1_000) for part in (chance.randrange(9_000), -1_000 - chance.randrange(9_000))]
        records.append(EMF.step("short_polygon", 0, 0, 4, 4, 0, 4, *above))
    return Counted(EMF.file(records, side, 16), side, side)


def wide_strokes_below_a_surface() -> Counted:
    """Strokes of 5,000 lines by a nib of 9 by 9, of which all but the first lie below the surface: those are passed over."""
    chance, side = random.Random(901), 64
    records = EMF.records("styled_pen 0 0 9 0x8040; select 0")
    for _ in range(8):
        below = [part for _ in range(5_000) for part in (chance.randrange(side), 200 + chance.randrange(200))]
        records.append(EMF.step("short_polyline", 0, 0, 60, 60, *below))
    return Counted(EMF.file(records, side, 16), side, side)


def wide_strokes_above_a_surface() -> Counted:
    """The same above it."""
    chance, side = random.Random(903), 64
    records = EMF.records("styled_pen 0 0 9 0x8040; select 0")
    for _ in range(8):
        above = [part for _ in range(5_000) for part in (chance.randrange(side), -200 - chance.randrange(200))]
        records.append(EMF.step("short_polyline", 0, 0, 60, 60, *above))
    return Counted(EMF.file(records, side, 16), side, side)


def lines_from_a_column(left: int) -> Counted:
    """Strokes of 300 lines from this column to the right, by a nib of 3 by 3: each line goes by its steps."""
    side = 256
    heads = [nth * 7 % side for nth in range(300)]
    ends = [min(side - 1, head + 150) if head < 100 else max(0, head - 150) for head in heads]
    lines = [[left, head, left + 100 + nth % 60, end] for nth, (head, end) in enumerate(zip(heads, ends, strict=True))]
    records = EMF.records("styled_pen 0 0 3 0x8040; select 0") + [EMF.step("short_polylines", *listed(lines))] * 3
    return Counted(EMF.file(records, side, 16), side, side)


def lines_from_the_first_column() -> Counted:
    """From the first column of a surface."""
    return lines_from_a_column(0)


def lines_from_the_leftmost_column() -> Counted:
    """From another one, which is the leftmost of their box: all that the nib covers lies in that box."""
    return lines_from_a_column(30)


FILES = {
    "6 strokes of 500 lines in two corners, 2,048 by 2,048": strokes_of_500_lines_in_two_corners,
    "10 high strokes in two corners, 8,192 by 512": high_strokes_in_two_corners,
    "20 scaled outlines above a surface, nib 9 by 9": scaled_outlines_above_a_surface,
    "8 strokes of 5,000 lines below a surface, nib 9 by 9": wide_strokes_below_a_surface,
    "8 strokes of 5,000 lines above a surface, nib 9 by 9": wide_strokes_above_a_surface,
    "3 strokes of 300 lines from the first column, 256 by 256": lines_from_the_first_column,
    "3 strokes of 300 lines from column 30, 256 by 256": lines_from_the_leftmost_column,
}
