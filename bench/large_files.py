"""Files on which slips make slow what shows only beyond a size, and that no other counted file shows: masks of several parts, tables of many columns,
edges that stay in order, paths of many figures, many bands, and many names."""

import random

from choice_files import strokes, wide_pen
from fill_files import filled
from instruction_files import Counted
from writers import EMF, ROOT, WMF


def scaled_strokes_in_parts() -> Counted:
    """Strokes of 5,000 points on a map that scales, on a band of which a mask has a quarter: each line is placed once, and not for each part."""
    chance, width, height = random.Random(501), 8_192, 1_024
    records = EMF.records(f"map_mode 8; window_extent 3000 3000; viewport_extent 2000 2000; {wide_pen(9)}")
    for _ in range(8):
        x, y, places = 6_000, 750, [0, 0, 12_200, 1_500]
        for _ in range(5_000):
            x, y = x + chance.randrange(-9, 10), y + chance.randrange(-9, 10)
            places += [x, y]
        records.append(EMF.step("short_polyline", *places))
    return Counted(EMF.file(records, (width, height), 16), width, height, command="play", bands=height)


def short_lines_in_parts() -> Counted:
    """Strokes of 8,000 short lines all over a band of which a mask has two thirds: each part has as many rows as the mask has memory for."""
    chance, side, lines = random.Random(503), 1_800, []
    for _ in range(8_000):
        x, y = chance.randrange(side - 9), chance.randrange(side - 9)
        lines.append([x, y, x + chance.randrange(9), y + chance.randrange(1, 9)])
    return strokes([lines] * 3, side, side, wide_pen(3))._replace(command="play", bands=side)


def outlines_around_parts() -> Counted:
    """Outlines that go around a band of which a mask has a quarter, and of whose lines few are on it: the parts reach no further than these."""
    width, height = 8_192, 1_024
    records = EMF.records(f"{wide_pen(3)}; null_brush 1; select 1")
    around = [-100, -100, 9_000, -100, 9_000, 1_500, -100, 1_500]
    for x in range(40):
        inside = [10 + x, -100, 10 + x, 5, 20 + x, 5, 20 + x, -100, 30 + x, -100]
        records.append(EMF.step("short_polygon", *around * 10, *inside))
    return Counted(EMF.file(records, (width, height), 16), width, height, command="play", bands=height)


def edges_of_many_columns() -> Counted:
    """A polygon of 8,400 edges that go down all of a high surface: the flags of its 150 columns are found once."""
    chance, width, height, places = random.Random(502), 150, 1_700, []
    for _ in range(4_200):
        places += [chance.randrange(width), -9, chance.randrange(width), height + 9]
    return filled([places], width, height)


def upright_edges() -> Counted:
    """A polygon of 8,400 upright edges on 24 columns, which stay in order: their columns are counted, and flags of these are found once."""
    width, height, places = 24, 1_000, []
    for number in range(8_400):
        x = number * width // 8_400
        places += [x, 0, x, height] if number % 2 == 0 else [x, height, x, 0]
    return filled([places], width, height)


def path_of_many_figures() -> Counted:
    """A path of 6,000 figures of one line, dropped: each begins where the last one ends in the list of pieces."""
    records = EMF.records("begin_path")
    for number in range(6_000):
        records += EMF.records(f"move {number % 60} 3; line {number % 50} 9")
    return Counted(EMF.file(records + EMF.records("end_path; abort_path"), 64, 16), 64, 64)


def hatches_in_low_bands() -> Counted:
    """High hatched rectangles of two columns in bands of eight rows: in each band its own rows are gone through."""
    height, records = 4_096, WMF.records("null_pen 0; hatched_brush 1 4 0x804020; select 0; select 1")
    records += [WMF.step("rectangle", x % 14, 0, x % 14 + 2, height) for x in range(30)]
    return Counted(WMF.file(records, (16, height), 0), 16, height, command="play", bands=8)


def wide_lines_in_low_bands() -> Counted:
    """Lone lines by a pen of 3 from top to bottom of a surface in bands of eight rows: each is taken up where the band begins."""
    chance, width, height = random.Random(504), 256, 2_048
    lines = [[[x, 0, x + chance.randrange(-90, 90), height]] for x in (chance.randrange(90, width - 90) for _ in range(60))]
    return strokes(lines, width, height, wide_pen(3))._replace(command="play", bands=8)


def many_missing_files() -> Counted:
    """Lines about a dot, and about 3,000 files that aren't there."""
    return Counted((ROOT / "samples" / "dot.wmf").read_bytes(), 4, 4, command="info", status=3, missing=3_000)


def certified_pixels() -> Counted:
    """20,000 pixels, certified: the records are read once, and the digests made once."""
    return Counted(WMF.file([WMF.step("pixel", x % 64, x // 64 % 64) for x in range(20_000)], 64, 0), 64, 64, command="certify")


def certified_again() -> Counted:
    """The same, where the certificate is there: it is checked, and nothing is prepared."""
    return certified_pixels()._replace(kept=True)


FILES = {
    "8 scaled strokes of 5,000 points in four parts, 8,192 by 1,024": scaled_strokes_in_parts,
    "3 strokes of 8,000 short lines in two parts, 1,800 by 1,800": short_lines_in_parts,
    "40 outlines around four parts, 8,192 by 1,024": outlines_around_parts,
    "8,400 active edges, 150 by 1,700": edges_of_many_columns,
    "8,400 upright edges, 24 by 1,000": upright_edges,
    "a path of 6,000 figures, dropped": path_of_many_figures,
    "30 hatched rectangles in bands of 8 rows, 16 by 4,096": hatches_in_low_bands,
    "60 wide lines in bands of 8 rows, 256 by 2,048": wide_lines_in_low_bands,
    "3,000 files that aren't there, info": many_missing_files,
    "20,000 pixels, certified": certified_pixels,
    "20,000 pixels, certified again": certified_again,
}
