"""Files on which slips make the program slow that no other counted file shows: drawings beside a kept box, tables of columns, cuts that leave little
of a tile, lines over what a stroke covers already, strokes in two corners, long lists, and tables of objects and faults."""

import random

from instruction_files import Counted
from row_files import tiled
from writers import BETWEEN, EMF, WMF


def listed(lines: list[list[int]]) -> list[object]:
    """The words of a record that has a list for each of these lines."""
    return [word for line in lines for word in (BETWEEN, *line)][1:]


def anywhere(chance: random.Random, count: int, left: int, width: int, height: int) -> list[int]:
    """The numbers of so many places in columns from `left` on."""
    return [part for _ in range(count) for part in (left + chance.randrange(width), chance.randrange(height))]


def filled(places: list[int], width: int, height: int) -> Counted:
    """One polygon in one colour, without a pen."""
    records = EMF.records("null_pen 0; solid_brush 1 0x206040; select 0; select 1")
    return Counted(EMF.file([*records, EMF.step("short_polygon", *places)], (width, height), 16), width, height)


def near_upright_edges() -> Counted:
    """A polygon of 2,000 edges, of which some hundreds change places in each row: to insert these costs less than to sort all."""
    chance, edges, height = random.Random(101), 2_000, 512
    return filled([part for nth in range(edges) for part in (nth * 4 + chance.randrange(-400, 400), nth % 2 * height)], 8192, height)


def edges_in_a_table(width: int, height: int) -> Counted:
    """A polygon of 8,400 edges that cross each row of few columns, in so many rows that these are read from a table."""
    return filled([part for nth in range(8_400) for part in (nth * 2_654_435_761 % width, nth % 2 * height)], width, height)


def narrow_table() -> Counted:
    """A table of 24 columns."""
    return edges_in_a_table(24, 8191)


def wider_table() -> Counted:
    """A table of 64 columns."""
    return edges_in_a_table(64, 2048)


def lone_lines_behind_a_cut() -> Counted:
    """Lone lines while one pixel is cut out: each of their pixels is held against that box alone."""
    chance, side = random.Random(103), 1024
    records = EMF.records("cut 500 500 501 501")
    records += [EMF.step("polyline", *anywhere(chance, 2, 0, side, side)) for _ in range(2_000)]
    return Counted(EMF.file(records, side, 16), side, side)


def listed_empty_lists() -> Counted:
    """300,000 empty lists in one record, listed: how many they are stands in the record."""
    return Counted(EMF.file([EMF.step("short_polygons", *[BETWEEN] * 300_000, 0, 0)], 64, 16), 64, 64, command="list")


def strokes_in_two_corners() -> Counted:
    """Strokes of 200 short lines by a nib of 2 by 2, half of them in one corner and half in the other: no mask of all between them is made."""
    chance, side = random.Random(106), 2048
    records = EMF.records("styled_pen 0 0 2 0x8040; select 0")
    for _ in range(60):
        lines = [[corner + chance.randrange(12) for _ in range(4)] for corner in (0, side - 12) for _ in range(100)]
        records.append(EMF.step("short_polylines", *listed(lines)))
    return Counted(EMF.file(records, side, 16), side, side)


def flat_lines_under_a_high_nib() -> Counted:
    """Strokes of 200 short flat lines, all over a wide surface, by a nib of 64 by 64: a mask costs less than each nib's rows."""
    chance, width, height = random.Random(108), 8192, 64
    records = EMF.records("styled_pen 0 0 64 0x8040; select 0")
    for _ in range(40):
        lines = []
        for _ in range(200):
            left, top = chance.randrange(width - 40), chance.randrange(height)
            lines.append([left, top, left + 30, top + chance.randrange(2)])
        records.append(EMF.step("short_polylines", *listed(lines)))
    return Counted(EMF.file(records, (width, height), 16), width, height)


def polygons_beside_a_kept_box() -> Counted:
    """High polygons right of a box that is kept, in one colour: neither their lines nor their rows are gone through."""
    chance, width, height = random.Random(109), 64, 8192
    records = EMF.records(f"null_pen 0; solid_brush 1 0x206040; select 0; select 1; keep 0 0 8 {height}")
    records += [EMF.step("short_polygon", *anywhere(chance, 50, 16, 40, height)) for _ in range(500)]
    return Counted(EMF.file(records, (width, height), 16), width, height)


def tiled_rectangles_beside_a_kept_box() -> Counted:
    """High tiled rectangles right of a box that is kept: none of their rows is gone through."""
    chance, width, height = random.Random(113), 64, 8192
    records = [*tiled(), WMF.step("keep", 0, 0, 8, height)]
    for _ in range(500):
        left, top = 16 + chance.randrange(40), chance.randrange(height - 1_000)
        records.append(WMF.step("rectangle", left, top, left + 8, top + 1_000))
    return Counted(WMF.file(records, (width, height), 0), width, height)


def strokes_beside_a_kept_box(pen: int, seed: int) -> Counted:
    """Strokes of fifty lines by a pen of this width, right of a box that is kept: none of their lines is taken."""
    chance, side = random.Random(seed), 1024
    records = EMF.records(f"styled_pen 0 0 {pen} 0x8040; select 0; keep 0 0 8 {side}")
    records += [EMF.step("short_polyline", *anywhere(chance, 51, 100, 900, side)) for _ in range(300)]
    return Counted(EMF.file(records, side, 16), side, side)


def wide_strokes_beside_a_kept_box() -> Counted:
    """Those of a wide pen."""
    return strokes_beside_a_kept_box(5, 116)


def thin_strokes_beside_a_kept_box() -> Counted:
    """Those of a thin pen."""
    return strokes_beside_a_kept_box(1, 117)


def behind_a_wide_cut() -> list[bytes]:
    """Records that select a tile, and cut out all but the first eight columns."""
    return [*tiled(), WMF.step("cut", 8, 0, 8192, 64)]


def tiled_polygons_behind_a_wide_cut() -> Counted:
    """Wide tiled polygons of which a cut leaves eight columns: the tile is gathered for these alone."""
    chance, records = random.Random(110), behind_a_wide_cut()
    for _ in range(100):
        records.append(WMF.step("polygon", 0, chance.randrange(4), 8191, chance.randrange(4), 8191, 60, 0, 60))
    return Counted(WMF.file(records, (8192, 64), 0), 8192, 64)


def tiled_rectangles_behind_a_wide_cut() -> Counted:
    """Wide tiled rectangles behind the same cut, which hides the end of each row."""
    chance, records = random.Random(121), behind_a_wide_cut()
    records += [WMF.step("rectangle", 0, chance.randrange(4), 8192, 60) for _ in range(100)]
    return Counted(WMF.file(records, (8192, 64), 0), 8192, 64)


def low_free_index() -> Counted:
    """1,020 objects, the first of which is deleted and made again many times: its index is found without a look at the others."""
    records = [WMF.step("pen", index) for index in range(1_020)] + WMF.records("delete 0") + WMF.records("pen 0; delete 0") * 10_000
    return Counted(WMF.file(records, 64, 0), 64, 64)


def told_faults() -> Counted:
    """20,000 records of as many unknown types, given to `info`: it ends with status 1."""
    records = [EMF.record(1_000 + number) for number in range(20_000)]
    return Counted(EMF.file(records, 64, 16), 64, 64, command="info", status=1)


def scaled_polygons_above_a_surface() -> Counted:
    """Polygons of which all but three points lie above a surface of 4 by 4, on a map that scales, with a wide pen: inside and outline share their
    lines, each of which is placed once."""
    chance, side = random.Random(115), 4
    records = EMF.records("map_mode 8; window_extent 3000 3000; viewport_extent 2000 2000; styled_pen 0 0 9 0x8040; select 0")
    for _ in range(10):
        above = [part for _ in range(10_000) for part in (chance.randrange(9_000), -1_000 - chance.randrange(9_000))]
        records.append(EMF.step("short_polygon", 0, 0, 4, 4, 0, 4, *above))
    return Counted(EMF.file(records, side, 16), side, side)


def lone_lines_in_bands() -> Counted:
    """Short lone lines on a surface of many bands: each is passed over where it doesn't lie."""
    chance, width, height = random.Random(120), 8192, 2048
    records = []
    for _ in range(20_000):
        x, y = chance.randrange(width - 9), chance.randrange(height - 9)
        records.append(EMF.step("polyline", x, y, x + chance.randrange(9), y + chance.randrange(9)))
    return Counted(EMF.file(records, (width, height), 16), width, height)


def lines_of_no_length() -> Counted:
    """Polylines of 10,000 points in one place between two others: a line that ends where it begins isn't walked."""
    return Counted(EMF.file([EMF.step("short_polyline", 0, 0, *[200, 99] * 10_000, 255, 255)] * 20, 256, 16), 256, 256)


def lines_that_leave_the_cover() -> Counted:
    """A stroke by a nib of 64 by 64 on a high surface: three lines cover 184 of 256 columns, and 2,000 lines leave these far below the surface."""
    width, height = 256, 2048
    places = [part for column in (40, 100, 160) for part in (column, 0, column, height - 1)] + [100, 0, 500, 20_000] * 1_000
    records = EMF.records("styled_pen 0 0 64 0x8040; select 0") + [EMF.step("short_polyline", *places)]
    return Counted(EMF.file(records, (width, height), 16), width, height)


def lines_over_the_longest_cover() -> Counted:
    """A stroke by a nib of 3 by 3: a line at the left, a thousand columns that flat lines cover from top to bottom, and 10,000 lines over these."""
    chance, width, height = random.Random(114), 1_400, 62
    lines = [[2, 0, 2, height + 8]] + [[300, row, 1_300, row] for row in range(height)]
    lines += [[310 + chance.randrange(900), 0, 310 + chance.randrange(900), height - 1] for _ in range(10_000)]
    records = EMF.records("styled_pen 0 0 3 0x8040; select 0") + [EMF.step("short_polylines", *listed(lines))]
    return Counted(EMF.file(records, (width, height), 16), width, height)


def steep(chance: random.Random, lines: int, width: int, height: int) -> bytes:
    """A record of a stroke of so many lines between the first row and the last one."""
    return EMF.step("short_polyline", *(part for nth in range(lines + 1) for part in (chance.randrange(width), nth % 2 * (height - 1))))


def strokes_of_a_fifth() -> Counted:
    """Thin strokes of 100 steep lines, which have a fifth of the pixels of their box, in a file that has a mask, since another stroke is long: they
    are marked as visited, and not by that mask."""
    chance, side = random.Random(125), 512
    records = [EMF.step("short_polyline", *[600, 600, 601, 601] * 2_500)] + [steep(chance, 100, side, side) for _ in range(20)]
    return Counted(EMF.file(records, side, 16), side, side)


def narrow_hatched_rectangles() -> Counted:
    """Opaque hatched rectangles of two columns and 60 rows: what is painted repeats after eight rows."""
    chance, width, height = random.Random(112), 64, 4096
    records = WMF.records("null_pen 0; hatched_brush 1 4 0x804020; select 0; select 1")
    for _ in range(3_000):
        left, top = chance.randrange(width - 2), chance.randrange(height - 60)
        records.append(WMF.step("rectangle", left, top, left + 2, top + 60))
    return Counted(WMF.file(records, (width, height), 0), width, height)


def long_list_in_a_path() -> Counted:
    """A list of 300,000 points in a path that is dropped: in each play its points are gone through once."""
    places = anywhere(random.Random(104), 300_000, 0, 64, 64)
    records = [EMF.step("begin_path"), EMF.step("short_polyline", *places), EMF.step("end_path"), EMF.step("abort_path")]
    return Counted(EMF.file(records, 64, 16), 64, 64)


FILES = {
    "2,000 near upright edges, 8,192 by 512": near_upright_edges,
    "8,400 edges in a table, 24 by 8,191": narrow_table,
    "8,400 edges in a table, 64 by 2,048": wider_table,
    "2,000 lone lines behind a cut, 1,024 by 1,024": lone_lines_behind_a_cut,
    "300,000 empty lists, listed": listed_empty_lists,
    "60 strokes of 200 lines in two corners, nib 2 by 2": strokes_in_two_corners,
    "40 strokes of 200 flat lines, nib 64 by 64, 8,192 by 64": flat_lines_under_a_high_nib,
    "500 polygons beside a kept box, 64 by 8,192": polygons_beside_a_kept_box,
    "500 tiled rectangles beside a kept box, 64 by 8,192": tiled_rectangles_beside_a_kept_box,
    "300 wide strokes beside a kept box, 1,024 by 1,024": wide_strokes_beside_a_kept_box,
    "300 thin strokes beside a kept box, 1,024 by 1,024": thin_strokes_beside_a_kept_box,
    "100 tiled polygons behind a wide cut, 8,192 by 64": tiled_polygons_behind_a_wide_cut,
    "100 tiled rectangles behind a wide cut, 8,192 by 64": tiled_rectangles_behind_a_wide_cut,
    "10,000 pens at a low free index": low_free_index,
    "20,000 records of unknown types, info": told_faults,
    "10 scaled polygons above a surface, 4 by 4": scaled_polygons_above_a_surface,
    "20,000 lone lines in bands, 8,192 by 2,048": lone_lines_in_bands,
    "200,000 lines of no length": lines_of_no_length,
    "2,000 lines that leave the cover, nib 64 by 64": lines_that_leave_the_cover,
    "10,000 lines over the longest cover, nib 3 by 3": lines_over_the_longest_cover,
    "20 strokes of a fifth of their box, 512 by 512": strokes_of_a_fifth,
    "3,000 narrow hatched rectangles, 64 by 4,096": narrow_hatched_rectangles,
    "a list of 300,000 points in a path": long_list_in_a_path,
}
