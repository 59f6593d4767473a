"""Files on which slips in fills and masks make the program slow that no other counted file shows: edges in order and in a new order in each row,
tables, counts by windings, lines beside and between what is covered, and cuts."""

import random

from instruction_files import Counted
from slip_files import listed
from writers import EMF


def filled(polygons: list[list[int]], width: int, height: int, mode: int = 1) -> Counted:
    """Polygons in one colour, without a pen. What is inside is told by turns in mode 1, and by windings in mode 2."""
    records = EMF.records(f"null_pen 0; solid_brush 1 0x206040; select 0; select 1; fill_mode {mode}")
    return Counted(EMF.file([*records, *(EMF.step("short_polygon", *places) for places in polygons)], (width, height), 16), width, height)


def zigzag(edges: int, width: int, height: int) -> list[int]:
    """A polygon of so many edges between the first row and the last, in another order in each."""
    return [part for nth in range(edges) for part in (nth * 2_654_435_761 % width, nth % 2 * height)]


def upright_teeth(mode: int) -> Counted:
    """A polygon of 1,200 parallel edges on 1,100 columns: they stay in order, so that they are neither sorted nor counted."""
    edges, height = 1_200, 200
    places = [part for nth in range(edges) for part in (nth * 11 // 12 + 20 * (nth % 2), nth % 2 * height)]
    around = [1_200, height, 1_200, -1, -1, -1]
    return filled([places + around], 1_100, height, mode)


def teeth_by_turns() -> Counted:
    """Filled by turns."""
    return upright_teeth(1)


def teeth_by_windings() -> Counted:
    """Filled by windings."""
    return upright_teeth(2)


def high_polygons_by_windings() -> Counted:
    """High polygons of two edges, filled by windings: each of their rows is one span."""
    chance, width, height = random.Random(214), 1_024, 1_024
    lefts = [chance.randrange(width - 3) for _ in range(60)]
    return filled([[left, 0, left + 2, 0, left + 3, height, left + 1, height] for left in lefts], width, height, 2)


def table_by_windings() -> Counted:
    """A polygon of 8,400 edges on four columns, filled by windings, in so many rows that these are read from a table."""
    return filled([zigzag(8_400, 4, 300)], 4, 300, 2)


def edges_in_a_new_order() -> Counted:
    """A polygon of 2,000 edges, of which so many change places in each row that to sort all costs less than to insert these."""
    return filled([zigzag(2_000, 8_192, 16)], 8_192, 16)


def polygons_of_few_rows() -> Counted:
    """Polygons of 8,256 edges on twelve columns, of 56 rows and of one: they have too few for a table."""
    return filled([zigzag(8_256, 12, 56), *[zigzag(8_256, 12, 1)] * 5], 12, 56)


def edges_on_few_columns() -> Counted:
    """Polygons of 500 edges that change places in each row, on 16 columns: they are counted rather than sorted."""
    return filled([zigzag(500, 16, 16)] * 20, 16, 16)


def edges_on_few_columns_by_windings() -> Counted:
    """The same, filled by windings."""
    return filled([zigzag(500, 16, 16)] * 20, 16, 16, 2)


def table_at_the_right() -> Counted:
    """A polygon of 8,400 edges that cross each row, in eight columns at the right of a surface: its rows are read from a table, as at the left."""
    width, height = 256, 1024
    return filled([[part for nth in range(8_400) for part in (240 + nth * 2_654_435_761 % 8, nth % 2 * height)]], width, height)


def few_rows_for_a_table() -> Counted:
    """8,400 edges in so few rows that to move them from row to row takes less time than a table of 60 columns."""
    return filled([zigzag(8_400, 60, 64)], 60, 64)


def some_edges_a_column() -> Counted:
    """Polygons of 600 edges on 200 columns, in another order in each row: they are counted by columns and not sorted."""
    chance, width, height = random.Random(902), 200, 24
    return filled([[part for nth in range(600) for part in (chance.randrange(width), nth % 2 * height)] for _ in range(10)], width, height)


def short_lines_behind_a_cut() -> Counted:
    """A thin stroke behind a cut, which goes by rows of spans: of 8,000 short lines one half ends in one row, and the other begins in rows from the
    last one upwards."""
    width, height = 8_192, 64
    lines = [[2 * nth, 28, 2 * nth, 30] for nth in range(4_000)] + [[2 * nth, 60 - nth // 80, 2 * nth, 62 - nth // 80] for nth in range(4_000)]
    records = EMF.records("cut 5 5 6 6") + [EMF.step("short_polylines", *listed(lines))]
    return Counted(EMF.file(records, (width, height), 16), width, height)


def far_lone_lines() -> Counted:
    """Lone lines in each direction that begin and end far beside a small surface: only their steps on it are taken."""
    chance, side, far = random.Random(215), 256, 15_000
    records = []
    for nth in range(200):
        near, other = chance.randrange(side), chance.randrange(side)
        ends = ((-far, near, far, other), (far, near, -far, other), (near, -far, other, far), (near, far, other, -far))[nth % 4]
        records.append(EMF.step("polyline", *ends))
    return Counted(EMF.file(records, side, 16), side, side)


def diagonal_lines_in_bands() -> Counted:
    """A stroke of 20 lines a little flatter than a diagonal, which begin far above a surface of four bands and end far below it: in each band only
    its rows are gone through."""
    width, height = 1_024, 3_840
    lines = [[150 * nth - 8_000, -4_000, 150 * nth + 8_500, 12_000] for nth in range(20)]
    records = EMF.records("styled_pen 0 0 5 0x8040; select 0") + [EMF.step("short_polylines", *listed(lines))]
    return Counted(EMF.file(records, (width, height), 16), width, height)


def short_steep_lines(nib: int, seed: int) -> Counted:
    """A stroke of 2,400 short steep lines, apart from one another, by a square nib."""
    chance, side = random.Random(seed), 512
    places = [(40 + chance.randrange(side - 100), 40 + chance.randrange(side - 140)) for _ in range(2_400)]
    records = EMF.records(f"styled_pen 0 0 {nib} 0x8040; select 0")
    records.append(EMF.step("short_polylines", *listed([[x, y, x + 20, y + 60] for x, y in places])))
    return Counted(EMF.file(records, side, 16), side, side)


def lines_of_forty_columns() -> Counted:
    """By a nib of 40 by 40: in each row 40 columns are marked at once."""
    return short_steep_lines(40, 203)


def lines_of_three_columns() -> Counted:
    """By a nib of 3 by 3."""
    return short_steep_lines(3, 207)


def strokes_behind_cuts() -> Counted:
    """Strokes of two short lines at both ends of a high surface, behind sixteen cuts of two rows each: each cut is held against its own rows. Moves
    make so much work that the surface is one band."""
    width, height = 64, 8_192
    records = EMF.records("styled_pen 0 0 5 0x8040; select 0") + EMF.records("move 1 1") * 5_000
    records += [EMF.step("cut", 8, 500 * nth, 20, 500 * nth + 2) for nth in range(16)]
    records += [EMF.step("short_polylines", *listed([[10, 3, 30, 9], [10, height - 9, 30, height - 3]]))] * 10
    return Counted(EMF.file(records, (width, height), 16), width, height)


def lines_that_leave_a_high_nib() -> Counted:
    """A stroke by a nib that is higher than the surface: three lines cover most columns, and 200 lines leave these far below the surface."""
    width, height = 2_000, 500
    lines = [[column, -600, column, 1_100] for column in (300, 800, 1_300)] + [[600 + nth, 0, 2_500, 20_000] for nth in range(200)]
    records = EMF.records("styled_pen 0 0 512 0x8040; select 0") + [EMF.step("short_polylines", *listed(lines))]
    return Counted(EMF.file(records, (width, height), 16), width, height)


def strokes_behind_a_wide_cut() -> Counted:
    """Strokes of flat lines of a wide pen behind a cut that leaves little of them: many columns are taken away at a time."""
    width, height = 8_192, 64
    records = EMF.records(f"styled_pen 0 0 9 0x8040; select 0; cut 20 0 {width - 20} {height}")
    lines = [[0, row, width - 1, row + 1] for row in (5, 30, 55)] * 12
    records += [EMF.step("short_polylines", *listed(lines))] * 10
    return Counted(EMF.file(records, (width, height), 16), width, height)


def lines_between_covers() -> Counted:
    """A stroke by a nib of 3 by 3: a line at each side, five hundred columns between them that flat lines cover from top to bottom, and 4,000 lines
    over these."""
    chance, width, height = random.Random(205), 1_400, 62
    lines = [[side, 0, side, height + 8] for side in (2, width - 4)] + [[100, row, 600, row] for row in range(height)]
    lines += [[110 + chance.randrange(400), 0, 110 + chance.randrange(400), height - 1] for _ in range(4_000)]
    records = EMF.records("styled_pen 0 0 3 0x8040; select 0") + [EMF.step("short_polylines", *listed(lines))]
    return Counted(EMF.file(records, (width, height), 16), width, height)


def lines_beside_the_cover() -> Counted:
    """A stroke in a box that is kept, of which upright lines cover a half: 12,000 lines left of the box cost little."""
    chance, width, height = random.Random(206), 512, 256
    lines = [[240 + 2 * nth, -20, 240 + 2 * nth, height + 20] for nth in range(50)]
    lines += [[chance.randrange(90), 0, chance.randrange(90), height] for _ in range(12_000)]
    records = EMF.records(f"styled_pen 0 0 5 0x8040; select 0; keep 200 0 400 {height}") + [EMF.step("short_polylines", *listed(lines))]
    return Counted(EMF.file(records, (width, height), 16), width, height)


def edges_from_the_last_row() -> Counted:
    """Polygons of 198 edges, each above the one before it, of which the surface has four rows: edges are sorted, however few they are."""
    return filled([[part for nth in range(198) for part in (nth * 37 % 61, 199 - nth)]] * 100, 64, 4)


def triangles_behind_a_large_polygon() -> Counted:
    """Small triangles behind a polygon of 5,000 edges, of as many as a table is for: what is kept for a table is left alone by the others."""
    chance, side = random.Random(208), 64
    large = [nth % 2 for nth in range(5_000) for _ in range(2)]
    return filled([large, *([chance.randrange(side) for _ in range(6)] for _ in range(400))], side, side)


FILES = {
    "1,200 upright teeth, 1,100 by 200": teeth_by_turns,
    "1,200 upright teeth, 1,100 by 200, by windings": teeth_by_windings,
    "60 high polygons of two edges, by windings": high_polygons_by_windings,
    "8,400 edges in a table, 4 by 300, by windings": table_by_windings,
    "2,000 edges in a new order, 8,192 by 16": edges_in_a_new_order,
    "6 polygons of 8,256 edges, 12 by 56": polygons_of_few_rows,
    "20 polygons of 500 edges, 16 by 16": edges_on_few_columns,
    "20 polygons of 500 edges, 16 by 16, by windings": edges_on_few_columns_by_windings,
    "8,400 edges in a table at the right, 256 by 1,024": table_at_the_right,
    "8,400 edges without a table, 60 by 64": few_rows_for_a_table,
    "8,000 short lines behind a cut, 8,192 by 64": short_lines_behind_a_cut,
    "200 lone lines from far to far, 256 by 256": far_lone_lines,
    "20 diagonal lines in bands, nib 5 by 5": diagonal_lines_in_bands,
    "2,400 short steep lines, nib 40 by 40": lines_of_forty_columns,
    "2,400 short steep lines, nib 3 by 3": lines_of_three_columns,
    "10 strokes behind 16 cuts, 64 by 8,192": strokes_behind_cuts,
    "200 lines that leave the cover, nib 512 by 512": lines_that_leave_a_high_nib,
    "10 strokes behind a wide cut, 8,192 by 64": strokes_behind_a_wide_cut,
    "4,000 lines between covers, nib 3 by 3": lines_between_covers,
    "12,000 lines beside the cover, nib 5 by 5": lines_beside_the_cover,
    "10 polygons of 600 edges, 200 by 24": some_edges_a_column,
    "400 triangles behind a polygon of 5,000 edges, 64 by 64": triangles_behind_a_large_polygon,
    "100 polygons of 198 edges from the last row on, 64 by 4": edges_from_the_last_row,
}
