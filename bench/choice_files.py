"""Files on which slips in a choice between two ways with one result make the program slow that no other counted file shows: strokes that are cheapest
by one mask or the other, or by rows of spans, lines that are marked pixel by pixel or row by row, short hatches, edges that are neither sorted nor
tabled, and empty lists in paths."""

import random

from fill_files import filled, zigzag
from instruction_files import Counted
from slip_files import listed
from writers import BETWEEN, EMF


def strokes(drawn: list[list[list[int]]], width: int, height: int, before: str = "") -> Counted:
    """Strokes of these lines, behind these records."""
    records = EMF.records(before) if before else []
    return Counted(EMF.file([*records, *(EMF.step("short_polylines", *listed(lines)) for lines in drawn)], (width, height), 16), width, height)


def wide_pen(nib: int) -> str:
    """Records that select a pen of this width."""
    return f"styled_pen 0 0 {nib} 0x8040; select 0"


def slanted(chance: random.Random, count: int, slope: int, width: int, height: int) -> list[list[int]]:
    """So many lines of 5 to 40 rows, of this many columns a row, in all four directions."""
    lines = []
    for _ in range(count):
        down, left, top = chance.randrange(5, 41), chance.randrange(width - 1), chance.randrange(height - 1)
        lines.append([left, top, left + chance.choice((-1, 1)) * slope * down, top + chance.choice((-1, 1)) * down])
    return lines


def flat_across(chance: random.Random, count: int, width: int, height: int) -> list[list[int]]:
    """So many nearly flat lines from beside a surface to its other side."""
    rows = [chance.randrange(height) for _ in range(count)]
    return [[-chance.randrange(200), row, width + chance.randrange(200), row + chance.randrange(-1, 2)] for row in rows]


def flat_lines_on_few_columns() -> Counted:
    """Strokes of 10 flat lines on 16 columns: of so few columns a line has few pixels, so that they are marked as visited."""
    chance, width, height = random.Random(301), 16, 512
    return strokes([flat_across(chance, 10, width, height) for _ in range(150)], width, height)


def flat_lines_on_more_columns() -> Counted:
    """Strokes of 2,000 flat lines on 31 columns: these are too many pixels to mark as visited."""
    chance, width, height = random.Random(302), 31, 128
    return strokes([flat_across(chance, 2_000, width, height) for _ in range(3)], width, height)


def ends_anywhere(chance: random.Random, count: int, width: int, height: int) -> list[list[int]]:
    """So many lines between places of a surface."""
    return [[part for _ in range(2) for part in (chance.randrange(width), chance.randrange(height))] for _ in range(count)]


def lines_along_a_wide_surface() -> Counted:
    """A stroke of 1,365 lines on a wide surface: a mask costs less than their rows of spans, though they cross few of its rows."""
    width, height = 4_096, 128
    return strokes([ends_anywhere(random.Random(31), 1_365, width, height)], width, height)


def lines_of_three_columns_a_row_from_above() -> Counted:
    """Strokes of 60 lines of three columns a row, from far above a surface to far below it: what they have in its rows is few pixels."""
    chance, width, height = random.Random(305), 512, 64
    made = []
    for _ in range(60):
        lines = []
        for _ in range(60):
            left, top, bottom = chance.randrange(width), -chance.randrange(200, 800), height + chance.randrange(200, 800)
            lines.append([left, top, left + 3 * (bottom - top), bottom])
        made.append(lines)
    return strokes(made, width, height)


def fifteen_lines_behind_a_cut() -> Counted:
    """Strokes of 15 lines on 48 columns while one pixel is cut out: a mask costs less than rows of spans for so few lines."""
    chance, width, height = random.Random(306), 48, 1_024
    return strokes([slanted(chance, 15, 6, width, height) for _ in range(60)], width, height, "cut 24 500 25 501")


def lines_of_fifteen_rows() -> Counted:
    """Thin strokes of 300 upright lines of 15 rows: lines as short as these are marked as visited, however many they are."""
    chance, side, rows = random.Random(307), 64, 15
    made = []
    for _ in range(20):
        lines = []
        for _ in range(300):
            left, top = chance.randrange(side), chance.randrange(side - rows)
            lines.append([left, top, left + chance.randrange(-1, 2), top + rows])
        made.append(lines)
    return strokes(made, side, side)


def lines_beside_what_covers_no_column() -> Counted:
    """Strokes of 900 lines beside a box that is kept, and two in its corners, by a nib of 2 by 2: no column is covered from top to bottom, and those
    beside the box mark nothing."""
    chance, side = random.Random(308), 1_024
    made = []
    for _ in range(4):
        lines = [[1, 1, 3, 2], [4, side - 3, 6, side - 2]]
        for _ in range(900):
            left, top = 100 + chance.randrange(800), chance.randrange(side)
            lines.append([left, top, left + chance.randrange(-40, 40), top + chance.randrange(-40, 40)])
        made.append(lines)
    return strokes(made, side, side, f"{wide_pen(2)}; keep 0 0 8 {side}")


def lines_to_the_rightmost_column() -> Counted:
    """Strokes of 300 lines to one column, which is the rightmost of their box, by a nib of 3 by 3: all that the nib covers lies in that box."""
    side, right = 256, 225
    heads = [nth * 7 % side for nth in range(300)]
    ends = [min(side - 1, head + 150) if head < 100 else max(0, head - 150) for head in heads]
    lines = [[right - 100 - nth % 60, head, right, end] for nth, (head, end) in enumerate(zip(heads, ends, strict=True))]
    return strokes([lines] * 3, side, side, wide_pen(3))


def wide_lines_of_six_columns_a_row() -> Counted:
    """Strokes of 60 lines of six columns a row, by a nib of 5 by 5: they are marked row by row."""
    chance, side = random.Random(310), 256
    return strokes([slanted(chance, 60, 6, side, side) for _ in range(20)], side, side, wide_pen(5))


def lines_under_a_nib_of_65() -> Counted:
    """Strokes of 300 lines of three columns a row, by a nib of 65 by 65: more than 64 columns are marked faster row by row."""
    chance, side = random.Random(311), 256
    made = []
    for _ in range(6):
        lines = []
        for _ in range(300):
            down, left = chance.randrange(8, 40), 108 + chance.randrange(40)
            top = chance.randrange(side - down)
            lines.append([left, top, left + chance.choice((-1, 1)) * 3 * down, top + down])
        made.append(lines)
    return strokes(made, side, side, wide_pen(65))


def lines_below_row_2048() -> Counted:
    """Strokes of 100 lines in the lower half of a surface of 4,096 rows, by a nib of 2 by 2: they are marked pixel by pixel, as in the upper half."""
    chance, width, height, first = random.Random(312), 32, 4_096, 2_048
    made = []
    for _ in range(3):
        lines = ends_anywhere(chance, 100, width, height - first)
        made.append([[left, first + top, right, first + bottom] for left, top, right, bottom in lines])
    return strokes(made, width, height, wide_pen(2))


def few_steep_lines_on_a_wide_surface() -> Counted:
    """Strokes of nine steep lines on the widest surface, by a nib of 2 by 2: their rows of spans cost less than a mask."""
    chance, width, height = random.Random(315), 8_192, 64
    made = []
    for _ in range(20):
        lefts = [chance.randrange(width) for _ in range(9)]
        made.append([[left, 0, left + chance.randrange(-20, 20), height] for left in lefts])
    return strokes(made, width, height, wide_pen(2))


def flat_lines_from_the_last_row() -> Counted:
    """Thin strokes of 199 flat lines, each above the one before it, on a wide surface: they are sorted by their rows, however few they are."""
    width, height, count = 8_192, 200, 199
    return strokes([[[40 * (nth % 5), count - nth, 100 + 40 * (nth % 5), count - nth] for nth in range(count)]] * 10, width, height)


def lines_that_are_soon_covered() -> Counted:
    """Strokes of 2,000 lines, of which a few cover the surface by a nib of 64 by 64: the others aren't looked at."""
    chance, side = random.Random(316), 64
    records = EMF.records(wide_pen(64))
    records += [EMF.step("short_polyline", *(chance.randrange(side) for _ in range(4_000))) for _ in range(50)]
    return Counted(EMF.file(records, side, 16), side, side)


def short_lines_on_a_high_surface() -> Counted:
    """Strokes of 3,000 short lines on the highest surface, by a nib of 3 by 3: one mask has memory for all its rows."""
    chance, width, height = random.Random(317), 64, 8_192
    made = []
    for _ in range(2):
        places = [(chance.randrange(width), chance.randrange(height - 90)) for _ in range(3_000)]
        made.append([[left, top, left + chance.randrange(-9, 9), top + chance.randrange(9)] for left, top in places])
    return strokes(made, width, height, wide_pen(3))


def lines_that_cover_more_and_more() -> Counted:
    """A stroke of 10,000 upright lines on a wide surface, by a nib of 3 by 3: covered columns are looked for in good time, again and again."""
    chance, width, height = random.Random(50), 1_000, 60
    lines = [[2, 0, 2, height // 2 - 6]]
    for _ in range(10_000):
        column = 1 + chance.randrange(width - 2)
        lines.append([column, 0, min(width - 1, column + chance.randrange(3)), height - 1])
    return strokes([lines], width, height, wide_pen(3))


def unseen_lines_of_a_wide_path() -> Counted:
    """Paths of 10,000 lines, of which all but one lie above a surface, stroked by a nib of 9 by 9: their lines aren't counted beside their points."""
    chance, side = random.Random(319), 64
    records = EMF.records(wide_pen(9))
    for _ in range(3):
        above = [part for _ in range(10_000) for part in (chance.randrange(9_000), -1_000 - chance.randrange(8_000))]
        path = EMF.step("short_polyline", 5, 5, 60, 40, *above)
        records += [EMF.step("begin_path"), path, EMF.step("end_path"), EMF.step("stroke_path")]
    return Counted(EMF.file(records, side, 16), side, side)


def empty_lists_in_a_path() -> Counted:
    """A path with one list behind 300,000 empty ones: these are passed over eight bytes at a time."""
    records = [EMF.step("begin_path"), EMF.step("short_polygons", *[BETWEEN] * 300_000, 0, 0, 5, 5, 9, 30)]
    records += [EMF.step("end_path"), EMF.step("stroke_and_fill_path")]
    return Counted(EMF.file(records, 64, 16), 64, 64)


def rectangles(brush: str, chance: random.Random, size: tuple[int, int], sides: tuple[int, int], count: int) -> Counted:
    """So many rectangles of a size, with this brush and without a pen."""
    width, height = sides
    records = EMF.records(f"null_pen 0; {brush}; select 0; select 1")
    for _ in range(count):
        left, top = chance.randrange(width - size[0]), chance.randrange(height - size[1])
        records.append(EMF.step("rectangle", left, top, left + size[0], top + size[1]))
    return Counted(EMF.file(records, sides, 16), width, height)


def rectangles_of_a_thousand_columns() -> Counted:
    """Wide rectangles in one colour: of each row 256 columns are filled by eights, and the others by copies of these."""
    return rectangles("solid_brush 1 0x206040", random.Random(318), (1_000, 50), (1_024, 64), 300)


def hatched_rectangles_of_fifteen_rows() -> Counted:
    """Narrow opaque hatched rectangles of 15 rows: what is painted is made for eight of them."""
    return rectangles("hatched_brush 1 4 0x804020", random.Random(313), (2, 14), (64, 64), 2_000)


def flat_transparent_hatches() -> Counted:
    """Narrow rectangles of a transparent hatch of flat lines: seven of eight rows have no pixel, and nothing is done in these."""
    return rectangles("hatched_brush 1 0 0x804020; back_mode 1", random.Random(314), (2, 100), (64, 512), 1_000)


def edges_that_are_inserted() -> Counted:
    """A polygon of 2,000 edges, which are moved by four to eight places each from row to row: to insert them costs less than to sort all."""
    chance, edges, width, height = random.Random(10), 2_000, 8_192, 16
    return filled([[part for nth in range(edges) for part in (nth * width // edges + chance.randrange(-600, 600), nth % 2 * height)]], width, height)


def fewer_rows_for_a_table() -> Counted:
    """8,400 edges on 20 columns, in as many rows as two fifths of a table are worth."""
    return filled([zigzag(8_400, 20, 44)], 20, 44)


FILES = {
    "150 strokes of flat lines, 16 by 512": flat_lines_on_few_columns,
    "3 strokes of 2,000 flat lines, 31 by 128": flat_lines_on_more_columns,
    "a stroke of 1,365 lines, 4,096 by 128": lines_along_a_wide_surface,
    "60 slanted strokes from far above, 512 by 64": lines_of_three_columns_a_row_from_above,
    "60 strokes of 15 lines behind a cut, 48 by 1,024": fifteen_lines_behind_a_cut,
    "20 strokes of lines of 15 rows, 64 by 64": lines_of_fifteen_rows,
    "4 strokes of 900 lines beside a kept box, nib 2 by 2": lines_beside_what_covers_no_column,
    "3 strokes of 300 lines to column 225, 256 by 256": lines_to_the_rightmost_column,
    "20 strokes of lines of six columns a row, nib 5 by 5": wide_lines_of_six_columns_a_row,
    "6 strokes of lines of three columns a row, nib 65 by 65": lines_under_a_nib_of_65,
    "3 strokes below row 2,048, nib 2 by 2": lines_below_row_2048,
    "20 strokes of nine steep lines, 8,192 by 64": few_steep_lines_on_a_wide_surface,
    "10 strokes of 199 flat lines from the last row on, 8,192 by 200": flat_lines_from_the_last_row,
    "50 strokes of 2,000 lines that are soon covered, nib 64 by 64": lines_that_are_soon_covered,
    "2 strokes of 3,000 short lines, 64 by 8,192": short_lines_on_a_high_surface,
    "10,000 upright lines that cover more and more, 1,000 by 60": lines_that_cover_more_and_more,
    "3 unseen paths of 10,000 lines, nib 9 by 9": unseen_lines_of_a_wide_path,
    "300,000 empty lists in a path": empty_lists_in_a_path,
    "300 rectangles of 1,000 columns, 1,024 by 64": rectangles_of_a_thousand_columns,
    "2,000 hatched rectangles of 15 rows, 64 by 64": hatched_rectangles_of_fifteen_rows,
    "1,000 flat transparent hatches, 64 by 512": flat_transparent_hatches,
    "2,000 edges that are inserted, 8,192 by 16": edges_that_are_inserted,
    "8,400 edges in fewer rows than a table is worth, 20 by 44": fewer_rows_for_a_table,
}
