"""Files on which bugs of time show that no other counted file shows, or hardly: the smallest pictures, strokes in far corners, shapes of few rows or columns,
and frames and maps that are rare."""

import random

from instruction_files import Counted
from row_files import tiled
from slip_files import anywhere, listed
from writers import BETWEEN, EMF, WMF, i16, placeable_file

# Records for one colour inside, and no outline.
FILLED = "null_pen 0; solid_brush 1 0x206040; select 0; select 1"


def pixel() -> Counted:
    """A pixel on a surface of one: what is allocated or cleared for nothing is a large part of the work."""
    return Counted(WMF.file(WMF.records("pixel 0 0"), 1, 0), 1, 1)


def checked_pixel() -> Counted:
    """The same, checked."""
    return pixel()._replace(command="check")


def listed_pixel() -> Counted:
    """The same, listed."""
    return pixel()._replace(command="list")


def told_pixel() -> Counted:
    """The same, given to `info`."""
    return pixel()._replace(command="info")


def prepared_pixel() -> Counted:
    """The same, prepared."""
    return pixel()._replace(command="prepare")


def pixel_over_an_image() -> Counted:
    """The same over an image."""
    return pixel()._replace(command="over", image=b"P6\n1 1\n255\n\xff\xff\xff")


def pentagon() -> Counted:
    """A polygon of five points: lines, but so few that no mask is allocated for strokes."""
    return Counted(WMF.file([WMF.step("polygon", 0, 0, 7, 0, 7, 4, 4, 7, 0, 4)], 8, 0), 8, 8)


def fifteen_points() -> Counted:
    """A polygon of fifteen points, which are as few."""
    return Counted(WMF.file([WMF.step("polygon", *[part for nth in range(15) for part in (nth % 2 * 7, nth // 2)])], 8, 0), 8, 8)


def pentagon_in_bands() -> Counted:
    """The same in bands of one row: little is done anew for each."""
    return pentagon()._replace(command="play", bands=1)


def wide_line() -> Counted:
    """A line by a wide pen, which takes no mask either."""
    return Counted(WMF.file(WMF.records("styled_pen 0 0 3 0x8040; select 0; move 0 0; line 7 5"), 8, 0), 8, 8)


def thin_strokes_in_two_corners() -> Counted:
    """Thin strokes of two lines in far corners: the mask of what is visited is cleared once, and hardly read."""
    side = 1024
    record = EMF.step("short_polylines", *listed([[0, 0, 6, 20], [side - 21, side - 21, side - 15, side - 1]]))
    return Counted(EMF.file([record] * 100, side, 16), side, side)


def flat_nib_in_two_corners() -> Counted:
    """Strokes of few lines in far corners by a nib of 4 by 1: each mask is cleared once, and its rows aren't joined."""
    width, height = 1024, 64
    lines = [[left, top, left + 2, top + 20] for left in (0, 10, 237, 247) for top in (2, 40)]
    records = EMF.records("map_mode 8; window_extent 1000 1000; viewport_extent 4000 1000; styled_pen 0 0 1 0x8040; select 0")
    records += [EMF.step("short_polylines", *listed(lines))] * 200
    return Counted(EMF.file(records, (width, height), 16), width, height)


def lines_below_the_shared_row() -> Counted:
    """Lines behind the rows that share one row of the mask, by a nib of 25 by 250 on 200 rows. No column is covered from top to bottom."""
    chance, width, height = random.Random(201), 1000, 200
    records = EMF.records("map_mode 8; window_extent 100 100; viewport_extent 100 1000; styled_pen 0 0 25 0x8040; select 0")
    for _ in range(2):
        lefts = [chance.randrange(20, 900) for _ in range(400)]
        records.append(EMF.step("short_polylines", *listed([[left, 13, left + chance.randrange(-9, 10), 32] for left in lefts])))
    return Counted(EMF.file(records, (width, height), 16), width, height)


def line_far_below() -> Counted:
    """Strokes of a line at the top and another far below the surface, by a nib of 9 by 9: a mask of the few rows that the first one reaches is enough."""
    width, height = 200, 2048
    record = EMF.step("short_polylines", 5, 5, 150, 20, BETWEEN, 5, 5_000, 150, 5_020)
    return Counted(EMF.file([*EMF.records("styled_pen 0 0 9 0x8040; select 0"), *[record] * 300], (width, height), 16), width, height)


def fourteen_wide_lines() -> Counted:
    """Strokes of fourteen long lines by a nib of 9 by 9, and none of more: a mask pays for these too."""
    chance, side = random.Random(204), 256
    records = EMF.records("styled_pen 0 0 9 0x8040; select 0")
    records += [EMF.step("short_polyline", *anywhere(chance, 15, 0, side, side)) for _ in range(60)]
    return Counted(EMF.file(records, side, 16), side, side)


def lone_wide_lines() -> Counted:
    """Lone steep lines by a nib of 2 by 2: few pixels in each row."""
    chance, width, height = random.Random(212), 256, 1024
    records = EMF.records("styled_pen 0 0 2 0x8040; select 0")
    for _ in range(100):
        records.append(EMF.step("short_polyline", chance.randrange(width), 0, chance.randrange(width), height))
    return Counted(EMF.file(records, (width, height), 16), width, height)


def slanted_lines(nib: int, strokes: int, lines: int, slope: float, down: int, seed: int) -> Counted:
    """Strokes of lines of so many columns a row and so many rows."""
    chance, side, across = random.Random(seed), 512, int(slope * down)
    records = EMF.records(f"styled_pen 0 0 {nib} 0x8040; select 0")
    for _ in range(strokes):
        starts = [(chance.randrange(side - across), chance.randrange(side - down)) for _ in range(lines)]
        records.append(EMF.step("short_polylines", *listed([[x, y, x + across, y + down] for x, y in starts])))
    return Counted(EMF.file(records, side, 16), side, side)


def six_columns_a_row() -> Counted:
    """Thin lines of six columns a row, with a pixel in each 24 of their box: near where rows of spans, marks of what is visited and a mask cost the same."""
    return slanted_lines(1, 8, 180, 6, 60, 206)


def hardly_flat_lines_by_a_nib() -> Counted:
    """Lines of six columns in five rows by a nib of 40: they are marked pixel by pixel."""
    return slanted_lines(40, 6, 180, 1.2, 200, 207)


def flat_lines_by_a_high_nib() -> Counted:
    """Lines of eight columns a row by a nib of 4 by 100: the few columns of each row are marked at once."""
    chance, side = random.Random(218), 512
    records = EMF.records("map_mode 8; window_extent 100 100; viewport_extent 100 2500; styled_pen 0 0 4 0x8040; select 0")
    for _ in range(4):
        starts = [(chance.randrange(100), chance.randrange(18)) for _ in range(180)]
        records.append(EMF.step("short_polylines", *listed([[x, y, x + 400, y + 2] for x, y in starts])))
    return Counted(EMF.file(records, side, 16), side, side)


def seventeen_flat_lines() -> Counted:
    """Thin strokes of seventeen flat lines, and none of more: there is a mask for these."""
    chance, side = random.Random(219), 256
    records = []
    for _ in range(300):
        left, top = chance.randrange(side - 100), chance.randrange(side - 9)
        records.append(EMF.step("short_polyline", *[part for nth in range(18) for part in (left + nth % 2 * 99, top + chance.randrange(9))]))
    return Counted(EMF.file(records, side, 16), side, side)


def slanted_lines_behind_a_cut() -> Counted:
    """Thin strokes of eight lines of six columns a row, while a pixel is cut out: a mask of their box would have few pixels that are set."""
    chance, side = random.Random(220), 512
    records = EMF.records("cut 250 250 251 251")
    for _ in range(30):
        starts = [(chance.randrange(side - 360), chance.randrange(side - 60)) for _ in range(8)]
        records.append(EMF.step("short_polylines", *listed([[x, y, x + 360, y + 60] for x, y in starts])))
    return Counted(EMF.file([*records, EMF.step("short_polyline", *[600, 600] * 20)], side, 16), side, side)


def dots_beside_a_kept_box() -> Counted:
    """Dots outside a box that is kept, while sixteen are cut out of it: they are held against the kept box alone."""
    chance, side = random.Random(221), 64
    records = WMF.records("keep 0 0 8 64; 16x cut 1 1 2 2")
    records += [WMF.step("pixel", chance.randrange(8, side), chance.randrange(side)) for _ in range(5_000)]
    return Counted(WMF.file(records, side, 0), side, side)


def narrow_mixed_tiles() -> Counted:
    """Tiled rectangles of fifteen columns under a raster operation: eight of a row's pixels are mixed at once."""
    chance, width, height = random.Random(223), 64, 1024
    records = [*tiled(), WMF.step("raster", 7)]
    for _ in range(300):
        left, top = chance.randrange(width - 15), chance.randrange(height - 60)
        records.append(WMF.step("rectangle", left, top, left + 15, top + 60))
    return Counted(WMF.file(records, (width, height), 0), width, height)


def edges_in_few_columns() -> Counted:
    """Polygons of 110 edges that cross the rows of twenty columns in another order each time: their columns are counted instead."""
    chance, side = random.Random(203), 256
    records = EMF.records(FILLED)
    for _ in range(30):
        left = chance.randrange(side - 20)
        records.append(EMF.step("short_polygon", *[part for nth in range(110) for part in (left + chance.randrange(20), nth % 2 * 100)]))
    return Counted(EMF.file(records, side, 16), side, side)


def boxes_side_by_side() -> Counted:
    """Polygons of 120 boxes side by side, which have one span in each row."""
    width, height = 1024, 64
    boxes = [[x, 0, x + 8, 0, x + 8, height, x, height] for x in range(0, 960, 8)]
    return Counted(EMF.file(EMF.records(FILLED) + [EMF.step("short_polygons", *listed(boxes))] * 20, (width, height), 16), width, height)


def slivers_behind_a_cut() -> Counted:
    """Triangles of few columns and all rows, while a pixel beside them is cut out: each row is swept, cut and painted."""
    chance, width, height = random.Random(213), 64, 2048
    records = EMF.records(f"{FILLED}; cut 63 0 64 1")
    for _ in range(20):
        left = chance.randrange(50)
        records.append(EMF.step("short_polygon", left, 0, left + 4, 0, left + chance.randrange(4), height))
    return Counted(EMF.file(records, (width, height), 16), width, height)


def slanted_slivers() -> Counted:
    """Triangles that go from the left of a wide surface to its right, with few columns in each row."""
    chance, width, height = random.Random(215), 8192, 64
    records = EMF.records(FILLED)
    for _ in range(600):
        top = chance.randrange(20)
        records.append(EMF.step("short_polygon", 0, top, 20, top, width - 1, top + 40))
    return Counted(EMF.file(records, (width, height), 16), width, height)


def low_rectangles() -> Counted:
    """Rectangles of two to four rows in one colour: they are painted at once, not row by row."""
    chance, side = random.Random(214), 256
    records = EMF.records(FILLED)
    for _ in range(4_000):
        left, top = chance.randrange(side - 9), chance.randrange(side - 4)
        records.append(EMF.step("rectangle", left, top, left + 9, top + chance.randrange(2, 5)))
    return Counted(EMF.file(records, side, 16), side, side)


def low_polygons() -> Counted:
    """Triangles of one to three rows in one colour."""
    chance, side = random.Random(217), 256
    records = EMF.records(FILLED)
    for _ in range(4_000):
        left, top = chance.randrange(side - 9), chance.randrange(side - 4)
        records.append(EMF.step("short_polygon", left, top, left + 9, top, left, top + chance.randrange(1, 4)))
    return Counted(EMF.file(records, side, 16), side, side)


def few_empty_lists() -> Counted:
    """Polygons of twenty empty lists and one of two points: zeros among few counts are counted by words too."""
    record = WMF.step("polygons", *[BETWEEN] * 20, 5, 5, 9, 5)
    return Counted(WMF.file(WMF.records("null_pen 0; select 0") + [record] * 5_000, 64, 0), 64, 64)


def scaled_rows() -> Counted:
    """Points below the surface on a map that scales rows alone: their columns aren't divided."""
    chance, side = random.Random(209), 64
    records = EMF.records("map_mode 8; window_extent 3000 3000; viewport_extent 3000 3100")
    records.append(EMF.step("short_polyline", 0, 0, *[part for _ in range(20_000) for part in (chance.randrange(9_000), 90 + chance.randrange(9_000))]))
    return Counted(EMF.file(records, side, 16), side, side)


def frame_away_from_the_origin() -> Counted:
    """Points below the surface in a file whose box doesn't begin at the origin: they are moved, and nothing is divided."""
    chance, side = random.Random(216), 64
    places = [part for _ in range(8_000) for part in (1_000 + chance.randrange(64), 2_000 + chance.randrange(9_000))]
    box = {"left": i16(1_000), "top": i16(1_000), "right": i16(1_000 + side), "bottom": i16(1_000 + side)}
    return Counted(placeable_file([*[WMF.step("polyline", 1_000, 1_000, *places)] * 3, WMF.end], **box), side, side)


FILES = {
    "a pixel, 1 by 1": pixel,
    "a pixel, checked": checked_pixel,
    "a pixel, listed": listed_pixel,
    "a pixel, info": told_pixel,
    "a pixel, prepared": prepared_pixel,
    "a pixel over an image, 1 by 1": pixel_over_an_image,
    "a pentagon, 8 by 8": pentagon,
    "a polygon of fifteen points, 8 by 8": fifteen_points,
    "a pentagon in bands, 8 by 8": pentagon_in_bands,
    "a wide line, 8 by 8": wide_line,
    "100 thin strokes in two corners, 1,024 by 1,024": thin_strokes_in_two_corners,
    "200 strokes in two corners, nib 4 by 1, 1,024 by 64": flat_nib_in_two_corners,
    "2 strokes of 400 lines, nib 25 by 250, 1,000 by 200": lines_below_the_shared_row,
    "300 strokes of a line and one far below, 200 by 2,048": line_far_below,
    "60 strokes of 14 lines, nib 9 by 9, 256 by 256": fourteen_wide_lines,
    "100 lone lines, nib 2 by 2, 256 by 1,024": lone_wide_lines,
    "8 thin strokes of six columns a row, 512 by 512": six_columns_a_row,
    "6 strokes of six columns in five rows, nib 40 by 40": hardly_flat_lines_by_a_nib,
    "4 strokes of flat lines, nib 4 by 100, 512 by 512": flat_lines_by_a_high_nib,
    "300 thin strokes of 17 flat lines, 256 by 256": seventeen_flat_lines,
    "30 thin strokes of 8 slanted lines behind a cut, 512 by 512": slanted_lines_behind_a_cut,
    "5,000 dots beside a kept box with 16 cuts": dots_beside_a_kept_box,
    "300 narrow mixed tiles, 64 by 1,024": narrow_mixed_tiles,
    "30 polygons of 110 edges in 20 columns": edges_in_few_columns,
    "20 polygons of 120 boxes side by side, 1,024 by 64": boxes_side_by_side,
    "20 slivers behind a cut, 64 by 2,048": slivers_behind_a_cut,
    "600 slanted slivers, 8,192 by 64": slanted_slivers,
    "4,000 low rectangles, 256 by 256": low_rectangles,
    "4,000 low triangles, 256 by 256": low_polygons,
    "5,000 polygons of twenty empty lists": few_empty_lists,
    "20,000 points on a map that scales rows alone": scaled_rows,
    "24,000 points in a frame away from the origin": frame_away_from_the_origin,
}
