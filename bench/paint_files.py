"""Files on which slips make the painting of drawings slow that no other counted file shows: thin strokes over and over the same pixels, cuts on both
sides, rows of many spans, hatches of few rows, blits without their ink, and strokes that go another way than they should."""

import random

from instruction_files import Counted, noise
from row_files import tiled
from slip_files import anywhere, listed, steep
from writers import EMF, PATCOPY, SRCCOPY, WMF


def crowded_thin_stroke() -> Counted:
    """A thin stroke of 4,200 steep lines on 64 columns: each pixel is covered again and again, and a mask costs less than to step along each line."""
    width, height = 64, 256
    return Counted(EMF.file([steep(random.Random(201), 4_200, width, height)], (width, height), 16), width, height)


def strokes_of_three_quarters() -> Counted:
    """Thin strokes of 100 steep lines, which have three quarters of the pixels of their box, in a file that has a mask, since another stroke is long:
    they are marked as visited, and not by that mask."""
    chance, width, height = random.Random(223), 128, 512
    records = [EMF.step("short_polyline", *[600, 600, 601, 601] * 2_500)] + [steep(chance, 100, width, height) for _ in range(5)]
    return Counted(EMF.file(records, (width, height), 16), width, height)


def cut_from_both_sides() -> list[bytes]:
    """Records that cut out sixteen boxes, by turns at the left and at the right of what the others leave: eight columns in the middle of a wide
    surface."""
    records = []
    for nth in range(8):
        records += [WMF.step("cut", nth * 511, 0, nth * 511 + 511, 64), WMF.step("cut", 8192 - nth * 512 - 512, 0, 8192 - nth * 512, 64)]
    return records


def wide_drawings_between_cuts() -> Counted:
    """Wide tiled polygons and rectangles, and blits of a bitmap, of which sixteen cuts leave eight columns: what they paint is gathered for these
    alone."""
    chance, records = random.Random(202), [*tiled(), *cut_from_both_sides()]
    for _ in range(12):
        records.append(WMF.step("polygon", 0, chance.randrange(4), 8191, chance.randrange(4), 8191, 60, 0, 60))
        records.append(WMF.step("rectangle", 0, chance.randrange(4), 8192, 60))
        records.append(WMF.step("stretch_dib", SRCCOPY, 0, 0, 8192, 60, 0, 0, 64, 60, str(noise(64, 24))))
    return Counted(WMF.file(records, (8192, 64), 0), 8192, 64)


def two_tiled_spans_a_row() -> Counted:
    """Tiled polygons of two narrow slanted strips beside each other, on a wide surface: the tile is gathered from one strip to the other alone."""
    width, height, records = 8192, 64, tiled()
    for nth in range(20):
        strips = [[left, 0, left + 20, 0, width - 100 + left, height, width - 120 + left, height] for left in (nth, nth + 40)]
        records.append(WMF.step("polygons", *listed(strips)))
    return Counted(WMF.file(records, (width, height), 0), width, height)


def thin_strokes_around_a_surface() -> Counted:
    """Thin strokes of two lines around a surface, of which none is seen: little is cleared for them, a bit for each pixel of their box."""
    side, records = 128, []
    for nth in range(2_000):
        far = 300 + nth % 50
        records.append(EMF.step("short_polyline", -far, far, -far, -far, far, -far))
    return Counted(EMF.file(records, side, 16), side, side)


def low_hatched_rectangles() -> Counted:
    """Opaque hatched rectangles of one row: what is painted is made for this row alone."""
    chance, side = random.Random(203), 64
    records = WMF.records("null_pen 0; hatched_brush 1 4 0x804020; select 0; select 1")
    for _ in range(3_000):
        left, top = chance.randrange(side - 4), chance.randrange(side - 1)
        records.append(WMF.step("rectangle", left, top, left + 4, top + 1))
    return Counted(WMF.file(records, side, 0), side, side)


def slanting_tiles_behind_a_cut() -> Counted:
    """Narrow tiled polygons from one corner to the other, while one pixel is cut out: the tile is gathered for the columns of each row alone."""
    chance, width, height = random.Random(701), 8192, 64
    records = [*tiled(), WMF.step("cut", width - 1, 0, width, 1)]
    for _ in range(40):
        left = chance.randrange(8)
        records.append(WMF.step("polygon", left, 0, left + 4, 0, width - 1, height - 1, width - 5, height - 1))
    return Counted(WMF.file(records, (width, height), 0), width, height)


def tiled_comb() -> Counted:
    """A tiled polygon whose rows have a hundred spans each: the tile is gathered once for a row."""
    width, height = 2048, 64
    places = [part for nth in range(200) for part in (nth * width // 200, nth % 2 * height)]
    return Counted(WMF.file([*tiled(), WMF.step("polygon", *places)], (width, height), 0), width, height)


def thin_scaled_polygons() -> Counted:
    """Polygons of which all but three points lie above a surface of 4 by 4, on a map that scales, with a thin pen: inside and outline share their
    lines, each of which is placed once."""
    chance, side = random.Random(205), 4
    records = EMF.records("map_mode 8; window_extent 3000 3000; viewport_extent 2000 2000; styled_pen 0 0 1 0x8040; select 0")
    for _ in range(5):
        above = [part for _ in range(5_000) for part in (chance.randrange(9_000), -1_000 - chance.randrange(9_000))]
        records.append(EMF.step("short_polygon", 0, 0, 4, 4, 0, 4, *above))
    return Counted(EMF.file(records, side, 16), side, side)


def blits_without_their_ink() -> Counted:
    """Blits that copy a bitmap while a tiled brush is selected, and blits of a solid brush that have a bitmap: neither reads what it doesn't
    paint."""
    whole = 0, 0, 512, 16, 0, 0, 64, 16, str(noise(64, 24))
    records = [*tiled(), *[WMF.step("stretch_dib", SRCCOPY, *whole)] * 15, *WMF.records("solid_brush 2 0x804020; select 2")]
    records += [WMF.step("stretch_dib", PATCOPY, *whole)] * 15
    return Counted(WMF.file(records, (512, 16), 0), 512, 16)


def tiled_rectangles(mode: int) -> Counted:
    """Wide tiled rectangles, by this raster operation."""
    records = [*tiled(), *WMF.records(f"raster {mode}"), *[WMF.step("rectangle", 0, 0, 1024, 64)] * 2]
    return Counted(WMF.file(records, (1024, 64), 0), 1024, 64)


def copied_tiles() -> Counted:
    """Those that copy the tile: a row at a time."""
    return tiled_rectangles(13)


def mixed_tiles() -> Counted:
    """Those that mix it: a row at a time too."""
    return tiled_rectangles(7)


def thin_strokes_below_a_surface() -> Counted:
    """Thin strokes of which one line lies on a surface of 64 by 64, on a map that scales: each line is placed once, though the strokes are looked at
    three times."""
    chance, side = random.Random(208), 64
    records = EMF.records("map_mode 8; window_extent 3000 3000; viewport_extent 2000 2000")
    for _ in range(3):
        below = [part for _ in range(5_000) for part in (chance.randrange(9_000), 1_000 + chance.randrange(9_000))]
        records.append(EMF.step("short_polyline", 0, 0, 15, 63, *below))
    return Counted(EMF.file(records, side, 16), side, side)


def flat_strokes(pen: int, sides: tuple[int, int], count: int, length: int) -> Counted:
    """So many strokes of three flat lines of this length, anywhere on a high surface: they go by rows of spans, and by their own rows alone."""
    chance, (width, height) = random.Random(209), sides
    records = EMF.records(f"styled_pen 0 0 {pen} 0x8040; select 0")
    for _ in range(count):
        left, top = chance.randrange(width - length), chance.randrange(height - 8)
        records.append(EMF.step("short_polyline", *(part for nth in range(4) for part in (left + nth % 2 * (length - 1), top + nth))))
    return Counted(EMF.file(records, sides, 16), width, height)


def flat_thin_strokes() -> Counted:
    """Those of a thin pen."""
    return flat_strokes(1, (64, 8192), 700, 60)


def flat_wide_strokes() -> Counted:
    """Those of a wide pen."""
    return flat_strokes(3, (1200, 1024), 200, 1100)


def slanted_strokes() -> Counted:
    """Thin strokes of eight lines of fifteen columns a row: they go by rows of spans, since to step along them costs more."""
    chance, width, height, records = random.Random(210), 1024, 64, []
    for _ in range(60):
        places = [(chance.randrange(width - 720), chance.randrange(height - 48)) for _ in range(8)]
        records.append(EMF.step("short_polylines", *listed([[x, y, x + 705, y + 47] for x, y in places])))
    return Counted(EMF.file(records, (width, height), 16), width, height)


def strokes_from_above() -> Counted:
    """Thin strokes of lines that cross a low surface from far above to far below: they have few pixels there, and are stepped along."""
    chance, width, height, records = random.Random(211), 4096, 16, []
    for _ in range(5):
        columns = [chance.randrange(width - 1_000) for _ in range(300)]
        records.append(EMF.step("short_polylines", *listed([[x, -500, x + 1_000, 516] for x in columns])))
    return Counted(EMF.file(records, (width, height), 16), width, height)


def polygons_in_two_corners() -> Counted:
    """Records of two small polygons in two far corners, filled, and stroked by a wide pen: no mask of all between them is made."""
    chance, side = random.Random(213), 2048
    records = EMF.records("styled_pen 0 0 2 0x8040; select 0")
    for _ in range(8):
        corners = [[corner + chance.randrange(12) for _ in range(200)] for corner in (0, side - 12)]
        records.append(EMF.step("short_polygons", *listed(corners)))
    return Counted(EMF.file(records, side, 16), side, side)


def wide_rectangles(words: str, count: int) -> Counted:
    """So many rectangles of 16 wide rows, behind the records that these words tell."""
    records = WMF.records(f"null_pen 0; {words}") + [WMF.step("rectangle", 0, 0, 8192, 16)] * count
    return Counted(WMF.file(records, (8192, 16), 0), 8192, 16)


def inverted_rectangles() -> Counted:
    """Those that invert: a row at a time."""
    return wide_rectangles("solid_brush 1 0x804020; select 0; select 1; raster 7", 4)


def rectangles_beside_a_cut() -> Counted:
    """Those in one colour, while one pixel is cut out: a row at a time too, and in that colour."""
    return wide_rectangles("solid_brush 1 0x804020; select 0; select 1; cut 1 1 2 2", 20)


def flat_hatches() -> Counted:
    """Those of a transparent hatch of flat lines, which has all pixels of a row, or none."""
    return wide_rectangles("hatched_brush 1 0 0x804020; select 0; select 1; back_mode 1", 60)


def opaque_hatches() -> Counted:
    """Those of an opaque hatch: a row at a time, in two colours that repeat."""
    return wide_rectangles("hatched_brush 1 4 0x804020; select 0; select 1; back_mode 2", 30)


def narrow_rectangles_beside_a_cut() -> Counted:
    """High rectangles of two columns in one colour, while one pixel is cut out: what is painted is made once for all rows."""
    chance, width, height = random.Random(216), 8192, 64
    records = WMF.records("null_pen 0; solid_brush 1 0x206040; select 0; select 1; cut 0 0 1 1")
    records += [WMF.step("rectangle", left, 0, left + 2, height) for left in chance.choices(range(4_096, width - 3), k=400)]
    return Counted(WMF.file(records, (width, height), 0), width, height)


def steep_strokes_beside_flat_lines() -> Counted:
    """Thin strokes of 60 steep lines, and of as many flat ones below the surface, which don't send the others another way."""
    chance, side, records = random.Random(217), 256, []
    for _ in range(10):
        lines = [[chance.randrange(side), 0, chance.randrange(side), side - 1] for _ in range(60)]
        records.append(EMF.step("short_polylines", *listed(lines + [[0, 300 + nth, 20_000, 301 + nth] for nth in range(60)])))
    return Counted(EMF.file(records, side, 16), side, side)


def wide_outline() -> Counted:
    """A polygon of 300 lines, filled, and stroked by a nib of 9 by 9: a mask costs less than rows of spans."""
    chance, side = random.Random(218), 512
    records = EMF.records("styled_pen 0 0 9 0x8040; select 0") + [EMF.step("short_polygon", *anywhere(chance, 300, 0, side, side))]
    return Counted(EMF.file(records, side, 16), side, side)


FILES = {
    "4,200 steep lines on 64 columns, a thin pen": crowded_thin_stroke,
    "5 strokes of three quarters of their box, 128 by 512": strokes_of_three_quarters,
    "36 wide drawings between cuts, 8,192 by 64": wide_drawings_between_cuts,
    "3,000 hatched rectangles of one row, 64 by 64": low_hatched_rectangles,
    "40 slanting tiled polygons behind a cut, 8,192 by 64": slanting_tiles_behind_a_cut,
    "a tiled polygon of a hundred spans a row": tiled_comb,
    "5 scaled polygons above a surface, a thin pen": thin_scaled_polygons,
    "30 blits without their ink, 512 by 16": blits_without_their_ink,
    "2 tiled rectangles copied, 1,024 by 64": copied_tiles,
    "2 tiled rectangles mixed, 1,024 by 64": mixed_tiles,
    "3 thin strokes below a surface, 64 by 64": thin_strokes_below_a_surface,
    "700 flat thin strokes, 64 by 8,192": flat_thin_strokes,
    "200 flat wide strokes, 1,200 by 1,024": flat_wide_strokes,
    "60 slanted strokes, 1,024 by 64": slanted_strokes,
    "5 strokes from far above, 4,096 by 16": strokes_from_above,
    "8 records of polygons in two corners, 2,048 by 2,048": polygons_in_two_corners,
    "4 wide rectangles inverted, 8,192 by 16": inverted_rectangles,
    "20 wide rectangles beside a cut, 8,192 by 16": rectangles_beside_a_cut,
    "60 flat hatches, 8,192 by 16": flat_hatches,
    "30 opaque hatches, 8,192 by 16": opaque_hatches,
    "400 narrow rectangles beside a cut, 8,192 by 64": narrow_rectangles_beside_a_cut,
    "10 steep strokes beside flat lines, 256 by 256": steep_strokes_beside_flat_lines,
    "a wide outline of 300 lines, nib 9 by 9": wide_outline,
    "20 tiled polygons of two spans a row, 8,192 by 64": two_tiled_spans_a_row,
    "2,000 thin strokes around a surface, 128 by 128": thin_strokes_around_a_surface,
}
