"""Files on which slips make drawings slow in a box that is kept, beside a pixel that is cut out, or by another raster operation or fill mode than
most files have: each takes the same way there as without. Small drawings in bands too."""

import random

from instruction_files import Counted
from slip_files import anywhere, steep
from writers import EMF, PATINVERT, WMF

# Another raster operation (R2_NOTCOPYPEN) and fill mode than most files have, a box that is kept, and a pixel that is cut out of it.
MODES, KEPT, CUT = "raster 4; fill_mode 2", "keep 1 0 8191 8191", "cut 1 1 2 2"


def narrow(name: str, words: str, count: int) -> Counted:
    """So many high drawings of two columns on a wide surface, behind the records that these words tell."""
    chance, width, height = random.Random(219), 8192, 64
    records = WMF.records(f"null_pen 0; {words}; select 0; select 1; {MODES}")
    for left in chance.choices(range(4_096, width - 3), k=count):
        corners = {"rectangle": (left, 0, left + 2, height), "polygon": (left, 0, left + 2, 0, left + 3, height, left + 1, height)}
        records.append(WMF.step(name, *corners[name]))
    return Counted(WMF.file(records, (width, height), 0), width, height)


def narrow_rectangles_in_a_box() -> Counted:
    """Rectangles in one colour, which go by a span a row."""
    return narrow("rectangle", f"solid_brush 1 0x206040; {KEPT}", 600)


def narrow_polygons_in_a_box() -> Counted:
    """Polygons in one colour, which do so too."""
    return narrow("polygon", f"solid_brush 1 0x206040; {KEPT}", 400)


def hatched_rectangles_in_a_box() -> Counted:
    """Hatched rectangles: what is painted repeats after eight rows."""
    return narrow("rectangle", f"hatched_brush 1 4 0x804020; {KEPT}; {CUT}", 200)


def hatched_polygons_in_a_box() -> Counted:
    """Hatched polygons: the same."""
    return narrow("polygon", f"hatched_brush 1 4 0x804020; {KEPT}; {CUT}", 200)


def lone_lines_in_a_box() -> Counted:
    """Lone lines: each is stepped along, and none of its pixels is held against the box."""
    chance, side = random.Random(220), 512
    records = EMF.records(f"{KEPT}; raster 4") + [EMF.step("polyline", *anywhere(chance, 2, 0, side, side)) for _ in range(500)]
    return Counted(EMF.file(records, side, 16), side, side)


def crowded_stroke_in_a_box() -> Counted:
    """A thin stroke of 4,200 steep lines on 64 columns: it goes by a mask."""
    width, height = 64, 256
    records = [*EMF.records(f"{KEPT}; {CUT}; raster 4"), steep(random.Random(221), 4_200, width, height)]
    return Counted(EMF.file(records, (width, height), 16), width, height)


def wide_outline_in_a_box() -> Counted:
    """A polygon that is filled, and stroked by a nib of 9 by 9: its stroke goes by a mask."""
    chance, side = random.Random(222), 512
    records = EMF.records(f"styled_pen 0 0 9 0x8040; select 0; {KEPT}; {CUT}; {MODES}")
    records.append(EMF.step("short_polygon", *anywhere(chance, 300, 0, side, side)))
    return Counted(EMF.file(records, side, 16), side, side)


def small_in_bands(seed: int, name: str, *front: int) -> Counted:
    """A thousand small drawings of this name on a surface of several bands: each is passed over where it doesn't lie."""
    chance, width, height = random.Random(seed), 8192, 512
    records = WMF.records("solid_brush 0 0x206040; select 0")
    for _ in range(1_000):
        left, top, is_box = chance.randrange(width - 9), chance.randrange(height - 9), name == "rectangle"
        records.append(WMF.step(name, *front, left, top, *((left + 4, top + 4) if is_box else (4, 4))))
    return Counted(WMF.file(records, (width, height), 0), width, height)


def small_rectangles_in_bands() -> Counted:
    """Rectangles."""
    return small_in_bands(231, "rectangle")


def small_blits_in_bands() -> Counted:
    """Blits of a brush."""
    return small_in_bands(232, "pat_blt", PATINVERT)


def polygons_below_a_box() -> Counted:
    """Polygons of 2,000 edges that lie below a box that is kept: their lines aren't taken."""
    chance, width, height = random.Random(904), 8192, 64
    records = EMF.records("solid_brush 1 0x206040; select 1; keep 0 0 8192 8")
    for _ in range(20):
        records.append(EMF.step("short_polygon", *[part for _ in range(2_000) for part in (chance.randrange(width), 20 + chance.randrange(40))]))
    return Counted(EMF.file(records, (width, height), 16), width, height)


FILES = {
    "20 polygons of 2,000 edges below a kept box, 8,192 by 64": polygons_below_a_box,
    "600 narrow rectangles in a kept box, 8,192 by 64": narrow_rectangles_in_a_box,
    "400 narrow polygons in a kept box, 8,192 by 64": narrow_polygons_in_a_box,
    "200 hatched rectangles in a kept box, 8,192 by 64": hatched_rectangles_in_a_box,
    "200 hatched polygons in a kept box, 8,192 by 64": hatched_polygons_in_a_box,
    "500 lone lines in a kept box, 512 by 512": lone_lines_in_a_box,
    "4,200 steep lines in a kept box, a thin pen": crowded_stroke_in_a_box,
    "a wide outline in a kept box, nib 9 by 9": wide_outline_in_a_box,
    "1,000 small rectangles in bands, 8,192 by 512": small_rectangles_in_bands,
    "1,000 small blits in bands, 8,192 by 512": small_blits_in_bands,
}
