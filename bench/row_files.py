"""More files whose instructions are counted: tiles and hatches in small shapes, behind a cut and without one, strokes in one part of a surface, and
polygons of as many edges as are sorted one way or the other. Each is work that a slip makes slow for wide surfaces, or for many edges, alone."""

import random

from instruction_files import Counted, noise
from writers import BETWEEN, EMF, WMF


def tiled() -> list[bytes]:
    """Records that select a tiled brush and a pen that draws nothing."""
    return [WMF.step("null_pen", 0), WMF.step("tiled_brush", 1, str(noise(24, 24))), *WMF.records("select 0; select 1")]


def tiles_behind_a_cut() -> Counted:
    """Small tiled rectangles on a wide surface, of whose right edge two columns are cut out."""
    chance, width, height = random.Random(33), 8192, 64
    records = [*tiled(), WMF.step("cut", width - 2, 0, width, height)]
    for _ in range(3_000):
        left, top = chance.randrange(width - 9), chance.randrange(height - 9)
        records.append(WMF.step("rectangle", left, top, left + 8, top + 8))
    return Counted(WMF.file(records, (width, height), 0), width, height)


def polygons(records: list[bytes], seed: int) -> Counted:
    """Small polygons of four corners on a wide surface, behind these records."""
    chance, width, height = random.Random(seed), 8192, 64
    for _ in range(3_000):
        left, top = chance.randrange(width - 12), chance.randrange(height - 12)
        records.append(WMF.step("polygon", left, top, left + 8, top + 1, left + 10, top + 9, left + 2, top + 8))
    return Counted(WMF.file(records, (width, height), 0), width, height)


def tiled_polygons() -> Counted:
    """Small tiled polygons: the pixels of each row are few."""
    return polygons(tiled(), 34)


def hatched_polygons() -> Counted:
    """Small polygons of a transparent hatch."""
    records = WMF.records("null_pen 0; hatched_brush 1 4 0x804020; select 0; select 1; back_mode 1")
    return polygons(records, 35)


def strokes_at_the_right() -> Counted:
    """Strokes of many short lines right of the middle of the widest surface, in a box that is kept there."""
    chance, width, height = random.Random(36), 8192, 64
    records = EMF.records("keep 4100 2 8190 62")
    for _ in range(300):
        left, top = 4_096 + chance.randrange(width - 4_096 - 40), chance.randrange(height - 20)
        lines = [[part for _ in range(2) for part in (left + chance.randrange(40), top + chance.randrange(20))] for _ in range(20)]
        words = [word for line in lines for word in (BETWEEN, *line)]
        records.append(EMF.step("short_polylines", *words[1:]))
    return Counted(EMF.file(records, (width, height), 16), width, height)


def crossing_edges(edges: int, width: int, height: int) -> Counted:
    """A polygon of so many edges that all cross each row of a surface."""
    places = [part for number in range(edges) for part in ((number * 2_654_435_761) % width, height * (number % 2))]
    records = EMF.records("null_pen 0; solid_brush 1 0x206040; select 0; select 1")
    return Counted(EMF.file([*records, EMF.step("short_polygon", *places)], (width, height), 16), width, height)


def edges_of_few_columns() -> Counted:
    """A little more than 8,192 edges that are active at once, on 256 columns."""
    return crossing_edges(8_256, 256, 64)


def edges_of_fewer_columns() -> Counted:
    """The same on 100 columns."""
    return crossing_edges(8_256, 100, 64)


def edges_of_few_rows() -> Counted:
    """10,000 edges that are active at once, on three rows."""
    return crossing_edges(10_000, 2048, 3)


FILES = {
    "3,000 tiled rectangles behind a cut, 8,192 by 64": tiles_behind_a_cut,
    "3,000 small tiled polygons, 8,192 by 64": tiled_polygons,
    "3,000 small hatched polygons, 8,192 by 64": hatched_polygons,
    "300 strokes at the right of a kept box, 8,192 by 64": strokes_at_the_right,
    "8,256 active edges, 256 by 64": edges_of_few_columns,
    "8,256 active edges, 100 by 64": edges_of_fewer_columns,
    "10,000 active edges, 2,048 by 3": edges_of_few_rows,
}
