"""Files on which slips in rectangles, blits, hatches and images make the program slow that no other counted file shows."""

import random

from instruction_files import Counted, noise
from writers import EMF, MASKED, PATCOPY, PATINVERT, SRCCOPY, WMF, Bitmap, header

# Ternary raster operations ([MS-WMF] 2.1.1.31): one that needs neither a source nor a pattern, and one that needs a source alone.
DSTINVERT, SRCINVERT = 0x00550009, 0x00660046


def sixty_columns(records: list[bytes], seed: int) -> Counted:
    """Rectangles of 60 columns behind these records: each of their rows is filled by a few copies."""
    chance, side = random.Random(seed), 1_024
    for _ in range(150):
        left, top = chance.randrange(side - 60), chance.randrange(side - 200)
        records.append(WMF.step("rectangle", left, top, left + 60, top + 200))
    return Counted(WMF.file(records, side, 0), side, side)


def sixty_columns_in_one_colour() -> Counted:
    """Those in one colour."""
    return sixty_columns(WMF.records("null_pen 0; solid_brush 1 0x206040; select 0; select 1"), 204)


def sixty_columns_hatched() -> Counted:
    """Those of an opaque hatch."""
    return sixty_columns(WMF.records("null_pen 0; hatched_brush 1 4 0x804020; select 0; select 1"), 208)


def sixty_columns_transparent() -> Counted:
    """Those of a transparent hatch."""
    return sixty_columns(WMF.records("null_pen 0; hatched_brush 1 4 0x804020; select 0; select 1; back_mode 1"), 209)


def transparent_hatches() -> Counted:
    """Wide rectangles of transparent hatches: only the pixels of their lines are gone through, and none is read."""
    side = 1_024
    records = EMF.records("null_pen 0; select 0; back_mode 1")
    for index in range(6):
        records += EMF.records(f"hatched_brush {index + 1} {index} 0x804020; select {index + 1}")
        records.append(EMF.step("rectangle", 0, 0, side, 400))
    return Counted(EMF.file(records, side, 16), side, side)


def bitmaps_that_are_not_read() -> Counted:
    """Wide blits of a bitmap by operations that don't depend on it: it isn't read."""
    side, bitmap = 1_024, str(noise(64, 24))
    records = [WMF.step("stretch_dib", operation, 0, 0, side, 300, 0, 0, 64, 64, bitmap) for operation in (PATCOPY, DSTINVERT, PATINVERT)]
    return Counted(WMF.file(records, side, 0), side, side)


def copies_beside_a_tile() -> Counted:
    """Wide copies of a bitmap while a tiled brush is selected, on which they don't depend: its colours aren't gathered."""
    side = 1_024
    records = [WMF.step("tiled_brush", 0, str(noise(24, 24))), WMF.step("select", 0)]
    records += [WMF.step("stretch_dib", SRCCOPY, 0, 0, side, 400, 0, 0, 64, 2, str(noise(64, 24)))] * 4
    return Counted(WMF.file(records, side, 0), side, side)


def small_mixed_blits() -> Counted:
    """Blits of 48 columns that mix a hatch with a bitmap, on a wide surface: nothing left of them is gathered, and most is mixed by eights."""
    chance, width, height = random.Random(213), 8192, 64
    records = WMF.records("hatched_brush 0 4 0x804020; select 0")
    for _ in range(200):
        left, top = chance.randrange(width // 2, width - 48), chance.randrange(height - 8)
        records.append(WMF.step("stretch_dib", MASKED, left, top, 48, 8, 0, 0, 16, 8, str(noise(16, 8))))
    return Counted(WMF.file(records, (width, height), 0), width, height)


def wide_bitmap(width: int, height: int, seed: int) -> str:
    """A wide bitmap of noise, of 8 bits a pixel."""
    chance = random.Random(seed)
    table = b"".join(chance.randbytes(3) + b"\0" for _ in range(256))
    return str(Bitmap(header(width, height, 8) + table, chance.randbytes(width * height)))


def corners_of_a_wide_tile() -> Counted:
    """Small rectangles of a tile of 4,000 columns: of each of its rows only a few colours are gathered."""
    chance, side = random.Random(210), 512
    records = [WMF.step("null_pen", 0), WMF.step("tiled_brush", 1, wide_bitmap(4_000, 8, 211)), *WMF.records("select 0; select 1")]
    for _ in range(500):
        left, top = chance.randrange(side - 8), chance.randrange(side - 8)
        records.append(WMF.step("rectangle", left, top, left + 8, top + 8))
    return Counted(WMF.file(records, side, 0), side, side)


def parts_of_a_wide_bitmap() -> Counted:
    """Blits of eight columns of a bitmap of 4,000 columns: no others are read."""
    side, bitmap = 256, wide_bitmap(4_000, 16, 212)
    records = [WMF.step("stretch_dib", SRCCOPY, 8 * nth, 0, 8, 200, 100 * nth, 0, 8, 16, bitmap) for nth in range(20)]
    return Counted(WMF.file(records, side, 0), side, side)


def far_boxes() -> Counted:
    """Blits that are stretched to wide boxes of which a small surface shows the end, straight and mirrored: no column before it is stepped over."""
    side, bitmap = 64, str(noise(16, 24))
    boxes = (side - 30_000, 0, 30_000, 60), (30_000, 0, -30_000, 60)
    records = [WMF.step("stretch_dib", SRCCOPY, *box, 0, 0, 16, 16, bitmap) for box in boxes for _ in range(10)]
    return Counted(WMF.file(records, side, 0), side, side)


def over_an_image() -> Counted:
    """A pixel over an image of 512 by 512 with long comments and numbers before its raster."""
    side = 512
    comment = b"#" + b"plain words " * 4_000 + b"\n"
    head = b"P6 " + comment * 2 + b"0" * 20_000 + b"512 " + comment + b"512 255\n"
    image = head + random.Random(201).randbytes(3 * side * side)
    return Counted(EMF.file([EMF.step("pixel", 1, 1)], side, 16), side, side, command="over", image=image)


def nothing_on_a_band() -> Counted:
    """A file without records on a surface of one band: what is counted is the image."""
    return Counted(EMF.file([], 1_024, 16), 1_024, 1_024)


def nothing_on_a_narrow_band() -> Counted:
    """The same on a surface of few columns: each row is a part of its own."""
    return Counted(EMF.file([], 2, 16), 2, 8_192)


def nothing_on_a_wider_band() -> Counted:
    """The same on 48 columns: each row is three groups of pixels."""
    return Counted(EMF.file([], 48, 16), 48, 8_192)


def inverted_by_a_bitmap() -> Counted:
    """Blits of a bitmap by an operation that depends on it and not on a brush: most is mixed by eights too."""
    side = 512
    records = [WMF.step("stretch_dib", SRCINVERT, 0, 0, side, side, 0, 0, 64, 64, str(noise(64, 24)))] * 3
    return Counted(WMF.file(records, side, 0), side, side)


def stretched_beside_a_cut() -> Counted:
    """A bitmap of two rows, stretched upright while one pixel is cut out: each of its rows is read once for many of the surface."""
    side = 512
    records = WMF.records("cut 0 0 1 1") + [WMF.step("stretch_dib", SRCCOPY, 0, 0, side, side, 0, 0, 64, 2, str(noise(64, 24)))] * 4
    return Counted(WMF.file(records, side, 0), side, side)


def high_bitmaps() -> Counted:
    """Blits of four rows of bitmaps that have 8,192: whether a bitmap has all its rows is told by one product."""
    bitmap = str(Bitmap(header(1, 8_192, 24), bytes(4 * 8_192)))
    return Counted(WMF.file([WMF.step("stretch_dib", SRCCOPY, 0, 0, 4, 4, 0, 0, 1, 4, bitmap)] * 40, 64, 0), 64, 64)


def inverting_hatches() -> Counted:
    """Rectangles of a transparent hatch that invert: only the pixels of its lines are gone through, though these are read."""
    side = 512
    records = WMF.records("null_pen 0; hatched_brush 1 4 0x804020; select 0; select 1; back_mode 1; raster 7")
    return Counted(WMF.file(records + [WMF.step("rectangle", 0, 0, side, side)] * 10, side, 0), side, side)


FILES = {
    "150 rectangles of 60 columns in one colour": sixty_columns_in_one_colour,
    "150 rectangles of 60 columns, hatched": sixty_columns_hatched,
    "150 rectangles of 60 columns, transparent": sixty_columns_transparent,
    "6 transparent hatches, 1,024 by 1,024": transparent_hatches,
    "bitmaps that are not read, 1,024 by 1,024": bitmaps_that_are_not_read,
    "4 copies beside a tile, 1,024 by 1,024": copies_beside_a_tile,
    "200 small mixed blits, 8,192 by 64": small_mixed_blits,
    "500 corners of a wide tile, 512 by 512": corners_of_a_wide_tile,
    "20 parts of a wide bitmap, 256 by 256": parts_of_a_wide_bitmap,
    "20 blits to far boxes, 64 by 64": far_boxes,
    "a pixel over an image, 512 by 512": over_an_image,
    "nothing, 1,024 by 1,024": nothing_on_a_band,
    "nothing, 2 by 8,192": nothing_on_a_narrow_band,
    "nothing, 48 by 8,192": nothing_on_a_wider_band,
    "3 blits that invert by a bitmap, 512 by 512": inverted_by_a_bitmap,
    "4 bitmaps stretched beside a cut, 512 by 512": stretched_beside_a_cut,
    "40 blits of bitmaps of 8,192 rows": high_bitmaps,
    "10 hatches that invert, 512 by 512": inverting_hatches,
}
