"""Files on which slips make slow what is done with each pixel, and that no other counted file shows: bitmaps of each depth, hatches, short and wide
rows of one colour, lone lines behind sixteen cuts, outlines of boxes, and the heads of images."""

import random

from instruction_files import Counted, noise
from slip_files import anywhere
from writers import EMF, MASKED, SRCCOPY, WMF


def copied(depth: int) -> Counted:
    """A bitmap of this depth, copied pixel by pixel."""
    side = 256
    whole = 0, 0, side, side
    return Counted(EMF.file([EMF.step("stretch_dib", SRCCOPY, *whole, *whole, str(noise(side, depth)))] * 3, side, 16), side, side)


def copied_bits() -> Counted:
    """One of two colours."""
    return copied(1)


def copied_half_bytes() -> Counted:
    """One of sixteen colours."""
    return copied(4)


def copied_words() -> Counted:
    """One of 16 bits a pixel."""
    return copied(16)


def copied_long_words() -> Counted:
    """One of 32 bits a pixel."""
    return copied(32)


def mirrored() -> Counted:
    """Bitmaps that are mirrored both ways, widened and narrowed."""
    side, bitmap = 256, str(noise(64, 24))
    boxes = (side, side, -side, -side, 0, 0, 64, 64), (0, 0, side, side, 64, 64, -60, -60), (side, 0, -20, side, 0, 0, 64, 64)
    return Counted(WMF.file([WMF.step("stretch_dib", SRCCOPY, *box, bitmap) for box in boxes] * 2, side, 0), side, side)


def mixed_by_a_hatch() -> Counted:
    """Blits that mix a bitmap with a transparent hatch: only the pixels of its lines change."""
    side = 128
    records = WMF.records("hatched_brush 0 5 0x804020; select 0; back_mode 1")
    records += [WMF.step("stretch_dib", MASKED, 0, 0, side, side, 0, 0, 64, 64, str(noise(64, 24)))] * 3
    return Counted(WMF.file(records, side, 0), side, side)


def crossed(modes: str, times: int) -> Counted:
    """Wide rectangles of a hatch that crosses each row twice in eight columns, by these modes."""
    width, height = 2_048, 32
    records = WMF.records("null_pen 0; hatched_brush 1 5 0x804020; select 0; select 1; " + modes)
    return Counted(WMF.file(records + [WMF.step("rectangle", 0, 0, width, height)] * times, (width, height), 0), width, height)


def opaque_inverting_hatches() -> Counted:
    """Those that are opaque and invert: the lines change one way and the gaps another."""
    return crossed("raster 7", 8)


def wide_opaque_hatches() -> Counted:
    """Those that are opaque and copy: eight colours, again and again."""
    return crossed("raster 13", 250)


def solid(width: int, height: int, times: int) -> Counted:
    """Rectangles in one colour on all of a surface."""
    records = WMF.records("null_pen 0; solid_brush 1 0x206040; select 0; select 1")
    return Counted(WMF.file(records + [WMF.step("rectangle", 0, 0, width, height)] * times, (width, height), 0), width, height)


def wide_solid_rows() -> Counted:
    """Those of wide rows."""
    return solid(8_192, 8, 150)


def short_solid_rows() -> Counted:
    """Those of rows of seven columns."""
    return solid(7, 8_192, 15)


def sixteen_cuts() -> list[bytes]:
    """Records that cut out sixteen small boxes at the right."""
    return [EMF.step("cut", 250, 16 * nth, 254, 16 * nth + 4) for nth in range(16)]


def lines_behind_cuts() -> Counted:
    """Lone lines behind sixteen cuts: each of their pixels is held against all of them."""
    chance, side = random.Random(302), 256
    records = sixteen_cuts() + [EMF.step("polyline", *anywhere(chance, 2, 0, side, side)) for _ in range(400)]
    return Counted(EMF.file(records, side, 16), side, side)


def outlined_boxes() -> Counted:
    """Rectangles that are outlined and not filled."""
    chance, side = random.Random(304), 512
    records = EMF.records("null_brush 0; select 0")
    for _ in range(600):
        left, top = chance.randrange(side - 60), chance.randrange(side - 60)
        records.append(EMF.step("rectangle", left, top, left + 50, top + 50))
    return Counted(EMF.file(records, side, 16), side, side)


def over(head: bytes, side: int) -> Counted:
    """A dot over an image with this head."""
    image = head + random.Random(305).randbytes(3 * side * side)
    return Counted(EMF.file([EMF.step("pixel", 1, 1)], side, 16), side, side, command="over", image=image)


def over_a_long_comment() -> Counted:
    """One of few pixels behind a long comment and many spaces."""
    return over(b"P6 #" + b"plain words " * 30_000 + b"\n" + b" " * 200_000 + b"8 8 255\n", 8)


def over_a_long_number() -> Counted:
    """One of few pixels whose width has many digits."""
    return over(b"P6 " + b"0" * 500_000 + b"8 8 255\n", 8)


def far_rectangles() -> Counted:
    """Rectangles far to the right of the widest surface, on a frame whose units have one part: where a corner lands is found by one multiplication,
    however far it is."""
    chance, width, height = random.Random(43), 8_192, 4
    places = [[chance.randrange(500_000_000, 1_000_000_000) for _ in range(2)] for _ in range(3_000)]
    records = [EMF.step("rectangle", left, 2, right, 3) for left, right in places]
    return Counted(EMF.file(records, (1 << 20, 16), 16), width, height)


FILES = {
    "3,000 rectangles far beside a surface, 8,192 by 4": far_rectangles,
    "3 bitmaps of two colours, 256 by 256": copied_bits,
    "3 bitmaps of sixteen colours, 256 by 256": copied_half_bytes,
    "3 bitmaps of 16 bits a pixel, 256 by 256": copied_words,
    "3 bitmaps of 32 bits a pixel, 256 by 256": copied_long_words,
    "6 mirrored bitmaps, 256 by 256": mirrored,
    "3 bitmaps mixed by a hatch, 128 by 128": mixed_by_a_hatch,
    "8 opaque hatches that invert, 2,048 by 32": opaque_inverting_hatches,
    "250 opaque hatches, 2,048 by 32": wide_opaque_hatches,
    "150 wide rectangles of one colour, 8,192 by 8": wide_solid_rows,
    "15 rectangles of seven columns, 7 by 8,192": short_solid_rows,
    "400 lone lines behind 16 cuts, 256 by 256": lines_behind_cuts,
    "600 outlines of boxes, 512 by 512": outlined_boxes,
    "a dot over an image behind a long comment": over_a_long_comment,
    "a dot over an image behind a long number": over_a_long_number,
}
