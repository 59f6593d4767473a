"""Files on which bugs of time show that no other counted file shows: edges that come from right to left, bitmaps with short colour tables, counts of
lists that are listed, and a pen that is too wide for the largest surface."""

import random

from instruction_files import COMMENT, Counted
from slip_files import filled, listed
from writers import EMF, SRCCOPY, WMF, Bitmap, emf_file, header, u32


def quads_from_right_to_left() -> Counted:
    """A polygon of quads of one row, 30 a row, whose edges begin together and come from right to left: to insert each costs much."""
    quads = [[x, y, x + 5, y, x + 5, y + 1, x, y + 1] for y in range(60) for x in range(290, -10, -10)]
    records = WMF.records("null_pen 0; solid_brush 1 0x206040; select 0; select 1")
    return Counted(WMF.file([*records, WMF.step("polygons", *listed(quads))], (300, 60), 0), 300, 60)


def short_table(side: int, colours: int) -> str:
    """A bitmap of 8 bits whose table has so many colours, and whose pixels have no other."""
    chance = random.Random(colours)
    table = b"".join(chance.randbytes(3) + b"\0" for _ in range(colours))
    return str(Bitmap(header(side, side, 8, used=colours) + table, bytes(chance.choices(range(colours), k=side * side))))


def bitmaps_with_short_tables() -> Counted:
    """Bitmaps of 200 colours, drawn larger: each pixel that is drawn is looked up, and no other byte is read."""
    side = 400
    record = WMF.step("stretch_dib", SRCCOPY, 0, 0, side, side, 0, 0, 300, 300, short_table(300, 200))
    return Counted(WMF.file([record] * 4, side, 0), side, side)


def small_pictures_with_short_tables() -> Counted:
    """Bitmaps of 100 colours, drawn much smaller: few of their bytes are read."""
    record = WMF.step("stretch_dib", SRCCOPY, 5, 5, 20, 20, 0, 0, 200, 200, short_table(200, 100))
    return Counted(WMF.file([record] * 10, 64, 0), 64, 64)


def listed_pairs() -> Counted:
    """Lists of two points, listed: how many lists and points a record has stands in it."""
    lists = [[nth % 60, nth % 50, nth % 40, nth % 30] for nth in range(300)]
    return Counted(EMF.file([EMF.step("short_polylines", *listed(lists))] * 10, 64, 16), 64, 64, command="list")


def told_pen_that_is_too_wide() -> Counted:
    """Rectangles, and a line by a pen that is too wide for the largest surface, given to `info`: they are prepared once."""
    records = WMF.records("rectangle 1 1 50 50") * 300 + WMF.records("styled_pen 0 0 60 0x8040; select 0; line 9 9")
    return Counted(WMF.file(records, 100, 0), 100, 100, command="info", status=1)


def many_edges_nearly_in_order() -> Counted:
    """A polygon of 3,000 edges, of which few change places in each row: to insert these costs less than to sort all."""
    chance, height, places = random.Random(405), 128, []
    for nth, left in enumerate(sorted(chance.choices(range(4_096), k=3_000))):
        places += [left, nth % 2 * height, left + chance.randrange(-12, 13), (nth + 1) % 2 * height]
    return filled(places, 4_096, height)


def certificate_beside_no_metafile() -> Counted:
    """A picture that is no metafile, and a certificate of 30,000 wide lines: the certificate isn't read."""
    lines = WMF.records("styled_pen 0 0 20 0x8040; select 0") + WMF.records("line 9 9; line 50 50") * 15_000
    return Counted(b"GIF89a" + bytes(100), 64, 64, command="check", status=1, certified=WMF.file(lines, 100, 0))


def told_long_description() -> Counted:
    """A description that ends in 6,000 zeros, given to `info`: they are looked at once."""
    words = "metaplay\0drawing".encode("utf-16-le") + bytes(12_000)
    return Counted(emf_file([EMF.step("line", 9, 9), EMF.end], words, description=u32(len(words) // 2, 88)), 64, 64, command="info")


def told_faults() -> Counted:
    """Records of 2,000 unknown types, given to `info`: each is written once behind those before it."""
    return Counted(EMF.file([EMF.record(1_000 + nth) for nth in range(2_000)], 64, 16), 64, 64, command="info", status=1)


def certified_by_another(records: list[bytes]) -> Counted:
    """These records, while the certificate that is there is for a smaller surface."""
    return Counted(EMF.file(records, 64, 16), 65, 65, command="certify", status=3, kept=True, kept_for=64)


def long_file_by_another() -> Counted:
    """A file with 500,000 bytes that draw nothing: its digest is made once."""
    return certified_by_another([EMF.step("line", 9, 9), EMF.record(COMMENT, u32(500_000) + bytes(500_000))])


def long_certificate_by_another() -> Counted:
    """A file of 20,000 pixels: the certificate that can't be used needs no digest."""
    return certified_by_another(EMF.records("pixel 9 9") * 20_000)


FILES = {
    "1,800 quads of one row, from right to left, 300 by 60": quads_from_right_to_left,
    "4 bitmaps of 200 colours, 400 by 400": bitmaps_with_short_tables,
    "10 bitmaps of 100 colours, drawn to 20 by 20": small_pictures_with_short_tables,
    "10 records of 300 lists of two points, listed": listed_pairs,
    "300 rectangles and a pen that is too wide, info": told_pen_that_is_too_wide,
    "3,000 edges nearly in order, 4,096 by 128": many_edges_nearly_in_order,
    "a certificate of 30,000 wide lines for no metafile": certificate_beside_no_metafile,
    "a description with 6,000 zeros, info": told_long_description,
    "2,000 unknown types, info": told_faults,
    "a long file with a certificate for another size": long_file_by_another,
    "20,000 pixels with a certificate for another size": long_certificate_by_another,
}
