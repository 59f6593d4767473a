"""Files on which slips make slow what is done with records and certificates, and that no other counted file shows: entries that are widened, boxes as
large as the surface, long lists of which nothing is seen, lists without points, lines of a listing, what is looked for before the first record, and
what is cleared or gone through again for each band."""

import random

from instruction_files import COMMENT, SETTEXTALIGN, Counted
from slip_files import anywhere
from writers import BETWEEN, EMF, WMF, i32, u32

# EMR_POLYPOLYGON16, [MS-EMF] 2.3.5.29, and EMR_GRADIENTFILL, which is rejected and is near the end of the list of types, [MS-EMF] 2.1.1.
POLYGONS, GRADIENTFILL = 91, 118


def late_wide_line() -> Counted:
    """Dots, and a wide line behind them: the entries of all dots are widened once, and each is moved once."""
    records = EMF.records("pixel 1 1") * 3_000 + EMF.records("styled_pen 0 0 3 0x8040; select 0; line 9 9")
    return Counted(EMF.file(records, 64, 16), 64, 64)


def one_pen_of_many() -> Counted:
    """One pen and one line, where 65,535 objects may be, on a surface of many bands: only what is there is looked at, and each band begins once."""
    return Counted(EMF.file(EMF.records("pen 0; select 0; line 5 5"), (8192, 1024), 65_535), 8192, 1024)


def large_drawings() -> list[bytes]:
    """Records of drawings as large as the largest surface."""
    return EMF.records("rectangle 0 0 8191 8191; line 8000 8000; pixel 5 5; polygon 0 0 8191 8191 0 8191") * 1_500


def checked_large_drawings() -> Counted:
    """6,000 drawings as large as the largest surface, checked: the pixels of a box are counted by one product."""
    return Counted(EMF.file(large_drawings(), 8192, 16), 8192, 8192, command="check")


def told_large_drawings() -> Counted:
    """The same, given to `info`, which prepares them."""
    return checked_large_drawings()._replace(command="info")


def unseen_lists(name: str) -> Counted:
    """Lists of 10,000 points right of a box that is kept: each is gone through once in each play."""
    chance, side = random.Random(214), 1024
    records = EMF.records(f"keep 0 0 8 {side}; move 500 500")
    for _ in range(15):
        records.append(EMF.step(name, *(part for _ in range(10_000) for part in (100 + chance.randrange(900), chance.randrange(side)))))
    return Counted(EMF.file(records, side, 16), side, side)


def unseen_polylines() -> Counted:
    """Those of polylines."""
    return unseen_lists("short_polyline")


def unseen_lines_from_the_position() -> Counted:
    """Those of lines from the position."""
    return unseen_lists("polyline_to")


def empty_lists_in_a_path() -> Counted:
    """Paths of 60,000 lists without points between two of one point, of which nothing is seen: how many points they have stands in the record."""
    records = EMF.records("null_pen 0; select 0; keep 0 0 1 1")
    for _ in range(6):
        lists = EMF.step("short_polygons", 20, 20, *[BETWEEN] * 60_000, 30, 30)
        records += [EMF.step("begin_path"), lists, *EMF.records("end_path; fill_path")]
    return Counted(EMF.file(records, 64, 16), 64, 64)


def told_empty_lists() -> Counted:
    """300,000 empty lists in one record, given to `info`: the record is decoded once in each play."""
    return Counted(EMF.file([EMF.step("short_polygons", *[BETWEEN] * 300_000, 0, 0)], 64, 16), 64, 64, command="info")


def listed_long_names() -> Counted:
    """Records without an effect and with long names, listed: most of the work is their text."""
    records = [WMF.record(kind, bytes(2)) for kind in (0x0107, 0x020A, 0x0412, 0x01F9)] * 2_500
    return Counted(WMF.file(records, 64, 0), 64, 64, command="list")


def short_records_of_empty_lists() -> Counted:
    """Records of 900 empty lists and a triangle: empty lists are passed over by words of eight bytes, also where they are few."""
    records = [EMF.step("short_polygons", *[BETWEEN] * 900, 0, 0, 9, 0, 0, 9)] * 150
    return Counted(EMF.file(records, 64, 16), 64, 64)


def long_comments() -> Counted:
    """Comments of 600,000 bytes: of each the first bytes are read."""
    records = [EMF.record(COMMENT, bytes(600_000))] * 5
    return Counted(EMF.file(records, 64, 16), 64, 64)


def refused_behind_an_early_extent() -> Counted:
    """A plain file whose first record is its extent and whose second is rejected: the 100,000 behind these are neither opened nor played."""
    records = WMF.records("window_extent 64 64; select 9") + WMF.records("move 1 1") * 100_000
    return Counted(WMF.file(records, 64, 0)[22:], 64, 64, status=1)


def one_pen_in_low_bands() -> Counted:
    """A pen and a pixel, played in 300 bands of one row: each band clears what the file has made, which is little."""
    records = WMF.records("pen 0; pixel 1 1")
    return Counted(WMF.file(records, (4, 300), 1), 4, 300, command="play", bands=1)


def empty_lists_on_a_wide_surface() -> Counted:
    """A record of 300,000 empty lists on a surface of eight bands: since so many bytes are gone through again for each band, there is one."""
    return Counted(EMF.file([EMF.step("short_polygons", *[BETWEEN] * 300_000, 0, 0)], (8192, 64), 16), 8192, 64)


def empty_lists_of_short_counts() -> Counted:
    """Records of 60,000 empty lists behind a triangle, in WMF, where counts have 16 bits: such lists are passed over many at a time too."""
    records = WMF.records("null_pen 0; select 0") + [WMF.step("polygons", 0, 0, 9, 0, 0, 9, *[BETWEEN] * 60_000, 0, 0)] * 3
    return Counted(WMF.file(records, 64, 0), 64, 64)


def counts_that_are_too_many() -> Counted:
    """A record of 300,000 counts, of which the first is above the number of all points: the others aren't read."""
    counts = u32(300_000, 8, 9, *[0] * 299_999)
    records = [EMF.record(POLYGONS, i32(0, 0, -1, -1) + counts + bytes(32))]
    return Counted(EMF.file(records, 64, 16), 64, 64, status=1)


def polygons_of_short_counts() -> Counted:
    """A record of 8,000 polygons of one point, in WMF: where a polygon's points lie is told without the counts of those before it."""
    places = [part for nth in range(8_000) for part in [BETWEEN] * (nth > 0) + [nth % 60, nth % 50]]
    return Counted(WMF.file([WMF.step("polygons", *places)], 64, 0), 64, 64)


def checked_polylines() -> Counted:
    """Polylines of 10,000 points, checked: the points are gone through once, and it is their box that is held against the entry's."""
    chance = random.Random(218)
    records = [EMF.step("short_polyline", *anywhere(chance, 10_000, 0, 64, 64)) for _ in range(10)]
    return Counted(EMF.file(records, 64, 16), 64, 64, command="check")


def unseen_paths() -> Counted:
    """Paths of 30,000 points right of a box that is kept, stroked: their box is known when they are painted, and their points aren't gone through."""
    chance, records = random.Random(219), EMF.records("keep 0 0 8 64")
    for _ in range(5):
        points = EMF.step("short_polyline", *anywhere(chance, 30_000, 20, 60, 60))
        records += [EMF.step("begin_path"), points, *EMF.records("end_path; stroke_path")]
    return Counted(EMF.file(records, 64, 16), 64, 64)


def skipped_in_low_bands() -> Counted:
    """1,000 records without an effect, played in 64 bands of eight rows: of each, nothing is copied but what it asks for."""
    records = [EMF.record(SETTEXTALIGN, bytes(4))] * 1_000
    return Counted(EMF.file(records, (64, 512), 16), 64, 512, command="play", bands=8)


def listed_rejected_types() -> Counted:
    """Records that are rejected, whose type is near the end of the list of types, listed: a name is found without a look at those before it."""
    return Counted(EMF.file([EMF.record(GRADIENTFILL, bytes(8))] * 10_000, 64, 16), 64, 64, command="list")


FILES = {
    "3,000 dots before a wide line": late_wide_line,
    "one pen of 65,535, 8,192 by 1,024": one_pen_of_many,
    "6,000 large drawings, checked": checked_large_drawings,
    "6,000 large drawings, info": told_large_drawings,
    "15 unseen polylines of 10,000 points": unseen_polylines,
    "15 lists of 10,000 unseen points from the position": unseen_lines_from_the_position,
    "360,000 empty lists in paths": empty_lists_in_a_path,
    "300,000 empty lists, info": told_empty_lists,
    "10,000 records of long names, listed": listed_long_names,
    "150 records of 900 empty lists": short_records_of_empty_lists,
    "5 comments of 600,000 bytes": long_comments,
    "100,000 records behind one that is rejected, in a plain file": refused_behind_an_early_extent,
    "300,000 empty lists, 8,192 by 64": empty_lists_on_a_wide_surface,
    "one pen in 300 bands, 4 by 300": one_pen_in_low_bands,
    "180,000 empty lists of short counts": empty_lists_of_short_counts,
    "300,000 counts that are too many": counts_that_are_too_many,
    "8,000 polygons of short counts": polygons_of_short_counts,
    "10 polylines of 10,000 points, checked": checked_polylines,
    "5 unseen paths of 30,000 points": unseen_paths,
    "1,000 skipped records in 64 bands": skipped_in_low_bands,
    "10,000 records of a rejected type, listed": listed_rejected_types,
}
