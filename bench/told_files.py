"""Files on which slips make slow what is told of records, and what records of one sort are decoded to: listings whose text is mostly of one sort,
certificates of many entries, and states, objects and bitmaps that come and go."""

from instruction_files import Counted, noise
from writers import EMF, PATINVERT, SRCCOPY, WMF, Form, u16, u32

# META_SETLAYOUT, [MS-WMF] 2.3.5.16, EMR_SETLAYOUT, [MS-EMF] 2.3.11, and EMR_SETWORLDTRANSFORM and EMR_MODIFYWORLDTRANSFORM, [MS-EMF] 2.3.12.
SETLAYOUT, SET_LAYOUT, SET_TRANSFORM, MODIFY_TRANSFORM = 0x0149, 115, 35, 36

# The transform that leaves all in its place, of six numbers of four bytes.
IDENTITY = 0x3F800000, 0, 0, 0x3F800000, 0, 0


def listed(form: Form, records: list[bytes]) -> Counted:
    """A listing of these records behind one that is rejected when it is played: those after it are decoded, and told without a play."""
    return Counted(form.file(form.records("select 9") + records, 64, 16), 64, 64, command="list")


def listed_blits() -> Counted:
    """Blits of a bitmap, listed: a corner, an extent and a source of each, in long numbers."""
    far = 1_000_000_000
    return listed(EMF, [EMF.step("stretch_dib", SRCCOPY, -far, far, far, -far, far, far, far, far, str(noise(2, 24)))] * 4_000)


def listed_packed_blits() -> Counted:
    """The same in WMF, by each of its records of a blit."""
    bitmap = str(noise(2, 24))
    records = [WMF.step("stretch_dib", SRCCOPY, 10, 20, 30, 20, 0, 0, 2, 2, bitmap), WMF.step("bit_blt", SRCCOPY, 10, 20, 2, 2, 0, 0, bitmap)]
    records += [WMF.step("stretch_blt", SRCCOPY, 10, 20, 30, 20, 0, 0, 2, 2, bitmap), WMF.step("pat_blt", PATINVERT, 3, 4, 5, 6)]
    return listed(WMF, records * 1_000)


def listed_objects() -> Counted:
    """Objects of each sort, pixels and colours, listed."""
    each = "solid_pen 0 0x102030; styled_pen 0 0 30000 0x102030; solid_brush 0 0x102030; hatched_brush 0 4 0x102030; font 0; palette 0; pixel 10 11; "
    return listed(WMF, WMF.records(each + "back_colour 0x102030") * 1_000)


def listed_counts() -> Counted:
    """Modes and lists of points, listed: a name and a number or two of each."""
    each = "back_mode 1; raster 13; fill_mode 2; map_mode 1; save; restore -1; select 9; delete 9; polygon 1 1 2 2 3 1; short_polylines 1 1 | 3 3; "
    return listed(EMF, EMF.records(each + "polyline_to 1 1 2 2; begin_path; stroke_and_fill_path") * 700)


def listed_notes() -> Counted:
    """Pens of which two things are noted, listed: they are wide, and have dashes."""
    return listed(EMF, EMF.records("styled_pen 0 1 7 0x102030") * 7_000)


def listed_wide_lines() -> Counted:
    """Lines and rectangles under a wide pen, listed and played: whether each fits the largest surface, and its nib the smallest one."""
    records = EMF.records("styled_pen 0 0 7 0x102030; select 0") + EMF.records("line 3 4; rectangle 1 1 9 9") * 3_000
    return Counted(EMF.file(records, 64, 16), 64, 64, command="list")


def checked_wide_lines() -> Counted:
    """Lines and rectangles under a wide pen on a map that scales, checked: the nib of each is told by few products."""
    records = EMF.records("map_mode 8; window_extent 3000 3000; viewport_extent 2000 2000; styled_pen 0 0 7 0x102030; select 0")
    return Counted(EMF.file(records + EMF.records("line 3 4; rectangle 1 1 9 9") * 5_000, 64, 16), 64, 64, command="check")


def saved_states() -> Counted:
    """States that are saved and restored, one at a time and many."""
    records = WMF.records("keep 1 1 60 60") + WMF.records("save; restore -1") * 2_500 + (WMF.records("save") * 200 + WMF.records("restore 1")) * 12
    return Counted(WMF.file(records, 64, 0), 64, 64)


def clips() -> Counted:
    """Boxes that are cut out and kept, and clips that are taken away."""
    return Counted(EMF.file(EMF.records("cut 1 1 2 2; keep 0 0 64 64; cut 3 3 4 4; unclip") * 1_800, 64, 16), 64, 64)


def objects_at_the_lowest_index() -> Counted:
    """Objects of each sort that come, are selected and go, where each takes the lowest free index."""
    each = "solid_pen 2 0x102030; select 2; select 0; delete 2; hatched_brush 2 4 0x102030; select 2; select 1; delete 2; font 2; delete 2"
    return Counted(WMF.file(WMF.records("solid_pen 0; solid_brush 1; select 0; select 1") + WMF.records(each) * 700, 64, 0), 64, 64)


def tiled_brushes(form: Form) -> Counted:
    """Brushes of a bitmap that come and go: of the bitmap its header is read, and no pixel."""
    records = [form.step("tiled_brush", 0, str(noise(2, depth))) for depth in (1, 4, 8, 24)]
    return Counted(form.file([it for record in records for it in (record, form.step("delete", 0))] * 700, 64, 16), 64, 64)


def packed_brushes() -> Counted:
    """Those of WMF."""
    return tiled_brushes(WMF)


def brushes_in_parts() -> Counted:
    """Those of EMF."""
    return tiled_brushes(EMF)


def deleted_in_many_states() -> Counted:
    """Pens that go while 255 states are saved: each state is asked once whether it holds the pen."""
    records = WMF.records("solid_pen 0; select 0") + WMF.records("save") * 255 + WMF.records("pen 1; delete 1") * 800
    return Counted(WMF.file(records, 64, 0), 64, 64)


def at_a_high_index() -> Counted:
    """Pens that come and go above 1,000 others: the lowest free index is looked for once."""
    records = [WMF.step("pen", nth) for nth in range(1_020)] + WMF.records("pen 1020; delete 1020") * 800
    return Counted(WMF.file(records, 64, 0), 64, 64)


def repeated_faults() -> Counted:
    """Records of forty unknown types, again and again, given to `info`: of each type a count is raised."""
    return Counted(EMF.file([EMF.record(1_000 + 37 * nth % 40) for nth in range(20_000)], 64, 16), 64, 64, command="info", status=1)


def in_bands(form: Form, records: list[bytes]) -> Counted:
    """These records 20 times, played in 40 bands of one row: in each band each record is decoded and played once."""
    return Counted(form.file(records * 20, (8, 40), 16), 8, 40, command="play", bands=1)


def rarer_packed_records() -> Counted:
    """Each record of WMF that sets something or draws by no bitmap, and that few files have."""
    each = "map_mode 8; window_origin 1 2; window_extent 30 20; viewport_origin 3 4; viewport_extent 20 30; fill_mode 2; back_mode 1; raster 13; "
    each += f"back_colour 0x102030; move 3 4; bare_bit_blt {PATINVERT} 900 900 2 2 0 0; bare_stretch_blt {PATINVERT} 900 900 2 2 0 0 2 2"
    return in_bands(WMF, [*WMF.records(each), WMF.record(SETLAYOUT, u16(0))])


def rarer_records() -> Counted:
    """Each such record of EMF, transforms that change nothing, and each record of a bitmap, off the surface."""
    each = "map_mode 8; window_origin 1 2; window_extent 30 20; viewport_origin 3 4; viewport_extent 20 30; fill_mode 2; back_mode 1; raster 13; "
    each += f"back_colour 0x102030; styled_long_pen 2 65536 3 0 0x8040; delete 2; bare_stretch_blt {PATINVERT} 900 900 2 2 0 0 2 2"
    bitmap = str(noise(2, 24))
    records = [EMF.record(SET_LAYOUT, u32(0)), EMF.record(SET_TRANSFORM, u32(*IDENTITY)), EMF.record(MODIFY_TRANSFORM, u32(*IDENTITY, 4))]
    records += [EMF.step("stretch_blt", SRCCOPY, 900, 900, 3, 3, 0, 0, 2, 2, bitmap), EMF.step("bit_blt", SRCCOPY, 900, 900, 2, 2, 0, 0, bitmap)]
    return in_bands(EMF, EMF.records(each) + records)


def far_blits() -> Counted:
    """Blits whose far corners have more than 32 bits and land on the plane, since the map scales them down."""
    far = (1 << 31) - 1
    records = EMF.records(f"map_mode 8; window_extent {1 << 30} {1 << 30}; viewport_extent 1000 1000")
    return Counted(EMF.file(records + EMF.records(f"pat_blt {PATINVERT} {far} {far} {far} {far}") * 7_000, 64, 16), 64, 64)


def at_the_last_index() -> Counted:
    """A pen at the last of 65,535 indexes, made in 16 bands of one row: the places before it are made empty once for each band."""
    return Counted(EMF.file([EMF.step("pen", 65_533)], (8, 16), 65_535), 8, 16, command="play", bands=1)


def deleted_at_a_high_index() -> Counted:
    """Pens that come and go at a high index, while there is no other object: the places before it stay, and are made empty once."""
    return Counted(EMF.file(EMF.records("pen_at 60000; delete_at 60000") * 20, 16, 65_535), 16, 16, command="info")


def refused_before_a_late_extent() -> Counted:
    """A plain file whose first record is rejected and whose last is its extent, which is looked for once."""
    records = WMF.records("select 9") + WMF.records("move 1 1") * 200_000 + WMF.records("window_extent 64 64")
    return Counted(WMF.file(records, 64, 0)[22:], 64, 64, status=1)


def long_certificates() -> Counted:
    """A file of one record and the certificate of another with 200,000 dots and a wide line, whose entries are read once before it is refused."""
    wide = EMF.records("styled_pen 0 0 3 0x8040; select 0; line 9 9")
    other = EMF.file(EMF.records("pixel 1 1") * 200_000 + wide, 64, 16)
    return Counted(EMF.file(wide, 64, 16), 64, 64, command="check", status=1, certified=other)


FILES = {
    "4,000 blits, listed": listed_blits,
    "4,000 blits of WMF, listed": listed_packed_blits,
    "8,000 objects and colours, listed": listed_objects,
    "9,100 modes and lists, listed": listed_counts,
    "7,000 wide pens with dashes, listed": listed_notes,
    "6,000 lines and rectangles under a wide pen, listed": listed_wide_lines,
    "10,000 lines and rectangles under a wide pen, checked": checked_wide_lines,
    "4,900 saved states": saved_states,
    "7,200 boxes and ends of a clip": clips,
    "2,100 objects at the lowest free index": objects_at_the_lowest_index,
    "2,800 brushes of packed bitmaps": packed_brushes,
    "2,800 brushes of bitmaps in parts": brushes_in_parts,
    "800 pens while 255 states are saved": deleted_in_many_states,
    "800 pens above 1,020 others": at_a_high_index,
    "20,000 records of forty unknown types, info": repeated_faults,
    "260 rarer records of WMF in 40 bands": rarer_packed_records,
    "340 rarer records in 40 bands": rarer_records,
    "7,000 blits to far corners": far_blits,
    "a pen at the last of 65,535 indexes in 16 bands": at_the_last_index,
    "20 pens that come and go at a high index, info": deleted_at_a_high_index,
    "200,000 records before the extent of a plain file that is refused": refused_before_a_late_extent,
    "a certificate of 200,000 entries for another file": long_certificates,
}
