"""Small files and their certificates, which tests give to commands."""

from metafile.fields import i32, u16, u32
from metafile.files import EMF_END, WMF_END, emf_file, plain_file, window_extent, wmf_record
from metafile.scripts import WMF

# A placeable file with the box (0,0,4,4), a red pixel at (2,1) and an end is DOT (built.py). Its headers have 40 bytes, its pixel 14, its end 6.

# Its listing.
DOT_LINES = b"0\t40\t14\t0x041f\tMETA_SETPIXEL\tplayed\tpixel 2,1 #ff0000\n1\t54\t6\t0x0000\tMETA_EOF\tplayed\tnothing\n"

# The dot's file with the polygon (0,0), (4,0), (0,4) in place of the pixel. The polygon has 20 bytes.
TRIANGLE = WMF.file(WMF.records("polygon 0 0 4 0 0 4"), 4, 0)

# Its certificate for surfaces of at most 4 by 4: a fill and a stroke of 16 pixels each, three points, and the box (0,0,4,4).
TRIANGLE_CERT = b"MPC1" + u32(4, 4, 32, 0, 0, 0, 3, 0, 1) + u32(0, 0, 0, 4, 4)

# An EMF file with bounds of one unit and no drawing.
NOTHING = emf_file([EMF_END], right=i32(-1), bottom=i32(-1), frame=i32(0, 0, 0, 0), handles=u16(1), device=u32(0, 0), millimetres=u32(0, 0))

# A certificate for surfaces of at most 2 by 3 that allows nothing.
NOTHING_CERT = b"MPC1" + u32(2, 3, 0, 0, 0, 0, 0, 0, 0)

ESCAPE = wmf_record(0x0626, u16(1, 0))

DASHED_PEN = wmf_record(0x02FA, u16(1, 3, 0) + u32(0))

# A plain file of 5 by 6 units with a wrong size field: its extent, two escapes, a dashed pen of width 3, an end, and one byte after it.
NOTED = plain_file([window_extent(5, 6), ESCAPE, ESCAPE, DASHED_PEN, WMF_END], size=u32(0), largest=u32(0)) + b"\0"

# A certificate for surfaces of at most 10 by 20 that allows 9 writes, 2 saved states and 7 slots.
NOTED_CERT = b"MPC1" + u32(10, 20, 9, 0, 2, 7, 0, 0, 0)

# A placeable file with the box (0,0,1,1), whose page is doubled from record 3 on. That record is a red pixel at (16385,0), which lands beyond the
# limit on the largest surface but not on one of half the size. A restore without a saved state and an end follow.
FAR = WMF.file(WMF.records("map_mode 8; window_extent 1 1; viewport_extent 2 2; pixel 16385 0; restore -1"), 1, 0)


def changed(given, place, others):
    """Bytes with other bytes from a place on."""
    return given[:place] + others + given[place + len(others) :]
