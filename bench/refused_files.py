"""Files that are rejected early, though much lies behind what is wrong: a rejection that waits for the rest takes many times as long. Beside them files
for options and sizes that no other counted file has."""

import random

from choice_files import strokes, wide_pen
from instruction_files import Counted
from print_files import PRINT
from slip_files import anywhere, listed
from writers import EMF, ROOT, WMF, u32

from metafile.files import plain_file

DOT = (ROOT / "samples" / "dot.wmf").read_bytes()

# The certificate of the dot at 4 by 4: one drawing, which writes one pixel.
OF_DOT = b"MPC1" + u32(4, 4, 1, 0, 0, 0, 0, 0, 1) + u32(0, 2, 1, 2, 1)

# Not a certificate.
NONE = b"none"


def late_extent(first: str = "") -> bytes:
    """A plain file whose extent comes behind 100,000 records, and behind these."""
    return plain_file(WMF.records(first) + [WMF.step("save")] * 100_000 + WMF.records("window_extent 64 64"))


def entries(nib: int, more: bytes = b"") -> bytes:
    """A certificate of 50,000 drawings, the first of which has a nib of this width, and more bytes."""
    first = u32(0, 0, 0, 1, 1) + bytes([nib, 0, 1, 0])
    return b"MPC2" + u32(4, 4, 9, 0, 0, 0, 0, 0, 50_000) + first + (u32(1, 0, 0, 1, 1) + b"\1\0\1\0") * 49_999 + more


def white(side: int) -> bytes:
    """A white image."""
    return b"P6\n%d %d\n255\n" % (side, side) + b"\xff" * (3 * side * side)


def checked(given: bytes, certificate: bytes) -> Counted:
    """A check that rejects."""
    return Counted(given, 4, 4, command="check", certificate=certificate, status=1)


def no_certificate_of_a_late_extent() -> Counted:
    """What isn't a certificate is rejected before the file's extent is sought twice."""
    return checked(late_extent(), NONE)


def bytes_behind_a_certificate() -> Counted:
    """A certificate with a byte too many: no nib is looked at."""
    return checked(DOT, entries(1, b"\0"))


def certificate_of_no_nib() -> Counted:
    """A certificate whose first nib is wrong: no other is looked at."""
    return checked(DOT, entries(0))


def image_beside_no_certificate() -> Counted:
    """What isn't a certificate is rejected before an image becomes a surface."""
    return Counted(DOT, 4, 4, command="over", certificate=NONE, image=white(1_024), status=1)


def image_without_pixels() -> Counted:
    """The head of an image of 8,192 by 8,192 without its pixels: no surface is made."""
    return Counted(DOT, 4, 4, command="over", image=b"P6 8192 8192 255\n", status=1)


def comment_behind_a_height() -> Counted:
    """An image with a comment of 300,000 bytes behind its height: it is read once."""
    return Counted(DOT, 4, 4, command="over", image=b"P6 4 4 #" + b"plain words " * 25_000 + b"\n255\n" + b"\xff" * 48)


def small_certificate() -> Counted:
    """A surface above a certificate's bound is rejected before it is made."""
    return Counted(DOT, 2_048, 2_048, command="play", bands=2_048, certificate=OF_DOT, status=1)


def fitted_to_a_late_extent() -> Counted:
    """A file that is rejected at its first record, whose extent comes last, fitted to a surface."""
    return Counted(late_extent("select 9"), 64, 64, options=("--fit",), status=1)


def wrong_version() -> Counted:
    """A plain file of a version that isn't known: its extent isn't sought."""
    given = late_extent()
    return Counted(given[:4] + b"\7\7" + given[6:], 64, 64, status=1)


def too_many_points() -> Counted:
    """A polygon of 1,100,000 points, which are too many."""
    return Counted(EMF.file([EMF.record(86, bytes(16) + u32(1_100_000) + b"\1\0\2\0" * 1_100_000)], 64, 16), 64, 64, status=1)


def piece_too_many() -> Counted:
    """A path of as many pieces as it may have, and then a list of a million points."""
    records = EMF.records("begin_path") + [EMF.step("short_polyline", 1, 1, 2, 2)] * 65_536
    records.append(EMF.record(87, bytes(16) + u32(1_000_000) + b"\1\0\2\0" * 1_000_000))
    return Counted(EMF.file(records, 64, 16), 64, 64, status=1)


def prepared_triangles() -> Counted:
    """The certificate of 20,000 triangles is made once, and not checked."""
    chance = random.Random(601)
    return Counted(EMF.file([EMF.step("short_polygon", *anywhere(chance, 3, 0, 64, 64)) for _ in range(20_000)], 64, 16), 64, 64, command="prepare")


def pixels_before_a_fault() -> Counted:
    """The line about 20,000 pixels and a record of an unknown type."""
    return Counted(EMF.file([EMF.step("pixel", 1, 1)] * 20_000 + [EMF.record(1_000)], 64, 16), 64, 64, command="info", status=1)


def free_deletions() -> Counted:
    """Pens that come and go unselected while 255 states are saved, where held ones may be deleted: no state is looked through."""
    records = EMF.records("save") * 255 + EMF.records("pen 0; delete 0") * 5_000
    return Counted(EMF.file(records, 64, 16), 64, 64, options=(*PRINT, "--allow", "held-deletion"))


def triangles_of_a_flat_nib() -> Counted:
    """Triangles under a nib of 4,000 by 1 in bands: those of other bands are passed over."""
    chance, records = random.Random(602), EMF.records("map_mode 8; window_extent 1 4000; viewport_extent 4000 4000; styled_pen 0 0 1 0x8040; select 0")
    for _ in range(1_000):
        y = chance.randrange(2_047)
        records.append(EMF.step("short_polygon", 0, y, 1, y, 1, y + 1))
    return Counted(EMF.file(records, (8_192, 2_048), 16), 8_192, 2_048)


def table_beside_a_long_list() -> Counted:
    """A polygon of 8,400 edges on 24 columns, behind a polyline of 200,000 points that isn't stroked: its own edges tell when a table pays."""
    width, height = 24, 1_000
    records = EMF.records("null_pen 0; solid_brush 1 0x206040; select 0; select 1")
    records.append(EMF.step("short_polyline", *[1, 1] * 200_000))
    records.append(EMF.step("short_polygon", *[part for nth in range(8_400) for part in (nth * 2_654_435_761 % width, nth % 2 * height)]))
    return Counted(EMF.file(records, (width, height), 16), width, height)


def strokes_of_1_024_points_in_two_corners() -> Counted:
    """Strokes of 512 lines in two corners: as many points as are looked at before a mask is taken."""
    chance, side = random.Random(603), 2_048
    lines = [[corner + chance.randrange(12) for _ in range(4)] for corner in (0, side - 12) for _ in range(256)]
    return strokes([lines] * 6, side, side, wide_pen(2))


def flat_nib_in_two_corners() -> Counted:
    """Strokes of twelve short lines in two corners by a nib of 400 by 1: a mask has few rows."""
    chance, side = random.Random(604), 2_048
    records = EMF.records(f"map_mode 8; window_extent 1 {side}; viewport_extent 400 {side}; styled_pen 0 0 1 0x8040; select 0")
    for _ in range(60):
        lines = [[column, row + chance.randrange(12), column + 1, row + chance.randrange(12)] for column, row in ((0, 0), (4, side - 12)) for _ in range(6)]
        records.append(EMF.step("short_polylines", *listed(lines)))
    return Counted(EMF.file(records, side, 16), side, side)


FILES = {
    "no certificate of a file whose extent comes last, checked": no_certificate_of_a_late_extent,
    "a byte behind a certificate of 50,000 drawings, checked": bytes_behind_a_certificate,
    "a certificate of 50,000 drawings without the first nib, checked": certificate_of_no_nib,
    "an image of 1,024 by 1,024 and no certificate": image_beside_no_certificate,
    "an image of 8,192 by 8,192 without pixels": image_without_pixels,
    "a long comment behind the height of an image": comment_behind_a_height,
    "a certificate for 4 by 4 on 2,048 by 2,048": small_certificate,
    "a rejected file whose extent comes last, fitted": fitted_to_a_late_extent,
    "a wrong version and an extent that comes last": wrong_version,
    "a polygon of 1,100,000 points": too_many_points,
    "a piece of a million points too many": piece_too_many,
    "20,000 triangles, prepared": prepared_triangles,
    "20,000 pixels before a fault, info": pixels_before_a_fault,
    "5,000 free deletions in a full state": free_deletions,
    "1,000 triangles, nib 4,000 by 1, 8,192 by 2,048": triangles_of_a_flat_nib,
    "8,400 edges behind a long list, 24 by 1,000": table_beside_a_long_list,
    "6 strokes of 512 lines in two corners, 2,048 by 2,048": strokes_of_1_024_points_in_two_corners,
    "60 strokes of 12 lines in two corners, nib 400 by 1, 2,048 by 2,048": flat_nib_in_two_corners,
}
