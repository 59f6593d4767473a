"""The files whose instructions are counted, each of a sort of work that a slip makes very slow: one pixel more in a box,
a list that is sorted by insertion, points that are counted again for each record."""

import random
from typing import NamedTuple

from writers import BETWEEN, EMF, MASKED, PATCOPY, PATINVERT, SRCCOPY, WMF, Bitmap, header, u32


class Counted(NamedTuple):
    """A file, the surface that it is shown on, or another command that it is given to, the options for its rules, the status that is wanted, the
    image that it is played over, the rows of a band where a play is asked for these, the file that its certificate is of where that's another, how many
    files that aren't there are named too, its certificate where that isn't prepared, whether one is kept in the folder, and the side that this one is
    for where that's another."""

    given: bytes
    width: int
    height: int
    command: str = "show"
    options: tuple[str, ...] = ()
    status: int = 0
    image: bytes = b""
    bands: int = 0
    certified: bytes = b""
    missing: int = 0
    certificate: bytes = b""
    kept: bool = False
    kept_for: int = 0

    def sides(self):
        """The words for its surface."""
        return [str(self.width), str(self.height)]

    def preparing(self):
        """The words that prepare what the command needs beside the file named `file`, if it needs anything."""
        is_prepared = self.command in ("check", "play", "over") and not self.certificate
        name = "file.mpc" if self.kept else "certificate"
        sides = [str(self.kept_for)] * 2 if self.kept_for else self.sides()
        return ["prepare", "file", *sides, name, *self.options] if is_prepared or self.kept else None

    def words(self):
        """The words of the command that is counted, on a file named `file`."""
        bands = ["--bands", str(self.bands)] if self.bands else []
        certified = {"check": ["file", "certificate"], "play": ["file", "certificate", *self.sides(), *bands], "over": ["file", "certificate", "image"]}
        plain = {"show": ["file", *self.sides()], "prepare": ["file", *self.sides(), "certificate"], "list": ["file"], "info": ["file", *["missing"] * self.missing]}
        plain["certify"] = ["--out-dir", ".", *self.sides(), "file"]
        return [self.command, *(certified.get(self.command) or [*plain[self.command], *self.options])]


# EMR_SETTEXTALIGN, [MS-EMF] 2.3.11.25, and EMR_COMMENT, [MS-EMF] 2.3.3.
SETTEXTALIGN, COMMENT = 22, 70


def noise(side, depth):
    """A bitmap of noise, with a full table of colours where it has one."""
    chance = random.Random(depth)
    table = b"" if depth > 8 else b"".join(chance.randbytes(3) + b"\0" for _ in range(1 << depth))
    return Bitmap(header(side, side, depth) + table, chance.randbytes((side * depth + 31) // 32 * 4 * side))


def triangles():
    """Small triangles on a high surface: the rows of each are few."""
    chance, width, height = random.Random(1), 64, 8192
    records = WMF.records("solid_brush 0 0x206040; select 0")
    for _ in range(10_000):
        x, y = chance.randrange(width - 2), chance.randrange(height - 2)
        records.append(WMF.step("polygon", x, y, x + 2, y, x, y + 2))
    return Counted(WMF.file(records, (width, height), 0), width, height)


def checked_triangles():
    """The same, checked: each drawing lies in the box of its entry."""
    return triangles()._replace(command="check")


def zigzag():
    """A polygon whose edges all cross each row, on a wide surface: in an order that is against that of its points."""
    width, height, points = 4096, 16, 20_000
    places = []
    for number in range(points):
        places += [(number * 2_654_435_761) % width, height * (number % 2)]
    records = EMF.records("null_pen 0; solid_brush 1 0x206040; select 0; select 1")
    records.append(EMF.step("short_polygon", *places))
    return Counted(EMF.file(records, (width, height), 16), width, height)


def pieces():
    """A path of as many pieces as there may be, gathered and painted, and another that is dropped."""
    chance, side = random.Random(2), 256
    lines = [EMF.step("line", chance.randrange(side), chance.randrange(4)) for _ in range((1 << 16) - 1)]
    begun, ended = EMF.step("begin_path"), EMF.step("end_path")
    records = [begun, *lines, ended, EMF.step("abort_path"), begun, *lines[:8192], ended, EMF.step("stroke_path")]
    return Counted(EMF.file(records, side, 16), side, side)


def bitmaps():
    """A large bitmap that is copied, and one of 8 bits that is mixed with a tile."""
    side = 1024
    whole = 0, 0, side, side
    records = [WMF.step("stretch_dib", SRCCOPY, *whole, *whole, str(noise(side, 24)))]
    records += [WMF.step("tiled_brush", 0, str(noise(24, 24))), WMF.step("select", 0)]
    records.append(WMF.step("stretch_dib", MASKED, *whole, 0, 0, 256, 256, str(noise(256, 8))))
    return Counted(WMF.file(records, side, 0), side, side)


def states():
    """A full table of objects, states that hold a thousand of them, and objects that come and go in the worst order."""
    side, kinds = 64, ["pen", "brush", "font", "palette"]
    records = WMF.records("keep 1 1 63 63; cut 6 6 10 10; cut 22 6 26 10")
    for index in range(1020):
        kind = kinds[index % 4]
        records += [WMF.step(kind, index), WMF.step("select_palette" if kind == "palette" else "select", index)]
        records += [WMF.step("save")] * (index % 4 == 3)
    records += WMF.records("pen 1020; select 1020; select 0; delete 1020") * 5_000
    records += WMF.records("save; restore -1; pixel 5 5") * 5_000
    return Counted(WMF.file(records, side, 0), side, side)


def rectangles():
    """Rectangles of each sort of paint on a large surface, and lines across it."""
    chance, side = random.Random(3), 2048
    records = WMF.records("solid_brush 0 0x206040; hatched_brush 1 4 0x804020; null_pen 2; solid_pen 3 0x8040")
    for number in range(300):
        left, top, width, height = (chance.randrange(1, side // 2) for _ in range(4))
        records += WMF.records(f"select {number % 2}; select 2; raster {7 if number % 3 == 0 else 13}")
        records.append(WMF.step("rectangle", left, top, left + width // 4, top + height // 4))
        records += WMF.records(f"select 3; move {left} {top}; line {height} {width}")
    return Counted(WMF.file(records, side, 0), side, side)


def lists_in_a_path():
    """A path of as many polygons, lists of lines and rectangles as it has room for, gathered and dropped."""
    chance, side = random.Random(4), 256
    records = [EMF.step("begin_path")]
    for _ in range(16_000):
        x, y = chance.randrange(side - 4), chance.randrange(side - 4)
        records.append(EMF.step("polygon", x, y, x + 2, y, x, y + 2))
        records.append(EMF.step("polyline_to", x, y, x + 3, y))
        records.append(EMF.step("rectangle", x, y, x + 3, y + 3))
    records += [EMF.step("end_path"), EMF.step("abort_path")]
    return Counted(EMF.file(records, side, 16), side, side)


def short_lists():
    """Lists of two to five points on a high surface, in each record that has them: the rows of each are few."""
    chance, width, height = random.Random(5), 64, 8192
    records = EMF.records("solid_brush 1 0x206040; select 1")
    for number in range(4_000):
        x, y = chance.randrange(width - 4), chance.randrange(height - 4)
        places = [x, y, x + 3, y, x + 3, y + 3, x, y + 3, x + 1, y + 1][: 4 + number % 4 * 2]
        records.append(EMF.step("move", x, y))
        records += [EMF.step(name, *places) for name in ("polyline", "polyline_to", "polygon")]
    return Counted(EMF.file(records, (width, height), 16), width, height)


def longer_lists():
    """Lists of six to two hundred points on a high surface, in each record that has them: the rows of each are few."""
    chance, width, height = random.Random(6), 64, 8192
    records = EMF.records("solid_brush 1 0x206040; select 1")
    for number in range(6, 201):
        for name in ("polyline", "polyline_to", "polygon"):
            x, y = chance.randrange(width - 8), chance.randrange(height - 8)
            places = [part for _ in range(number) for part in (x + chance.randrange(8), y + chance.randrange(8))]
            records += [EMF.step("move", x, y), EMF.step(name, *places)] * 5
    return Counted(EMF.file(records, (width, height), 16), width, height)


def zigzags():
    """Polygons as `zigzag` has one, of many numbers of points."""
    width, height = 4096, 16
    records = EMF.records("null_pen 0; solid_brush 1 0x206040; select 0; select 1")
    for points in (10, 100, 1_000, 3_000, 10_000, 30_000, 60_000):
        places = [part for number in range(points) for part in ((number * 2_654_435_761) % width, height * (number % 2))]
        records.append(EMF.step("short_polygon", *places))
    return Counted(EMF.file(records, (width, height), 16), width, height)


def painted_paths():
    """Small paths on a high surface, painted in each way under three boxes that are cut out: the rows of each are few."""
    chance, width, height = random.Random(7), 64, 8192
    records = EMF.records("solid_brush 1 0x206040; select 1; cut 3 3 9 9; cut 20 100 40 4000; cut 50 50 60 8000")
    for number in range(3_000):
        x, y = chance.randrange(width - 4), chance.randrange(height - 4)
        records += [EMF.step("begin_path"), EMF.step("polygon", x, y, x + 3, y, x, y + 3), EMF.step("move", x, y)]
        records += [EMF.step("line", x + 3, y + 3), EMF.step("rectangle", x, y, x + 3, y + 3), EMF.step("end_path")]
        records.append(EMF.step(("fill_path", "stroke_path", "stroke_and_fill_path")[number % 3]))
        records.append(EMF.step("polygon", x, y, x + 3, y, x, y + 3))
    return Counted(EMF.file(records, (width, height), 16), width, height)


def scaled_lists():
    """Lists on a map that scales, of which all but the first point lie below the surface: where points land is most of the work."""
    chance, side = random.Random(8), 64
    records = EMF.records("map_mode 8; window_extent 3000 3000; viewport_extent 2000 2000")
    for _ in range(20):
        below = [part for _ in range(5_000) for part in (chance.randrange(9_000), 1_000 + chance.randrange(9_000))]
        records.append(EMF.step("polyline", 0, 0, *below))
    return Counted(EMF.file(records, side, 16), side, side)


def tiles():
    """Small tiled rectangles on a wide surface: the pixels of each row are few."""
    chance, width, height = random.Random(9), 8192, 64
    records = WMF.records("null_pen 0; select 0") + [WMF.step("tiled_brush", 1, str(noise(24, 24))), WMF.step("select", 1)]
    for _ in range(3_000):
        left, top = chance.randrange(width - 9), chance.randrange(height - 9)
        records.append(WMF.step("rectangle", left, top, left + 8, top + 8))
    return Counted(WMF.file(records, (width, height), 0), width, height)


def upright():
    """A bitmap of few rows and a mirrored one, stretched upright: each row of theirs is read for many of the surface."""
    side = 1024
    records = [WMF.step("stretch_dib", SRCCOPY, 0, 0, side, side, 0, 0, 64, 2, str(noise(64, 24)))]
    records.append(WMF.step("stretch_dib", SRCCOPY, 0, side, side, -side, 0, 0, 64, 3, str(noise(64, 8))))
    return Counted(WMF.file(records, side, 0), side, side)


def filled_state():
    """Each sort of record that changes the state, many times over, while a path of 60,000 pieces is open, 255 states are saved and 60,000
    objects are there: none of them may look at all of these."""
    chance, side, handles = random.Random(10), 64, 60_010
    records = [EMF.step(("pen", "brush", "font")[index % 3], index) for index in range(60_000)] + EMF.records("255x save; begin_path")
    records += [EMF.step("line", chance.randrange(side), chance.randrange(side)) for _ in range(60_000)]
    each = "move 3 3; close_figure; select 0; select 1; back_mode 1; raster 13; fill_mode 1; back_colour 0x102030; map_mode 8; window_origin 0 0; "
    each += "window_extent 9 9; viewport_origin 0 0; viewport_extent 9 9; keep 0 0 64 64; save; restore -1; pen 60001; delete 60001; pixel 1 1; "
    each += "line 2 2; polyline_to 3 3 4 4; polyline 1 1 2 2; polygon 1 1 2 2 3 1; rectangle 1 1 3 3"
    records += EMF.records(each) * 500 + EMF.records("cut 1 1 2 2; unclip") * 500
    return Counted(EMF.file([*records, EMF.step("abort_path")], side, handles), side, side)


def high_paths():
    """Paths of 30,000 pieces on a high surface, filled and stroked: what is done for each row may not look at all of them."""
    chance, width, height = random.Random(11), 16, 8192
    lines = [EMF.step("line", chance.randrange(width), chance.randrange(height) // 512 * 512) for _ in range(30_000)]
    records = EMF.records("solid_brush 1 0x206040; select 1")
    for painting in ("fill_path", "stroke_path"):
        records += [EMF.step("begin_path"), *lines[:: 16 if painting == "fill_path" else 32], EMF.step("end_path"), EMF.step(painting)]
    records += [EMF.step("begin_path"), *lines, EMF.step("end_path"), EMF.step("abort_path")]
    return Counted(EMF.file(records, (width, height), 16), width, height)


def many_lists():
    """Records of 8,000 lists each: a list may not be looked for from the first on."""
    chance, side = random.Random(12), 256
    records = EMF.records("null_brush 0; select 0")
    for name in ("short_polylines", "short_polygons"):
        words = []
        for number in range(8_000):
            x, y = chance.randrange(side - 2), chance.randrange(side - 2)
            words += [BETWEEN] * (number > 0) + [x, y, x + 1, y + 1]
        records.append(EMF.step(name, *words))
    return Counted(EMF.file(records, side, 16), side, side)


def long_zigzag():
    """A polygon as `zigzag` has one, of 150,000 points."""
    width, height = 1024, 4
    places = [part for number in range(150_000) for part in ((number * 2_654_435_761) % width, height * (number % 2))]
    records = EMF.records("null_pen 0; solid_brush 1 0x206040; select 0; select 1")
    return Counted(EMF.file([*records, EMF.step("short_polygon", *places)], (width, height), 16), width, height)


def short_records():
    """A plain file of many short records: pixels, moves, lines and selects."""
    records = WMF.records("window_extent 64 64; pen 0; pixel 1 1; move 2 2; line 3 4; select 0; pixel 5 6; move 63 0; line 60 9")
    plain = WMF.file(records[:2] + records[2:] * 12_000, 64, 0)[22:]
    return Counted(plain, 64, 64)


def lone_lines():
    """Polylines of two points, flat, upright, aslant and of no length: each goes by its steps."""
    chance, side = random.Random(13), 1024
    records = []
    for number in range(6_000):
        x, y, far = chance.randrange(side), chance.randrange(side), chance.randrange(side)
        ends = ((x, y, far, y), (x, y, x, far), (x, y, far, x), (x, y, x, y))[number % 4]
        records.append(EMF.step("polyline", *ends))
    return Counted(EMF.file(records, side, 16), side, side)


def flat_lines():
    """A polyline of many flat lines that rise, on a high surface: a line is looked at in its own rows alone."""
    width, height = 64, 8192
    places = [part for number in range(3_000) for part in ((number % 2) * 60, 8000 - number * 2)]
    return Counted(EMF.file([EMF.step("polyline", *places)] * 3, (width, height), 16), width, height)


def wide_paints():
    """Each sort of paint on a wide surface, uncut and under sixteen cuts: fills, hatches, tiles, blits that copy and mix."""
    width, height = 8192, 48
    records = WMF.records("null_pen 0; select 0; solid_brush 1 0x206040; hatched_brush 2 4 0x804020")
    records += [WMF.step("tiled_brush", 3, str(noise(24, 24)))]
    draws = "rectangle 1 1 8190 40; raster 7; rectangle 5 2 8000 44; raster 13; polygon 0 0 8192 20 0 40"
    for cuts in ("", "; ".join(f"cut {500 * k} 10 {500 * k + 9} 30" for k in range(1, 17))):
        records += WMF.records(cuts)
        for brush in (1, 2, 3):
            records += WMF.records(f"select {brush}; {draws}")
            records.append(WMF.step("pat_blt", PATINVERT, 0, 0, width, height))
            records.append(WMF.step("stretch_dib", MASKED, 0, 0, width, height, 0, 0, 64, 48, str(noise(64, 8))))
    return Counted(WMF.file(records, (width, height), 0), width, height)


def wide_fills():
    """Wide rectangles in one colour and hatched, again and again: little but rows of colours."""
    width, height = 8192, 8
    records = WMF.records("null_pen 0; select 0; solid_brush 1 0x206040; hatched_brush 2 4 0x804020")
    records += 100 * WMF.records(f"select 1; rectangle 0 0 {width} {height}; select 2; rectangle 0 0 {width} {height}")
    return Counted(WMF.file(records, (width, height), 0), width, height)


def narrow_fills():
    """High rectangles of two columns in one colour, at the right of a wide surface: their rows have one ink, which is made once."""
    chance, width, height = random.Random(25), 8192, 64
    records = WMF.records("null_pen 0; select 0; solid_brush 1 0x206040; select 1")
    for left in chance.choices(range(4_096, width - 2), k=6_000):
        records.append(WMF.step("rectangle", left, 0, left + 2, height))
    return Counted(WMF.file(records, (width, height), 0), width, height)


def wide_mixes():
    """Wide blits that mix a tile, again and again: little but rows of mixes."""
    width, height = 8192, 8
    records = [WMF.step("tiled_brush", 0, str(noise(24, 24))), WMF.step("select", 0)]
    records += 40 * [WMF.step("pat_blt", PATINVERT, 0, 0, width, height)]
    return Counted(WMF.file(records, (width, height), 0), width, height)


def small_hatched_blits():
    """Small blits with a hatched brush on a wide surface: the columns of each row are few."""
    chance, width, height = random.Random(14), 8192, 64
    records = WMF.records("hatched_brush 0 4 0x804020; select 0")
    for _ in range(3_000):
        left, top = chance.randrange(width - 9), chance.randrange(height - 9)
        records.append(WMF.step("pat_blt", PATINVERT, left, top, 8, 8))
        records.append(WMF.step("pat_blt", PATCOPY, left, top, 8, 8))
    return Counted(WMF.file(records, (width, height), 0), width, height)


def high_bitmap():
    """A bitmap of 1,500 rows, stretched upright to twice as many: each row is read once."""
    given = Bitmap(header(64, 1_500, 24), random.Random(15).randbytes(64 * 3 * 1_500))
    records = [WMF.step("stretch_dib", SRCCOPY, 0, 0, 64, 3_000, 0, 0, 64, 1_500, str(given))]
    return Counted(WMF.file(records, (64, 3_000), 0), 64, 3_000)


def late_extent():
    """A plain file whose extent comes behind 60,000 records: it is looked for once, from record to record."""
    records = WMF.records("move 1 1") * 60_000 + WMF.records("window_extent 64 64; pixel 1 1")
    return Counted(WMF.file(records, 64, 0)[22:], 64, 64)


def pens_of(*widths):
    """Records that make pens of these widths, by their numbers from 0 on."""
    return [WMF.step("styled_pen", number, 0, width, 0x8040) for number, width in enumerate(widths)]


def anywhere(chance, count, width, height):
    """The numbers of so many places on a surface."""
    return [part for _ in range(count) for part in (chance.randrange(width), chance.randrange(height))]


def lone_wide_lines():
    """Single lines under pens of four widths, copied and inverted, most of them in a box that is kept: each is walked by its rows."""
    chance, side = random.Random(16), 512
    records = pens_of(2, 9, 40, 150)
    for number in range(240):
        records += WMF.records(f"select {number % 4}; raster {(13, 7)[number // 4 % 2]}")
        records += WMF.records("keep 8 8 500 500") * (number == 40)
        records += [WMF.step("move", *anywhere(chance, 1, side, side)), WMF.step("line", *anywhere(chance, 1, side, side))]
    return Counted(WMF.file(records, side, 0), side, side)


def wide_polylines():
    """Polylines under pens of two widths, many of few lines and some of many, most of them in a box that is kept: what isn't near a
    stroke is left alone."""
    chance, side = random.Random(17), 512
    records = pens_of(3, 30)
    for number in range(600):
        x, y = chance.randrange(side - 20), chance.randrange(side - 20)
        near = [part for _ in range(5) for part in (x + chance.randrange(20), y + chance.randrange(20))]
        records += WMF.records(f"select {number % 2}") + WMF.records("keep 8 8 500 500") * (number == 60)
        records.append(WMF.step("polyline", *near))
        if number % 30 == 0:
            records.append(WMF.step("polyline", *anywhere(chance, 200, side, side)))
    return Counted(WMF.file(records, side, 0), side, side)


def lines_under_a_large_nib():
    """Flat lines under a nib as large as the surface, and steep ones that begin and end far beside it under a larger one: a line costs no more for
    the rows that its nib reaches."""
    side, far = 512, 1_900
    flat = [part for number in range(10_000) for part in (number % 2 * (side - 1), number // 20)]
    steep = [part for number in range(500) for part in (number, (far, -far)[number % 2])]
    records = pens_of(side, 2 * far)
    for number, places in ((0, flat), (1, steep)):
        records += [WMF.step("select", number)] + [WMF.step("polyline", *places)] * 2
    return Counted(WMF.file(records, side, 0), side, side)


def wide_strokes_in_bands():
    """Small polylines of a thousand lines under a pen of three pixels on a surface of several bands: each is painted where it lies."""
    chance, width, height = random.Random(18), 8192, 2048
    records = pens_of(3) + WMF.records("select 0")
    for _ in range(100):
        x, y = chance.randrange(width - 16), chance.randrange(height - 16)
        near = [part for _ in range(1_001) for part in (x + chance.randrange(16), y + chance.randrange(16))]
        records.append(WMF.step("polyline", *near))
    return Counted(WMF.file(records, (width, height), 0), width, height)


def open_path(pieces):
    """A path that is gathered, of so many pieces."""
    chance = random.Random(19)
    return [EMF.step("begin_path"), *(EMF.step("line", chance.randrange(64), chance.randrange(64)) for _ in range(pieces))]


def records_in_a_long_path():
    """Records that don't add to a path, many times over, while one of 60,000 pieces is open: none of them may look at its pieces."""
    each = f"pat_blt {PATINVERT} 1 1 2 2; select_palette 1; select_palette 2; brush 5; select 5; select 3; delete 5; font 6; select 6; select 4; delete 6"
    records = EMF.records("palette 1; palette 2; brush 3; font 4") + open_path(60_000)
    records += (EMF.records(each) + [EMF.record(COMMENT, u32(4) + b"none")]) * 2_000
    return Counted(EMF.file([*records, EMF.step("abort_path")], 64, 16), 64, 64)


def listed_records_in_a_long_path():
    """The same, listed."""
    return records_in_a_long_path()._replace(command="list")


def checked_records_in_a_long_path():
    """The same, checked."""
    return records_in_a_long_path()._replace(command="check")


def lists_from_the_position():
    """Lists of points that go on from the position, on a map that scales."""
    chance = random.Random(29)
    records = EMF.records("map_mode 8; window_extent 3000 3000; viewport_extent 2000 2000")
    records += [EMF.step("polyline_to", *(chance.randrange(-90, 90) for _ in range(2 * 50))) for _ in range(1_000)]
    return Counted(EMF.file(records, 64, 16), 64, 64)


def listed_lists_from_the_position():
    """The same, listed."""
    return lists_from_the_position()._replace(command="list")


def records_after_emf_plus():
    """Short records after comments with EMF+, which are counted."""
    records = [EMF.record(COMMENT, u32(4) + b"EMF+")] * 2 + (EMF.records("pixel 1 1; move 2 2") + [EMF.record(SETTEXTALIGN, u32(0))]) * 10_000
    return Counted(EMF.file(records, 64, 16), 64, 64)


def offsets_in_a_full_state():
    """Offsets of window and viewport, many times over, while 255 states are saved and 1,020 objects are there."""
    records = [WMF.step(("pen", "brush", "font")[index % 3], index) for index in range(1_020)] + WMF.records("255x save")
    records += WMF.records("offset_window 1 1; offset_window -1 -1; offset_viewport 1 1; offset_viewport -1 -1; pixel 1 1") * 4_000
    return Counted(WMF.file(records, 64, 0), 64, 64)


def listed_offsets_in_a_full_state():
    """The same, listed."""
    return offsets_in_a_full_state()._replace(command="list")


def told_offsets_in_a_full_state():
    """The same, given to `info`."""
    return offsets_in_a_full_state()._replace(command="info")


def longest_zigzag():
    """A polygon as `zigzag` has one, of as many points as there may be, in one row of a wide surface."""
    width, points = 8192, 1 << 20
    places = [part for number in range(points) for part in ((number * 2_654_435_761) % width, number % 2)]
    records = EMF.records("null_pen 0; solid_brush 1 0x206040; select 0; select 1")
    return Counted(EMF.file([*records, EMF.step("short_polygon", *places)], (width, 1), 16), width, 1)


def small_drawings_in_bands():
    """Small polygons and strokes on a surface of many bands: each is painted where it lies, and passed over elsewhere."""
    chance, width, height = random.Random(20), 8192, 2048
    records = WMF.records("solid_brush 0 0x206040; select 0")
    for number in range(10_000):
        x, y = chance.randrange(width - 9), chance.randrange(height - 9)
        near = [part for _ in range(4) for part in (x + chance.randrange(9), y + chance.randrange(9))]
        records.append(WMF.step(("polygon", "polyline")[number % 2], *near))
    return Counted(WMF.file(records, (width, height), 0), width, height)


def edges_of_one_row():
    """A polygon of 100,000 edges of one row each, on a high surface: an edge is looked at in its own row alone."""
    width, height, edges = 64, 8192, 100_000
    rows = [min(number % (2 * height), 2 * height - number % (2 * height)) for number in range(edges)]
    places = [part for number, row in enumerate(rows) for part in ((number * 2_654_435_761) % width, row)]
    records = EMF.records("null_pen 0; solid_brush 1 0x206040; select 0; select 1")
    return Counted(EMF.file([*records, EMF.step("short_polygon", *places)], (width, height), 16), width, height)


def long_polylines():
    """Upright and flat polylines of many lines on the widest surface, without and with a box that is kept."""
    chance, width, height = random.Random(21), 8192, 96
    records = []
    for kept in ("", "keep 8 2 8180 90"):
        records += WMF.records(kept)
        for _ in range(40):
            upright = [part for number in range(100) for part in (chance.randrange(width), number % 2 * (height - 1))]
            flat = [part for number in range(8) for part in (number % 2 * (width - 1), chance.randrange(height))]
            records += [WMF.step("polyline", *upright), WMF.step("polyline", *flat)]
    return Counted(WMF.file(records, (width, height), 0), width, height)


def tall_drawings_in_bands():
    """Polygons of many edges and flat strokes, as high as a surface of sixteen bands: in each band only its own rows are gone through."""
    chance, width, height = random.Random(23), 8192, 2048
    records = WMF.records("solid_brush 0 0x206040; select 0")
    for _ in range(5):
        across = [part for number in range(100) for part in (chance.randrange(width), number % 2 * (height - 1))]
        flat = [part for row in range(0, height, 8) for part in (chance.randrange(width), row)]
        records += [WMF.step("polyline", *flat), WMF.step("polygon", *across)]
    return Counted(WMF.file(records, (width, height), 1), width, height)


def unseen_ink():
    """Tiled polygons of two small triangles in opposite corners of a large surface, and blits of a bitmap under a box that is cut out and as large
    as the surface: nothing is gathered where nothing is painted."""
    width, height = 8192, 1024
    records = [WMF.step("tiled_brush", 0, str(noise(24, 24))), WMF.step("null_pen", 1)] + WMF.records("select 0; select 1")
    right, bottom = width - 1, height - 1
    apart = 0, 0, 2, 0, 0, 2, 0, 0, right, bottom, right - 2, bottom, right, bottom - 2, right, bottom, 0, 0
    records += 10 * [WMF.step("polygon", *apart)] + WMF.records(f"cut 0 0 {width} {height}")
    records += 10 * [WMF.step("stretch_dib", SRCCOPY, 0, 0, width, height, 0, 0, 64, 64, str(noise(64, 24)))]
    return Counted(WMF.file(records, (width, height), 0), width, height)


def empty_lists():
    """A list of points among 400,000 without any, in records that draw on all bands of the largest surface and in a path: in each band they are passed
    over many at a time."""
    side, empty = 8192, [BETWEEN] * 50_000
    lists = *empty, 0, 0, side - 1, side - 1, side - 1, side - 2, *empty
    records = EMF.records("solid_brush 0 0x206040; select 0")
    drawn = [EMF.step(name, *lists) for name in ("short_polygons", "short_polylines")]
    records += [*drawn, EMF.step("begin_path"), *drawn, EMF.step("end_path"), EMF.step("stroke_and_fill_path")]
    return Counted(EMF.file(records, side, 16), side, side)


def strokes_in_either_order():
    """Strokes of flat and of upright lines on a wide surface, sixteen of the ones before many of the others, and the same the other way about: the
    order of a stroke's lines tells nothing."""
    chance, width, height = random.Random(22), 8192, 64
    flat = [(0, row, width - 1, row + 1) for row in range(height - 1)] * 16
    upright = [(column, 0, column + 1, height - 1) for column in chance.sample(range(width - 1), 1_000)]
    records = []
    for few, many in ((flat, upright), (upright, flat)):
        for lines in (few[:16] + many, many + few[:16]):
            words = [word for line in lines for word in (BETWEEN, *line)]
            records.append(EMF.step("short_polylines", *words[1:]))
    return Counted(EMF.file(records, (width, height), 16), width, height)


def blits_and_stock_objects_in_a_long_path():
    """Blits that read a bitmap, and stock objects that are selected, many times over, while a path of 60,000 pieces is open: none of them may look
    at its pieces."""
    records = open_path(60_000)
    each = EMF.records("select_at 0x80000005; select_at 0x80000007; select_palette_at 0x8000000F")
    records += [*each, EMF.step("stretch_dib", SRCCOPY, 1, 1, 2, 2, 0, 0, 2, 2, str(noise(2, 24)))] * 200
    return Counted(EMF.file([*records, EMF.step("abort_path")], 64, 16), 64, 64)


def records_beside_a_path():
    """Each sort of record, many times over, while a path of 60,000 pieces is ended and waits to be painted: none of them may look at its pieces."""
    each = "move 3 3; line 2 2; pixel 1 1; polyline 1 1 2 2; polyline_to 3 3 4 4; polygon 1 1 2 2 3 1; rectangle 1 1 3 3; save; restore -1; "
    each += "back_mode 1; raster 13; fill_mode 1; back_colour 0x102030; window_origin 0 0; viewport_origin 0 0; keep 0 0 64 64; "
    each += f"pat_blt {PATINVERT} 1 1 2 2; select_palette 1; select_palette 2; brush 5; select 5; select 3; delete 5; select_at 0x80000007; "
    each += "select_palette_at 0x8000000F"
    blit = EMF.step("stretch_dib", SRCCOPY, 1, 1, 2, 2, 0, 0, 2, 2, str(noise(2, 24)))
    records = EMF.records("palette 1; palette 2; brush 3; font 4") + open_path(60_000) + [EMF.step("end_path")]
    records += (EMF.records(each) + [EMF.record(COMMENT, u32(4) + b"none"), blit]) * 500
    return Counted(EMF.file([*records, EMF.step("abort_path")], 64, 16), 64, 64)


def listed_records_beside_a_path():
    """The same, listed."""
    return records_beside_a_path()._replace(command="list")


def listed_lists_in_a_path():
    """A path of as many polygons, lists of lines and rectangles as it has room for, listed: a list is looked at without those before it."""
    return lists_in_a_path()._replace(command="list")


def narrow_polygons():
    """High polygons of two columns in one colour, at the right of a wide surface: their rows have one ink, which is made once."""
    chance, width, height = random.Random(26), 8192, 64
    records = WMF.records("null_pen 0; solid_brush 1 0x206040; select 0; select 1")
    for left in chance.choices(range(4_096, width - 3), k=6_000):
        records.append(WMF.step("polygon", left, 0, left + 2, 0, left + 3, height, left + 1, height))
    return Counted(WMF.file(records, (width, height), 0), width, height)


def strokes_beside_a_narrow_surface():
    """Strokes of many lines on a map that scales, of which few lie on a narrow surface, with and without a box that is cut out: a line is placed no
    more often than it must be."""
    chance, width, height = random.Random(27), 16, 64
    records = EMF.records("map_mode 8; window_extent 3000 3000; viewport_extent 2000 2000")
    for cut in ("", "cut 3 3 9 9"):
        records += EMF.records(cut)
        for _ in range(10):
            below = [part for _ in range(5_000) for part in (chance.randrange(9_000), 1_000 + chance.randrange(9_000))]
            records.append(EMF.step("polyline", 0, 0, 15, 63, *below))
    return Counted(EMF.file(records, (width, height), 16), width, height)


def upright_strokes_in_a_box():
    """Strokes of many upright lines and of few on a wide surface, in a box that is kept: they go by marks, as they do without one."""
    chance, width, height = random.Random(24), 8192, 64
    records = EMF.records("keep 8 2 8180 62")
    for _ in range(10):
        columns = chance.sample(range(width - 3), 1_100)
        words = [word for column in columns[:1_000] for word in (BETWEEN, column, 0, column + 1, height - 1)]
        records.append(EMF.step("short_polylines", *words[1:]))
        for column in columns[1_000:]:
            records.append(EMF.step("polyline", column, 0, column + 1, height - 1, column + 2, 0, column + 3, height - 1))
    return Counted(EMF.file(records, (width, height), 16), width, height)


FILES = {
    "10,000 small triangles, 64 by 8,192": triangles,
    "10,000 small triangles, checked": checked_triangles,
    "a zigzag of 20,000 points, 4,096 by 16": zigzag,
    "a path of 65,535 pieces, and one painted": pieces,
    "a large bitmap, and a mixed one, 1,024 by 1,024": bitmaps,
    "255 saved states, 1,020 objects": states,
    "300 rectangles and lines, 2,048 by 2,048": rectangles,
    "a path of 16,000 polygons, lists and rectangles": lists_in_a_path,
    "12,000 lists of two to five points, 64 by 8,192": short_lists,
    "2,925 lists of six to 200 points, 64 by 8,192": longer_lists,
    "zigzags of 10 to 60,000 points, 4,096 by 16": zigzags,
    "3,000 painted paths under cuts, 64 by 8,192": painted_paths,
    "100,000 points on a map that scales, 64 by 64": scaled_lists,
    "3,000 small tiled rectangles, 8,192 by 64": tiles,
    "bitmaps of few rows stretched, 1,024 by 1,024": upright,
    "each record 500 times in a state that is full": filled_state,
    "paths of 30,000 pieces, 16 by 8,192": high_paths,
    "16,000 lists in two records": many_lists,
    "a zigzag of 150,000 points, 1,024 by 4": long_zigzag,
    "84,000 short records of a plain file": short_records,
    "6,000 polylines of two points, 1,024 by 1,024": lone_lines,
    "9,000 flat lines that rise, 64 by 8,192": flat_lines,
    "each sort of paint, 8,192 by 48": wide_paints,
    "200 wide rectangles, 8,192 by 8": wide_fills,
    "40 wide blits of a tile, 8,192 by 8": wide_mixes,
    "6,000 small hatched blits, 8,192 by 64": small_hatched_blits,
    "a bitmap of 1,500 rows stretched": high_bitmap,
    "a plain file whose extent is its last": late_extent,
    "240 lone lines under wide pens, 512 by 512": lone_wide_lines,
    "620 polylines under wide pens, 512 by 512": wide_polylines,
    "21,000 lines under large nibs, 512 by 512": lines_under_a_large_nib,
    "100 wide strokes in bands, 8,192 by 2,048": wide_strokes_in_bands,
    "24,000 records while a path is open": records_in_a_long_path,
    "24,000 records while a path is open, listed": listed_records_in_a_long_path,
    "24,000 records while a path is open, checked": checked_records_in_a_long_path,
    "1,000 lists of 50 points from the position": lists_from_the_position,
    "1,000 lists of 50 points from the position, listed": listed_lists_from_the_position,
    "30,000 records after EMF+": records_after_emf_plus,
    "20,000 offsets in a full state": offsets_in_a_full_state,
    "20,000 offsets in a full state, listed": listed_offsets_in_a_full_state,
    "20,000 offsets in a full state, info": told_offsets_in_a_full_state,
    "a zigzag of 1,048,576 points, 8,192 by 1": longest_zigzag,
    "10,000 small drawings in bands, 8,192 by 2,048": small_drawings_in_bands,
    "a polygon of 100,000 short edges, 64 by 8,192": edges_of_one_row,
    "160 upright and flat polylines, 8,192 by 96": long_polylines,
    "10 tall drawings in bands, 8,192 by 2,048": tall_drawings_in_bands,
    "tiles and blits of which little is seen": unseen_ink,
    "empty lists beside a list of points": empty_lists,
    "4 strokes of flat and upright lines, 8,192 by 64": strokes_in_either_order,
    "800 blits and stock objects while a path is open": blits_and_stock_objects_in_a_long_path,
    "1,010 upright strokes in a box, 8,192 by 64": upright_strokes_in_a_box,
    "6,000 high rectangles of two columns, 8,192 by 64": narrow_fills,
    "13,500 records beside a path": records_beside_a_path,
    "13,500 records beside a path, listed": listed_records_beside_a_path,
    "a path of 16,000 polygons, lists and rectangles, listed": listed_lists_in_a_path,
    "6,000 high polygons of two columns, 8,192 by 64": narrow_polygons,
    "20 strokes beside a narrow surface, 16 by 64": strokes_beside_a_narrow_surface,
}
