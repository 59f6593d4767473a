"""Faults of bitmaps ([MS-WMF] 2.2.2.9) in the built programs, in records of both formats that bring
one: each by itself at the edges of what is read, and each two that meet, of which the first in
order is told.

The order is: another header (`BadDib`), a header that isn't there to its end (`ShortDib`),
compressed rows (`CompressedDib`), a depth, a side or a count of colours that no bitmap has
(`BadDib`), a table or rows that aren't there to their end (`ShortDib`).
"""

import itertools
import unittest

from answers import refused
from bitmap_pictures import BitmapTest, told
from built import for_each_program
from metafile.bitmaps import UNUSED, Bitmap, bitmap, header
from metafile.blits import DSTINVERT, PATCOPY, SRCCOPY
from metafile.fields import BLUE, RED, i32, u16, u32
from metafile.scripts import EMF, FORMS, WMF

DEPTHS = [1, 4, 8, 16, 24, 32]

INDEXED = [1, 4, 8]

LARGEST = 0xFFFFFFFF

# What brings a bitmap of which a pixel is read.
RECORDS = [
    f"bit_blt {SRCCOPY} 0 0 1 1 0 0 {{}}",
    f"stretch_blt {SRCCOPY} 0 0 1 1 0 0 1 1 {{}}",
    f"stretch_dib {SRCCOPY} 0 0 1 1 0 0 1 1 {{}}",
    "tiled_brush 0 {}",
]


class FaultTest(BitmapTest):
    """Files whose first record brings a bitmap."""

    def check_faults(self, program, cases, forms=FORMS):
        """Each bitmap has its fault in each record of each format, or none."""
        for form, record, (picture, fault) in itertools.product(forms, RECORDS, cases):
            script = record.format(picture)
            if fault is None:
                answered = self.answer(program, form, script, frame=4, surface=(4, 4))
                with self.subTest(form=form.name, script=script[:200]):
                    self.assertEqual((answered.status, answered.err), (0, b""))
            else:
                self.check(program, form, script, refused(fault, form.first))


def good(depth, /, **how):
    """A bitmap of three by two pixels without a fault, but for what is changed in its header. Its
    table has two colours."""
    return bitmap([[RED, BLUE, BLUE], [BLUE, RED, BLUE]], depth, table=[RED, BLUE], **how)


def changed(field, number, values, depths):
    """Bitmaps of all depths with a field of the header changed to each of some values."""
    return [good(depth, **{field: number(value)}) for depth in depths for value in values]


def cut(picture, length, form=EMF):
    """A bitmap of which the header and the table have no more bytes than so many; in one piece
    there are no rows then."""
    return Bitmap(picture.info[:length], picture.bits if form is EMF else b"")


class Headers(FaultTest):
    """Numbers in headers, each by itself."""

    @for_each_program
    def test_good_ones(self, program):
        cases = [(good(depth), None) for depth in DEPTHS]
        cases += [(good(depth, top_down=True, size=108), None) for depth in DEPTHS]
        self.check_faults(program, cases)

    @for_each_program
    def test_other_headers(self, program):
        # 12 is the one of [MS-WMF] 2.2.2.2; the others are near to those that are read, or are
        # taken for them where not all bytes of the number are read.
        sizes = [0, 4, 12, 16, 39, 41, 44, 52, 56, 64, 107, 109, 112, 123, 125, 128, 168]
        sizes += [256 + 40, 0x2800, 0x10000 + 40, 0x280000, 0x80000000 + 40, 0x6C000000, LARGEST]
        cases = [(picture, "BadDib") for picture in changed("header_size", u32, sizes, [1, 24])]
        # The number is enough, also where nothing else is there.
        cases += [(Bitmap(u32(size), b""), "BadDib") for size in sizes]
        self.check_faults(program, cases)

    @for_each_program
    def test_headers_that_end_early(self, program):
        lengths = [4, 8, 20, 38, 39, 40, 72, 104, 106, 107, 108, 120, 122, 123]
        for size in (40, 108, 124):
            whole = good(24, size=size)
            for form in FORMS:
                shorter = [length for length in lengths if length < size]
                shorter = [length for length in shorter if length % step_of(form) == 0]
                cases = [(cut(whole, length, form), "ShortDib") for length in shorter]
                self.check_faults(program, cases, [form])

    @for_each_program
    def test_first_numbers_that_end_early(self, program):
        # Of 12 and of 40 alike, and of nothing; in one piece there are whole words of two bytes,
        # and one of them alone would be the word that stands where no bitmap is.
        for first in (u32(40), u32(12), u32(LARGEST)):
            cases = [(Bitmap(first[:length], b"\xff" * 64), "ShortDib") for length in (1, 2, 3)]
            self.check_faults(program, cases, [EMF])
            script = f"stretch_dib {SRCCOPY} 0 0 1 1 0 0 1 1 {first[:2].hex()}:"
            self.check(program, WMF, script, refused("ShortDib", 0))
            script = f"tiled_brush 0 {first[:2].hex()}:"
            self.check(program, WMF, script, refused("ShortDib", 0))
        self.check_faults(program, [(Bitmap(b"", b""), "ShortDib")], [WMF])
        for bits in (b"", b"\xff" * 64):
            script = f"tiled_brush 0 {Bitmap(b'', bits)}"
            self.check(program, EMF, script, refused("ShortDib", 1))

    @for_each_program
    def test_compressed_rows(self, program):
        values = [1, 2, 3, 4, 5, 6, 11, 12, 13, 1 << 8, 1 << 16, 1 << 24, 1 << 31, LARGEST]
        pictures = changed("compression", u32, values, [1, 24])
        self.check_faults(program, [(picture, "CompressedDib") for picture in pictures])

    @for_each_program
    def test_depths(self, program):
        values = [0, 2, 3, 5, 6, 7, 9, 12, 15, 17, 20, 23, 25, 31, 33, 40, 48, 64, 0x100, 0x101]
        values += [0x104, 0x118, 0x400, 0x1000, 0x1800, 0x8001, 0xFFFF]
        pictures = changed("bit_count", u16, values, [1, 24])
        self.check_faults(program, [(picture, "BadDib") for picture in pictures])

    @for_each_program
    def test_widths(self, program):
        values = [0, -1, -3, 32769, -32768, 65535, 65537, 1 << 24, 0x7FFFFFFF, -0x7FFFFFFF]
        pictures = changed("width", i32, [*values, -0x80000000], [1, 24])
        self.check_faults(program, [(picture, "BadDib") for picture in pictures])

    @for_each_program
    def test_heights(self, program):
        values = [0, 32769, -32769, 65535, 65537, -65537, 1 << 24, 0x7FFFFFFF, -0x7FFFFFFF]
        pictures = changed("height", i32, [*values, -0x80000000], [1, 24])
        self.check_faults(program, [(picture, "BadDib") for picture in pictures])

    @for_each_program
    def test_counts_of_colours(self, program):
        for depth in INDEXED:
            most = 1 << depth
            values = [most + 1, most + 2, 256 + most, (1 << 16) + 1, 1 << 30, (1 << 30) + 1]
            values += [(1 << 30) - 10, 1 << 31, (1 << 31) + 2, LARGEST - 9, LARGEST]
            values = [value for value in values if value > most]
            pictures = changed("colours_used", u32, values, [depth])
            self.check_faults(program, [(picture, "BadDib") for picture in pictures])
            whole = bitmap([[0, 1]], depth, table=[UNUSED] * most)
            self.check_faults(program, [(whole, None)])


def step_of(form):
    """Bitmaps in one piece have whole words of two bytes, and those in parts any bytes."""
    return 2 if form is WMF else 1


class Lengths(FaultTest):
    """Tables and rows that end early."""

    @for_each_program
    def test_rows(self, program):
        for depth in DEPTHS:
            info, bits = good(depth)
            for form in FORMS:
                step = step_of(form)
                shorter = [bits[:-step], bits[: len(bits) // 2], bits[:step], b""]
                cases = [(Bitmap(info, rows), "ShortDib") for rows in shorter]
                self.check_faults(program, cases, [form])

    @for_each_program
    def test_one_bit_33_wide(self, program):
        info = header(33, 2, 1, used=2) + bytes(8)
        cases = [(Bitmap(info, bytes(16)), None), (Bitmap(info, bytes(14)), "ShortDib")]
        self.check_faults(program, cases)
        self.check_faults(program, [(Bitmap(info, bytes(15)), "ShortDib")], [EMF])

    @for_each_program
    def test_rows_of_the_largest_pictures(self, program):
        # In 32 bits they have 2^32 bytes, which wrap to none, and in 16 bits 2^31.
        for depth in DEPTHS:
            for height in (32768, -32768):
                long = {"width": i32(32768), "height": i32(height)}
                sides = [long, {"width": long["width"]}, {"height": long["height"]}]
                pictures = [bitmap([[RED]], depth, table=[RED], **changes) for changes in sides]
                self.check_faults(program, [(picture, "ShortDib") for picture in pictures])

    @for_each_program
    def test_tables_in_parts(self, program):
        # However many bytes the rows have, the table is in its own part.
        for depth in DEPTHS:
            for size in (40, 124):
                whole = good(depth, size=size)
                pictures = [Bitmap(whole.info[:-1], whole.bits + bytes(64))]
                pictures += [Bitmap(whole.info[:length], whole.bits) for length in (size, size + 4)]
                cases = [(picture, "ShortDib") for picture in pictures]
                cases += [(Bitmap(whole.info + b"\xff" * 5, whole.bits), None)]
                self.check_faults(program, cases, [EMF])

    @for_each_program
    def test_tables_in_one_piece(self, program):
        # What is taken for a table isn't there for rows.
        for depth in DEPTHS:
            whole = good(depth)
            pictures = [cut(whole, length, WMF) for length in (40, 42, 44, 46, 48)]
            pictures += [good(depth, colours_used=u32(3))] if depth > 1 else []
            self.check_faults(program, [(picture, "ShortDib") for picture in pictures], [WMF])

    @for_each_program
    def test_full_tables_that_are_not_counted(self, program):
        for depth in INDEXED:
            whole = bitmap([[0, 1]], depth, full=True, table=[])
            entries = 4 << depth
            self.assertEqual(len(whole.info), 40 + entries)
            self.check_faults(program, [(whole, None)])
            for length in (40, 44, 40 + entries - 4, 40 + entries - 1):
                self.check_faults(program, [(cut(whole, length), "ShortDib")], [EMF])
            pictures = [cut(whole, length, WMF) for length in (40, 36 + entries, 38 + entries)]
            pictures += [Bitmap(whole.info, whole.bits[:-2])]
            self.check_faults(program, [(picture, "ShortDib") for picture in pictures], [WMF])

    @for_each_program
    def test_tables_that_no_pixel_needs(self, program):
        # There is no limit to their counts, but their bytes: four of an entry wrap at 2^32, with
        # the header or without it.
        for depth in (16, 24, 32):
            counts = [3, 257, 1 << 16, (1 << 30) - 10, (1 << 30) - 1, 1 << 30, (1 << 30) + 2]
            counts += [1 << 31, (1 << 31) + 2, 3 << 30, LARGEST - 9, LARGEST]
            pictures = [good(depth, colours_used=u32(count)) for count in counts]
            self.check_faults(program, [(picture, "ShortDib") for picture in pictures])
            whole = bitmap([[RED, BLUE]], depth, table=[UNUSED] * 300)
            self.check_faults(program, [(whole, None)])


# The faults in their order: what makes each, by changes of the header, by how much is there of
# header and table, and by how much of the rows is missing.
FAULTS = {
    "another header": ("BadDib", {"header_size": u32(12)}, None, 0),
    "a short header": ("ShortDib", {}, 38, 0),
    "compressed rows": ("CompressedDib", {"compression": u32(1)}, None, 0),
    "a depth": ("BadDib", {"bit_count": u16(2)}, None, 0),
    "a width": ("BadDib", {"width": i32(0)}, None, 0),
    "a height": ("BadDib", {"height": i32(-32769)}, None, 0),
    "colours": ("BadDib", {"colours_used": u32(257)}, None, 0),
    "a short table": ("ShortDib", {}, 44, 0),
    "short rows": ("ShortDib", {}, None, 2),
}


def with_faults(names, form, size=40):
    """A bitmap of 8 bits with these faults."""
    changes, lengths, missing = {}, [], 0
    for name in names:
        _, more, length, fewer = FAULTS[name]
        changes |= more
        lengths += [] if length is None else [length + size - 40]
        missing += fewer
    info, bits = good(8, size=size, **changes)
    bits = bits[: len(bits) - missing]
    return cut(Bitmap(info, bits), min(lengths), form) if lengths else Bitmap(info, bits)


class Pairs(FaultTest):
    """Two faults at once."""

    @for_each_program
    def test_the_first_of_two_is_told(self, program):
        for form in FORMS:
            cases = [(with_faults([name], form), FAULTS[name][0]) for name in FAULTS]
            for first, second in itertools.combinations(FAULTS, 2):
                cases.append((with_faults([first, second], form), FAULTS[first][0]))
            self.check_faults(program, cases, [form])

    @for_each_program
    def test_the_first_of_all_is_told(self, program):
        for form in FORMS:
            names = list(FAULTS)
            cases = [
                (with_faults(names[at:], form), FAULTS[name][0]) for at, name in enumerate(names)
            ]
            self.check_faults(program, cases, [form])

    @for_each_program
    def test_longer_headers_that_end_behind_bad_fields(self, program):
        # The fields are there, and aren't looked at before the header is there to its end.
        for size in (108, 124):
            for name in list(FAULTS)[2:7]:
                for form in FORMS:
                    both = with_faults(["a short header", name], form, size)
                    self.check_faults(program, [(both, "ShortDib")], [form])
                    alone = with_faults([name], form, size)
                    self.check_faults(program, [(alone, FAULTS[name][0])], [form])


class Moments(FaultTest):
    """When a bitmap's faults are told."""

    SHORT = told("rgb ymc")._replace(bits=b"")

    @for_each_program
    def test_a_bitmap_is_read_whatever_the_operation(self, program):
        packed = told("rgb ymc", compression=u32(1))
        for form in FORMS:
            for operation in (PATCOPY, DSTINVERT, 0x00AA0029):
                for rest in ("0 0 1 1 0 0", "0 0 0 0 9 9"):
                    script = f"bit_blt {operation} {rest} {packed}"
                    self.check(program, form, script, refused("CompressedDib", form.first))
                script = f"stretch_dib {operation} 0 0 1 1 0 0 1 1 {self.SHORT}"
                self.check(program, form, script, refused("ShortDib", form.first))

    @for_each_program
    def test_before_faults_of_the_operation(self, program):
        for form in FORMS:
            for script in [
                f"stretch_blt {SRCCOPY} 0 0 1 1 9 9 9 9 {self.SHORT}",
                f"stretch_blt {SRCCOPY} 0 0 1 1 0 0 0 0 {self.SHORT}",
            ]:
                self.check(program, form, script, refused("ShortDib", form.first))
        for script in [
            f"stretch_dib {SRCCOPY} {1 << 30} 0 {1 << 30} 1 0 0 1 1 {self.SHORT}",
            f"tiled_brush -1 {self.SHORT}",
            f"tiled_brush 99 {self.SHORT}",
        ]:
            self.check(program, EMF, script, refused("ShortDib", 1))
        script = f"brush 0; tiled_brush 0 {self.SHORT}"
        self.check(program, EMF, script, refused("ShortDib", 2))
        script = f"1024x brush 0; tiled_brush 0 {self.SHORT}"
        self.check(program, WMF, script, refused("ShortDib", 1024))

    @for_each_program
    def test_at_its_own_record(self, program):
        for form in FORMS:
            for record in RECORDS:
                script = f"pixel 0 0; save; {record.format(self.SHORT)}; restore -9"
                self.check(program, form, script, refused("ShortDib", form.first + 2))


if __name__ == "__main__":
    unittest.main()
