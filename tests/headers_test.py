"""The headers of the three kinds of files in the built programs: each field that is read, and the
frame that they give."""

import tempfile
import unittest

from answers import refused, shown
from built import DOT, SAMPLES, answer, for_each_program
from header_answers import (
    BAD_HEADER,
    NOT_METAFILE,
    NO_FRAME,
    SHORT_HEADER,
    SIDE,
    HeaderTest,
    pixel_at,
)
from metafile.fields import BLUE, RED, i16, i32, u16, u32
from metafile.files import (
    EMF_END,
    WMF_END,
    emf_file,
    emf_pixel,
    emf_record,
    placeable_file,
    plain_file,
    window_extent,
    wmf_pixel,
    wmf_record,
)

# The largest side of a frame.
FRAME_LIMIT = 1 << 28

# How far from its corner a point of the plane may lie.
PLANE_LIMIT = 1 << 30

# No file has more records, the end record included.
RECORD_LIMIT = 1048576

# Nothing drawn.
WHITE = shown({}, SIDE, SIDE)


def in_box(coordinate, start, end):
    """Where a coordinate lands on a surface that shows a box: its distance from the box's start,
    counted as the box runs and rounded down, scaled to the surface and rounded down."""
    extent = end - start
    distance = (coordinate - start) * abs(extent) // extent
    return distance * SIDE // abs(extent)


class PlaceableHeader(HeaderTest):
    """META_PLACEABLE, [MS-WMF] 2.3.2.3, and META_HEADER behind it."""

    def dot(self, **changes):
        """A placeable file with a red pixel at (2,1), and fields of its headers changed."""
        return placeable_file([wmf_pixel(2, 1, RED), WMF_END], **changes)

    def boxed(self, left, top, right, bottom):
        """That file with another box."""
        return self.dot(left=i16(left), top=i16(top), right=i16(right), bottom=i16(bottom))

    def test_the_builder_makes_the_dot(self):
        self.assertEqual(self.dot(), DOT)

    @for_each_program
    def test_the_key_tells_the_format(self, program):
        keys = [u32(0x9AC6CDD7 ^ bits) for bits in (1, 1 << 8, 1 << 16, 1 << 24)]
        keys += [u32(0x9AC6CDD6), u32(0x9AC6CDD8), bytes.fromhex("9ac6cdd7")]
        self.check_fields(program, self.dot, NOT_METAFILE, {"key": keys})

    @for_each_program
    def test_the_standard_header_has_its_types_size_and_versions(self, program):
        self.check_fields(
            program,
            self.dot,
            pixel_at(10, 5),
            {"type": [u16(1), u16(2)], "version": [u16(0x0100), u16(0x0300)]},
        )
        self.check_fields(
            program,
            self.dot,
            BAD_HEADER,
            {
                "type": map(u16, (0, 3, 0x0101, 0x0102, 0xFFFF)),
                "header_size": map(u16, (0, 8, 10, 0x0109, 0xFFFF)),
                "version": map(u16, (0, 1, 3, 0x00FF, 0x0101, 0x02FF, 0x0200, 0x0301, 0x0400)),
            },
        )

    @for_each_program
    def test_other_fields_change_nothing(self, program):
        halves = [u16(0), u16(1), u16(0xFFFF)]
        words = [u32(0), u32(1), u32(0xFFFFFFFF)]
        fields = {"handle": halves, "inch": halves, "reserved": words, "checksum": halves}
        fields |= {"size": words, "objects": halves, "largest": words, "members": halves}
        self.check_fields(program, self.dot, pixel_at(10, 5), fields)

    @for_each_program
    def test_the_box_is_the_frame_and_the_window(self, program):
        boxes = [(0, 0, 4, 4), (4, 4, 0, 0), (4, 0, 0, 4), (0, 4, 4, 0), (2, 1, 3, 2), (3, 2, 2, 1)]
        for place in range(4):
            for more in (-1, 1):
                box = [0, 0, 4, 4]
                box[place] += more
                boxes.append(tuple(box))
        low, high = -32768, 32767
        boxes += [(low, low, high, high), (high, high, low, low), (0, low, 1, high)]
        for box in boxes:
            left, top, right, bottom = box
            wanted = pixel_at(in_box(2, left, right), in_box(1, top, bottom))
            self.check(program, self.boxed(*box), wanted, box)

    @for_each_program
    def test_a_box_without_a_side_has_no_frame(self, program):
        low, high = -32768, 32767
        for box in [(0, 0, 0, 4), (0, 0, 4, 0), (7, 7, 7, 7), (low, 0, low, 4), (0, high, 4, high)]:
            self.check(program, self.boxed(*box), NO_FRAME, box)

    @for_each_program
    def test_a_short_header_comes_before_a_bad_one_and_that_before_no_frame(self, program):
        no_box = {"right": i16(0)}
        for bad in ({"type": u16(3)}, {"header_size": u16(8)}, {"version": u16(0)}):
            given = self.dot(**bad, **no_box)
            self.check(program, given[:39], SHORT_HEADER, bad)
            self.check(program, given[:40], BAD_HEADER, bad)
        self.check(program, self.dot(**no_box)[:40], NO_FRAME)


class PlainHeader(HeaderTest):
    """META_HEADER, [MS-WMF] 2.3.2.2, and the window's extent that gives a plain file its frame: the
    first META_SETWINDOWEXT that has both its numbers, and neither of them 0."""

    def dot(self, **changes):
        """A plain file with a frame, and fields of its header changed."""
        records = [window_extent(4, 4), wmf_pixel(2, 1, RED), WMF_END]
        return plain_file(records, **changes)

    def check_records(self, program, records, wanted):
        """The answer to a plain file of these records."""
        self.check(program, plain_file(records), wanted, b"".join(records)[:64].hex(" "))

    @for_each_program
    def test_the_first_words_tell_the_format(self, program):
        self.check_fields(program, self.dot, pixel_at(10, 5), {"type": [u16(1), u16(2)]})
        fields = {
            "type": map(u16, (0, 3, 0x0101, 0x0102, 0xFFFF)),
            "header_size": map(u16, (0, 8, 10, 0x0109, 0xFFFF)),
        }
        self.check_fields(program, self.dot, NOT_METAFILE, fields)

    @for_each_program
    def test_there_are_two_versions(self, program):
        good = map(u16, (0x0100, 0x0300))
        self.check_fields(program, self.dot, pixel_at(10, 5), {"version": good})
        bad = map(u16, (0, 1, 3, 0x00FF, 0x0101, 0x0200, 0x02FF, 0x0301, 0x0400))
        self.check_fields(program, self.dot, BAD_HEADER, {"version": bad})

    @for_each_program
    def test_other_fields_change_nothing(self, program):
        halves = [u16(0), u16(1), u16(0xFFFF)]
        words = [u32(0), u32(1), u32(0xFFFFFFFF)]
        fields = {"size": words, "objects": halves, "largest": words, "members": halves}
        self.check_fields(program, self.dot, pixel_at(10, 5), fields)

    @for_each_program
    def test_a_short_header_comes_before_a_bad_one_and_that_before_no_frame(self, program):
        given = plain_file([WMF_END], version=u16(0))
        self.check(program, given[:17], SHORT_HEADER)
        self.check(program, given[:18], BAD_HEADER)
        self.check(program, given, BAD_HEADER)
        self.check_records(program, [WMF_END], NO_FRAME)
        self.check_records(program, [], NO_FRAME)

    @for_each_program
    def test_an_extent_without_a_0_is_the_frame(self, program):
        low, high = -32768, 32767
        for extent in [(1, 1), (-1, 1), (1, -1), (4, 4), (256, 256), (low, high), (high, low)]:
            wanted = pixel_at(in_box(2, 0, extent[0]), in_box(1, 0, extent[1]))
            records = [window_extent(*extent), wmf_pixel(2, 1, RED), WMF_END]
            self.check_records(program, records, wanted)

    @for_each_program
    def test_an_extent_with_a_0_is_passed_over(self, program):
        for extent in [(0, 0), (0, 4), (4, 0), (0, -32768)]:
            without = window_extent(*extent)
            self.check_records(program, [without, WMF_END], NO_FRAME)
            self.check_records(program, [without, without, WMF_END], NO_FRAME)
            # It opens by the next, and then such an extent is refused where extents count.
            records = [without, window_extent(4, 4), wmf_pixel(2, 1, RED), WMF_END]
            self.check_records(program, records, refused("ZeroExtent", 0))
            mode_of_text = wmf_record(0x0103, u16(1))
            self.check_records(program, [mode_of_text, *records], pixel_at(10, 5))

    @for_each_program
    def test_an_extent_without_both_its_numbers_is_passed_over(self, program):
        # Where the numbers would be stand the halves of the next record's size, 0x10003 words.
        behind = wmf_record(0x0626, bytes(0x20000))
        for numbers in (b"", i16(4)):
            short = wmf_record(0x020C, numbers)
            self.check_records(program, [short, behind, WMF_END], NO_FRAME)
            opened = [short, behind, window_extent(4, 4), WMF_END]
            self.check_records(program, opened, refused("BadParams", 0))
        self.check_records(program, [wmf_record(0x020C, i16(4, 4, 0)), WMF_END], WHITE)

    @for_each_program
    def test_no_other_record_gives_a_frame(self, program):
        for function in (0x020B, 0x020D, 0x020E, 0x020F, 0x0211, 0x0410, 0x0C02, 0x000C):
            self.check_records(program, [wmf_record(function, i16(4, 4)), WMF_END], NO_FRAME)

    @for_each_program
    def test_records_before_the_extent_are_not_read(self, program):
        for front, wanted in [
            (wmf_pixel(2, 1, RED), pixel_at(10, 5)),
            (wmf_record(0x0626, i16(4, 4)), WHITE),
            (wmf_record(0x0999), refused("UnknownRecord 2457", 0)),
            (wmf_record(0x0A32), refused("Unsupported 2610", 0)),
            (wmf_record(0x041F), refused("BadParams", 0)),
            (wmf_record(0x0103, u16(2)), refused("MetricMode", 0)),
        ]:
            self.check_records(program, [front, window_extent(4, 4), WMF_END], wanted)

    @for_each_program
    def test_an_extent_behind_the_end_is_not_seen(self, program):
        extent = window_extent(4, 4)
        self.check_records(program, [WMF_END, extent], NO_FRAME)
        self.check_records(program, [wmf_pixel(2, 1, RED), WMF_END, extent, WMF_END], NO_FRAME)

    @for_each_program
    def test_an_extent_behind_a_broken_record_is_not_seen(self, program):
        extent = window_extent(4, 4)
        for size in (0, 2, 8, 9, 1 << 31, (1 << 31) + 3, (1 << 32) - 1):
            self.check_records(program, [wmf_record(0x0626, size=size), extent], NO_FRAME)
        opened = [wmf_record(0x0626, size=3), extent]
        self.check_records(program, opened, refused("NoEnd", 2))

    @for_each_program
    def test_a_broken_extent_is_not_seen(self, program):
        for size in (0, 2, 6, (1 << 31) + 5, (1 << 32) - 1):
            self.check_records(program, [wmf_record(0x020C, i16(4, 4), size=size)], NO_FRAME)
        for length in range(1, 10):
            self.check_records(program, [window_extent(4, 4)[:length]], NO_FRAME)
        self.check_records(program, [window_extent(4, 4)], refused("NoEnd", 1))

    @for_each_program
    def test_an_extent_is_seen_up_to_the_last_record_that_a_file_may_have(self, program):
        skipped = wmf_record(0x0626) * (RECORD_LIMIT - 1)
        extent = window_extent(4, 4)
        self.check_records(program, [skipped, extent], refused("TooManyRecords", RECORD_LIMIT))
        self.check_records(program, [skipped, wmf_record(0x0626), extent], NO_FRAME)


def in_bounds(coordinate, start, end):
    """Where a coordinate lands on a surface that shows bounds, which hold both their ends: its
    distance from the start, scaled to the surface and rounded down."""
    return (coordinate - start) * SIDE // max(1, end - start + 1)


class EmfHeader(HeaderTest):
    """EMR_HEADER, [MS-EMF] 2.3.4.2."""

    def dot(self, **changes):
        """An EMF with a red pixel at (2,1), and fields of its header changed."""
        return emf_file([emf_pixel(2, 1, RED), EMF_END], **changes)

    def bounded(self, point, bounds):
        """An EMF with a red pixel at a point, and other bounds."""
        left, top, right, bottom = map(i32, bounds)
        records = [emf_pixel(*point, RED), EMF_END]
        return emf_file(records, left=left, top=top, right=right, bottom=bottom)

    def check_bounds(self, program, point, bounds):
        """The point lands where the bounds say."""
        left, top, right, bottom = bounds
        wanted = pixel_at(in_bounds(point[0], left, right), in_bounds(point[1], top, bottom))
        self.check(program, self.bounded(point, bounds), wanted, point, bounds)

    @for_each_program
    def test_type_and_signature_tell_the_format(self, program):
        fields = {
            "type": map(u32, (0, 2, 0x0101, 0x00010001, 0x01000001)),
            "signature": [u32(0x464D4520 ^ bits) for bits in (1, 1 << 8, 1 << 16, 1 << 24)],
        }
        self.check_fields(program, self.dot, NOT_METAFILE, fields)
        # With the first words of a plain WMF it is one, whose version stands where the size does.
        self.check_fields(program, self.dot, BAD_HEADER, {"type": [u32(0x00090001)]})

    @for_each_program
    def test_the_header_may_be_long(self, program):
        for length in (0, 4, 12, 20, 912):
            given = self.dot(extension=b"\xff" * length)
            self.check(program, given, pixel_at(10, 5), length)

    @for_each_program
    def test_the_header_is_at_least_88_bytes_and_a_multiple_of_4(self, program):
        bad = [u32(size) for size in (0, 1, 8, 44, 84, 85, 86, 87, 89, 90, 91, 107, 110)]
        bad += [u32(size) for size in ((1 << 31) + 90, (1 << 32) - 3, (1 << 32) - 1)]
        self.check_fields(program, self.dot, BAD_HEADER, {"size": bad})

    @for_each_program
    def test_the_header_is_within_the_file(self, program):
        length = len(self.dot())
        for more in (4, 8, 1000):
            self.check(program, self.dot(size=u32(length + more)), SHORT_HEADER, more)
        for size in (1 << 31, (1 << 32) - 4, (1 << 16) + 88):
            self.check(program, self.dot(size=u32(size)), SHORT_HEADER, size)
        self.check(program, self.dot(size=u32(length)), refused("NoEnd", 1))
        self.check(program, self.dot()[:88], refused("NoEnd", 1))

    @for_each_program
    def test_records_begin_behind_the_header_s_size(self, program):
        # The pixel as a part of the header, and a part of the header as a record.
        self.check(program, self.dot(size=u32(108)), shown({}, SIDE, SIDE))
        given = self.dot(size=u32(88), extension=emf_pixel(0, 0, BLUE))
        self.check(program, given, shown({(0, 0): BLUE, (10, 5): RED}, SIDE, SIDE))
        given = self.dot(size=u32(88), extension=bytes(20))
        self.check(program, given, refused("ShortRecord", 1))

    @for_each_program
    def test_other_fields_change_nothing(self, program):
        halves = [u16(0), u16(1), u16(0xFFFF)]
        words = [u32(0), u32(1), u32(0xFFFFFFFF)]
        fields = {"frame": [bytes(16), b"\xff" * 16], "version": words, "bytes": words}
        fields |= {"records": words, "handles": halves, "reserved": halves}
        pairs = [bytes(8), b"\xff" * 8]
        fields |= {"description": pairs, "palette_entries": words}
        fields |= {"device": pairs, "millimetres": pairs}
        self.check_fields(program, self.dot, pixel_at(10, 5), fields)

    @for_each_program
    def test_the_bounds_are_the_frame_and_its_corner(self, program):
        self.check_bounds(program, (2, 1), (0, 0, 3, 3))
        self.check_bounds(program, (12, 21), (10, 20, 13, 23))
        self.check_bounds(program, (-8, -19), (-10, -20, -7, -17))
        for place in range(4):
            for more in (-1, 1):
                bounds = [0, 0, 3, 3]
                bounds[place] += more
                self.check_bounds(program, (2, 1), bounds)

    @for_each_program
    def test_bounds_without_a_side_have_sides_of_1(self, program):
        low, high = -0x80000000, 0x7FFFFFFF
        for bounds in [
            (0, 0, 0, 0),
            (0, 0, -1, -1),
            (0, 0, -2, -2),
            (5, 5, -100, 5),
            (high, high, low, low),
            (high, low, high, low),
            (low, high, low, high),
        ]:
            left, top = bounds[:2]
            self.check_bounds(program, (left, top), bounds)
        self.check_bounds(program, (1, 0), (0, 0, -1, -1))

    @for_each_program
    def test_a_frame_has_sides_up_to_2_28(self, program):
        low, high = -0x80000000, 0x7FFFFFFF
        reach = FRAME_LIMIT - 1
        for start in (0, -5, low, high - reach):
            end = start + reach
            self.check_bounds(program, (end, start), (start, start, end, end))
            self.check_bounds(program, (end, start), (start, start, end, start))
            self.check_bounds(program, (start, end), (start, start, start, end))

    @for_each_program
    def test_a_longer_side_is_no_frame(self, program):
        low, high = -0x80000000, 0x7FFFFFFF
        sides = [(0, FRAME_LIMIT), (-5, FRAME_LIMIT - 5), (low, low + FRAME_LIMIT)]
        sides += [(high - FRAME_LIMIT, high), (0, high), (-1, high)]
        sides += [(low, -1), (low, 0), (low, high)]
        for start, end in sides:
            for bounds in [(start, 0, end, 3), (0, start, 3, end), (start, start, end, end)]:
                self.check(program, self.bounded((0, 0), bounds), NO_FRAME, bounds)

    @for_each_program
    def test_points_are_on_the_plane_by_their_distance_from_the_corner(self, program):
        # The frame is four times as long as the surface, so that only the plane has this limit.
        low, high = -0x80000000, 0x7FFFFFFF
        reach = 4 * SIDE - 1
        for corner in (0, low, high - reach):
            bounds = (corner, corner, corner + reach, corner + reach)
            for distance in (-PLANE_LIMIT - 1, -PLANE_LIMIT, PLANE_LIMIT, PLANE_LIMIT + 1):
                far = corner + distance
                if low <= far <= high:
                    wanted = shown({}, SIDE, SIDE)
                    if abs(distance) > PLANE_LIMIT:
                        wanted = refused("OffPlane", 1)
                    for point in [(far, corner), (corner, far)]:
                        self.check(program, self.bounded(point, bounds), wanted, point, bounds)
        for start, far in [(low, high), (high - reach, low)]:
            bounds = (start, 0, start + reach, reach)
            self.check(program, self.bounded((far, 0), bounds), refused("OffPlane", 1), bounds)

    @for_each_program
    def test_short_then_bad_then_past_the_end_then_no_frame(self, program):
        large = {"right": i32(FRAME_LIMIT)}
        self.check(program, self.dot(size=u32(84), **large)[:87], SHORT_HEADER)
        self.check(program, self.dot(size=u32(1002), **large), BAD_HEADER)
        self.check(program, self.dot(size=u32(1000), **large), SHORT_HEADER)
        self.check(program, self.dot(**large)[:88], NO_FRAME)


class OtherFiles(HeaderTest):
    """Files of none of the three kinds, and the samples."""

    @for_each_program
    def test_other_files_are_no_metafiles(self, program):
        text = b"P6\n1 1\n255\n\0\0\0" * 20
        for given in (b"", b"\0", bytes(200), b"\xff" * 200, text, WMF_END, emf_record(14)):
            self.check(program, given, NOT_METAFILE, given[:64])

    @for_each_program
    def test_a_long_file_is_refused_before_its_kind_is_asked(self, program):
        for length, wanted in [(1 << 26, NOT_METAFILE), ((1 << 26) + 1, refused("TooLong"))]:
            with tempfile.NamedTemporaryFile() as file:
                file.truncate(length)
                self.assertEqual(answer(program, ["show", file.name, "4", "4"]), wanted, length)

    @for_each_program
    def test_the_samples_are_shown(self, program):
        corners = {(0, 0): RED, (1, 1): (0, 255, 0), (2, 2): BLUE, (3, 3): (0, 0, 0)}
        small = answer(program, ["show", SAMPLES / "small.emf", "4", "4"])
        self.assertEqual(small, shown(corners))
        plain = answer(program, ["show", SAMPLES / "small.wmf", "4", "4"])
        self.assertEqual(plain, shown(corners))
        nil = answer(program, ["show", SAMPLES / "nil.emf", "2", "2"])
        self.assertEqual(nil, shown({}, 2, 2))


if __name__ == "__main__":
    unittest.main()
