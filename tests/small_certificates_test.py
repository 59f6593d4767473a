"""Certificates of small files, worked by hand: what is prepared, what is accepted, and every reason for a rejection."""

import json
import unittest

from built import DOT
from metafile.fields import i32, u32
from metafile.scripts import EMF, WMF
from request_program import CHECK, CHECK_COMMAND, PREPARE, PROGRAMS, Command, asked, ended, replies

# A placeable file with the box (0,0)-(4,4) and a polygon (0,0), (4,0), (0,4).
POLYGON = bytes.fromhex(
    "d7cdc69a 0000 0000 0000 0400 0400 6000 00000000 7157 0100 0900 0003 16000000 0000 0a000000 0000"
    "0a000000 2403 0300 0000 0000 0400 0000 0000 0400 03000000 0000"
)

# Its certificate for 4 by 4: 32 writes, 3 points, and one entry, for record 0, with the box (0,0)-(4,4).
CERTIFICATE = bytes.fromhex(
    "4d504331 04000000 04000000 2000000000000000 00000000 00000000 03000000 00000000 01000000"
    "00000000 00000000 00000000 04000000 04000000"
)

FOUR = (4, 4)


def certificate(*numbers):
    """The bytes of a certificate: its signature and these numbers."""
    return b"MPC1" + i32(*numbers)


def with_byte(place, byte):
    """The certificate with one byte changed."""
    return CERTIFICATE[:place] + bytes([byte]) + CERTIFICATE[place + 1 :]


def wmf(script, side=4):
    """A placeable file of these records, with a square box."""
    return WMF.file(WMF.records(script), side, 0)


def emf(script, side=4):
    """An EMF of these records, with square bounds."""
    return EMF.file(EMF.records(script), side, 4)


class CertificatesTest(unittest.TestCase):
    """What the program that answers requests prepares and accepts."""

    def check_prepared(self, given, bound, *numbers):
        """The certificate of a file for a bound has these numbers after those of the bound, and is accepted."""
        text = certificate(*bound, *numbers)
        for program in PROGRAMS:
            self.assertEqual(replies(program, [asked(PREPARE, bound, given)]), [(f"prepared {len(text)}", text)])
            [(line, _)] = replies(program, [asked(CHECK, bound, given, text)])
            self.assertRegex(line, "^accepted ")

    def check_stopped(self, given, bound, fault):
        """A file has no certificate for a bound, because of this fault."""
        for program in PROGRAMS:
            self.assertEqual(replies(program, [asked(PREPARE, bound, given)]), [(fault, b"")])

    def check_checked(self, given, cases):
        """Certificates of a file are accepted, or have their faults."""
        texts, wanted = zip(*cases, strict=True)
        for program in PROGRAMS:
            found = [line for line, _ in replies(program, [asked(CHECK, FOUR, given, text) for text in texts])]
            self.assertEqual(found, list(wanted))


class Prepared(CertificatesTest):
    """Certificates as they are prepared."""

    def test_a_polygon_has_a_certificate_of_sixty_bytes(self):
        self.assertEqual((len(POLYGON), len(CERTIFICATE)), (66, 60))
        self.check_prepared(POLYGON, FOUR, 32, 0, 0, 0, 3, 0, 1, 0, 0, 0, 4, 4)
        for program in PROGRAMS:
            self.assertEqual(replies(program, [asked(PREPARE, FOUR, POLYGON)]), [("prepared 60", CERTIFICATE)])

    def test_what_is_prepared_is_accepted(self):
        for bound in [(1, 1), (4, 4), (5, 7), (8192, 8192)]:
            for program in PROGRAMS:
                [(line, text)] = replies(program, [asked(PREPARE, bound, POLYGON)])
                self.assertEqual((line, text[4:12]), ("prepared 60", u32(*bound)))
                self.assertEqual(replies(program, [asked(CHECK, bound, POLYGON, text)]), [("accepted 2", b"")])
                [end] = ended(program, [Command(CHECK_COMMAND, POLYGON, text)])
                report = json.loads(end.out)
                self.assertEqual((report["accepted"], report["max"], report["drawings"], report["records"]), (True, [*bound], 1, 2))

    def test_a_file_without_a_drawing_has_no_entry(self):
        self.check_prepared(emf("", 1), (2, 2), 0, 0, 0, 0, 0, 0, 0)

    def test_a_null_pen_leaves_out_a_layer(self):
        # One layer of 10 by 10.
        star = wmf("null_pen 0; select 0; polygon 5 0 8 10 0 4 10 4 2 10", 10)
        self.check_prepared(star, (10, 10), 100, 0, 0, 1, 5, 0, 1, 2, 0, 0, 10, 10)

    def test_a_line_has_the_box_of_its_points(self):
        # One layer of 5 by 1.
        self.check_prepared(wmf("polyline 0 0 4 0 0 0", 8), (8, 8), 5, 0, 0, 0, 3, 0, 1, 0, 0, 0, 4, 0)

    def test_a_path_has_its_entry_where_it_is_painted(self):
        closed = emf("begin_path; move 0 0; line 4 0; line 0 4; close_figure; end_path; stroke_and_fill_path")
        self.check_prepared(closed, FOUR, 32, 0, 0, 0, 3, 3, 1, 7, 0, 0, 4, 4)
        # Left open and only stroked: one layer, for the record before.
        opened = emf("begin_path; move 0 0; line 4 0; line 0 4; end_path; stroke_path")
        self.check_prepared(opened, FOUR, 16, 0, 0, 0, 3, 3, 1, 6, 0, 0, 4, 4)

    def test_a_path_of_no_point_has_an_empty_box(self):
        self.check_prepared(emf("begin_path; end_path; stroke_and_fill_path"), FOUR, 0, 0, 0, 0, 0, 0, 1, 3, 0, 0, -1, -1)

    def test_a_rectangle_is_filled_and_stroked(self):
        self.check_prepared(emf("rectangle 0 0 3 3"), FOUR, 32, 0, 0, 0, 4, 0, 1, 1, 0, 0, 3, 3)

    def test_the_deepest_save_and_the_highest_object_are_needed(self):
        self.check_prepared(wmf("save; save; restore -1; null_pen 0; null_pen 1"), FOUR, 0, 0, 2, 2, 0, 0, 0)

    def test_the_plane_ends_where_it_does(self):
        last = 268_435_456
        self.check_prepared(emf(f"line {last} 0", 8192), (8192, 8192), 8192, 0, 0, 0, 2, 0, 1, 1, 0, 0, last, 0)
        for column in (last + 1, 2_147_483_647):
            self.check_stopped(emf(f"line {column} 0", 8192), (8192, 8192), "OffPlane at record 1")

    def test_what_is_off_at_the_bound_may_be_on_at_less(self):
        # With a frame of one unit, column 32,769 lands beyond the limit on a surface of 8,192 columns.
        given = emf("line 32769 0", 1)
        self.check_stopped(given, (8192, 8192), "OffPlane at record 1")
        self.check_prepared(given, (1, 1), 1, 0, 0, 0, 2, 0, 1, 1, 0, 0, 32_769, 0)
        wide = certificate(8192, 1, 8192, 0, 0, 0, 2, 0, 1, 1, 0, 0, 32_769, 0)
        self.check_checked(given, [(wide, "OffPlane at record 1")])

    def test_a_bound_and_a_file_are_rejected(self):
        for bound in [(0, 4), (4, 0), (8193, 4), (4, 8193)]:
            self.check_stopped(b"", bound, "BadBound")
        self.check_stopped(b"", FOUR, "NotMetafile")
        self.check_checked(b"", [(CERTIFICATE, "NotMetafile")])
        self.check_stopped(DOT[:54], FOUR, "NoEnd at record 1")


class Checked(CertificatesTest):
    """Certificates that are wrong."""

    def test_each_number_of_a_certificate_is_looked_at(self):
        cases = [
            (0, 0x4E, "NotCertificate"),
            (4, 0, "BadBound"),
            (5, 0x20, "BadBound"),
            (12, 31, "BudgetTooSmall"),
            (12, 33, "accepted 2"),
            (28, 2, "NeedTooSmall"),
            (28, 4, "accepted 2"),
            (36, 2, "ShortCertificate"),
            (36, 0, "TrailingBytes"),
            (40, 1, "WrongEntry at record 0"),
            (44, 1, "BoxTooSmall at record 0"),
            (48, 1, "BoxTooSmall at record 0"),
            (52, 3, "BoxTooSmall at record 0"),
            (56, 3, "BoxTooSmall at record 0"),
        ]
        self.check_checked(POLYGON, [(with_byte(place, byte), wanted) for place, byte, wanted in cases])

    def test_the_first_of_two_faults_is_reported(self):
        # The box lacks a point and the writes are too few; then the writes and a need are too small.
        cases = [
            ((4, 4, 31, 0, 0, 0, 2, 0, 1, 0, 0, 0, 3, 4), "BoxTooSmall at record 0"),
            ((4, 4, 31, 0, 0, 0, 2, 0, 1, 0, 0, 0, 4, 4), "NeedTooSmall"),
            ((4, 4, 31, 0, 0, 0, 3, 0, 1, 0, 0, 0, 4, 4), "BudgetTooSmall"),
            ((4, 4, 32, 0, 0, 0, 3, 0, 1, 9, 0, 0, 3, 4), "WrongEntry at record 0"),
        ]
        self.check_checked(POLYGON, [(certificate(*numbers), wanted) for numbers, wanted in cases])

    def test_entries_stand_in_the_order_of_their_drawings(self):
        first, second = (0, 0, 0, 0, 0), (1, 3, 3, 3, 3)
        cases = [
            (2, first + second + first, "TrailingBytes"),
            (3, first + second + second, "WrongEntry at record 2"),
            (3, second + first + first, "WrongEntry at record 0"),
            (3, first + first + second, "WrongEntry at record 1"),
            (1, first, "WrongEntry at record 1"),
            (2, first + second, "accepted 3"),
        ]
        texts = [(certificate(4, 4, 2, 0, 0, 0, 0, 0, count, *entries), wanted) for count, entries, wanted in cases]
        self.check_checked(wmf("pixel 0 0; pixel 3 3"), texts)

    def test_an_entry_that_is_left_over_is_rejected_at_the_end_record(self):
        self.check_checked(POLYGON, [(with_byte(36, 2) + CERTIFICATE[40:], "WrongEntry at record 1")])


if __name__ == "__main__":
    unittest.main()
