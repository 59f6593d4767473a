"""Pens of any width (CREATEPENINDIRECT, [MS-WMF] 2.3.4.5; EMR_CREATEPEN and EMR_EXTCREATEPEN, [MS-EMF] 2.3.7) in the built programs.

A pen of a width has a nib on a surface: as many columns and rows as its width covers there, rounded down, and at least one. The stroke has each pixel
that lies in the nib's box around a pixel of a line. Of n columns (n - 1) / 2, rounded down, lie before the line's pixel, and the others behind it.
"""

import pathlib
import random
import tempfile
import unittest

from answers import refused, shown
from built import PROGRAMS, Answer, answer, for_each_program
from metafile.blits import PATCOPY
from metafile.fields import BLACK
from metafile.scripts import EMF, FORMS, HANDLES, SIDE, WMF
from reading.commands import Asked
from reference.certificates import Certificate, Entry
from reference.pixels import is_on_line, is_stroked, opened, reach
from request_program import PLAY, asked, replies
from request_program import PROGRAMS as REQUESTED
from shape_pictures import INVERT, ShapeTest, drawing, empty

BANDS = [1, 3, 4, 8]

# The frame and the surface where a test tells no others.
EIGHT = (8, 8)


def pen(width, style=0):
    """A black pen of a width, made and selected."""
    return f"styled_pen 0 {style} {width} 0x000000; select 0"


def long_pen(width, style):
    """The same in a record that tells in its style whether the width is the page's."""
    return f"styled_long_pen 0 {style} {width} 0 0x000000; select 0"


def black(columns, rows, sides=EIGHT):
    """The answer that shows black pixels, in these columns of these rows."""
    return shown({(x, y): BLACK for x in columns for y in rows}, *sides)


def file_of(form, script):
    """A file of these records with a frame of eight by eight, and one index for objects."""
    return form.file(form.records(script), 8, 2)


def report(fault, code, record):
    """What `check` tells of a certificate or a file that is refused."""
    told = "null" if record is None else record
    return Answer(1, f'{{"accepted":false,"code":{code},"fault":"{fault}","number":null,"record":{told}}}\n'.encode(), b"")


class WideTest(ShapeTest):
    """What a program draws with wide pens, on the whole surface and in bands."""

    def setUp(self):
        folder = tempfile.TemporaryDirectory()
        self.addCleanup(folder.cleanup)
        self.folder = pathlib.Path(folder.name)

    def path(self, name, data):
        """A file of these bytes in the test's folder."""
        path = self.folder / name
        path.write_bytes(data)
        return path

    def prepared(self, program, given, sides=EIGHT):
        """The answer to a file that a certificate is prepared for."""
        return answer(program, ["prepare", "stdin", *map(str, sides), "/dev/stdout"], given)

    def certificate(self, program, given, sides=EIGHT):
        """The certificate of a file."""
        made = self.prepared(program, given, sides)
        self.assertEqual((made.status, made.err), (0, b""))
        return made.out

    def checked(self, program, given, certificate):
        """The answer to a file and a certificate that are checked."""
        return answer(program, ["check", self.path("file", given), self.path("certificate", certificate)])

    def played(self, program, given, certificate, sides, *words):
        """The answer to a file that is played by a certificate."""
        file, certificate = self.path("file", given), self.path("certificate", certificate)
        return answer(program, ["play", file, certificate, *map(str, sides), *words])

    def check_played(self, program, given, certificate, sides, wanted):
        """A file is played as wanted by a certificate, on the whole surface and in bands."""
        self.assertEqual(self.played(program, given, certificate, sides), wanted)
        for rows in BANDS:
            self.assertEqual(self.played(program, given, certificate, sides, "--bands", str(rows)), wanted, rows)

    def check(self, program, form, script, wanted, frame=SIDE, surface=(SIDE, SIDE), handles=HANDLES):
        """The program's answer is the wanted one, in bands too; for a file that is refused no certificate is made."""
        super().check(program, form, script, wanted, frame=frame, surface=surface, handles=handles)
        given = form.file(form.records(script), frame, handles)
        with self.subTest(form=form.name, script=script[:200], frame=frame, surface=surface):
            if wanted.status != 0:
                self.assertEqual(self.prepared(program, given, surface), wanted)
            else:
                self.check_played(program, given, self.certificate(program, given, surface), surface, wanted)

    def check_counts(self, program, given, sides, writes, budget):
        """A file's certificate allows for so many writes, and so many are done on a white surface of the bound's sides."""
        certificate = self.certificate(program, given, sides)
        self.assertEqual(int.from_bytes(certificate[12:20], "little"), budget)
        request = asked(PLAY, sides, given, certificate, b"\xff" * (3 * sides[0] * sides[1]))
        ((line, _),) = replies(REQUESTED[PROGRAMS.index(program)], [request])
        self.assertEqual(line, f"played {writes}")

    def check_checked(self, program, given, certificate, wanted):
        """A certificate's file is accepted where no fault is wanted."""
        told = self.checked(program, given, certificate.text() if isinstance(certificate, Certificate) else certificate)
        if wanted is None:
            self.assertEqual((told.status, told.err), (0, b""))
        else:
            self.assertEqual(told, report(*wanted))


# A level line by a pen of width 3: columns 2 to 5 of row 4, so 1 to 6 of rows 3 to 5. Its box meets 5 columns and 1 row, and the nib reaches 2 more of
# both.
LEVEL = f"{pen(3)}; move 2 4; line 6 4"
LEVEL_FILE = file_of(WMF, LEVEL)
LEVEL_CERTIFICATE = Certificate(8, 8, 21, 0, 1, 2, 0, (Entry(3, 2, 4, 6, 4, 3, 3),))
LEVEL_TEXT = bytes.fromhex(
    "4d504332 08000000 08000000 1500000000000000 00000000 01000000 02000000 00000000 01000000"
    "03000000 02000000 04000000 06000000 04000000 0300 0300"
)
LEVEL_REPORT = (
    b'{"accepted":true,"drawings":1,"format":"placeable","frame":[8,8],"max":[8,8],'
    b'"needs":{"depth":0,"edges":2,"pieces":0,"slots":1},"notes":{"WidePen":1},"records":5,"writes":21}\n'
)

NIB_TOO_SMALL, BUDGET_TOO_SMALL, NIB_TOO_WIDE = ("NibTooSmall", 47, 3), ("BudgetTooSmall", 41, None), ("NibTooWide", 46, 3)


def with_entry(**parts):
    """The certificate of the level line, with another entry."""
    (entry,) = LEVEL_CERTIFICATE.entries
    return LEVEL_CERTIFICATE._replace(entries=(entry._replace(**parts),))


class LevelLine(WideTest):
    """A level line by a pen of width 3, whose certificate is prepared at eight by eight."""

    @for_each_program
    def test_its_pixels_and_how_many_are_written(self, program):
        for form in FORMS:
            self.check(program, form, LEVEL, black(range(1, 7), range(3, 6)), frame=8, surface=EIGHT)
            self.check_counts(program, file_of(form, LEVEL), EIGHT, 18, 21)

    @for_each_program
    def test_its_certificate(self, program):
        self.assertEqual(LEVEL_CERTIFICATE.text(), LEVEL_TEXT)
        self.assertEqual(self.prepared(program, LEVEL_FILE), Answer(0, LEVEL_TEXT, b""))
        self.assertEqual(self.checked(program, LEVEL_FILE, LEVEL_TEXT), Answer(0, LEVEL_REPORT, b""))

    @for_each_program
    def test_the_nib_is_that_of_the_surface(self, program):
        # At four by four floor(3 * 4 / 8) is 1: the line goes from (1,2) to (3,2). At eight by four three columns and one row are covered.
        for sides, wanted in [
            ((4, 4), black(range(1, 3), [2], (4, 4))),
            ((8, 4), black(range(1, 7), [2], (8, 4))),
            ((4, 8), black(range(1, 3), range(3, 6), (4, 8))),
        ]:
            self.check_played(program, LEVEL_FILE, LEVEL_TEXT, sides, wanted)
            self.check(program, WMF, LEVEL, wanted, frame=8, surface=sides)
        # On these alone 2 and 6 pixels are written. The box meets 3 columns at four, 5 at eight, and one row.
        self.check_counts(program, LEVEL_FILE, (4, 4), 2, 3)
        self.check_counts(program, LEVEL_FILE, (8, 4), 6, 7)

    @for_each_program
    def test_the_same_certificate_at_each_size(self, program):
        asked_of = Asked(LEVEL_FILE)
        for width in range(1, 9):
            for height in range(1, 9):
                self.check_played(program, LEVEL_FILE, LEVEL_TEXT, (width, height), asked_of.show((width, height)))

    @for_each_program
    def test_nibs_and_writes_of_certificates(self, program):
        for certificate, wanted in [
            (LEVEL_CERTIFICATE, None),
            (LEVEL_CERTIFICATE.text(b"MPC1"), NIB_TOO_SMALL),
            (with_entry(columns=1, rows=1).text(b"MPC2"), NIB_TOO_SMALL),
            (with_entry(rows=2), NIB_TOO_SMALL),
            (with_entry(columns=2), NIB_TOO_SMALL),
            # A larger nib's box has 8 columns of 3 rows.
            (with_entry(columns=4), BUDGET_TOO_SMALL),
            (with_entry(columns=4)._replace(writes=23), BUDGET_TOO_SMALL),
            (with_entry(columns=4)._replace(writes=24), None),
            (with_entry(columns=4096, rows=4096)._replace(writes=63), BUDGET_TOO_SMALL),
            (with_entry(columns=4096, rows=4096)._replace(writes=64), None),
            (LEVEL_CERTIFICATE._replace(writes=20), BUDGET_TOO_SMALL),
        ]:
            with self.subTest(certificate=certificate):
                self.check_checked(program, LEVEL_FILE, certificate, wanted)

    @for_each_program
    def test_the_order_of_an_entry_s_faults(self, program):
        for certificate, wanted in [
            (with_entry(number=2, left=3, rows=2), ("WrongEntry", 38, 3)),
            (with_entry(left=3, rows=2), ("BoxTooSmall", 39, 3)),
            (with_entry(rows=2)._replace(edges=1, writes=0), NIB_TOO_SMALL),
            (LEVEL_CERTIFICATE._replace(edges=1, writes=0), ("NeedTooSmall", 40, None)),
        ]:
            with self.subTest(certificate=certificate):
                self.check_checked(program, LEVEL_FILE, certificate, wanted)

    @for_each_program
    def test_a_larger_nib_in_a_certificate_changes_no_pixel(self, program):
        larger = with_entry(columns=5, rows=4096)._replace(writes=64).text()
        self.check_played(program, LEVEL_FILE, larger, EIGHT, black(range(1, 7), range(3, 6)))


class Certificates(WideTest):
    """The bytes of certificates with nibs."""

    @for_each_program
    def test_nibs_outside_their_limits(self, program):
        bad = ("BadBound", 8, None)
        for side in (0, 4097, 0xFFFF):
            for part in ("columns", "rows"):
                text = with_entry(**{part: side}).text()
                self.check_checked(program, LEVEL_FILE, text, bad)
                # The length comes before them.
                self.check_checked(program, LEVEL_FILE, text + b"\0", ("TrailingBytes", 9, None))
                self.check_checked(program, LEVEL_FILE, text[:-1], ("ShortCertificate", 7, None))

    @for_each_program
    def test_entries_of_either_version_have_their_own_length(self, program):
        self.check_checked(program, LEVEL_FILE, b"MPC1" + LEVEL_TEXT[4:], ("TrailingBytes", 9, None))
        plain = LEVEL_CERTIFICATE.text(b"MPC1")
        self.assertEqual(len(plain), 60)
        self.check_checked(program, LEVEL_FILE, b"MPC2" + plain[4:], ("ShortCertificate", 7, None))
        self.check_checked(program, LEVEL_FILE, b"MPC4" + LEVEL_TEXT[4:], ("NotCertificate", 6, None))

    @for_each_program
    def test_nibs_of_one_pixel_in_either_version(self, program):
        # The box meets 5 columns of 1 row, and the line has 4 pixels.
        given = file_of(WMF, f"{pen(1)}; move 2 4; line 6 4")
        certificate = Certificate(8, 8, 5, 0, 1, 2, 0, (Entry(3, 2, 4, 6, 4),))
        self.assertEqual(self.certificate(program, given), certificate.text(b"MPC1"))
        for version in (b"MPC1", b"MPC2"):
            self.check_checked(program, given, certificate.text(version), None)
            self.check_played(program, given, certificate.text(version), EIGHT, black(range(2, 6), [4]))
        self.check_counts(program, given, EIGHT, 4, 5)

    @for_each_program
    def test_one_wider_nib_gives_all_entries_theirs(self, program):
        # A pixel, a stroke of one pixel, and one of two columns and rows: 1, 3 and 4 * 2 at most.
        script = f"pixel 1 1; polyline 4 4 6 4; {pen(2)}; polyline 4 6 6 6"
        entries = Entry(0, 1, 1, 1, 1), Entry(1, 4, 4, 6, 4), Entry(4, 4, 6, 6, 6, 2, 2)
        certificate = Certificate(8, 8, 12, 0, 1, 2, 0, entries)
        self.assertEqual(self.certificate(program, file_of(WMF, script)), certificate.text(b"MPC2"))

    @for_each_program
    def test_fills_count_without_the_nib(self, program):
        # The box meets 5 columns and rows, which are 25 of the fill, and with the nib's 2 more 49 of the stroke.
        script = f"{pen(3)}; polygon 2 2 6 2 6 6 2 6"
        certificate = Certificate(8, 8, 74, 0, 1, 4, 0, (Entry(2, 2, 2, 6, 6, 3, 3),))
        self.assertEqual(self.certificate(program, file_of(WMF, script)), certificate.text())


class Widths(WideTest):
    """The widest pens, and pens without a width of their own."""

    @for_each_program
    def test_the_widest(self, program):
        for form in FORMS:
            script, last = f"{pen(4096)}; move 2 4; line 6 4", form.first + 3
            self.check(program, form, script, black(range(8), range(8)), frame=8, surface=EIGHT)
            self.check_counts(program, file_of(form, script), EIGHT, 64, 64)
            script = f"{pen(4097)}; move 2 4; line 6 4"
            self.check(program, form, script, refused("NibTooWide", last), frame=8, surface=EIGHT)
            # The nib has floor(4097 * 4 / 8) columns and rows at four by four, where it isn't too wide.
            self.check(program, form, script, black(range(4), range(4), (4, 4)), frame=8, surface=(4, 4))
            self.check_counts(program, file_of(form, script), (4, 4), 16, 16)
            # On one axis it is.
            self.check(program, form, script, refused("NibTooWide", last), frame=8, surface=(8, 4))
            self.check(program, form, script, refused("NibTooWide", last), frame=8, surface=(4, 8))

    @for_each_program
    def test_certificates_of_too_wide_a_pen(self, program):
        given = file_of(WMF, f"{pen(4097)}; move 2 4; line 6 4")
        certificate = Certificate(4, 4, 16, 0, 1, 2, 0, (Entry(3, 2, 4, 6, 4, 2048, 2048),))
        self.assertEqual(self.certificate(program, given, (4, 4)), certificate.text())
        self.check_checked(program, given, certificate, None)
        # At eight by eight it is, whatever the entries are.
        for entries in (certificate.entries, ()):
            self.check_checked(program, given, certificate._replace(width=8, height=8, writes=64, entries=entries), NIB_TOO_WIDE)

    @for_each_program
    def test_a_width_below_0_counts_by_its_distance_from_it(self, program):
        script = f"{pen(-3)}; move 2 4; line 6 4"
        for form in FORMS:
            self.check(program, form, script, black(range(1, 7), range(3, 6)), frame=8, surface=EIGHT)
        given = file_of(WMF, script)
        self.assertEqual(self.certificate(program, given), LEVEL_TEXT)
        # It isn't noted.
        wanted = LEVEL_REPORT.replace(b'{"WidePen":1}', b"{}")
        self.assertEqual(self.checked(program, given, LEVEL_TEXT), Answer(0, wanted, b""))
        self.check(program, EMF, f"{pen(-(1 << 31))}; move 2 4; line 6 4", refused("NibTooWide", 4), frame=8, surface=EIGHT)

    @for_each_program
    def test_a_width_of_0_or_1_covers_a_pixel(self, program):
        for width in (0, 1, -1):
            for form in FORMS:
                self.check(program, form, f"{pen(width)}; move 2 4; line 6 4", black(range(2, 6), [4]), frame=8, surface=EIGHT)

    @for_each_program
    def test_the_pens_that_are_there_have_no_width(self, program):
        # On a surface twice as large as the frame a pen of width 1 has a nib of two by two: the line has columns 4 to 11 of row 8.
        for form in FORMS:
            self.check(program, form, "move 2 4; line 6 4", black(range(4, 12), [8], (16, 16)), frame=8)
            wide = black(range(4, 13), range(8, 10), (16, 16))
            self.check(program, form, f"{pen(1)}; move 2 4; line 6 4", wide, frame=8)
        for stock in (0x80000007, 0x80000013):
            self.check(program, EMF, f"select_at {stock}; move 2 4; line 6 4", black(range(4, 12), [8], (16, 16)), frame=8)

    @for_each_program
    def test_a_style_tells_whether_a_width_is_the_page_s(self, program):
        # Rows 1 to 5 of 8 columns: the nib has five columns and rows.
        wide, line = f"{long_pen(5, 0x10000)}; move 0 3; line 8 3", "move 0 3; line 8 3"
        self.check(program, EMF, wide, black(range(8), range(1, 6)), frame=8, surface=EIGHT)
        self.check_counts(program, file_of(EMF, wide), EIGHT, 40, 40)
        certificate = Certificate(8, 8, 40, 0, 2, 2, 0, (Entry(4, 0, 3, 8, 3, 5, 5),))
        self.assertEqual(self.certificate(program, file_of(EMF, wide)), certificate.text(b"MPC2"))
        for style in (0, 0x20000, 0xFFFE0000):
            narrow = f"{long_pen(5, style)}; {line}"
            self.check(program, EMF, narrow, black(range(8), [3]), frame=8, surface=EIGHT)
            self.check_counts(program, file_of(EMF, narrow), EIGHT, 8, 8)
            certificate = Certificate(8, 8, 8, 0, 2, 2, 0, (Entry(4, 0, 3, 8, 3),))
            self.assertEqual(self.certificate(program, file_of(EMF, narrow)), certificate.text(b"MPC1"))
        self.check(program, EMF, f"{long_pen(0xFFFFFFFF, 0x10000)}; {line}", refused("NibTooWide", 4), frame=8, surface=EIGHT)
        self.check(program, EMF, f"{long_pen(0xFFFFFFFF, 0)}; {line}", black(range(8), [3]), frame=8, surface=EIGHT)

    @for_each_program
    def test_a_pen_that_draws_nothing_has_no_nib(self, program):
        for width in (5000, -5000):
            for form in FORMS:
                script = f"{pen(width, style=5)}; move 2 4; line 6 4; polyline; rectangle 1 1 1 1"
                self.check(program, form, script, black([], []), frame=8, surface=EIGHT)
        given = file_of(WMF, f"{pen(5000, style=5)}; move 2 4; line 6 4")
        certificate = Certificate(8, 8, 0, 0, 1, 2, 0, (Entry(3, 2, 4, 6, 4),))
        self.assertEqual(self.certificate(program, given), certificate.text(b"MPC1"))
        long = "styled_long_pen 0 0x10000 5000 1 0; select 0; move 2 4; line 6 4"
        self.check(program, EMF, long, black([], []), frame=8, surface=EIGHT)


class TooWide(WideTest):
    """Which drawings a nib is too wide for."""

    def check_too_wide(self, program, form, script):
        """Behind a pen one unit wider than any nib the last of some records is refused, and by one of the widest none is."""
        last = form.first + len(form.records(f"{pen(1)}; {script}")) - 1
        with self.subTest(script=script):
            given = form.file(form.records(f"{pen(4097)}; {script}"), 16, HANDLES)
            self.assertEqual(self.prepared(program, given, (16, 16)), refused("NibTooWide", last))
            given = form.file(form.records(f"{pen(4096)}; {script}"), 16, HANDLES)
            self.assertEqual(self.certificate(program, given, (16, 16))[:4], b"MPC2")

    @for_each_program
    def test_each_drawing_with_a_stroke(self, program):
        scripts = ["line 3 3", "polyline 1 1 3 3", "polygon 1 1 3 1 3 3", "rectangle 1 1 3 3"]
        for form in FORMS:
            for script in scripts:
                self.check_too_wide(program, form, script)
        figure = "begin_path; move 1 1; line 3 3; end_path"
        for script in ("polyline_to 3 3", "polylines 1 1 3 3 | 5 5 6 6", f"{figure}; stroke_path", f"{figure}; stroke_and_fill_path"):
            self.check_too_wide(program, EMF, script)

    @for_each_program
    def test_those_without_a_point_or_a_pixel_too(self, program):
        for form in FORMS:
            for script in ("polyline", "polygon", "polyline 90 90", "polyline 90 90 99 99"):
                self.check_too_wide(program, form, script)
        self.check_too_wide(program, WMF, "rectangle 2 2 2 5")
        for script in ("polyline_to", "polylines", "begin_path; end_path; stroke_path", "begin_path; end_path; stroke_and_fill_path"):
            self.check_too_wide(program, EMF, script)
        for form in FORMS:
            self.check_cases(program, form, [(f"{pen(4097)}; polyline", "NibTooWide"), (f"{pen(4096)}; polyline", None)])

    @for_each_program
    def test_a_drawing_without_a_point_has_its_nib_in_its_entry(self, program):
        given = file_of(WMF, f"{pen(3)}; polyline")
        certificate = Certificate(8, 8, 0, 0, 1, 0, 0, (Entry(2, 0, 0, -1, -1, 3, 3),))
        self.assertEqual(self.certificate(program, given), certificate.text(b"MPC2"))
        self.check_checked(program, given, certificate.text(b"MPC1"), ("NibTooSmall", 47, 2))

    @for_each_program
    def test_no_drawing_without_a_stroke(self, program):
        blit = f"pat_blt {PATCOPY} 1 1 3 3"
        for form in FORMS:
            for script in ("pixel 3 3", blit):
                given = form.file(form.records(f"{pen(4097)}; {script}"), 16, HANDLES)
                self.assertEqual(self.certificate(program, given, (16, 16))[:4], b"MPC1")
        fill = f"{pen(4097)}; begin_path; move 1 1; line 9 1; line 9 9; end_path; fill_path"
        self.assertEqual(self.certificate(program, EMF.file(EMF.records(fill), 16, HANDLES), (16, 16))[:4], b"MPC1")

    @for_each_program
    def test_what_an_open_path_gathers_has_none_yet(self, program):
        shapes = "line 3 3; polyline 1 1 3 3; polygon 1 1 3 1 3 3; rectangle 1 1 3 3"
        self.check_cases(program, EMF, [(f"{pen(4097)}; begin_path; {shapes}; abort_path", None)])

    @for_each_program
    def test_a_place_off_the_plane_comes_first(self, program):
        far = (1 << 28) + 1
        for script in (f"line {far} 0", f"polyline 0 0 {far} 0", f"rectangle 0 0 1 {far}", f"polyline_to 0 {-far}"):
            self.check_cases(program, EMF, [(f"{pen(4097)}; {script}", "OffPlane"), (f"{pen(4097)}; select_at 0x80000008; {script}", "OffPlane")])
        self.check_cases(program, EMF, [(f"{pen(4097)}; stroke_path", "PathState")])


class Nibs(WideTest):
    """Nibs of all sorts of sides, worked by hand."""

    @for_each_program
    def test_even_sides_reach_one_farther_behind(self, program):
        # Two by two, at the side of the frame; on twelve rows two by three, where the line lies in row 6.
        script = f"{pen(2)}; move 2 4; line 6 4"
        for form in FORMS:
            self.check(program, form, script, black(range(2, 7), range(4, 6)), frame=8, surface=EIGHT)
            self.check(program, form, script, black(range(2, 7), range(5, 8), (8, 12)), frame=8, surface=(8, 12))
        self.check_counts(program, file_of(WMF, script), EIGHT, 10, 12)
        self.check_counts(program, file_of(WMF, script), (8, 12), 15, 18)
        # Four by four: one before, and two behind.
        script = f"{pen(4)}; move 2 4; line 5 4"
        self.check_drawings(program, {script: "........ " * 3 + ".######. " * 4 + "........ "})

    @for_each_program
    def test_one_column_of_nine_rows(self, program):
        # A page unit is nine rows high: the line lies in row 9, and the nib reaches four rows to either side.
        script = f"map_mode 8; window_extent 1 1; viewport_extent 1 9; {pen(1)}; move 2 1; line 5 1"
        for form in FORMS:
            self.check(program, form, script, black(range(2, 5), range(5, 14), (16, 16)))
            self.check_counts(program, form.file(form.records(script), 16, HANDLES), (16, 16), 27, 36)

    @for_each_program
    def test_nine_columns_of_one_row(self, program):
        script = f"map_mode 8; window_extent 1 1; viewport_extent 9 1; {pen(1)}; move 1 2; line 1 5"
        for form in FORMS:
            self.check(program, form, script, black(range(5, 14), range(2, 5), (16, 16)))

    @for_each_program
    def test_sloping_lines(self, program):
        pictures = {
            # The line has (1,1), (2,2), (3,3) and (4,4).
            f"{pen(3)}; move 1 1; line 5 5": "###..... ####.... #####... .#####.. ..####.. ...###.. ........ ........",
            # It has (2,1), (2,2), (3,3) and (3,4); and back from its end (3,5), (3,4), (3,3) and (2,2).
            f"{pen(2)}; move 2 1; line 3 5": "........ ..##.... ..##.... ..###... ...##... ...##... ........ ........",
            f"{pen(2)}; move 3 5; line 2 1": "........ ........ ..##.... ..###... ...##... ...##... ...##... ........",
            # It has (1,2), (2,2), (3,3) and (4,3).
            f"{pen(2)}; move 1 2; line 5 3": "........ ........ .###.... .#####.. ...###.. ........ ........ ........",
            f"{pen(2)}; move 5 5; line 1 5": "........ ........ ........ ........ ........ ..#####. ..#####. ........",
        }
        self.check_drawings(program, pictures)

    @for_each_program
    def test_a_line_without_a_step_has_no_pixel(self, program):
        nothing = empty("........ " * 8)
        for width in (2, 3, 4096):
            for script in ("move 4 4; line 4 4", "polyline 4 4", "polyline 4 4 4 4"):
                self.check_drawings(program, {f"{pen(width)}; {script}": nothing})

    @for_each_program
    def test_joins_are_those_that_the_nib_makes(self, program):
        # Columns 2 to 5 of row 2, then rows 2 to 5 of column 6, each with one pixel round it.
        rows = "......... " + ".#######. " * 3 + ".....###. " * 3 + "......... " * 2
        self.check_drawings(program, {f"{pen(3)}; polyline 2 2 6 2 6 6": rows})

    @for_each_program
    def test_rectangles(self, program):
        # The rim is that of columns and rows 3 to 7, of which one pixel is left in the middle.
        ring = ["." * 10] * 2 + ["..#######."] * 3 + ["..###o###."] + ["..#######."] * 3 + ["." * 10]
        for form, right in ((WMF, 8), (EMF, 7)):
            script = f"{pen(3)}; solid_brush 1 0xFF0000; select 1; rectangle 3 3 {right} {right}"
            self.check(program, form, script, drawing(" ".join(ring)), frame=10, surface=(10, 10))

    @for_each_program
    def test_a_rectangle_of_one_pixel_has_no_stroke(self, program):
        rows = "........ " * 3 + "...o.... " + "........ " * 4
        for form, right in ((WMF, 4), (EMF, 3)):
            script = f"{pen(3)}; solid_brush 1 0xFF0000; select 1; rectangle 3 3 {right} {right}"
            self.check_drawings(program, {script: rows}, forms=[form])


class Once(WideTest):
    """A stroke writes each pixel once, by the raster operation of the moment and within the clip."""

    @for_each_program
    def test_a_line_there_and_back(self, program):
        # Columns 2 to 5 of row 4, and 6 to 3 of it.
        script = f"{pen(3)}; {INVERT}; polyline 2 4 6 4 2 4"
        for form in FORMS:
            self.check(program, form, script, black(range(1, 8), range(3, 6)), frame=8, surface=EIGHT)
            self.check_counts(program, file_of(form, script), EIGHT, 21, 21)

    @for_each_program
    def test_records_are_apart(self, program):
        # Columns 1 to 6 and 2 to 7 of rows 3 to 5: what both have is turned twice.
        script = f"{pen(3)}; {INVERT}; move 2 4; line 6 4; line 2 4"
        rows = "........ " * 3 + ".#.....# " * 3 + "........ " * 2
        self.check_drawings(program, {script: rows})

    @for_each_program
    def test_lines_that_cross(self, program):
        # Row 3 from column 1 on, and column 3 from row 1 on, two pixels wide; what both have is turned once.
        script = f"{pen(2)}; {INVERT}; polylines 1 3 6 3 | 3 1 3 6"
        rows = "........ ...##... ...##... .######. .######. ...##... ...##... ........"
        self.check_drawings(program, {script: rows}, forms=[EMF])

    @for_each_program
    def test_fill_and_stroke_each_turn_what_is_there(self, program):
        # The fill has columns and rows 2 to 5. The stroke has 1 to 7, but not the middle one, which is alone turned by the fill, and turns the fill's
        # others back.
        script = f"{pen(3)}; {INVERT}; polygon 2 2 6 2 6 6 2 6"
        rows = ".......... .#######.. .#....##.. .#....##.. .#..#.##.. .#....##.. .#######.. .#######.. .......... .........."
        self.check_drawings(program, {script: rows})

    @for_each_program
    def test_within_the_clip(self, program):
        for form in FORMS:
            kept = f"{pen(3)}; keep 2 0 5 5; move 2 4; line 6 4"
            self.check(program, form, kept, black(range(2, 5), range(3, 5)), frame=8, surface=EIGHT)
            cut = f"{pen(3)}; cut 2 0 8 4; move 2 4; line 6 4"
            wanted = shown({(x, y): BLACK for x in range(1, 7) for y in range(3, 6) if x < 2 or y > 3}, 8, 8)
            self.check(program, form, cut, wanted, frame=8, surface=EIGHT)


class Maps(WideTest):
    """Nibs by the page map of the moment."""

    @for_each_program
    def test_both_signs_of_extents(self, program):
        # Column x lands in 8 - x, row y in 8 - y. The line goes from (6,4) to (2,4), so it has columns 6 to 3. A nib isn't mirrored.
        turned = [
            "window_extent 8 8; viewport_extent -8 -8; viewport_origin 8 8",
            "window_extent -8 -8; viewport_extent 8 8; viewport_origin 8 8",
            "window_extent -8 8; viewport_extent 8 -8; viewport_origin 8 8",
        ]
        for front in turned:
            for form in FORMS:
                for width, wanted in [(3, black(range(2, 8), range(3, 6))), (2, black(range(3, 8), range(4, 6)))]:
                    self.check(program, form, f"map_mode 8; {front}; {pen(width)}; move 2 4; line 6 4", wanted, frame=8, surface=EIGHT)
        same = "map_mode 8; window_extent -8 -8; viewport_extent -8 -8"
        for form in FORMS:
            self.check(program, form, f"{same}; {pen(2)}; move 2 4; line 6 4", black(range(2, 7), range(4, 6)), frame=8, surface=EIGHT)

    @for_each_program
    def test_sides_are_rounded_down_once(self, program):
        # floor(5 * 3 * 8 / (2 * 8)) is 7 columns, and floor(5 * 1 * 8 / (4 * 8)) is 1 row. The line has columns 3 to 5 of row 1.
        script = f"map_mode 8; window_extent 2 4; viewport_extent 3 1; {pen(5)}; move 2 4; line 4 4"
        for form in FORMS:
            self.check(program, form, script, black(range(8), [1]), frame=8, surface=EIGHT)
        # floor(3 * 7 / 8) is 2: the width isn't rounded on the plane. At seven by seven the line has columns 1 to 4 of row 3.
        for form in FORMS:
            wanted = black(range(1, 6), range(3, 5), (7, 7))
            self.check(program, form, f"{pen(3)}; move 2 4; line 6 4", wanted, frame=8, surface=(7, 7))

    @for_each_program
    def test_a_path_takes_the_map_of_its_painting(self, program):
        figure = "begin_path; move 2 4; line 6 4; end_path"
        narrow, wide = black(range(2, 6), [4]), black(range(1, 7), range(3, 6))
        plain = "map_mode 8; window_extent 1 1; viewport_extent 1 1"
        for script, wanted in [
            (f"{plain}; {pen(1)}; {figure}; viewport_extent 3 3; stroke_path", wide),
            (f"{plain}; {pen(3)}; {figure}; window_extent 3 3; stroke_path", narrow),
            (f"{plain}; {pen(3)}; {figure}; viewport_origin 5 5; stroke_path", wide),
            (f"{plain}; {pen(3)}; {figure}; save; window_extent 3 3; restore -1; stroke_path", wide),
            # The pen is that of the painting, too.
            (f"{figure}; {pen(3)}; stroke_path", wide),
            (f"{pen(3)}; {figure}; select_at 0x80000007; stroke_path", narrow),
        ]:
            self.check(program, EMF, script, wanted, frame=8, surface=EIGHT)

    @for_each_program
    def test_a_path_s_nib_in_its_certificate(self, program):
        # Records 1 to 10, of which the last paints: the box meets 5 columns and 1 row, and the nib reaches 2 more of each.
        script = f"map_mode 8; {pen(1)}; begin_path; move 2 4; line 6 4; end_path; window_extent 1 1; viewport_extent 3 3; stroke_path"
        made = self.certificate(program, file_of(EMF, script))
        certificate = Certificate(8, 8, 21, 0, 2, 2, 2, (Entry(10, 2, 4, 6, 4, 3, 3),))
        self.assertEqual(made, certificate.text())

    @for_each_program
    def test_a_pen_takes_the_map_of_each_drawing(self, program):
        plain = "map_mode 8; window_extent 1 1; viewport_extent 1 1"
        # The second line goes from (3,6) to (6,6).
        script = f"{plain}; {pen(1)}; polyline 1 1 4 1; viewport_extent 3 3; polyline 1 2 2 2"
        rows = "........ .###.... ........ ........ ........ ..#####. ..#####. ..#####."
        self.check_drawings(program, {script: rows})


class Beside(WideTest):
    """Lines beside the surface, from which a nib may reach it."""

    @for_each_program
    def test_above(self, program):
        # Row -1 of columns 2 to 5: the nib reaches row 0.
        script = f"{pen(3)}; move 2 -1; line 6 -1"
        for form in FORMS:
            self.check(program, form, script, black(range(1, 7), [0]), frame=8, surface=EIGHT)
            self.check_counts(program, file_of(form, script), EIGHT, 6, 14)

    @for_each_program
    def test_each_side(self, program):
        for width, places in {
            # How many rows or columns are reached from each place: those of 2 reach one farther behind, of 3 one to either side, of 4 one before and
            # two behind, and of 5 two to either side.
            2: {-2: [], -1: [0], 7: [7], 8: []},
            3: {-2: [], -1: [0], 8: [7], 9: []},
            4: {-3: [], -2: [0], -1: [0, 1], 8: [7], 9: []},
            5: {-3: [], -2: [0], -1: [0, 1], 8: [6, 7], 9: [7], 10: []},
        }.items():
            for place, reached in places.items():
                for form in FORMS:
                    across = f"{pen(width)}; move -9 {place}; line 19 {place}"
                    self.check(program, form, across, black(range(8), reached), frame=8, surface=EIGHT)
                    down = f"{pen(width)}; move {place} -9; line {place} 19"
                    self.check(program, form, down, black(reached, range(8)), frame=8, surface=EIGHT)

    @for_each_program
    def test_a_corner(self, program):
        # The line has (-2,-1) alone, and the nib of five reaches column 0 of rows 0 and 1. Of three it doesn't reach column 0.
        for form in FORMS:
            self.check(program, form, f"{pen(5)}; move -2 -1; line -1 -1", black([0], [0, 1]), frame=8, surface=EIGHT)
            self.check(program, form, f"{pen(3)}; move -2 -1; line -1 -1", black([], []), frame=8, surface=EIGHT)

    @for_each_program
    def test_rows_of_other_bands(self, program):
        # Each row of a line, with a nib that reaches two rows of the bands before and behind.
        for row in range(8):
            rows = range(max(0, row - 2), min(8, row + 3))
            self.check(program, WMF, f"{pen(5)}; move 2 {row}; line 4 {row}", black(range(6), rows), frame=8, surface=EIGHT)


class Rule(unittest.TestCase):
    """The reference beside the rule for one pixel."""

    def has(self, lines, x, y, nib):
        """Whether a pixel of some line has the pixel in the nib's box around it."""
        (left, right), (above, below) = map(reach, nib)
        box = [(u, v) for u in range(x - right, x + left + 1) for v in range(y - below, y + above + 1)]
        return any(is_on_line(start, end, u, v) for start, end in lines for u, v in box)

    def test_what_lies_before_and_behind(self):
        self.assertEqual([reach(count) for count in range(1, 6)], [(0, 0), (0, 1), (1, 1), (1, 2), (2, 2)])

    def test_lines_at_random(self):
        chance, covered = random.Random(34), 0
        for _ in range(400):
            points = [(chance.randint(-6, 14), chance.randint(-6, 14)) for _ in range(chance.randint(1, 3))]
            nib = chance.randint(1, 7), chance.randint(1, 7)
            for x in range(8):
                for y in range(0, 8, 3):
                    lines = opened(points)
                    is_there = self.has(lines, x, y, nib)
                    covered += is_there
                    self.assertEqual(is_stroked(lines, x, y, nib), is_there, (points, nib, x, y))
        self.assertGreater(covered, 1000)


if __name__ == "__main__":
    unittest.main()
