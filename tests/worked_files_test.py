"""Small files, whole and broken, with results worked by hand: their images, how many pixels they write, and their faults."""

import unittest

from built import DOT
from metafile.bitmaps import WHITE
from metafile.fields import BLACK, BLUE, RED
from metafile.scripts import WMF
from request_program import COUNT, PLAY, PREPARE, PROGRAMS, asked, replies
from small_certificates_test import CERTIFICATE, POLYGON

FOUR = (4, 4)

# The headers of the dot.
HEADERS = DOT[:40]


def changed(place, given):
    """The dot with other bytes from a place on."""
    return DOT[:place] + given + DOT[place + len(given) :]


def image(rows):
    """The samples of rows of colours."""
    return b"".join(bytes(colour) for row in rows for colour in row)


def text(sides, samples):
    """An image in P6."""
    return b"P6\n%d %d\n255\n" % sides + samples


class WorkedFile(unittest.TestCase):
    """What the program that answers requests returns for a file."""

    def certificate(self, program, given, sides=FOUR):
        """The certificate of a file that is accepted."""
        [(line, found)] = replies(program, [asked(PREPARE, sides, given)])
        self.assertEqual(line, f"prepared {len(found)}")
        return found

    def check_played(self, given, writes, rows, over=WHITE):
        """A file is played by its certificate over a colour: it writes so many pixels, and the image has these rows of colours."""
        sides = len(rows[0]), len(rows)
        for program in PROGRAMS:
            request = asked(PLAY, sides, given, self.certificate(program, given, sides), image([[over] * sides[0]] * sides[1]))
            self.assertEqual(replies(program, [request]), [(f"played {writes}", text(sides, image(rows)))])

    def check_counted(self, given, writes, sides=FOUR):
        """A file writes so many pixels."""
        for program in PROGRAMS:
            request = asked(COUNT, sides, given, self.certificate(program, given, sides))
            self.assertEqual(replies(program, [request]), [(f"wrote {writes}", b"")])

    def check_refused(self, refusals, sides=FOUR):
        """No file has a certificate, because of its fault."""
        for program in PROGRAMS:
            found = replies(program, [asked(PREPARE, sides, given) for given, _ in refusals])
            self.assertEqual(found, [(fault, b"") for _, fault in refusals])


def dot(colour, place, sides=FOUR):
    """Rows of a colour, but red at a place."""
    return [[RED if (x, y) == place else colour for x in range(sides[0])] for y in range(sides[1])]


W, B, K, R = WHITE, BLUE, BLACK, RED


class Dot(WorkedFile):
    """The dot, and what is made of it."""

    def test_a_dot_is_one_red_pixel(self):
        self.check_played(DOT, 1, dot(WHITE, (2, 1)))
        # The text has 59 bytes. After the first eleven all are 255, but those at 30 and 31 are 0.
        for program in PROGRAMS:
            request = asked(PLAY, FOUR, DOT, self.certificate(program, DOT), b"\xff" * 48)
            [(_, found)] = replies(program, [request])
            self.assertEqual((len(found), found[11:]), (59, bytes(0 if k in (30, 31) else 255 for k in range(11, 59))))

    def test_a_dot_moves_with_the_surface(self):
        self.check_played(DOT, 1, [[W, R], [W, W]])

    def test_each_change_of_a_file_has_its_fault(self):
        changes = [
            (0, b"\xd6", "NotMetafile"),
            (22, b"\x03", "BadHeader"),
            (23, b"\x01", "BadHeader"),
            (24, b"\x08", "BadHeader"),
            (26, b"\x01", "BadHeader"),
            (27, b"\x02", "BadHeader"),
            (10, b"\x00", "NoFrame"),
            (12, b"\x00", "NoFrame"),
            (40, b"\x00", "ShortRecord at record 0"),
            (40, b"\x02", "ShortRecord at record 0"),
            (40, b"\x0b", "PastEnd at record 0"),
            (40, b"\xff\xff\xff\xff", "PastEnd at record 0"),
            (40, b"\x06", "BadParams at record 0"),
            (44, b"\x32\x0a", "Unsupported 2610 at record 0"),
            (49, b"\x01", "PaletteColour at record 0"),
            (54, b"\x02", "ShortRecord at record 1"),
        ]
        self.check_refused([(changed(place, given), fault) for place, given, fault in changes])

    def test_a_refusal_shows_its_record(self):
        unsupported = HEADERS + DOT[40:54] * 3 + changed(44, b"\x32\x0a")[40:]
        self.check_refused([(b"", "NotMetafile"), (changed(40, b"\x0b"), "PastEnd at record 0"), (unsupported, "Unsupported 2610 at record 3")])

    def test_what_the_standard_allows_is_played(self):
        # A file in memory or on disk, both versions, the other type of colour, and bytes that are ignored.
        for place, given in [(22, b"\x02"), (26, b"\x00\x01"), (49, b"\x02"), (20, b"\x00\x00"), (32, b"\xff\xff\xff\xff")]:
            self.check_played(changed(place, given), 1, dot(WHITE, (2, 1)))

    def test_a_pixel_off_the_surface_is_not_written(self):
        # y, then x: beyond the right, the bottom, the left and the top.
        for given in [b"\x01\x00\x04\x00", b"\x04\x00\x02\x00", b"\x01\x00\xff\xff", b"\xff\xff\x02\x00"]:
            self.check_played(changed(50, given), 0, [[WHITE] * 4] * 4)

    def test_the_later_of_two_writes_wins_and_both_count(self):
        given = WMF.file(WMF.records("pixel 2 1; blue 2 1"), 4, 0)
        self.check_played(given, 2, [[B if (x, y) == (2, 1) else W for x in range(4)] for y in range(4)])

    def test_bytes_after_the_end_are_not_read(self):
        self.check_counted(HEADERS + b"\x03\x00\x00\x00\x00\x00\xff\xff\xff", 0)

    def test_a_box_with_flipped_dimensions_mirrors(self):
        # Left 4, top 4, right 0, bottom 0: x = 2 lands in column 2, and y = 1 in row 3.
        self.check_played(changed(6, b"\x04\x00\x04\x00\x00\x00\x00\x00"), 1, dot(WHITE, (2, 3)))

    def test_a_point_far_outside_is_off_the_plane(self):
        # The box (-32768, 0, -32767, 1) is one unit wide; x = 32767 is 65,535 units from its left, and 65,535 times 8,192 is above 2^28. On a surface
        # of 4,096 it fits.
        headers = changed(6, b"\x00\x80\x00\x00\x01\x80\x01\x00")[:40]
        given = headers + b"".join(WMF.records("pixel 32767 0")) + WMF.end
        self.check_refused([(given, "OffPlane at record 0")], (8192, 1))
        self.check_counted(given, 0, (4096, 1))


class OverImages(WorkedFile):
    """Files that are played over an image."""

    def test_a_dot_leaves_the_rest(self):
        # It writes one pixel each time.
        self.check_played(DOT, 1, dot(BLUE, (2, 1)), BLUE)
        for program in PROGRAMS:
            certificate, before = self.certificate(program, DOT), image([[BLUE] * 4] * 4)
            for _ in range(3):
                [(line, found)] = replies(program, [asked(PLAY, FOUR, DOT, certificate, before)])
                self.assertEqual((line, found), ("played 1", text(FOUR, image(dot(BLUE, (2, 1))))))
                before = found[-48:]


class Cleared(WorkedFile):
    """A polygon that is played by a certificate on surfaces within its bound."""

    def test_a_polygon_plays_at_its_bound_over_what_is_there(self):
        self.check_played(POLYGON, 16, [[K, K, K, K], [K, W, B, K], [K, B, K, B], [K, K, B, B]], BLUE)

    def test_a_polygon_plays_on_a_smaller_surface(self):
        for program in PROGRAMS:
            request = asked(PLAY, (2, 2), POLYGON, CERTIFICATE, image([[BLUE] * 2] * 2))
            self.assertEqual(replies(program, [request]), [("played 5", text((2, 2), image([[BLACK] * 2] * 2)))])

    def test_one_certificate_plays_at_each_size_within_it(self):
        for program in PROGRAMS:
            certificate = self.certificate(program, POLYGON, (64, 48))
            most = int.from_bytes(certificate[12:20], "little")
            requests = [asked(COUNT, sides, POLYGON, certificate) for sides in [(1, 1), (64, 48), (63, 1), (1, 47), (17, 31)]]
            for line, _ in replies(program, requests):
                wrote, writes = line.split()
                self.assertEqual(wrote, "wrote")
                self.assertLessEqual(int(writes), most)


if __name__ == "__main__":
    unittest.main()
