"""The calls of the library for C at every width and every height of a surface, and with certificates and buffers of every length that is cheap: none gives
up at one of them, and each answers what was worked out by hand."""

import itertools
import unittest

from built import DOT
from c_library import SHOW, check, fault_name, fitted, plain, play, prepare, prepare_print, rejected, terms_of
from c_library_test import CODES
from commands_test import DOT_CERT
from metafile.fields import u32
from metafile.scripts import WMF

MOST_SIDE = 8192

# How many drawings a file has at most where each smaller number is tried, and how many bytes a certificate that is cut short.
MOST_DRAWINGS, MOST_CUT = 1500, 8192

# Greater numbers of drawings.
MANY_DRAWINGS = [*range(2_000, 10_001, 1_000), 4095, 4096, 4097, 8191, 8192, 8193, 16_383, 16_384, 32_768, 65_536, 100_000]

# How many bytes follow a file's end at most, and the sides of the largest square of which each is played, and of the largest oblong.
MOST_MORE, MOST_SQUARE, MOST_OBLONG = 1 << 16, 1_024, 64

# What a certificate of the print profile has behind its signature where nothing is allowed.
NOTHING_ALLOWED = u32(0)


def dot_image(width, height):
    """The picture of the file with one pixel at (2,1) of 4 by 4, which lands at floor(2 * width / 4) and floor(height / 4): red on white."""
    place = 3 * (height // 4 * width + width // 2)
    return b"\xff" * (place + 1) + b"\0\0" + b"\xff" * (3 * width * height - place - 3)


def dot_certificate(width, height):
    """Its certificate: one entry, of record 0, whose box is that pixel. It writes one pixel, and needs nothing else."""
    return b"MPC1" + u32(width, height) + DOT_CERT[12:]


def surfaces():
    """Each width of a surface one row high, and each height of one column."""
    for side in range(1, MOST_SIDE + 1):
        yield side, 1
        yield 1, side


def pixels(count, wide=False):
    """A file of so many pixels at (1,0) on a frame of 4 by 4, behind a line that is 5 wide if that is asked for."""
    line = WMF.records("styled_pen 0 0 5 0; select 0; move 1 1; line 1 1") if wide else []
    return WMF.file([*line, *[WMF.step("pixel", 1, 0)] * count], 4, 1)


class Sizes(unittest.TestCase):
    """Surfaces."""

    def test_prepare_at_each_width_and_height(self):
        for sides in surfaces():
            wanted = dot_certificate(*sides)
            told, buffer = prepare(DOT, sides, len(wanted))
            self.assertEqual((told, buffer.written(len(wanted))), (plain(SHOW.DONE, len(wanted)), wanted), sides)

    def test_prepare_print_at_each_width_and_height(self):
        for sides in surfaces():
            told, buffer = prepare_print(DOT, 0, sides, 44 + 24)
            self.assertEqual(told, plain(SHOW.DONE, 44 + 24), sides)
            self.assertEqual(buffer.written(44 + 24)[:16], b"MPC3" + NOTHING_ALLOWED + u32(*sides), sides)

    def test_play_at_each_width_and_height(self):
        certificate = dot_certificate(MOST_SIDE, MOST_SIDE)
        fine, buffer = prepare_print(DOT, 0, (MOST_SIDE, MOST_SIDE), 44 + 24)
        self.assertEqual(fine, plain(SHOW.DONE, 44 + 24))
        for sides in surfaces():
            wanted = dot_image(*sides)
            for given in (certificate, buffer.written(44 + 24)):
                told, image = play(DOT, given, sides, len(wanted))
                self.assertEqual(told, plain(SHOW.DONE, len(wanted)), sides)
                self.assertTrue(image.written(len(wanted)) == wanted, sides)

    def test_play_at_each_square_and_each_small_oblong(self):
        certificate = dot_certificate(MOST_SIDE, MOST_SIDE)
        oblongs = itertools.product(range(1, MOST_OBLONG + 1), repeat=2)
        for sides in (*oblongs, *((side, side) for side in range(1, MOST_SQUARE + 1))):
            wanted = dot_image(*sides)
            told, image = play(DOT, certificate, sides, len(wanted))
            self.assertEqual(told, plain(SHOW.DONE, len(wanted)), sides)
            self.assertTrue(image.written(len(wanted)) == wanted, sides)

    def test_fitted_sides_at_each_width_and_height(self):
        # The frame is a square.
        for side in range(1, MOST_SIDE + 1):
            for sides in ((side, side), (side, MOST_SIDE), (MOST_SIDE, side)):
                self.assertEqual(fitted(DOT, *sides), (plain(SHOW.DONE), (side, side)))


class Lengths(unittest.TestCase):
    """Certificates and buffers."""

    def test_certificates_of_each_length(self):
        # Entries of 20 bytes, of 24 in a certificate with a wide pen, and under the print profile.
        for count in (*range(MOST_DRAWINGS), *MANY_DRAWINGS):
            for given, length, made in [
                (pixels(count), 40 + 20 * count, prepare),
                (pixels(count, wide=True), 40 + 24 * (count + 1), prepare),
                (pixels(count), 44 + 24 * count, lambda given, sides, length: prepare_print(given, 0, sides, length)),
            ]:
                told, buffer = made(given, (4, 4), length)
                self.assertEqual(told, plain(SHOW.DONE, length), count)
                certificate = buffer.written(length)
                self.assertEqual(check(given, certificate), plain(SHOW.DONE), count)
                terms, (_, *bound) = terms_of(certificate)
                self.assertEqual((terms, bound), (plain(SHOW.DONE), [4, 4]), count)
                told, image = play(given, certificate, (4, 4), 48)
                self.assertEqual((told, len(image.written(48))), (plain(SHOW.DONE, 48), 48), count)
                told, buffer = made(given, (4, 4), length - 1)
                self.assertEqual((told, buffer.written(0)), (plain(SHOW.TOO_SHORT, length), b""), count)

    def test_certificates_that_end_anywhere(self):
        # A certificate of 600 entries, and its beginnings: without its signature, without its head, and without all entries.
        given = pixels(600)
        _, buffer = prepare(given, (4, 4), 40 + 20 * 600)
        whole = buffer.written(40 + 20 * 600)
        for length in range(MOST_CUT):
            fault = "NotCertificate" if length < 4 else "ShortCertificate"
            self.assertEqual(check(given, whole[:length]), rejected(CODES[fault]), length)
            self.assertEqual(terms_of(whole[:length])[0], rejected(CODES[fault]), length)
            told, image = play(given, whole[:length], (4, 4), 48)
            self.assertEqual((told, image.written(0)), (rejected(CODES[fault]), b""), length)
        for more in range(1, MOST_CUT):
            self.assertEqual(check(given, whole + bytes(more)), rejected(CODES["TrailingBytes"]), more)

    def test_buffers_of_each_length(self):
        wanted, certificate = dot_image(16, 16), dot_certificate(16, 16)
        for length in range(len(wanted) + 64):
            told, image = play(DOT, certificate, (16, 16), length)
            done = length >= len(wanted)
            self.assertEqual(told, plain(SHOW.DONE if done else SHOW.TOO_SHORT, len(wanted)), length)
            self.assertEqual(image.written(len(wanted) if done else 0), wanted if done else b"", length)
            told, name = fault_name(CODES["BadBound"], length)
            done = length >= len("BadBound")
            self.assertEqual(told, plain(SHOW.DONE if done else SHOW.TOO_SHORT, len("BadBound")), length)
            self.assertEqual(name.written(8 if done else 0), b"BadBound" if done else b"", length)

    def test_files_of_each_length(self):
        # A record is skipped after the end, and so is what isn't even a record.
        certificate, wanted = dot_certificate(4, 4), dot_image(4, 4)
        for more in range(MOST_MORE):
            given = DOT + bytes(more)
            self.assertEqual(check(given, certificate), plain(SHOW.DONE), more)
            told, buffer = prepare(given, (4, 4), len(certificate))
            self.assertEqual((told, buffer.written(len(certificate))), (plain(SHOW.DONE, len(certificate)), certificate), more)
            told, image = play(given, certificate, (4, 4), len(wanted))
            self.assertEqual((told, image.written(len(wanted))), (plain(SHOW.DONE, len(wanted)), wanted), more)


if __name__ == "__main__":
    unittest.main()
