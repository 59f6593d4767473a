"""The library for C plays rows of an image, and over an image: each byte is that of the built program, and no other changes."""

import pathlib
import random
import sys
import tempfile
import unittest

from built import DOT, ROOT, SAMPLES, answer
from c_library import HELD, SHOW, check, library, plain, play, play_over, play_rows, rejected
from c_library_test import CODES, HELD_OBJECT, NAMES, NO_SIDES, PROGRAM, certificate_of, shown
from commands_test import DOT_CERT
from metafile.scripts import EMF

sys.path.append(str(ROOT / "bench"))

from chance import Sort  # noqa: E402

SIDES = WIDTH, HEIGHT = 96, 80

# How many files of random drawings are played, and on which surfaces by turns.
RANDOM_FILES, SURFACES = 24, [(100, 64), (64, 100), (257, 40), (16, 300), (129, 130), (31, 31)]

PLAYED = [name for name in NAMES if name != HELD_OBJECT]

PRINT = ["--profile", "print"]


def with_rows(samples, width, rows, before):
    """What a buffer holds, by its bytes before and the samples of the whole image: each row at its place, and between them what was there."""
    first, count, stride = rows
    buffer = bytearray(before)
    for row in range(count):
        buffer[row * stride : row * stride + 3 * width] = samples[3 * width * (first + row) : 3 * width * (first + row + 1)]
    return bytes(buffer)


def noise(sides):
    """The samples of an image of noise."""
    return random.Random(3).randbytes(3 * sides[0] * sides[1])


def put_over(given, certificate, sides, image):
    """The samples that the built program's `over` makes of an image."""
    with tempfile.TemporaryDirectory() as room:
        paths = [pathlib.Path(room, name) for name in ("file", "certificate", "image")]
        for path, contents in zip(paths, (given, certificate, b"P6\n%d %d\n255\n" % sides + image), strict=True):
            path.write_bytes(contents)
        return answer(PROGRAM, ["over", *paths]).out.split(b"\n255\n", 1)[1]


class Rows(unittest.TestCase):
    """Rows of an image."""

    def check_rows(self, given, certificate, samples, sides, rows):
        """What the call answers for some rows, and what the buffer then has."""
        width, height = sides
        first, count, stride = rows
        needed = stride * (count - 1) + 3 * width
        for length in (needed, needed + len(HELD)):
            told, buffer = play_rows(given, certificate, (width, height, *rows), length)
            self.assertEqual(told, plain(SHOW.DONE, needed))
            self.assertTrue(buffer.bytes.raw == with_rows(samples, width, rows, buffer.before), (sides, rows))
        told, buffer = play_rows(given, certificate, (width, height, *rows), needed - 1)
        self.assertEqual((told, buffer.written(0)), (plain(SHOW.TOO_SHORT, needed), b""))

    def test_strips_are_those_of_the_image(self):
        for name in PLAYED:
            given = (SAMPLES / name).read_bytes()
            certificate = certificate_of(given, *SIDES)
            samples = shown(name, *SIDES).out.split(b"\n255\n", 1)[1]
            for first, count in [(0, HEIGHT), (0, 1), (HEIGHT - 1, 1), *((row, 7) for row in range(0, HEIGHT - 7, 7))]:
                for stride in (3 * WIDTH, 3 * WIDTH + 1, 4 * WIDTH):
                    with self.subTest(name=name, first=first, count=count, stride=stride):
                        self.check_rows(given, certificate, samples, SIDES, (first, count, stride))

    def test_strips_under_the_print_profile_are_those_of_the_image(self):
        for name in PLAYED:
            given = (SAMPLES / name).read_bytes()
            samples = answer(PROGRAM, ["show", SAMPLES / name, *map(str, SIDES), *PRINT]).out.split(b"\n255\n", 1)[1]
            certificate = certificate_of(given, *SIDES, *PRINT)
            for first, count in ((0, HEIGHT), (13, 64)):
                with self.subTest(name=name, first=first):
                    self.check_rows(given, certificate, samples, SIDES, (first, count, 3 * WIDTH))

    def test_strips_of_random_drawings_are_those_of_the_image(self):
        for number in range(RANDOM_FILES):
            chance, (width, height) = random.Random(90_000 + number), SURFACES[number % len(SURFACES)]
            given = EMF.file([record for _ in range(8) for record in Sort(chance, width, height).records()], (width, height), 16)
            for words in ([], PRINT):
                samples = answer(PROGRAM, ["show", "stdin", str(width), str(height), *words], given).out.split(b"\n255\n", 1)[1]
                certificate = certificate_of(given, width, height, *words)
                self.assertTrue(library().play(given, certificate, width, height) == samples, number)
                for count in (1, 7, 64):
                    rows = [SHOW.Rows(width, height, first, min(count, height - first), 3 * width) for first in range(0, height, count)]
                    strips = [library().play_rows(given, certificate, it) for it in rows]
                    self.assertTrue(b"".join(strips) == samples, (number, count, words))

    def test_rows_of_many_bands_are_those_of_the_image(self):
        # A band has at most 1,048,576 pixels: 128 rows of 8,192 columns, and 3,495 of 300.
        given = (SAMPLES / "wheel.wmf").read_bytes()
        for sides, first, count in (((8192, 300), 3, 129), ((8192, 300), 0, 300), ((8191, 300), 40, 257), ((300, 8192), 1, 8190)):
            samples = shown("wheel.wmf", *sides).out.split(b"\n255\n", 1)[1]
            with self.subTest(sides=sides, first=first):
                self.check_rows(given, certificate_of(given, *sides), samples, sides, (first, count, 3 * sides[0] + 2))

    def test_what_decides_comes_in_order(self):
        bound, large = rejected(CODES["BadBound"]), rejected(CODES["SurfaceTooLarge"])
        most = (1 << 32) - 1
        wrong = [*((side, 4, 0, 1, most) for side in NO_SIDES), *((4, side, 0, 1, 12) for side in NO_SIDES)]
        wrong += [(4, 4, 0, 0, 12), (4, 4, 4, 1, 12), (4, 4, 0, 5, 12), (4, 4, 3, 2, 12), (4, 4, most, 1, 12), (4, 4, 1, most, 12), (4, 4, most, most, 12)]
        wrong += [(4, 4, 0, 1, 11), (4, 4, 0, 1, 0)]
        for length in (0, 100):
            for rows in wrong:
                told, buffer = play_rows(b"", b"", rows, length)
                self.assertEqual((told, buffer.written(0)), (bound, b""), rows)
            for given, certificate in ((b"", DOT_CERT), (DOT, b""), (DOT[:-1], DOT_CERT), (DOT, DOT_CERT + b"\0")):
                told, buffer = play_rows(given, certificate, (5, 4, 0, 1, 15), length)
                self.assertEqual((told, buffer.written(0)), (check(given, certificate), b""))
            for rows in ((5, 4, 0, 1, 15), (4, 5, 0, 1, 12)):
                told, buffer = play_rows(DOT, DOT_CERT, rows, length)
                self.assertEqual((told, buffer.written(0)), (large, b""))
        told, buffer = play_rows(DOT, DOT_CERT, (4, 4, 0, 4, most), 100)
        self.assertEqual((told, buffer.written(0)), (plain(SHOW.TOO_SHORT, 3 * most + 12), b""))
        told, buffer = play_rows(DOT, DOT_CERT, (4, 4, 3, 1, most), 12)
        self.assertEqual(told, plain(SHOW.DONE, 12))


class Over(unittest.TestCase):
    """Playing over an image."""

    def test_the_result_is_that_of_the_command(self):
        for name in PLAYED:
            given = (SAMPLES / name).read_bytes()
            for words in ([], PRINT):
                certificate = certificate_of(given, 130, 120, *words)
                for sides in (SIDES, (1, 1), (130, 120)):
                    with self.subTest(name=name, sides=sides, words=words):
                        image = noise(sides)
                        result = put_over(given, certificate, sides, image)
                        told, held = play_over(given, certificate, sides, image + HELD, len(image))
                        self.assertEqual(told, plain(SHOW.DONE, len(image)))
                        self.assertTrue(held == result + HELD)
                        told, held = play_over(given, certificate, sides, image, len(image) - 1)
                        self.assertEqual((told, held == image), (plain(SHOW.TOO_SHORT, len(image)), True))

    def test_over_white_is_a_play(self):
        given = (SAMPLES / "wheel.wmf").read_bytes()
        for sides in ((8192, 300), (300, 8192)):
            certificate, length = certificate_of(given, *sides), 3 * sides[0] * sides[1]
            _, buffer = play(given, certificate, sides, length)
            told, held = play_over(given, certificate, sides, b"\xff" * length, length)
            self.assertEqual(told, plain(SHOW.DONE, length))
            self.assertTrue(held == buffer.written(length), sides)

    def test_what_decides_comes_in_order(self):
        bound, large = rejected(CODES["BadBound"]), rejected(CODES["SurfaceTooLarge"])
        for side in NO_SIDES:
            for sides in ((side, 4), (4, side)):
                self.assertEqual(play_over(b"", b"", sides, HELD, 0), (bound, HELD))
        for given, certificate in ((b"", DOT_CERT), (DOT, b""), (DOT[:-1], DOT_CERT)):
            self.assertEqual(play_over(given, certificate, (5, 4), HELD, 0), (check(given, certificate), HELD))
        for sides in ((5, 4), (4, 5)):
            self.assertEqual(play_over(DOT, DOT_CERT, sides, HELD, 0), (large, HELD))
        self.assertEqual(play_over(DOT, DOT_CERT, (4, 4), HELD, 47), (plain(SHOW.TOO_SHORT, 48), HELD))


if __name__ == "__main__":
    unittest.main()
