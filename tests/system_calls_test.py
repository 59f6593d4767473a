"""How often each command reads and writes: in pieces, not for each record, row or line; and how many bands it chooses."""

import pathlib
import subprocess
import tempfile
import unittest

from built import DOT, answer, for_each_program
from command_counts_test import PIXEL, repeated
from metafile.scripts import EMF

# How many pixels the file sets. Its certificate has 40 bytes, and 20 for each of them.
PIXELS = 100_000
FILE = repeated(PIXEL, PIXELS)
CERTIFICATE = 40 + 20 * PIXELS

# How many bytes are asked for in one read, and how many pixels of P6 go out in one write; at most 64 rows are painted before some go out.
PIECE, PIECE_PIXELS, BAND_ROWS = 65_536, 4096, 64

# A listing goes out in writes of 8 KiB, but for the room of a last line, which is less than this.
LINE_ROOM = 1024


def pieces(length, piece):
    """How many pieces so many bytes or pixels have."""
    return -(-length // piece)


def reads_of(*lengths):
    """The reads of whole files of these lengths: each piece of them, and the end of each."""
    return sum(pieces(length, PIECE) + 1 for length in lengths)


def image_writes(width, height):
    """The most writes of an image: whole pieces, and one that is short for each band."""
    return pieces(width * height, PIECE_PIXELS) + pieces(height, BAND_ROWS) + 1


class CallsTest(unittest.TestCase):
    """Tests that count reads and writes, by a library that is loaded before the C library."""

    def setUp(self):
        self.folder = pathlib.Path(self.enterContext(tempfile.TemporaryDirectory()))
        self.library = self.folder / "count_calls.so"
        source = pathlib.Path(__file__).with_name("count_calls.c")
        words = ["cc", "-O2", "-Wall", "-Wextra", "-Werror", "-shared", "-fPIC", "-o", self.library, source, "-ldl"]
        subprocess.run(words, check=True)
        (self.folder / "file").write_bytes(FILE)

    def counted(self, program, *words, ended=(0, b"")):
        """The reads and the writes of a command that ends with a status and a text, and the length of what it writes to standard output."""
        told = self.folder / "told"
        told.unlink(missing_ok=True)
        answered = answer(program, words, cwd=self.folder, env={"LD_PRELOAD": str(self.library), "COUNTED_CALLS": str(told)})
        self.assertEqual((answered.status, answered.err), ended, words)
        reads, writes = map(int, told.read_text().split())
        return reads, writes, len(answered.out)

    def check(self, program, words, reads, writes):
        """A command reads so often, and writes at most so often."""
        counted = self.counted(program, *words)
        self.assertEqual(counted[0], reads, words)
        self.assertLessEqual(counted[1], writes, words)


class Pieces(CallsTest):
    """Inputs and outputs in pieces."""

    @for_each_program
    def test_images_go_out_in_pieces(self, program):
        self.check(program, ["prepare", "file", "2048", "2048", "certificate"], reads_of(len(FILE)), 1)
        for width, height in ((600, 600), (2048, 2048), (64, 2048)):
            sides = (str(width), str(height))
            self.check(program, ["show", "file", *sides], reads_of(len(FILE)), image_writes(width, height))
            self.check(program, ["play", "file", "certificate", *sides], reads_of(len(FILE), CERTIFICATE), image_writes(width, height))

    @for_each_program
    def test_an_image_is_read_and_written_in_pieces(self, program):
        self.check(program, ["prepare", "file", "512", "512", "certificate"], reads_of(len(FILE)), 1)
        image = answer(program, ["show", self.folder / "file", "512", "512"]).out
        (self.folder / "image").write_bytes(image)
        self.check(program, ["over", "file", "certificate", "image"], reads_of(len(FILE), CERTIFICATE, len(image)), image_writes(512, 512))

    @for_each_program
    def test_an_image_beside_a_missing_certificate_is_not_read(self, program):
        (self.folder / "image").write_bytes(b"P6 512 512 255\n" + bytes(3 * 512 * 512))
        counted = self.counted(program, "over", "file", "missing", "image", ended=(3, b"metaplay: cannot read\n"))
        self.assertEqual(counted, (reads_of(len(FILE)), 1, 0))

    @for_each_program
    def test_a_certificate_is_read_in_pieces(self, program):
        self.check(program, ["prepare", "file", "64", "64", "certificate"], reads_of(len(FILE)), 1)
        self.check(program, ["check", "file", "certificate"], reads_of(len(FILE), CERTIFICATE), 1)

    @for_each_program
    def test_lines_go_out_together(self, program):
        reads, writes, length = self.counted(program, "list", "file")
        self.assertEqual(reads, reads_of(len(FILE)))
        self.assertLessEqual(writes, pieces(length, 8192 - LINE_ROOM))

    @for_each_program
    def test_each_line_about_a_file_goes_out_once(self, program):
        for count in (1, 2, 10):
            names = [f"file.{number}" for number in range(count)]
            for name in names:
                (self.folder / name).write_bytes(FILE)
            self.check(program, ["info", *names], reads_of(*[len(FILE)] * count), count)

    @for_each_program
    def test_a_certificate_that_is_kept_is_read_and_not_written(self, program):
        for count in (1, 2, 10):
            out = self.folder / f"{pathlib.Path(program).name}.{count}"
            out.mkdir()
            names = [f"file.{number}" for number in range(count)]
            for name in names:
                (self.folder / name).write_bytes(FILE)
            words = ["certify", "--out-dir", out, "64", "64", *names]
            self.check(program, words, reads_of(*[len(FILE)] * count), 2 * count)
            self.check(program, words, reads_of(*[len(FILE), CERTIFICATE] * count), count)


# The largest surface whose rows have one pixel more than a piece. A band takes a write for each row, and one more; the header takes one.
WIDE, HIGH = 4097, 8192

# A drawing of 200 lines.
TRIANGLES = EMF.step("short_polygon", *[0, 0, 9, 0, 0, 9, 5, 5] * 50)

# Files, and the rows of a band that the command chooses for each: a small file is read again for each band of 65,536 pixels at most. The more
# records it has, each counted once more for each line of the largest drawing, the fewer times it is read again: about 4,096 records in all, or where
# bands have 524,288 pixels at most 524,288. If that isn't enough, bands have 1,048,576 pixels.
CHOSEN = {
    "a pixel": (DOT, 65_536 // WIDE),
    "a hundred pixels": (repeated(PIXEL, 100), 524_288 // WIDE),
    "8,100 pixels": (repeated(PIXEL, 8_100), 524_288 // WIDE),
    "8,300 pixels": (repeated(PIXEL, 8_300), 1_048_576 // WIDE),
    "38 drawings of 200 lines": (EMF.file([TRIANGLES] * 38, (WIDE, HIGH), 0), 524_288 // WIDE),
    "40 drawings of 200 lines": (EMF.file([TRIANGLES] * 40, (WIDE, HIGH), 0), 1_048_576 // WIDE),
}


class Bands(CallsTest):
    """The bands of a tall surface, by the writes that are short."""

    @for_each_program
    def test_the_command_chooses_bands(self, program):
        for name, (given, rows) in CHOSEN.items():
            with self.subTest(name):
                (self.folder / "file").write_bytes(given)
                _, writes, _ = self.counted(program, "show", "file", str(WIDE), str(HIGH))
                self.assertEqual(writes, 1 + HIGH + pieces(HIGH, rows))


if __name__ == "__main__":
    unittest.main()
