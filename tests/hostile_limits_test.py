"""Files near the limits in the built programs, made to take long or much: lines far beyond the surface, saves and restores, points over and over
themselves, records of nothing, and a certificate that asks for the most room. Each ends in seconds, and keeps no more memory than its file, its
surface and a room of 16 MiB: of what is asked for, more addresses than that may never be touched."""

import math
import os
import shutil
import struct
import tempfile
import unittest

from built import PROGRAMS, SAMPLES, answer, for_each_program
from hostile.each_byte import answers
from hostile.measured import measured
from memory_test import ROOM, bare
from metafile.fields import RED, i16, i32, u32
from metafile.files import EMF_END, WMF_END, emf_file, emf_record, placeable_file, wmf_pixel, wmf_record
from metafile.scripts import EMF, FORMS
from reading.fields import IDENTITY
from reading.rules import CORE, PRINT
from reference.certificates import Certificate
from reference.pixels import is_on_line
from request_program import PLAY, asked
from request_program import PROGRAMS as REQUESTED

# The longest side of a surface, the farthest place of a point, and how many lines go there and back.
SIDE, FAR, LINES = 8192, 1 << 28, 1000

# How many seconds of processor the far lines may take, and the other files, in the program as LLVM builds it, and how many times as long in that of
# the other compiler, which isn't told to be fast.
FAR_SECONDS, SECONDS = 2, 5
SLOWER = 6

# Most records of a file.
MOST_RECORDS = 1 << 20


class Limited(unittest.TestCase):
    """Tests with a folder of their own."""

    def setUp(self):
        self.folder = tempfile.mkdtemp()
        self.addCleanup(shutil.rmtree, self.folder)

    def path(self, name):
        """A name in the folder."""
        return os.path.join(self.folder, name)

    def file(self, name, given):
        """A file of these bytes in the folder."""
        with open(self.path(name), "wb") as file:
            file.write(given)
        return self.path(name)

    def shown(self, program, given, side, seconds=SECONDS, rules=CORE):
        """The name of the image of a file on a square surface under rules, which took no more than its time, and kept no more than its memory."""
        file, image = self.file("file", given), self.path("image")
        room = bare(program) + len(given) + 3 * side * side + ROOM
        run = measured(program, ["show", file, side, side, *rules.words()], image)
        self.assertEqual((run.status, run.err), (0, b""))
        self.assertLess(run.seconds, seconds if program == PROGRAMS[0] else SLOWER * seconds)
        self.assertLess(run.kept, room)
        return image

    def bytes_of(self, path):
        """The bytes of a file."""
        with open(path, "rb") as file:
            return file.read()


def far_lines(side):
    """A file of lines alternately to (2^28, 0) and (-2^28, 8191), with a frame of this side."""
    ends = "line 268435456 0; line -268435456 8191; "
    return emf_file([*EMF.records(ends * (LINES // 2)), EMF_END], right=i32(side - 1), bottom=i32(side - 1))


class FarLines(Limited):
    """A thousand lines that cross the surface, with ends as far off as they may be."""

    @for_each_program
    def test_the_budget(self, program):
        # The first line's box is 8,192 columns and one row, each other's 8,192 columns and rows.
        file = self.file("file", far_lines(SIDE))
        made = answer(program, ["prepare", file, str(SIDE), str(SIDE), "/dev/stdout"])
        self.assertEqual((made.status, made.err), (0, b""))
        self.assertEqual(struct.unpack_from("<4s2IQ5I", made.out), (b"MPC1", SIDE, SIDE, 67_041_763_328, 0, 0, 2, 0, LINES))

    @for_each_program
    def test_each_row(self, program):
        rows = {}
        for column in range(SIDE):
            near = [row for row in range(SIDE // 2 - 2, SIDE // 2 + 2) if is_on_line((FAR, 0), (-FAR, SIDE - 1), column, row)]
            back = [row for row in range(SIDE // 2 - 2, SIDE // 2 + 2) if is_on_line((-FAR, SIDE - 1), (FAR, 0), column, row)]
            self.assertEqual((len(near), len(back)), (1, 1))
            for row in {0, *near, *back}:
                rows.setdefault(row, set()).add(column)
        with open(self.shown(program, far_lines(SIDE), SIDE, FAR_SECONDS), "rb") as image:
            self.assertEqual(image.readline() + image.readline() + image.readline(), b"P6\n8192 8192\n255\n")
            for row in range(SIDE):
                black = rows.get(row, set())
                wanted = b"".join(b"\0\0\0" if column in black else b"\xff\xff\xff" for column in range(SIDE)) if black else b"\xff" * 3 * SIDE
                self.assertTrue(image.read(3 * SIDE) == wanted, row)
            self.assertEqual(image.read(), b"")

    def test_the_writes(self):
        # A program that answers requests plays up to half of the longest side: there each line writes a pixel of each column.
        half = SIDE // 2
        given = far_lines(SIDE)
        certificate = answer(PROGRAMS[0], ["prepare", "stdin", str(SIDE), str(SIDE), "/dev/stdout"], given).out
        played = answers(REQUESTED[0], [asked(PLAY, (half, half), given, certificate, b"\xff" * 3 * half * half)])
        self.assertEqual(played[: played.index(b"\n")], b"played %d" % (LINES * half))


class States(Limited):
    """300,000 saves, and as many restores."""

    @for_each_program
    def test_saves_and_restores(self, program):
        white = b"P6\n64 64\n255\n" + b"\xff" * 3 * 64 * 64
        for form in FORMS:
            (save,), (newest,), (oldest,) = map(form.records, ["save", "restore -1", "restore 1"])
            for block, count in [(save + newest, 300_000), (256 * save + 256 * newest, 1171), (256 * save + oldest, 1171)]:
                given = form.file([block * count], 16, 16)
                for rules in (CORE, PRINT):
                    self.assertTrue(self.bytes_of(self.shown(program, given, 64, rules=rules)) == white, (form.name, rules))


# A curve of 1,024 points within the surface, which crosses itself.
CORNERS = [
    (round(32 + 30 * math.cos(10 * math.pi * nth / 1024)), round(32 + 30 * math.sin(14 * math.pi * nth / 1024))) for nth in range(1024)
]


class Points(Limited):
    """65,536 points, which go over 1,024 places 64 times."""

    def polygon(self, rounds, times=1, mode=2):
        """A file of the curve's polygon, so often over itself, and as a record so often."""
        numbers = [number for corner in CORNERS for number in corner]
        polygon = emf_record(86, i32(0, 0, -1, -1) + u32(1024 * rounds) + i16(*numbers) * rounds)
        front = EMF.records(f"fill_mode {mode}; solid_brush 0 0x8040FF; select 0")
        return EMF.file([*front, polygon * times], 64, 16)

    @for_each_program
    def test_over_themselves(self, program):
        for rules in (CORE, PRINT):
            self.check(program, rules)

    def check(self, program, rules):
        """The polygon over itself looks as once, or as its outline."""
        once, outline = (self.bytes_of(self.shown(program, given, 64, rules=rules)) for given in (self.polygon(1), self.polygon(2, mode=1)))
        self.assertGreater(once.count(b"\x80\x40\xff"), 500)
        self.assertEqual(outline.count(b"\x80\x40\xff"), 0)
        for rounds, mode, times, wanted in [(64, 2, 1, once), (64, 1, 1, outline), (1, 2, 64, once), (64, 2, 64, once)]:
            with self.subTest(rounds=rounds, mode=mode, times=times, rules=rules):
                self.assertTrue(self.bytes_of(self.shown(program, self.polygon(rounds, times, mode), 64, rules=rules)) == wanted)


class Nothing(Limited):
    """As many records as a file may have, each without effect."""

    @for_each_program
    def test_records_of_nothing(self, program):
        white = b"P6\n4 4\n255\n" + b"\xff" * 48
        for given in [
            placeable_file([wmf_record(0x0626) * (MOST_RECORDS - 1), WMF_END]),
            emf_file([emf_record(70) * (MOST_RECORDS - 2), EMF_END]),
            emf_file([emf_record(35, IDENTITY) * (MOST_RECORDS - 2), EMF_END]),
        ]:
            for rules in (CORE, PRINT):
                self.assertTrue(self.bytes_of(self.shown(program, given, 4, rules=rules)) == white, (given[:4], rules))


class Drawings(Limited):
    """As many drawings as a file may have: its certificate has an entry for each."""

    @for_each_program
    def test_drawings_of_a_pixel(self, program):
        file = self.file("file", placeable_file([wmf_pixel(2, 1, RED) * (MOST_RECORDS - 1), WMF_END]))
        certificate, output = self.path("certificate"), self.path("output")
        for rules, size in ((CORE, 40 + 20 * (MOST_RECORDS - 1)), (PRINT, 44 + 24 * (MOST_RECORDS - 1))):
            for words in (["prepare", file, 4, 4, certificate, *rules.words()], ["check", file, certificate], ["play", file, certificate, 4, 4]):
                with self.subTest(words=words):
                    run = measured(program, words, output)
                    self.assertEqual((run.status, run.err), (0, b""))
                    self.assertLess(run.seconds, SECONDS if program == PROGRAMS[0] else SLOWER * SECONDS)
            self.assertEqual(os.path.getsize(certificate), size)
            self.assertEqual(self.bytes_of(output), b"P6\n4 4\n255\n" + b"\xff" * 18 + b"\xff\0\0" + b"\xff" * 27)


# A certificate of a file without a drawing, that tells the most saved states, slots, points and pieces that one may tell.
MOST_NEEDS = Certificate(4, 4, 0, 256, 65535, 1 << 20, 1 << 16, ())


class Needs(Limited):
    """A certificate that asks for the most room, though its file needs none."""

    def played(self, program, limit):
        """How playing the file ends within a limit of addresses, and its image."""
        certificate = self.file("certificate", MOST_NEEDS.text())
        image = self.path("image")
        run = measured(program, ["play", SAMPLES / "nil.emf", certificate, 4, 4], image, limit)
        return run, self.bytes_of(image)

    @for_each_program
    def test_room_that_is_not_used_is_not_kept(self, program):
        run, image = self.played(program, bare(program) + (400 << 20))
        self.assertEqual((run.status, run.err, image), (0, b"", b"P6\n4 4\n255\n" + b"\xff" * 48))
        self.assertLess(run.kept, bare(program) + ROOM)
        self.assertLess(run.seconds, SECONDS)

    @for_each_program
    def test_room_that_is_not_there_is_told(self, program):
        run, image = self.played(program, bare(program) + (64 << 20))
        self.assertEqual((run.status, run.err, image), (4, b"metaplay: OutOfMemory\n", b""))


if __name__ == "__main__":
    unittest.main()
