"""How much memory the built program takes: what draws is drawn under a limit of its addresses, and a lower limit is told."""

import functools
import pathlib
import re
import resource
import signal
import struct
import subprocess
import tempfile
import unittest

from built import DOT, DOT_IMAGE, PROGRAMS, ROOT, SAMPLES, Answer, answer, for_each_program
from metafile.bitmaps import QUAD
from metafile.blits import PATCOPY, SRCCOPY
from metafile.scripts import EMF, FORMS, SIDE, WMF

MIB = 1 << 20

README = (ROOT / "README.md").read_text(encoding="utf-8")

# What a run may take beside the program itself and the file, whatever the surface: a band takes at most 3 MiB of it, or 5 where rows lie far apart.
ROOM = 8 * MIB

# The least room beside the bare program in which it is tried: its own pages for reading a file.
LEAST = MIB // 16

# A small file's band of 64 rows of 1,024 pixels, which lie 1,088 apart.
BAND = 3 * 64 * 1088

# What a play by a certificate may take beside that, where it needs neither lines nor pieces of a path.
LITTLE = MIB

# How many bytes a line of a drawing takes in all lists of a buffer of rows, and a piece of a path in its own.
LINE, PIECE = 376, 96

# From so many lines on there is room for a table beside these lists: 256 columns of 8,192 flags, and a column of changes.
TABLED, TABLE = 4096, 2 * MIB + MIB // 16

# How many lines make these lists long.
LONG = 1 << 17

# How much of a stack Linux gives every program when it starts: a larger one has to grow, which it can't where memory is full.
FIRST_STACK = MIB // 8

OUT_OF_MEMORY = Answer(4, b"", b"metaplay: OutOfMemory\n")

SHOW = ["show", "stdin", str(SIDE), str(SIDE)]


def within(limit):
    """Leaves a process so many bytes of addresses."""
    return lambda: resource.setrlimit(resource.RLIMIT_AS, (limit, limit))


def answer_within(limit, program, words, given=b"", **more):
    """The program's answer under a limit of addresses, or None where the system can't start it there."""
    try:
        return answer(program, words, given, preexec_fn=within(limit), **more)
    except (OSError, subprocess.SubprocessError):
        return None


@functools.cache
def bare(program):
    """The fewest addresses, within a page, with which the program refuses an empty input: nothing is kept of it then."""
    refused = answer(program, SHOW)
    least, enough = 0, 1 << 28
    while enough - least > 4096:
        limit = (least + enough) // 2
        if answer_within(limit, program, SHOW) == refused:
            enough = limit
        else:
            least = limit
    return enough


def points(count):
    """So many points all over the surface, one to the left and the next to the right."""
    return " ".join(f"{index * 7 % SIDE * (index % 2)} {index * 5 % SIDE}" for index in range(count))


# What is drawn, in both formats: each with all that it wants.
DRAWINGS = [
    "pixel 1 1",
    "move 0 0; line 9 9",
    "polyline 0 0 9 9 3 4",
    f"polyline {points(1000)}",
    f"polygon {points(1000)}",
    f"polygons {points(500)} | {points(500)}",
    "rectangle 0 0 9 9",
    "hatched_brush 0 5 3; select 0; rectangle 0 0 9 9",
    f"tiled_brush 0 {QUAD}; select 0; rectangle 0 0 16 16",
    f"tiled_brush 0 {QUAD}; select 0; polygon {points(1000)}",
    f"pat_blt {PATCOPY} 0 0 16 16",
    f"bit_blt {SRCCOPY} 0 0 2 2 0 0 {QUAD}",
    f"stretch_blt {SRCCOPY} 0 0 16 16 0 0 2 2 {QUAD}",
    f"stretch_dib {SRCCOPY} 0 0 16 16 0 0 2 2 {QUAD}",
    "256x save; pixel 1 1",
    "16x cut 0 0 1 1; pixel 1 1",
]

# What EMF alone draws.
PATHS = [
    f"begin_path; polygon {points(1000)}; end_path; {painted}" for painted in ("fill_path", "stroke_path", "stroke_and_fill_path")
] + [
    "begin_path; 4096x polygon -9 -9 -5 -9; end_path; stroke_and_fill_path",
    f"polylines {points(500)} | {points(500)}",
    f"polyline_to {points(1000)}",
]


class Memory(unittest.TestCase):
    """Runs under a limit of the program itself, its file, and a room that is the same for all, and for all surfaces."""

    def check(self, program, form, script, handles=4):
        """A file of these records is shown under the limit as it is without one."""
        given = form.file(form.records(script), SIDE, handles)
        ample = answer(program, SHOW, given)
        self.assertEqual((ample.status, ample.err), (0, b""), script[:80])
        limit = bare(program) + len(given) + ROOM
        self.assertEqual(answer_within(limit, program, SHOW, given), ample, (form.name, script[:80]))

    @for_each_program
    def test_each_drawing(self, program):
        for form in FORMS:
            for script in DRAWINGS:
                self.check(program, form, script)
        for script in PATHS:
            self.check(program, EMF, script)

    @for_each_program
    def test_many_objects(self, program):
        self.check(program, WMF, "1024x pen 0; pixel 1 1")
        for handles in (2, 257, 4097, 32769, 65535):
            self.check(program, EMF, f"pen_at {handles - 1}; pixel 1 1", handles)

    @for_each_program
    def test_large_surfaces(self, program):
        for width, height in [(4096, 4096), (8192, 4096), (4096, 8192), (8192, 8192)]:
            with tempfile.TemporaryFile() as image:
                words = [program, "show", "stdin", str(width), str(height)]
                limit = within(bare(program) + len(DOT) + ROOM)
                ran = subprocess.run(words, input=DOT, stdout=image, stderr=subprocess.PIPE, check=False, preexec_fn=limit)
                self.assertEqual((ran.returncode, ran.stderr), (0, b""), (width, height))
                header = f"P6\n{width} {height}\n255\n".encode()
                self.assertEqual(image.seek(0, 2), len(header) + 3 * width * height)
                image.seek(0)
                self.assertEqual(image.read(len(header)), header)

    @for_each_program
    def test_a_file_of_much_work_on_a_large_surface(self, program):
        # Its bands are the highest that are chosen, since its records are gone through again for each.
        for form in FORMS:
            given = form.file(form.records("3000x polygon 1 1 3 1 1 3"), SIDE, 0)
            for width, height in [(4096, 4096), (8192, 8192)]:
                words = [program, "show", "stdin", str(width), str(height)]
                limit = within(bare(program) + 3 * len(given) + 48 + ROOM)
                ran = subprocess.run(words, input=given, stdout=subprocess.DEVNULL, stderr=subprocess.PIPE, check=False, preexec_fn=limit)
                self.assertEqual((ran.returncode, ran.stderr), (0, b""), (form.name, width, height))

    @for_each_program
    def test_a_long_file_is_held_once_and_while_it_grows_no_more_than_thrice(self, program):
        # A list of bytes that is full moves into one at most twice as long, and both are there for a moment.
        given = DOT.ljust(20 * MIB, b"\0")
        limit = bare(program) + 3 * len(given) + 48 + ROOM
        with tempfile.NamedTemporaryFile() as file:
            file.write(given)
            file.flush()
            answered = answer_within(limit, program, ["show", file.name, "4", "4"])
        self.assertEqual(answered, Answer(0, DOT_IMAGE, b""))

    @for_each_program
    def test_of_many_files_one_is_held_at_a_time(self, program):
        given = DOT.ljust(4 * MIB, b"\0")
        with tempfile.TemporaryDirectory() as folder:
            names = [pathlib.Path(folder, f"{nth}.wmf") for nth in range(12)]
            for name in names:
                name.write_bytes(given)
            ample = answer(program, ["info", *names])
            self.assertEqual((ample.status, ample.out.count(b"\n")), (0, len(names)))
            limit = bare(program) + 3 * len(given) + 48 + ROOM
            self.assertEqual(answer_within(limit, program, ["info", *names]), ample)
            words = ["certify", "--out-dir", folder, "4", "4", *names]
            self.assertEqual(answer_within(limit, program, words), answer(program, words))

    @for_each_program
    def test_a_listing_takes_no_more_where_a_file_draws_more(self, program):
        # The file is held as above. To draw such a polygon takes more than the room.
        for script in (f"polygon {points(400000)}", "100000x pixel 1 1"):
            given = EMF.file(EMF.records(script), SIDE, 4)
            ample = answer(program, ["list", "stdin"], given)
            self.assertEqual((ample.status, ample.err), (0, b""), script[:80])
            limit = bare(program) + 3 * len(given) + 48 + ROOM
            self.assertEqual(answer_within(limit, program, ["list", "stdin"], given), ample, script[:80])
            if script.startswith("polygon"):
                self.assertEqual(answer_within(limit, program, SHOW, given), OUT_OF_MEMORY)


class CertifiedMemory(unittest.TestCase):
    """Plays by a certificate under a limit of the program itself, its inputs, its surface, and what the certificate needs."""

    def check(self, program, form, script):
        """A file of these records plays by its certificate under the limit as it does without one."""
        given = form.file(form.records(script), SIDE, 4)
        with tempfile.TemporaryDirectory() as folder:
            file, certificate = pathlib.Path(folder, "file"), pathlib.Path(folder, "certificate")
            file.write_bytes(given)
            words = ["play", file, certificate, str(SIDE), str(SIDE)]
            self.assertEqual(answer(program, ["prepare", *words[1:2], *words[3:], certificate]), Answer(0, b"", b""), script[:80])
            ample = answer(program, words)
            self.assertEqual((ample.status, ample.err), (0, b""), script[:80])
            kept = certificate.read_bytes()
            edges, pieces = struct.unpack_from("<II", kept, 28)
            # (a list of bytes that is full moves into one at most twice as long, and both are there while it is read alone)
            limit = bare(program) + 2 * (len(given) + len(kept)) + 3 * SIDE * SIDE + LINE * edges + PIECE * pieces + LITTLE
            limit += TABLE if edges >= TABLED else 0
            self.assertEqual(answer_within(limit, program, words), ample, (form.name, script[:80]))

    @for_each_program
    def test_what_needs_little_takes_little(self, program):
        # Room for any drawing would be 376 MiB, and for any path 6 MiB.
        for form in FORMS:
            for script in DRAWINGS:
                self.check(program, form, script)
        for script in PATHS:
            self.check(program, EMF, script)

    @for_each_program
    def test_a_long_drawing_takes_so_many_bytes_for_each_line(self, program):
        for script in [f"polygon {points(LONG)}", f"polyline {points(LONG)}"]:
            self.check(program, EMF, script)


# How far rows lie apart where they are as long as may be: 8,192 pixels of three bytes and 64 more.
WIDEST_ROW = 3 * (8192 + 64)


class Bands(unittest.TestCase):
    """What a band takes by the number of its rows, on the largest surface."""

    @for_each_program
    def test_a_band_takes_as_many_rows_as_are_asked_for(self, program):
        with tempfile.TemporaryDirectory() as folder:
            file, certificate = pathlib.Path(folder, "file"), pathlib.Path(folder, "certificate")
            file.write_bytes(DOT)
            self.assertEqual(answer(program, ["prepare", file, "8192", "8192", certificate]), Answer(0, b"", b""))
            for rows in (1, 2, 32, 64, 100, 500, 1000, 3000, 8192):
                words = ["play", file, certificate, "8192", "8192", "--bands", str(rows)]
                within_rows = bare(program) + rows * WIDEST_ROW + MIB // 4
                self.assertEqual(self.status_within(within_rows, program, words), 0, rows)
                if rows > 2:
                    self.assertEqual(self.status_within(bare(program) + rows * WIDEST_ROW - WIDEST_ROW * 8, program, words), 4, rows)

    def status_within(self, limit, program, words):
        """The status of a run under a limit, whose output is dropped."""
        ended = subprocess.run([program, *words], stdout=subprocess.DEVNULL, stderr=subprocess.DEVNULL, check=False, preexec_fn=within(limit))
        return ended.returncode


def grown(count):
    """The room of a list that has grown to so many: a power of two."""
    return 1 << (count - 1).bit_length()


class HeldOnce(unittest.TestCase):
    """What is large is held once, beside what is made of it."""

    def check(self, program, script, text, room):
        """A file of these records, whose certificate has so many bytes, is prepared and shown within file, certificate and so much room."""
        given = WMF.file(WMF.records(script), SIDE, 0)
        with tempfile.TemporaryDirectory() as folder:
            file, certificate = pathlib.Path(folder, "file"), pathlib.Path(folder, "certificate")
            file.write_bytes(given)
            limit = bare(program) + len(given) + text + room
            words = ["prepare", file, str(SIDE), str(SIDE), certificate]
            self.assertEqual(answer_within(limit, program, words), Answer(0, b"", b""), script)
            self.assertEqual(certificate.stat().st_size, text, script)
            self.assertEqual(answer_within(limit, program, ["show", file, str(SIDE), str(SIDE)]).status, 0, script)

    @for_each_program
    def test_entries_are_held_as_their_certificate_alone(self, program):
        drawings = 1_048_000
        self.check(program, f"{drawings}x pixel 1 1", 40 + 20 * drawings, 16 * MIB)
        wide = "styled_pen 0 0 5 0; select 0; rectangle 0 0 9 9"
        for script in [f"{drawings - 9}x pixel 1 1; {wide}", f"{wide}; {drawings - 9}x pixel 1 1"]:
            self.check(program, script, 40 + 24 * (drawings - 8), 16 * MIB)

    @for_each_program
    def test_an_image_is_held_beside_the_surface_that_it_is_played_on(self, program):
        side = 4096
        with tempfile.TemporaryDirectory() as folder:
            certificate, image = pathlib.Path(folder, "certificate"), pathlib.Path(folder, "image")
            self.assertEqual(answer(program, ["prepare", "stdin", str(side), str(side), certificate], DOT), Answer(0, b"", b""))
            paper = b"P6\n%d %d\n255\n" % (side, side) + b"\x7f" * (3 * side * side)
            image.write_bytes(paper)
            limit = bare(program) + grown(len(paper)) + 3 * side * side + LITTLE
            played = answer_within(limit, program, ["over", "stdin", certificate, image], DOT)
            self.assertEqual((played.status, played.err, len(played.out)), (0, b"", len(paper)))


class Stack(unittest.TestCase):
    """Runs with as much of a stack as README says is enough, and with less."""

    def test_each_command_runs_with_little_of_a_stack(self):
        enough, less = (int(number) << 10 for number in re.search(r"took less than (\d+) KiB\. With (\d+) KiB", " ".join(README.split())).groups())
        self.assertLessEqual(enough, FIRST_STACK)
        with tempfile.TemporaryDirectory() as folder:
            certificate, image, made = (pathlib.Path(folder, name) for name in ("certificate", "image", "made"))
            for file in sorted(it for it in SAMPLES.iterdir() if it.suffix in (".wmf", ".emf") and it.stem != "held"):
                for options in ([], ["--profile", "print"]):
                    self.assertEqual(answer(PROGRAMS[0], ["prepare", file, "600", "600", certificate, *options]), Answer(0, b"", b""))
                    image.write_bytes(answer(PROGRAMS[0], ["show", file, "600", "600", *options]).out)
                    words = [["show", file, "600", "600", *options], ["prepare", file, "600", "600", made, *options], ["check", file, certificate]]
                    words += [["play", file, certificate, "500", "400"], ["over", file, certificate, image], ["list", file, *options], ["info", file, *options]]
                    words += [["certify", "--out-dir", folder, "600", "600", "--replace", *options, file]]
                    for its in words:
                        self.assertEqual(self.answer_on(enough, its), answer(PROGRAMS[0], its), (file.name, its[0]))
                        self.assertEqual(self.answer_on(less, its), Answer(-signal.SIGSEGV, b"", b""), (file.name, its[0]))

    def answer_on(self, size, words):
        """What the program answers with so many bytes of a stack. Its environment is on the stack too."""
        return answer(PROGRAMS[0], words, env={}, preexec_fn=lambda: resource.setrlimit(resource.RLIMIT_STACK, (size, size)))


class LittleMemory(unittest.TestCase):
    """Runs under limits that are too low, of the program as LLVM builds it. What Rattle's own compiler builds takes more of a stack than a program has
    when it starts, and no stack grows where memory is full."""

    def test_a_limit_far_too_low_is_told(self):
        for width, height in [(8192, 8192), (8192, 4096), (4096, 8192), (4096, 4096), (2048, 8192)]:
            words = ["show", "stdin", str(width), str(height)]
            told = answer_within(bare(PROGRAMS[0]) + MIB // 8, PROGRAMS[0], words, DOT)
            self.assertEqual(told, OUT_OF_MEMORY, (width, height))

    def test_a_file_that_has_no_room_is_told(self):
        given = DOT.ljust(40 * MIB, b"\0")
        self.assertEqual(answer_within(bare(PROGRAMS[0]) + 20 * MIB, PROGRAMS[0], SHOW, given), OUT_OF_MEMORY)

    def test_any_limit_gives_the_image_or_is_told(self):
        # Above what the bare program takes and some pages there is memory for the image, or there isn't and that is told, also where all that is left
        # beside a band or a surface is a few pages.
        around = range(BAND - MIB // 8, BAND + 2 * MIB, 16 * 1024)
        self.check_limits(["show", "stdin", "1024", "1024"], [*range(LEAST, 24 * MIB, MIB // 4), *around])

    def test_any_limit_gives_what_is_played_by_a_certificate_or_is_told(self):
        with tempfile.TemporaryDirectory() as folder:
            certificate, image = pathlib.Path(folder, "certificate"), pathlib.Path(folder, "image")
            self.assertEqual(answer(PROGRAMS[0], ["prepare", "stdin", "512", "512", certificate], DOT), Answer(0, b"", b""))
            image.write_bytes(answer(PROGRAMS[0], ["show", "stdin", "512", "512"], DOT).out)
            rooms = range(LEAST, 4 * MIB, MIB // 16)
            self.check_limits(["play", "stdin", certificate, "512", "512"], rooms)
            self.check_limits(["over", "stdin", certificate, image], rooms)

    def check_limits(self, words, rooms):
        """A small file is played as with ample memory, or want of it is told, under the limits that leave so much room; both happen."""
        ample, found = answer(PROGRAMS[0], words, DOT), set()
        for room in rooms:
            answered = answer_within(bare(PROGRAMS[0]) + room, PROGRAMS[0], words, DOT)
            found.add(answered.status)
            self.assertEqual(answered, OUT_OF_MEMORY if answered.status else ample, (words, room))
        self.assertEqual(found, {0, 4})


if __name__ == "__main__":
    unittest.main()
