"""Each growth of the built programs refused in turn, until a run meets no refusal.

A refusal may lead to `OutOfMemory`, or to the very answer of ample memory where the program can do
without what it was refused; to nothing else, and to no half of an image.
"""

import itertools
import json
import pathlib
import unittest

from answers import refused, shown
from built import DOT, DOT_IMAGE, PROGRAMS, SAMPLES, Answer, answer
from command_inputs import DOT_LINES, TRIANGLE, TRIANGLE_CERT
from commands_test import DOT_CERT
from metafile.bitmaps import QUAD, QUAD_ROWS
from metafile.blits import MASKED, PATCOPY, PATINVERT, SRCCOPY
from metafile.scripts import EMF, FORMS, HANDLES, SIDE, WMF
from refused_growth import RefusedGrowthTest
from script_answers import pixels

OUT_OF_MEMORY = Answer(4, b"", b"metaplay: OutOfMemory\n")

WHEEL = SAMPLES / "wheel.wmf"

SMALL_EMF, DOT_FILE, HELD_FILE = (SAMPLES / name for name in ("small.emf", "dot.wmf", "held.wmf"))

NO_PIXELS = pixels([])

# A state with all cuts that it may have, saved often, and an object that it holds.
HELD_OFTEN = "pen 0; select 0; 16x cut 0 0 1 1; 100x save"


def tiled(index):
    """A brush of a tile of two by two pixels."""
    return f"tiled_brush {index} {QUAD}; select {index}"


# What it paints everywhere: by a blit, and from a saved state by a polygon, over another blit.
TILES = {(x, y): QUAD_ROWS[y % 2][x % 2] for x in range(SIDE) for y in range(SIDE)}
PAINTED = [
    f"{tiled(0)}; pat_blt {PATCOPY} 0 0 16 16",
    f"null_pen 0; select 0; {tiled(1)}; save; null_brush 2; select 2; restore -1; "
    f"stretch_blt {MASKED} 0 0 9 9 0 0 2 2 {QUAD}; polygon 0 0 16 0 16 16 0 16",
]

# Objects, saved states and paths, for which the program takes its memory before the first record: their
# format, and the answer where memory is ample.
STATE_SCRIPTS = [
    (WMF, "pen 0", NO_PIXELS),
    (WMF, "1024x pen 0", NO_PIXELS),
    (WMF, "1025x brush 0", refused("TableFull", 1024)),
    (WMF, "300x palette 0; delete 9; font 0; delete 0; pen 0; select 0", NO_PIXELS),
    (EMF, "pen_at 1", NO_PIXELS),
    (EMF, "brush_at 65534", NO_PIXELS),
    (EMF, "; ".join(f"font {nth}" for nth in range(300)), NO_PIXELS),
    (EMF, "; ".join(f"pen {nth}" for nth in reversed(range(300))), NO_PIXELS),
    (EMF, "; ".join(f"palette_at {(1 << power) - 1}" for power in range(1, 16)), NO_PIXELS),
    *[(form, "save; restore -1", NO_PIXELS) for form in FORMS],
    *[(form, "256x save; restore 1; 256x save", NO_PIXELS) for form in FORMS],
    (WMF, "257x save", refused("DepthLimit", 256)),
    (WMF, f"{HELD_OFTEN}; 100x pen 1; delete 0", refused("HeldObject", 218)),
    (EMF, f"{HELD_OFTEN}; pen 99; delete 0", refused("HeldObject", 120)),
    *[(form, script, shown(TILES, SIDE, SIDE)) for form in FORMS for script in PAINTED],
    (EMF, "begin_path; line -1 -1; abort_path", NO_PIXELS),
    (EMF, "begin_path; 5000x polygon -9 -9 -5 -9; end_path; stroke_and_fill_path", NO_PIXELS),
    (EMF, "begin_path; 65537x polyline -1 -1", refused("TooManyPieces", 65538)),
]


def state_file(form, script):
    """A file of these records, which counts as many handles as there may be."""
    return form.file(form.records(script), SIDE, 0xFFFF)


SHOW = ["show", "stdin", str(SIDE), str(SIDE)]

# Command lines with their standard input.
LINES = [
    (["show", "stdin", "4", "4"], DOT),
    (["show", WHEEL, "64", "64"], b""),
    (["show", "stdin", "4", "4"], DOT[:54]),
    (["show", SMALL_EMF, "4", "4"], b""),
    (["show", "/no/such/file", "4", "4"], b""),
    (["show", b"\xff", "4", "4"], b""),
    (["list", "stdin"], DOT),
    (["list", "stdin"], DOT[:54]),
    (["show", "stdin", "0", "4"], b""),
    (["play"], b""),
    (["--bands"], b""),
    ([], b""),
    (["--help"], b""),
    (["show", "--help"], b""),
    *[(SHOW, state_file(form, script)) for form, script, _ in STATE_SCRIPTS],
]

# Commands on the smallest files, by the names that they get, and their answers where memory is ample.
SMALLEST = [
    (["show", "dot", "1", "1"], Answer(0, b"P6\n1 1\n255\n\xff\0\0", b"")),
    (["check", "dot", "nothing"], Answer(1, b'{"accepted":false,"code":6,"fault":"NotCertificate","number":null,"record":null}\n', b"")),
    (["play", "triangle", "triangle.cert", "1", "1"], Answer(0, b"P6\n1 1\n255\n\0\0\0", b"")),
    (["over", "dot", "dot.cert", "page"], Answer(0, b"P6\n1 1\n255\n\xff\0\0", b"")),
    (["list", "dot"], Answer(0, DOT_LINES, b"")),
]

# Records of which a thousand more take no more memory than one.
REPEATED = [
    "pixel 0 0",
    "move 3 4",
    "map_mode 8; window_extent 3 3; viewport_origin 1 1",
    "keep 0 0 4 4",
    "pen 0; delete 0",
    "save; restore -1",
    "save; cut 1 1 2 2; restore 1",
    "save; save; save; restore -2; restore -1",
    f"pat_blt {PATINVERT} 0 0 3 4",
    f"bit_blt {SRCCOPY} 0 0 2 2 0 0 {QUAD}",
    f"stretch_dib {MASKED} 4 4 -4 -4 0 0 2 1 {QUAD}",
    f"save; {tiled(0)}; pat_blt {PATCOPY} 0 0 4 4; polygon 0 0 4 0 0 4; restore -1; delete 0",
]


# The same of paths: the machine has room for any from the start.
REPEATED_PATHS = [
    "begin_path; line 3 4; abort_path",
    "begin_path; 9x polygon 1 1 3 1 3 3; end_path; begin_path; abort_path",
    "begin_path; line 3 4; close_figure; end_path; fill_path",
    "begin_path; rectangle 0 0 3 3; line 2 2; end_path; stroke_and_fill_path",
]


class RefusedGrowth(RefusedGrowthTest):
    """The commands."""

    def test_the_program_answers_a_refusal_or_as_ever(self):
        # The program of the other compiler is of the same code: it has the lines without states.
        for program in PROGRAMS:
            for words, given in LINES if program == PROGRAMS[0] else LINES[: -len(STATE_SCRIPTS)]:
                ample = answer(program, words, given)
                refusals = 0
                for number, answered in self.under_refusals(program, words, given):
                    with self.subTest(program=program.name, words=words, number=number):
                        self.assertIn(answered, [OUT_OF_MEMORY, ample])
                    refusals += answered == OUT_OF_MEMORY
                self.assertGreater(refusals, 0, words)

    def test_information_about_one_file_is_lost_alone(self):
        # What is refused once is one file's, or is needed before the first line.
        words = ["info", "stdin", SMALL_EMF]
        for program in PROGRAMS:
            ample = answer(program, words, DOT)
            first, second = ample.out.splitlines()
            lost = [json.dumps(dict.fromkeys(json.loads(line)) | {"error": "OutOfMemory", "file": json.loads(line)["file"]}, separators=(",", ":")) for line in (first, second)]
            texts = [b"", b"%s\n%s\n" % (lost[0].encode(), second), b"%s\n%s\n" % (first, lost[1].encode())]
            met = {answered for _, answered in self.under_refusals(program, words, DOT)}
            self.assertEqual(met - {ample}, {Answer(4, text, OUT_OF_MEMORY.err) for text in texts})

    def test_a_certificate_of_one_file_is_lost_alone(self):
        # A line is as ever, says that memory ran out, or isn't written where there is none for it. A certificate is whole or not there.
        folder = self.mark.with_name("out")
        folder.mkdir()
        words = ["certify", "--out-dir", folder, "4", "4", DOT_FILE, SMALL_EMF, HELD_FILE]
        for program in PROGRAMS:
            ample = answer(program, words)
            lines = ample.out.splitlines(keepends=True)
            certificates = {path.name: path.read_bytes() for path in folder.iterdir()}
            self.assertEqual((ample.status, len(lines), len(certificates)), (1, 3, 2))
            names = ["accepted", "certificate", "certificate_sha256", "error", "file", "file_sha256"]
            lost = [json.dumps(dict.fromkeys(names) | {"error": "OutOfMemory", "file": json.loads(line)["file"]}, separators=(",", ":")).encode() + b"\n" for line in lines]
            for path in folder.iterdir():
                path.unlink()
            met = set()
            for number, answered in self.under_refusals(program, words):
                with self.subTest(program=program.name, number=number):
                    found = answered.out.splitlines(keepends=True)
                    self.assertTrue(all(line in pair for line, pair in zip(found, zip(lines, lost))), found)
                    self.assertIn(answered._replace(out=b""), [ample._replace(out=b""), OUT_OF_MEMORY])
                    self.assertEqual(answered.out == ample.out, answered.status == 1)
                    met |= {place for place, line in enumerate(found) if line in lost}
                for path in folder.iterdir():
                    self.assertEqual(path.read_bytes(), certificates[path.name])
                    path.unlink()
            self.assertEqual(met, {0, 1, 2})

    def test_the_program_answers_in_full_where_nothing_is_refused(self):
        for program in PROGRAMS:
            self.assertEqual(answer(program, *LINES[0]), Answer(0, DOT_IMAGE, b""))
            self.assertEqual(answer(program, *LINES[2]), refused("NoEnd", 1))
            for form, script, wanted in STATE_SCRIPTS:
                with self.subTest(program=program.name, form=form.name, script=script):
                    self.assertEqual(answer(program, SHOW, state_file(form, script)), wanted)

    def prepared(self, program, given, side):
        """The names of a file of these bytes and of its certificate for a square surface. Unlike a pipe a file is read in pieces of one
        size, and these certificates are no longer than one."""
        file, certificate = self.mark.with_name("file"), self.mark.with_name("certificate")
        file.write_bytes(given)
        made = answer(program, ["prepare", file, side, side, certificate])
        self.assertEqual(made, Answer(0, b"", b""))
        self.assertLessEqual(certificate.stat().st_size, 1 << 16)
        return str(file), str(certificate)

    def calls_for_memory(self, program, sides, given):
        """How many calls for memory the program makes to play a file by its certificate."""
        words = ["play", *self.prepared(program, given, "300"), *sides]
        return sum(1 for _ in self.under_refusals(program, words))

    def check_command(self, program, words, output):
        """A command under refusals ends in want of memory, or as ever. An output that it began is whole or not there: none of its bytes is written
        before all of it is known."""
        # (the last run of the line before, of which nothing was refused, may have left its output)
        output.unlink(missing_ok=True)
        ample = answer(program, words)
        written = output.read_bytes() if output.exists() else None
        output.unlink(missing_ok=True)
        refusals = 0
        for number, answered in self.under_refusals(program, words):
            with self.subTest(program=program.name, words=words, number=number):
                self.assertIn(answered, [OUT_OF_MEMORY, ample])
                self.assertEqual(output.read_bytes() if output.exists() else None, written if answered.status == 0 else None)
            output.unlink(missing_ok=True)
            refusals += answered == OUT_OF_MEMORY
        self.assertGreater(refusals, 0, words)

    def image(self, side):
        """The name of a black image with this side."""
        image = self.mark.with_name("image")
        image.write_bytes(b"P6\n%d %d\n255\n" % (side, side) + bytes(3 * side * side))
        return str(image)

    def test_the_commands_for_certificates_answer_a_refusal_or_as_ever(self):
        for program, given in itertools.product(PROGRAMS, [DOT, WHEEL.read_bytes(), SMALL_EMF.read_bytes()]):
            file, certificate = self.prepared(program, given, "64")
            output, image = self.mark.with_name("output"), self.image(64)
            lines = [["prepare", file, "64", "64", str(output)], ["check", file, certificate], ["check", certificate, file]]
            lines += [["play", file, certificate, "64", "64"], ["play", file, certificate, "65", "64"]]
            lines += [["over", file, certificate, image], ["over", file, certificate, file]]
            for words in lines:
                self.check_command(program, words, output)

    def test_each_command_on_the_smallest_files_by_hand(self):
        names = {"dot": DOT, "dot.cert": DOT_CERT, "triangle": TRIANGLE, "triangle.cert": TRIANGLE_CERT, "nothing": b"", "page": b"P6\n1 1\n255\nabc"}
        files = {name: str(self.mark.with_name(name)) for name in names}
        for name, given in names.items():
            pathlib.Path(files[name]).write_bytes(given)
        output = self.mark.with_name("output")
        for program in PROGRAMS:
            for words, wanted in SMALLEST:
                named = [files.get(word, word) for word in words]
                with self.subTest(program=program.name, words=words):
                    self.assertEqual(answer(program, named), wanted)
                    self.check_command(program, named, output)
            prepare = ["prepare", files["dot"], "4", "4", str(output)]
            self.assertEqual((answer(program, prepare), output.read_bytes()), (Answer(0, b"", b""), DOT_CERT))
            self.check_command(program, prepare, output)

    def test_the_commands_for_certificates_on_states_paths_and_tiles(self):
        # The program of the other compiler is of the same code: it has the files above.
        for program, (form, script, wanted) in itertools.product(PROGRAMS[:1], STATE_SCRIPTS):
            output, side = self.mark.with_name("output"), str(SIDE)
            if wanted.status == 0:
                file, certificate = self.prepared(program, state_file(form, script), side)
                lines = [["check", file, certificate], ["play", file, certificate, side, side], ["over", file, certificate, self.image(SIDE)]]
            else:
                file, lines = self.mark.with_name("file"), []
                file.write_bytes(state_file(form, script))
            for words in [["prepare", str(file), side, side, str(output)], *lines]:
                self.check_command(program, words, output)

    def test_records_and_pixels_take_no_memory(self):
        # Files of one length, with a thousand records before the end or behind it, and surfaces of
        # 16 pixels and of 90,000.
        repeated = [*itertools.product(FORMS, REPEATED), *itertools.product([EMF], REPEATED_PATHS)]
        for program, (form, script) in itertools.product(PROGRAMS[:1], repeated):
            once, more = form.records(script), 1000 * form.records(script)
            few = form.file([*once, form.end, *more], SIDE, HANDLES)
            many = form.file([*once, *more, form.end], SIDE, HANDLES)
            with self.subTest(program=program.name, form=form.name, script=script):
                calls = self.calls_for_memory(program, ["4", "4"], few)
                self.assertEqual(self.calls_for_memory(program, ["4", "4"], many), calls)
                self.assertEqual(self.calls_for_memory(program, ["300", "300"], few), calls)

    def test_what_is_large_grows_by_more_than_one_at_a_time(self):
        # A hundred and fifty calls for memory, of which seventeen make room for the entries, twice as much each time.
        many, most, side = 100_000, 200, "4"
        for program in PROGRAMS:
            for script in (f"{many}x pixel 1 1", f"styled_pen 0 0 3 0; select 0; {many}x move 1 1; {many}x line 2 2"):
                file, certificate, output = (str(self.mark.with_name(name)) for name in ("file", "certificate", "output"))
                pathlib.Path(file).write_bytes(WMF.file(WMF.records(script), 4, 1))
                self.assertEqual(answer(program, ["prepare", file, side, side, certificate]), Answer(0, b"", b""))
                self.assertGreaterEqual(pathlib.Path(certificate).stat().st_size, 20 * many)
                pair = [file, certificate]
                for words in (["prepare", file, side, side, output], ["check", *pair], ["play", *pair, side, side], ["show", file, side, side], ["info", file]):
                    with self.subTest(program=program.name, words=words[0], script=script[:20]):
                        self.assertEqual((self.refused(1, program, words) or OUT_OF_MEMORY).status, 4)
                        self.assertIsNone(self.refused(most, program, words))

    def test_the_largest_certificates_grow_by_more_than_one_at_a_time(self):
        # Twenty calls make room for the first MiB of the entries, and one for each MiB more. The entries of pixels are made wide at the end, or
        # are wide from the start.
        many, most, wide = 1_048_000, 200, "styled_pen 0 0 3 0; select 0; rectangle 0 0 2 2"
        file, output = self.mark.with_name("file"), self.mark.with_name("output")
        for script in (f"{many}x pixel 1 1; {wide}", f"{wide}; {many}x pixel 1 1"):
            file.write_bytes(WMF.file(WMF.records(script), 4, 1))
            for program in PROGRAMS:
                with self.subTest(program=program.name, script=script[:20]):
                    self.assertIsNone(self.refused(most, program, ["prepare", str(file), "4", "4", str(output)]))
                    self.assertEqual(output.stat().st_size, 40 + 24 * (many + 1))


if __name__ == "__main__":
    unittest.main()
