"""Bands of any number of rows show what the whole surface shows: each sample, and files made at random from a fixed seed, beside `over`, which
plays on the whole of a white image."""

import itertools
import pathlib
import tempfile
import unittest

from built import PROGRAMS, SAMPLES, Answer, answer, for_each_program
from metafile.scripts import EMF, FORMS, HANDLES, WMF
from reading.rules import CORE, PRINT
from reference_test import Maker

SEED = 25

# How many files there are of each format, of the one compiler's program and of the other's.
FILES = {PROGRAMS[0]: 1000, PROGRAMS[1]: 100}

BANDS = [1, 2, 7, 100]

SIDES = [(61, 47), (256, 100)]


def white(width, height):
    """A white image."""
    return f"P6\n{width} {height}\n255\n".encode() + b"\xff" * (3 * width * height)


def made(form, nth):
    """A file of a format, and the surface that it is made for."""
    maker = Maker(form, f"{form.name} bands {SEED * 10_000 + nth}")
    script = "; ".join(" ".join(map(str, [name, *words])) for name, words in maker.steps())
    return maker.axes_and_file(script)[1], maker.surface


class Bands(unittest.TestCase):
    """The program, with the files that it is given in a folder of the test's own."""

    def setUp(self):
        folder = tempfile.TemporaryDirectory()
        self.addCleanup(folder.cleanup)
        self.folder = pathlib.Path(folder.name)

    def path(self, name, data=b""):
        """A file of the folder."""
        path = self.folder / name
        path.write_bytes(data)
        return path

    def check(self, program, given, sides, bands, rules=CORE):
        """The file is played by bands as on the whole surface: whether it has a certificate."""
        file, certificate = self.path("file", given), self.path("certificate")
        words = [str(side) for side in sides]
        if answer(program, ["prepare", file, *words, certificate, *rules.words()]).status != 0:
            return False
        whole = answer(program, ["over", file, certificate, self.path("white", white(*sides))])
        self.assertEqual((whole.status, whole.err), (0, b""))
        self.assertEqual(answer(program, ["play", file, certificate, *words]), whole)
        self.assertEqual(answer(program, ["show", file, *words, *rules.words()]), whole)
        for rows in bands:
            self.assertEqual(answer(program, ["play", file, certificate, *words, "--bands", str(rows)]), whole, rows)
        return True

    @for_each_program
    def test_samples(self, program):
        for path in sorted(SAMPLES.iterdir()):
            if path.suffix not in (".wmf", ".emf") or answer(program, ["show", path, "9", "9"]).status != 0:
                continue
            for sides, rules in itertools.product(SIDES, (CORE, PRINT)):
                with self.subTest(sample=path.name, sides=sides, rules=rules):
                    self.assertTrue(self.check(program, path.read_bytes(), sides, [*BANDS, 8192], rules))

    @for_each_program
    def test_strokes_beside_the_most_pixels_that_are_marked(self, program):
        # Of the three boxes the first alone is marked on the whole surface, and each is in bands.
        side = 1025
        for right, bottom in (1023, 1023), (1024, 1023), (1023, 1024):
            script = f"raster 6; polyline 0 0 {right} 0 {right} {bottom} 0 {bottom} 0 0 {right} {bottom} 7 9 {right} 500 7 9"
            for form in FORMS:
                with self.subTest(form=form.name, right=right, bottom=bottom):
                    given = form.file(form.records(script), side, HANDLES)
                    self.assertTrue(self.check(program, given, (side, side), [100, 8192]))

    @for_each_program
    def test_files_made_at_random(self, program):
        accepted = 0
        for form in FORMS:
            for nth in range(FILES[program]):
                given, sides = made(form, nth)
                for rules in (CORE, PRINT):
                    with self.subTest(form=form.name, nth=nth, rules=rules):
                        accepted += self.check(program, given, sides, [1, BANDS[1 + nth % 3]], rules)
        self.assertGreater(accepted, 2 * FILES[program])

    @for_each_program
    def test_drawings_that_touch_and_miss_an_edge(self, program):
        # Boxes, lines and pixels whose rows end or begin at rows 3 and 4, on bands that part there.
        for form in (WMF, EMF):
            for top in range(-2, 9):
                script = f"map_mode 8; rectangle 0 {top} 3 {top + 2}; move 4 {top}; line 7 {top + 1}; pixel 5 {top}"
                given = form.file(form.records(script), 8, 0)
                self.assertTrue(self.check(program, given, (8, 8), [1, 2, 3, 4, 5, 7, 8]), (form.name, top))

    @for_each_program
    def test_what_is_open_at_the_end_is_gone_in_the_next_band(self, program):
        for left in ("begin_path; line 3 3", "begin_path; line 3 3; end_path", "256x save", "pen 0; select 0", "move 7 7"):
            given = EMF.file(EMF.records(f"line 6 5; rectangle 0 0 6 6; {left}"), 8, HANDLES)
            self.assertTrue(self.check(program, given, (8, 8), BANDS), left)

    def test_no_other_bands(self):
        file, certificate = self.path("file", (SAMPLES / "dot.wmf").read_bytes()), self.path("certificate")
        self.assertEqual(answer(PROGRAMS[0], ["prepare", file, "4", "4", certificate]), Answer(0, b"", b""))
        for words in (["--bands", "0"], ["--bands", "8193"], ["--bands", "x"], ["--bands"], ["--bands", "1", "--bands", "1"]):
            told = answer(PROGRAMS[0], ["play", file, certificate, "4", "4", *words])
            self.assertEqual((told.status, told.out), (2, b""), words)


if __name__ == "__main__":
    unittest.main()
