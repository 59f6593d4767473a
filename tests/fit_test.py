"""`--fit`: the surface is the largest within W and H that has the proportion of the file's frame. The sides are computed here with fractions."""

import fractions
import itertools
import math
import pathlib
import tempfile
import unittest

from built import PROGRAMS, Answer, answer, for_each_program
from metafile.scripts import EMF, WMF

# Frames of many proportions, one of them as wide as a frame may be.
WMF_FRAMES = [(7, 3), (3, 7), (1, 1), (64, 63), (1000, 1), (1, 32767)]
EMF_FRAMES = [(16, 9), (5, 8), (2**28, 3)]

DRAWN = "rectangle 0 0 2 3; pixel 0 0"


def fitted(frame, most):
    """The sides at the greatest scale at which the frame isn't larger than these. Each is rounded to the nearest, a half up, and is at least 1."""
    scale = min(fractions.Fraction(side, of_frame) for side, of_frame in zip(most, frame))
    return tuple(max(1, math.floor(scale * of_frame + fractions.Fraction(1, 2))) for of_frame in frame)


def texts(sides):
    """Sides as words of a command line."""
    return [str(side) for side in sides]


class Fit(unittest.TestCase):
    """The program, with files of each frame in a folder of the test's own."""

    def setUp(self):
        folder = tempfile.TemporaryDirectory()
        self.addCleanup(folder.cleanup)
        self.folder = pathlib.Path(folder.name)
        forms = [(WMF, frame) for frame in WMF_FRAMES] + [(EMF, frame) for frame in EMF_FRAMES]
        self.files = {frame: self.path(f"{form.name} {frame}", form.file(form.records(DRAWN), frame, 0)) for form, frame in forms}

    def path(self, name, data):
        """A file of the folder."""
        path = self.folder / name
        path.write_bytes(data)
        return path

    def shown(self, program, frame, most):
        """What `show --fit` writes, after a check of its sides."""
        shown = answer(program, ["show", self.files[frame], *texts(most), "--fit"])
        self.assertEqual((shown.status, shown.err), (0, b""), (frame, most))
        self.assertEqual(shown.out.split(b"\n")[1].decode(), " ".join(texts(fitted(frame, most))), (frame, most))
        return shown

    def test_sides_by_hand(self):
        self.assertEqual([fitted((7, 3), most) for most in [(7, 3), (7, 9), (10, 3), (5, 5), (1, 1)]], [(7, 3), (7, 3), (7, 3), (5, 2), (1, 1)])
        # 3/7 of 3 is 1.29; a half is rounded up: 3/2 is 2; and 64,000 columns would be needed for 64 rows.
        self.assertEqual([fitted(*both) for both in [((3, 7), (3, 3)), ((2, 1), (3, 3)), ((1000, 1), (64, 64))]], [(1, 3), (3, 2), (64, 1)])

    def test_all_sides_up_to_64(self):
        frames = itertools.cycle(self.files)
        for most in itertools.product(range(1, 65), repeat=2):
            self.shown(PROGRAMS[0], next(frames), most)

    @for_each_program
    def test_the_image_is_that_at_these_sides(self, program):
        for frame, most in itertools.product(self.files, [(8192, 60), (60, 8192), (33, 34), (1, 1)]):
            shown = self.shown(program, frame, most)
            self.assertEqual(shown, answer(program, ["show", self.files[frame], *texts(fitted(frame, most))]), (frame, most))

    @for_each_program
    def test_play_fits_within_the_bound(self, program):
        file, certificate = self.files[16, 9], self.folder / "certificate"
        self.assertEqual(answer(program, ["prepare", file, "32", "18", certificate]), Answer(0, b"", b""))
        for most, sides in [(("16", "100"), ("16", "9")), (("8192", "18"), ("32", "18")), (("31", "31"), ("31", "17"))]:
            whole = answer(program, ["play", file, certificate, *sides])
            self.assertEqual((whole.status, whole.err), (0, b""))
            for options in [["--fit"], ["--fit", "--bands", "2"], ["--bands=1", "--fit"]]:
                self.assertEqual(answer(program, ["play", file, certificate, *most, *options]), whole, (most, options))
        too_large = Answer(1, b"", b"metaplay: SurfaceTooLarge\n")
        self.assertEqual(answer(program, ["play", file, certificate, "33", "8192", "--fit"]), too_large)
        self.assertEqual(answer(program, ["play", file, certificate, "33", "18"]), too_large)

    @for_each_program
    def test_a_file_that_does_not_open_has_no_frame(self, program):
        for words in [["show", "stdin", "4", "4"], ["show", "stdin", "4", "4", "--fit"]]:
            self.assertEqual(answer(program, words), Answer(1, b"", b"metaplay: NotMetafile\n"))

    @for_each_program
    def test_no_other_words(self, program):
        file = self.files[7, 3]
        for words in [["show", file, "4", "4", "--fit", "--fit"], ["show", file, "4", "4", "--fit=1"], ["prepare", file, "4", "4", "--fit", "out"]]:
            told = answer(program, words)
            self.assertEqual((told.status, told.out), (2, b""), words)


if __name__ == "__main__":
    unittest.main()
