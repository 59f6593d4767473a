"""The samples: each is what its script makes, and is shown, or refused by a line."""

import importlib
import sys
import unittest

from answers import refused, shown
from built import DOT_IMAGE, SAMPLES, Answer, answer, for_each_program
from metafile.fields import BLACK, BLUE, RED
from metafile.shapes import rgb_of

sys.path.insert(0, str(SAMPLES))

SCRIPTS = [importlib.import_module(path.stem) for path in sorted(SAMPLES.glob("make_*.py"))]

MADE = {name: made for script in SCRIPTS for name, made in script.FILES.items()}

# Small samples, each with the sides of a surface and the answer on it.
DIAGONAL = {(0, 0): RED, (1, 1): (0, 255, 0), (2, 2): BLUE, (3, 3): BLACK}
SMALL = {
    "small.wmf": (4, shown(DIAGONAL)),
    "small.emf": (4, shown(DIAGONAL)),
    "nil.emf": (4, shown({})),
    "dot.wmf": (4, Answer(0, DOT_IMAGE, b"")),
    "held.wmf": (4, refused("HeldObject", 5)),
}

# Pictures, each with all the colours that it shows, where pens, brushes and the ground tell them.
WHITE = 0xFFFFFF
PICTURES = {
    "polygons.emf": [0x182058, 0xFFB81C, 0xE8F4F8, 0xF4EEE4],
    "hatches.wmf": [
        *[WHITE, 0x000000, 0xB0D0F0, 0xFFF4C8],
        *[0xB02020, 0x107030, 0x2030A0, 0x905000, 0x701888, 0x006878],
    ],
    "paths.emf": [
        *[WHITE, 0x182058, 0x2060C8, 0xFFFAE8, 0xD83048, 0xFFA820, 0x309860],
        *[0x2848B8, 0xC4DCFA],
    ],
    "lines.wmf": None,
    "raster_ops.emf": None,
    "bitmaps.wmf": None,
    "bitmaps.emf": None,
    "page.emf": None,
}

# The side of the surface that pictures are made for.
SIDE = 256


def colours_of(image):
    """The colours of an image's samples."""
    samples = image[-3 * SIDE * SIDE :]
    return {tuple(samples[at : at + 3]) for at in range(0, len(samples), 3)}


class Samples(unittest.TestCase):
    """Each sample by its name."""

    def answered(self, program, name, side):
        """The program's answer to a sample on a square surface."""
        return answer(program, ["show", SAMPLES / name, str(side), str(side)])

    def test_each_is_tried_and_is_what_its_script_makes(self):
        stored = {path.name for path in SAMPLES.iterdir() if path.suffix in (".wmf", ".emf")}
        self.assertEqual(stored, set(MADE))
        self.assertEqual(stored, {*SMALL, *PICTURES, "wheel.wmf"})
        for name, made in MADE.items():
            self.assertEqual((SAMPLES / name).read_bytes(), made(), name)

    @for_each_program
    def test_small_ones(self, program):
        for name, (side, wanted) in SMALL.items():
            self.assertEqual(self.answered(program, name, side), wanted, name)

    @for_each_program
    def test_the_wheel_pixel_by_pixel(self, program):
        colour = importlib.import_module("make_wheel").colour
        places = [(x, y) for x in range(64) for y in range(64) if colour(x, y)]
        wanted = shown({place: colour(*place) for place in places}, 64, 64)
        self.assertEqual(self.answered(program, "wheel.wmf", 64), wanted)

    @for_each_program
    def test_pictures_are_whole_and_show_their_colours(self, program):
        for name, numbers in PICTURES.items():
            status, image, line = self.answered(program, name, SIDE)
            self.assertEqual((status, line), (0, b""), name)
            self.assertTrue(image.startswith(b"P6\n%d %d\n255\n" % (SIDE, SIDE)), name)
            self.assertEqual(len(image), 15 + 3 * SIDE * SIDE, name)
            colours = colours_of(image)
            self.assertGreater(len(colours), 3, name)
            if numbers:
                self.assertEqual(colours, set(map(rgb_of, numbers)), name)


if __name__ == "__main__":
    unittest.main()
