"""Shapes at the sizes where the loops over pixels change their way, in the built programs: each pixel is as the reference decides it by itself.

A span is written by four, eight, sixteen and more pixels at once, a hatch by the cells of a row of eight, a row of an image by sixteen pixels, and a mask
of visited pixels by words of 64."""

import random
import unittest
from concurrent.futures import ThreadPoolExecutor
from functools import cache

from answers import shown
from built import answer, for_each_program
from metafile.fields import i32, u16
from metafile.files import EMF_END, emf_file
from metafile.scripts import EMF
from reference.pixels import Axis
from reference.player import Reference

# One and two pixels, and the sizes next to multiples of what is written at once.
WIDTHS = [1, 2, 3, 4, 5, 7, 8, 9, 15, 16, 17, 23, 24, 25, 31, 32, 33, 63, 64, 65]

LONGEST = 8192

# Just within the places that a surface has beyond its edges.
FAR = (1 << 28) - 1

WINDING = 2

TOOLS = ["null_pen 0", "solid_brush 1 0x206040", "solid_pen 2 0x804020", "null_brush 3"]

FILLED, STROKED, BOTH = ["select 0", "select 1"], ["select 2", "select 3"], ["select 2", "select 1"]


def joined(*parts):
    """The steps of lists of steps and of steps."""
    return [step for part in parts for step in ([part] if isinstance(part, str) else part)]


def polygon(*corners):
    """A polygon by its corners."""
    return " ".join(["polygon", *(str(number) for corner in corners for number in corner)])


def quadrilateral(left, right, top, bottom):
    """One whose upper row is one pixel wider at each end than its lower row."""
    return polygon((left - 1, top), (right + 1, top), (right, bottom), (left, bottom))


@cache
def wanted(surface, script):
    """What the program answers to a script, by the reference."""
    steps = [step.split() for step in script.split("; ")]
    played = [(name, [int(word, 0) for word in words]) for name, *words in steps]
    image, refusal = Reference(tuple(Axis(0, 1, 0, 1, 0, side, side) for side in surface), True).play(played)
    assert refusal is None, (refusal, script)
    return shown(image, *surface)


class Drawn:
    """A script of EMF on a surface as large as its frame."""

    def __init__(self, surface, *steps):
        self.surface, self.script = surface, "; ".join(joined(TOOLS, *steps))

    def given(self):
        """The file."""
        right, bottom = (i32(side - 1) for side in self.surface)
        return emf_file([*EMF.records(self.script), EMF_END], handles=u16(64), right=right, bottom=bottom)

    def is_right(self, program):
        """Whether a program shows it as the reference does."""
        return answer(program, ["show", "stdin", *map(str, self.surface)], self.given()) == wanted(self.surface, self.script)


def hatch_steps(width):
    """Rectangles of this width with each hatch from each column of the hatch's square, transparent and opaque."""
    yield "select 0"
    for hatch in range(6):
        yield from (f"hatched_brush {4 + hatch} {hatch} 0x{0x102030 + hatch:06x}", f"select {4 + hatch}")
        for column in range(8):
            top = 16 * hatch + 2 * column
            yield from (f"back_mode {1 + column % 2}", f"rectangle {column} {top} {column + width - 1} {top + 1}")


def zigzag(width, rows, count):
    """A polygon whose corners lie at the left and at the right by turns."""
    chance = random.Random(width)
    return polygon(*((chance.randrange(width + 1), chance.randrange(-2, rows + 2)) for _ in range(count)))


def near_whole(long):
    """Lines and edges across so many rows or columns by each number of pixels: among their crossings are those next to a whole number and to the
    middle between two."""
    for short in range(0, long + 1, 3):
        yield joined(FILLED, polygon((0, 0), (short % 5, 0), (short, long), (0, long)))
        yield joined(STROKED, "move 0 0", f"line {long} {short}", f"line {short} {long}", f"line {long - short} 0")


class Sizes(unittest.TestCase):
    """Each sort of loop at each size."""

    def check(self, program, drawn):
        """A program shows each as the reference does."""
        drawn = list(drawn)
        with ThreadPoolExecutor() as pool:
            right = list(pool.map(lambda it: it.is_right(program), drawn))
        wrong = [(it.surface, it.script) for it, is_right in zip(drawn, right, strict=True) if not is_right]
        self.assertEqual(wrong[:2], [], f"{len(wrong)} of {len(drawn)}")

    @for_each_program
    def test_spans_of_each_width_from_each_column(self, program):
        self.check(
            program,
            (
                Drawn((width + 11, 6), f"raster {raster}", tools, quadrilateral(left, left + width, 1, 5))
                for width in WIDTHS
                for left, tools, raster in [(0, FILLED, 13), (1, BOTH, 13), (5, FILLED, 7), (9, BOTH, 7)]
            ),
        )

    @for_each_program
    def test_boxes_of_each_width_from_each_column(self, program):
        self.check(
            program,
            (
                Drawn((width + 11, 9), f"raster {raster}", cuts, FILLED, f"rectangle {left} {top} {left + width - 1} {bottom}")
                for width in WIDTHS
                for left, top, bottom, raster, cuts in [
                    (0, 0, 8, 13, []),
                    (9, 3, 3, 13, []),
                    (-1, -3, 12, 13, ["keep 1 1 400 7"]),
                    (5, 2, 6, 13, ["cut 7 3 9 5"]),
                    (5, 2, 6, 7, []),
                ]
            ),
        )

    @for_each_program
    def test_surfaces_of_each_width(self, program):
        self.check(program, (Drawn((width, 5), BOTH, "fill_mode 2", zigzag(width, 5, 9)) for width in WIDTHS))

    @for_each_program
    def test_hatches_of_each_width_from_each_column(self, program):
        self.check(program, (Drawn((width + 9, 96), list(hatch_steps(width))) for width in WIDTHS if width <= 33))

    @for_each_program
    def test_strokes_of_several_lines_on_surfaces_of_each_width(self, program):
        self.check(program, (Drawn((width, 20), f"raster {raster}", STROKED, zigzag(width, 20, 12)) for width in WIDTHS for raster in (6, 13)))

    @for_each_program
    def test_crossings_next_to_a_whole_number(self, program):
        self.check(program, (Drawn((long + 1, long + 1), list(steps)) for long in (16, 31, 47) for steps in near_whole(long)))

    @for_each_program
    def test_coordinates_near_the_limit(self, program):
        corners = [(-FAR, -FAR), (FAR, 3 - FAR), (5, FAR), (-FAR, 7), (FAR, FAR)]
        turned = [corners[at:] + corners[:at] for at in range(5)]
        self.check(
            program,
            (Drawn((17, 9), f"fill_mode {mode}", tools, polygon(*places)) for mode in (1, WINDING) for tools in (FILLED, BOTH) for places in turned),
        )

    @for_each_program
    def test_the_longest_sides(self, program):
        steps = [BOTH, polygon((0, 0), (LONGEST, 1), (LONGEST - 3, 2), (1, 2)), "hatched_brush 4 5 0x102030", "select 4", "select 0"]
        steps += [f"rectangle 3 0 {LONGEST} 1"]
        self.check(program, (Drawn((side, 2), *steps) for side in (LONGEST - 1, LONGEST)))
        upright = [BOTH, polygon((0, 0), (2, 0), (2, LONGEST), (1, LONGEST))]
        self.check(program, (Drawn((2, side), *upright) for side in (LONGEST - 1, LONGEST)))


if __name__ == "__main__":
    unittest.main()
