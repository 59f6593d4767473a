"""Small files of all kinds of shapes, paths, blits and tiles, made at random from a fixed seed, in
the built programs: each pixel is as the reference decides it by itself."""

import random
import unittest
from concurrent.futures import ThreadPoolExecutor
from functools import cache
from typing import NamedTuple

from answers import refused, shown
from built import Answer, answer, for_each_program
from metafile.bitmaps import APART
from metafile.fields import i16, i32, u16
from metafile.files import EMF_END, WMF_END, emf_file, placeable_file
from metafile.scripts import EMF, FORMS, WMF, Form
from metafile.shapes import BETWEEN
from random_bitmaps import BARE, WHOLE, RandomBitmaps
from reading.rules import CORE, PRINT, Rules
from reference.pixels import Axis
from reference.player import Reference

# How many files of each format: paths stand in EMF alone.
FILES = {"WMF": 200, "EMF": 400}

SEED = 11

# The drawings of both formats, some of them more often than others, and those that EMF has besides.
SHAPES = ["pixel", "line", "polyline", *["polygon", "polygons", "rectangle"] * 2]
EMF_SHAPES = [
    *SHAPES,
    *["polyline_to", "polylines", "short_polygon", "short_polyline", "short_polyline_to"],
    *["short_polylines", "short_polygons"],
]

# In an open path those that go on with figures are more often among them.
PATH_SHAPES = [*EMF_SHAPES, *["line", "polyline_to", "polyline"] * 5]

# The records of paths: those that may stand where there is none, an open or a finished one, some of
# them more often than others, and what they leave where they change that.
PAINTINGS = ["fill_path", "stroke_path", "stroke_and_fill_path"]
NEXT = {
    "none": ["begin_path"],
    "open": [*["close_figure", "end_path"] * 4, "abort_path"],
    "finished": [*PAINTINGS * 3, "begin_path", "abort_path"],
}
LEFT = {"begin_path": "open", "end_path": "finished", "abort_path": "none"}
LEFT |= dict.fromkeys(PAINTINGS, "none")

# How many of the drawings are blits.
BLITS = 0.3

# The widths of pens: mostly small, at times wider than a surface, and rarely wider than any nib.
WIDTHS = [*range(41), *[1, 2, 3, 4, 5] * 8, *[300] * 2]
TOO_WIDE, TOO_WIDE_SHARE = 5000, 0.02

# The bit of a pen's style whose width is that of the page.
GEOMETRIC = 0x10000

COLOURS = [0x000000, 0xFF0000, 0x00FF00, 0x0000FF, 0x5A3C96, 0x800001, 0xFFFFFF]


class Drawn(NamedTuple):
    """A file, its rules, its records as a script, the sides of its surface, its image by the reference, up to a
    record that is refused, and the program's answer by that."""

    form: Form
    rules: Rules
    script: str
    given: bytes
    surface: tuple[int, int]
    image: dict
    wanted: Answer


class Maker:
    """Makes files by numbers at random, all of them by a seed."""

    def __init__(self, form, seed):
        self.form = form
        self.random = random.Random(seed)
        self.surface = self.random.randint(2, 12), self.random.randint(1, 12)
        if self.random.random() < 0.2:
            # Some have many pixels a row, or many rows.
            sides = self.random.randint(13, 140), self.random.randint(1, 4)
            self.surface = self.random.choice([sides, sides[::-1]])
        self.bitmaps = RandomBitmaps(self.random)
        self.objects = 0
        self.depth = 0
        self.cuts = 0
        self.path = "none"

    def number(self):
        """A coordinate: mostly near the surface, at times far off."""
        far = 30000 if self.form is WMF else 90000000
        reach = self.random.choice([0] * 12 + [3, 3, 40, far])
        return self.random.randint(-reach, self.random.choice(self.surface) + reach)

    def numbers(self, count):
        """Coordinates."""
        return [self.number() for _ in range(count)]

    def points(self):
        """The numbers of some points, of which the last may be one again, or of none."""
        points = [self.numbers(2) for _ in range(self.random.randint(0, 7))]
        if len(points) > 2 and self.random.random() < 0.3:
            points[-1] = self.random.choice(points)
        return sum(points, [])

    def shape(self):
        """A drawing."""
        if self.random.random() < BLITS:
            return [self.blit()]
        emf_shapes = PATH_SHAPES if self.path == "open" else EMF_SHAPES
        name = self.random.choice(SHAPES if self.form is WMF else emf_shapes)
        if name == "line":
            moves = [("move", self.numbers(2))] * self.random.randint(0, 1)
            return [*moves, (name, self.numbers(2))]
        if name in ("pixel", "rectangle"):
            return [(name, self.numbers(2 if name == "pixel" else 4))]
        if not name.endswith("s"):
            return [(name, self.narrow(name, self.points()))]
        words = self.points()
        for _ in range(self.random.randint(0, 2)):
            words += [BETWEEN, *self.points()]
        return [(name, self.narrow(name, words))]

    def blit(self):
        """A blit, with a bitmap or without one."""
        corner = self.numbers(2)
        most = max(self.surface) + 3
        extents = [self.random.randint(-most // 2, most) for _ in range(2)]
        if self.random.random() < 0.4:
            names = [name for name in BARE if name in self.form.named]
            return self.bitmaps.bare(names, corner + extents)
        return self.bitmaps.blit(corner, extents)

    def narrow(self, name, words):
        """Words that fit two bytes where the record has no more."""
        if not name.startswith("short_"):
            return words
        return [word if word == BETWEEN else max(-32768, min(word, 32767)) for word in words]

    def width(self):
        """A pen's width: at times below 0."""
        width = TOO_WIDE if self.random.random() < TOO_WIDE_SHARE else self.random.choice(WIDTHS)
        return width if self.random.random() < 0.8 else -width

    def wide_pen(self, colour):
        """A pen of any width, at times one whose style tells whether that is the page's, and at times one that draws nothing."""
        style = self.random.choice([0] * 12 + [1, 4, 5, 6, 8])
        if self.form is WMF or self.random.random() < 0.6:
            return "styled_pen", [style, self.width(), colour]
        measure = self.random.choice([GEOMETRIC] * 3 + [0])
        return "styled_long_pen", [measure + style, abs(self.width()), self.random.choice([0] * 9 + [1]), colour]

    def tool(self):
        """A pen or a brush, made and selected."""
        colour = self.random.choice(COLOURS)
        hatch = self.random.randrange(6)
        kinds = [
            *[("solid_pen", [colour])] * 2,
            *[self.wide_pen(colour)] * 3,
            *[("solid_brush", [colour])] * 2,
            *[("hatched_brush", [hatch, colour])] * 4,
            *[("tiled_brush", [self.bitmaps.tile()])] * 4,
            ("null_pen", []),
            ("null_brush", []),
        ]
        name, words = self.random.choice(kinds)
        self.objects += 1
        return [(name, [self.objects - 1, *words]), ("select", [self.objects - 1])]

    def setting(self):
        """A mode, a colour or an operation."""
        return [
            self.random.choice(
                [
                    ("raster", [self.random.randint(1, 16)]),
                    ("fill_mode", [self.random.randint(1, 2)]),
                    ("back_mode", [self.random.randint(1, 2)]),
                    ("back_colour", [self.random.choice(COLOURS)]),
                ]
            )
        ]

    def mapping(self):
        """A part of the page map."""
        name = self.random.choice(["window", "viewport"])
        if self.random.random() < 0.5:
            return [(f"{name}_origin", [self.random.randint(-6, 6), self.random.randint(-6, 6)])]
        extents = [-3, -1, 1, 2, 3, 4, 5]
        return [(f"{name}_extent", [self.random.choice(extents), self.random.choice(extents)])]

    def clipping(self):
        """A box kept or cut, or the clip taken away."""
        if self.form is EMF and self.random.random() < 0.2:
            self.cuts = 0
            return [("unclip", [])]
        self.cuts += 1
        name = "cut" if self.random.random() < 0.7 and self.cuts < 12 else "keep"
        left, top = self.random.randint(-2, 4), self.random.randint(-2, 4)
        sides = self.random.choice([(1, 1), (2, 3), (5, 2), (9, 9), (12, 7)])
        return [(name, [left, top, left + sides[0], top + sides[1]])]

    def saving(self):
        """A state saved, or the last one restored."""
        if self.depth and self.random.random() < 0.6:
            self.depth -= 1
            return [("restore", [-1])]
        self.depth += 1
        return [("save", [])]

    def path_step(self):
        """A record of paths: mostly one that may stand here, at times any. Behind one that begins a
        path there may be shapes."""
        any_of = sum(NEXT.values(), [])
        is_wrong = self.random.random() < 0.02
        name = self.random.choice(any_of if is_wrong else NEXT[self.path])
        self.path = LEFT.get(name, self.path)
        shapes = self.random.randint(0, 6) if name == "begin_path" else 0
        return [(name, []), *(step for _ in range(shapes) for step in self.shape())]

    def rest_of_path(self):
        """Records up to one that paints or drops the path, if there is one."""
        made = []
        while self.path != "none":
            made += self.path_step()
        return made

    def steps(self):
        """A file's steps."""
        parts = [self.shape] * 5 + [self.tool] * 4 + [self.setting] * 3
        parts += [self.clipping, self.mapping, self.saving]
        made, most = self.tool() + self.tool(), 12
        if self.form is EMF:
            parts += [self.shape] * 2 + [self.path_step] * 8
            made, most = [("map_mode", [8]), *made], 48
        for _ in range(self.random.randint(4, most)):
            made += self.random.choice(parts)()
        return made + self.rest_of_path() + self.shape() + self.shape()

    def axes_and_file(self, script):
        """The page map that a file begins with, and its bytes."""
        records = self.form.records(script)
        near = [self.random.randint(-3, 3) for _ in range(2)]
        others = [self.random.randint(1, 14) for _ in range(2)]
        sides = self.random.choice([self.surface, others])
        if self.form is EMF:
            ends = dict(zip(["left", "top"], map(i32, near), strict=True))
            ends |= {"right": i32(near[0] + sides[0] - 1), "bottom": i32(near[1] + sides[1] - 1)}
            given = emf_file([*records, EMF_END], handles=u16(64), **ends)
            maps = [(0, 1, 0, 1, corner) for corner in near]
        else:
            extents = [side * self.random.choice([1, 1, 1, -1]) for side in sides]
            ends = dict(zip(["left", "top"], map(i16, near), strict=True))
            ends |= {"right": i16(near[0] + extents[0]), "bottom": i16(near[1] + extents[1])}
            given = placeable_file([*records, WMF_END], **ends)
            maps = [
                (origin, extent, 0, side, 0)
                for origin, extent, side in zip(near, extents, sides, strict=True)
            ]
        axes = [Axis(*map_, *ends) for map_, *ends in zip(maps, sides, self.surface, strict=True)]
        return tuple(axes), given

    def drawn(self, rules):
        """A file and its image under rules."""
        steps = self.steps()
        script = "; ".join(" ".join(map(str, [name, *words])) for name, words in steps)
        axes, given = self.axes_and_file(script)
        parts = rules.parts([axis.frame for axis in axes])
        axes = tuple(axis._replace(parts=parts) for axis in axes)
        image, refusal = Reference(axes, self.form is EMF).play(steps)
        wanted = shown(image, *self.surface)
        if refusal is not None:
            fault, number = refusal
            wanted = refused(fault, self.form.first + number)
        return Drawn(self.form, rules, script, given, self.surface, image, wanted)


@cache
def all_drawn(rules=CORE):
    """All files and their images under rules, alike in each run."""
    return [
        Maker(form, f"{form.name} {SEED * 1000 + nth}").drawn(rules)
        for form in FORMS
        for nth in range(FILES[form.name])
    ]


def is_of_bitmaps(refusal):
    """A line that tells a fault of a bitmap or of a blit's source."""
    return b"Dib" in refusal or b"Source" in refusal


def shown_by(program, drawn):
    """What a program answers to a file at its surface."""
    return answer(program, ["show", "stdin", *map(str, drawn.surface), *drawn.rules.words()], drawn.given)


class Files(unittest.TestCase):
    """Files of both formats."""

    def test_most_surfaces_show_several_colours(self):
        # A surface of one colour shows little.
        plain = [drawn for drawn in all_drawn() if len(set(drawn.image.values())) == 1]
        self.assertLess(2 * len(plain), len(all_drawn()))

    def test_many_files_have_wide_strokes_and_few_too_wide_ones(self):
        accepted = [drawn.script for drawn in all_drawn() if drawn.wanted.status == 0]
        self.assertGreater(sum("styled_pen" in script for script in accepted), len(accepted) // 3)
        self.assertGreater(sum("styled_long_pen" in script for script in accepted), len(accepted) // 8)
        too_wide = [drawn for drawn in all_drawn() if b"NibTooWide" in drawn.wanted.err]
        self.assertIn(len(too_wide), range(1, len(all_drawn()) // 10))

    def test_many_files_paint_paths_and_few_misuse_them(self):
        scripts = [drawn.script for drawn in all_drawn() if drawn.wanted.status == 0]
        for painting in PAINTINGS:
            painted = [script for script in scripts if f"; {painting};" in script]
            self.assertGreater(len(painted), FILES["EMF"] // 4)
        misused = [drawn for drawn in all_drawn() if b"PathState" in drawn.wanted.err]
        self.assertIn(len(misused), range(10, FILES["EMF"] // 8))

    def test_most_files_have_bitmaps_and_few_misuse_them(self):
        accepted = [drawn.script for drawn in all_drawn() if drawn.wanted.status == 0]
        with_bitmaps = [script for script in accepted if APART in script]
        self.assertGreater(3 * len(with_bitmaps), 2 * len(accepted))
        for name in [*BARE, *WHOLE, "tiled_brush"]:
            self.assertGreater(sum(name in script for script in accepted), 50, name)
        misused = [drawn for drawn in all_drawn() if is_of_bitmaps(drawn.wanted.err)]
        self.assertIn(len(misused), range(20, len(all_drawn()) // 4))

    def test_many_files_have_another_image_under_the_print_profile(self):
        others = sum(core.image != fine.image for core, fine in zip(all_drawn(), all_drawn(PRINT), strict=True))
        self.assertGreater(3 * others, len(all_drawn()))

    @for_each_program
    def test_each_pixel_is_that_of_the_reference(self, program):
        all_files = [*all_drawn(), *all_drawn(PRINT)]
        with ThreadPoolExecutor() as pool:
            answers = pool.map(lambda drawn: shown_by(program, drawn), all_files)
            wrong = [
                f"{drawn.form.name} on {drawn.surface} {drawn.rules.words()}: {drawn.script}"
                for drawn, answered in zip(all_files, answers, strict=True)
                if answered != drawn.wanted
            ]
        self.assertEqual(wrong[:5], [], f"{len(wrong)} of {len(all_files)} files")


if __name__ == "__main__":
    unittest.main()
