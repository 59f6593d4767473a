"""The pictures, numbers and tables of docs/PIXELS.md are those of the reference player, which is written from the same rules, and the built programs show
the pictures."""

import re
import unittest
from typing import NamedTuple

from answers import shown
from built import ROOT, answer, for_each_program
from metafile.bitmaps import bitmap
from metafile.scripts import EMF, HANDLES, WMF
from metafile.shapes import BETWEEN, SOLID, rgb_of
from reference.pixels import HATCHES, Axis, mixed
from reference.player import Reference

PAGE = (ROOT / "docs" / "PIXELS.md").read_text(encoding="utf-8")

# A picture: its steps, perhaps how many pixels they write, and its rows, each behind its number.
PICTURE = re.compile(r"(?m)^```\n(?P<steps>.*?)(?: {2,}(?P<writes>\d+) writes)?\n  (?P<columns>\d+)\n(?P<rows>(?:\d .*\n)+)```$")

SIGN = re.compile(r"(?m)^\| `(.)` \| ([0-9A-F]{6}) \|")

COLOURS = {sign: rgb_of(int(number, 16)) for sign, number in SIGN.findall(PAGE)}

SIGNS = {colour: sign for sign, colour in COLOURS.items()}

FILL_MODES = {"alternate": 1, "winding": 2}

BACKGROUNDS = {"transparent": 1, "opaque": 2}


def number_of(sign):
    """The colour of a sign, as scripts tell colours."""
    return int.from_bytes(bytes(COLOURS[sign]), "big")


def picture_word(rows):
    """A bitmap of 24 bits, its bottom row stored first, as scripts have it."""
    return str(bitmap([[COLOURS[sign] for sign in row] for row in rows.split("/")], 24))


def tool(name, *words):
    """A pen or a brush, made and selected."""
    return [(name, [0, *words]), ("select", [0])]


def pen(sign, width=1):
    """A pen of a colour, at times with a width, or none."""
    return tool("null_pen") if sign == "none" else tool("styled_pen", SOLID, int(width), number_of(sign))


def brush(sign):
    """A brush of a colour, or none."""
    return tool("null_brush") if sign == "none" else tool("solid_brush", number_of(sign))


def background(mode, sign="."):
    """The background's mode, and its colour."""
    return [("back_mode", [BACKGROUNDS[mode]]), ("back_colour", [number_of(sign)])]


def blit(name):
    """A blit of a ternary raster operation to a box, from a rectangle of a picture if one is told."""

    def steps(operation, *words):
        """Its steps."""
        told = list(map(int, words[:4]))
        if len(words) == 4:
            return [("pat_blt", [int(operation, 16), *told])]
        return [(name, [int(operation, 16), *told, *map(int, words[5:9]), picture_word(words[10])])]

    return steps


STEPS = {
    "pen": pen,
    "brush": brush,
    "hatch": lambda hatch, sign: tool("hatched_brush", int(hatch), number_of(sign)),
    "tile": lambda rows: tool("tiled_brush", picture_word(rows)),
    "background": background,
    "fill": lambda mode: [("fill_mode", [FILL_MODES[mode]])],
    "pixel": lambda x, y, sign: [("pixel", [int(x), int(y), COLOURS[sign]])],
    "blit": blit("stretch_blt"),
    "stored_blit": blit("stretch_dib"),
}


def steps_of(step):
    """The reference's steps of one of the page's."""
    name, *words = step.split()
    return STEPS[name](*words) if name in STEPS else [(name, [word if word == BETWEEN else int(word) for word in words])]


def numbered(steps):
    """The same steps with an index of its own for each tool."""
    made = 0
    for name, words in steps:
        is_tool = name.endswith(("_pen", "_brush"))
        made += is_tool
        yield name, [made - 1, *words[1:]] if is_tool or name == "select" else words


class Counting(dict):
    """An image that counts how often a pixel is written."""

    writes = 0

    def __setitem__(self, key, value):
        self.writes += 1
        super().__setitem__(key, value)


class Told(NamedTuple):
    """What a picture tells: its steps, its frame, whether it is of EMF, its rows of signs, and how many pixels are written, if it says so."""

    script: str
    steps: list
    frame: tuple[int, int]
    is_emf: bool
    rows: list
    writes: int | None

    @property
    def surface(self):
        """The sides of the surface."""
        return len(self.rows[0]), len(self.rows)

    def drawn(self):
        """What the reference draws, and how many pixels it writes."""
        player = Reference([Axis(0, 1, 0, 1, 0, *sides) for sides in zip(self.frame, self.surface, strict=True)], self.is_emf)
        player.image = Counting(player.image)
        image, refusal = player.play(self.steps)
        assert refusal is None, (self.script, refusal)
        return image, image.writes

    def file(self):
        """The steps as a file."""
        form = EMF if self.is_emf else WMF
        records = [form.pixel(*words) if name == "pixel" else form.step(name, *words) for name, words in self.steps]
        return form.file(records, self.frame, HANDLES)

    def image(self):
        """The picture's pixels."""
        return {(x, y): COLOURS[sign] for y, row in enumerate(self.rows) for x, sign in enumerate(row)}


def told(picture):
    """What a picture of the page tells."""
    rows = [row[2:] for row in picture["rows"].splitlines()]
    parts = [part.strip() for part in picture["steps"].split(";")]
    frames = [tuple(map(int, part.split()[1:])) for part in parts if part.startswith("frame ")]
    steps = [step for part in parts if part != "emf" and not part.startswith("frame ") for step in steps_of(part)]
    frame = frames[0] if frames else (len(rows[0]), len(rows))
    return Told(picture["steps"], list(numbered(steps)), frame, "emf" in parts, rows, int(picture["writes"]) if picture["writes"] else None)


class Pictures(unittest.TestCase):
    """Each picture of the page."""

    def test_each_picture_is_what_the_reference_draws(self):
        for picture in map(told, PICTURE.finditer(PAGE)):
            with self.subTest(steps=picture.script):
                image, writes = picture.drawn()
                width, height = picture.surface
                self.assertEqual(["".join(SIGNS[image[x, y]] for x in range(width)) for y in range(height)], picture.rows)
                self.assertEqual(writes, picture.writes or writes)

    @for_each_program
    def test_each_picture_is_what_the_program_shows(self, program):
        for picture in map(told, PICTURE.finditer(PAGE)):
            with self.subTest(steps=picture.script):
                words = ["show", "stdin", *map(str, picture.surface)]
                self.assertEqual(answer(program, words, picture.file()), shown(picture.image(), *picture.surface))

    def test_rows_and_columns_are_numbered(self):
        for it in PICTURE.finditer(PAGE):
            self.assertEqual(it["columns"], "0123456789"[: len(it["columns"])])
            self.assertEqual([row[:2] for row in it["rows"].splitlines()], [f"{number} " for number in range(it["rows"].count("\n"))])

    def test_each_block_of_the_page_is_a_picture(self):
        self.assertEqual(len(PICTURE.findall(PAGE)), PAGE.count("\n```\n") // 2)
        self.assertGreater(len(PICTURE.findall(PAGE)), 25)


class Numbers(unittest.TestCase):
    """The tables of the page."""

    def test_each_point_lands_as_the_reference_says(self):
        rows = re.findall(r"(?m)^\|((?: -?\d+ \|){10})$", PAGE)
        self.assertEqual(len(rows), 7)
        for row in rows:
            x, origin, extent, viewport, viewport_extent, corner, frame, surface, v, place = map(int, row.replace("|", " ").split())
            with self.subTest(row=row):
                self.assertEqual(Axis(origin, extent, viewport, viewport_extent, corner, frame, surface).placed(x), place)
                self.assertEqual(Axis(origin, extent, viewport, viewport_extent, corner, 1, 1).placed(x), v)

    def test_each_hatch_has_the_cells_that_are_told(self):
        rows = re.findall(r"(?m)^\| (\d) \| HS_\w+ \| (.*) \|$", PAGE)
        self.assertEqual([int(number) for number, _ in rows], list(range(len(HATCHES))))
        for number, rule in rows:
            test = compile(rule.replace("=", "=="), rule, "eval")
            for x in range(8):
                for y in range(8):
                    self.assertEqual(bool(HATCHES[int(number)](x, y)), eval(test, {"x": x, "y": y}), (rule, x, y))

    def test_the_digits_of_an_operation_are_its_results(self):
        told = re.findall(r"is\s+(\d+),\s+and\s+(\d+)\s+is\s+([01]{4})", PAGE)
        self.assertEqual(len(told), 3)
        for operation, less, digits in told:
            self.assertEqual((int(operation) - 1, f"{int(less):04b}"), (int(less), digits))
            for digit, (paint, old) in zip(digits, [(1, 1), (1, 0), (0, 1), (0, 0)], strict=True):
                self.assertEqual(mixed(int(operation), (paint,), (old,))[0] & 1, int(digit))


if __name__ == "__main__":
    unittest.main()
