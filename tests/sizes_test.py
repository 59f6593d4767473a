"""The built program at sizes of every sort, drawn anew each run: sides, handles, points, pieces, saved states, records, pixels
written, and lengths of input. Where a file is good it is shown at each of them, and where it isn't its fault is told as ever.

A failure's message has the seed; `SIZES_SEED=...` before the command draws the same sizes again.
"""

import os
import random
import tempfile
import unittest

from answers import refused, shown
from built import answer, for_each_program
from metafile.fields import RED
from metafile.files import WMF_END, placeable_file, wmf_pixel, wmf_record
from metafile.scripts import EMF, FORMS, SIDE, WMF
from script_answers import pixels

SEED = os.environ.get("SIZES_SEED") or os.urandom(8).hex()

LARGEST_SIDE = 8192

# Sides that people ask for: of screens, and of paper at 72, 150 and 300 pixels an inch.
COMMON = [
    *[(640, 480), (800, 600), (1024, 768), (1280, 720), (1280, 1024), (1366, 768), (1600, 1200), (1920, 1080), (2048, 1536), (2560, 1440)],
    *[(3840, 2160), (4096, 2160), (595, 842), (612, 792), (1240, 1754), (1275, 1650), (2480, 3508), (2550, 3300), (1000, 1000), (2000, 3000)],
]

MOST_HANDLES = 65535

SHOW = ["show", "stdin", str(SIDE), str(SIDE)]

DRAWN = pixels([(1, 1)])

# A file that draws nothing, in a box of 4 by 4.
EMPTY = placeable_file([WMF_END])


def beside_powers(least, most):
    """The powers of two, and their neighbours, within bounds that are met too."""
    powers = [(1 << power) + beside for power in range(most.bit_length() + 1) for beside in (-1, 0, 1)]
    return sorted({least, most} | {number for number in powers if least <= number <= most})


class SizesTest(unittest.TestCase):
    """A test whose sizes are drawn by the seed."""

    def setUp(self):
        """Begins the draws, which are the test's own."""
        self.random = random.Random(f"{SEED} {self.id()}")

    def drawn(self, times, least, most):
        """Numbers within bounds, as many small ones as large ones."""
        evenly = [self.random.randint(least, most) for _ in range(times // 2)]
        by_length = [self.random.randint(least, max(least, most >> self.random.randrange(most.bit_length()))) for _ in evenly]
        return evenly + by_length

    def sizes(self, times, least, most):
        """Drawn numbers, and those beside powers of two."""
        return sorted({*beside_powers(least, most), *self.drawn(times, least, most)})

    def check(self, program, words, given, wanted, size):
        """The program's answer is the wanted one; of an image that isn't, the header and the length are told."""
        answered = answer(program, words, given)
        if answered != wanted:
            told = answered.status, answered.out[:15], len(answered.out), answered.err
            sought = wanted.status, wanted.out[:15], len(wanted.out), wanted.err
            self.fail(f"SIZES_SEED={SEED} {size}: {told}, wanted {sought}")


class Sides(SizesTest):
    """Surfaces of all sorts of sides, all white."""

    def check_sides(self, program, width, height):
        """The white image has these sides, the width first."""
        wanted = shown({}, width, height)
        self.check(program, ["show", "stdin", str(width), str(height)], EMPTY, wanted, (width, height))

    @for_each_program
    def test_wide_and_high_surfaces(self, program):
        for side in self.sizes(400, 1, LARGEST_SIDE):
            other = self.random.randint(1, 9)
            self.check_sides(program, side, other)
            self.check_sides(program, other, side)

    @for_each_program
    def test_surfaces_of_about_a_hundred_thousand_pixels(self, program):
        for width in self.drawn(200, 1, LARGEST_SIDE):
            self.check_sides(program, width, self.random.randint(1, min(LARGEST_SIDE, 200_000 // width + 1)))

    @for_each_program
    def test_sides_that_people_ask_for(self, program):
        for width, height in COMMON:
            self.check_sides(program, width, height)
            self.check_sides(program, height, width)

    @for_each_program
    def test_squares(self, program):
        for side in [*range(1, 301), *self.drawn(10, 301, 1024)]:
            self.check_sides(program, side, side)

    @for_each_program
    def test_images_of_each_count_of_pixels_about_those_of_a_piece(self, program):
        # An image is written in pieces: what is behind the last whole one is any count of pixels.
        for count in self.drawn(100, 1, 50_000):
            width = self.random.choice([side for side in range(1, 100) if count % side == 0])
            if count // width <= LARGEST_SIDE:
                self.check_sides(program, width, count // width)


class Counts(SizesTest):
    """Counts of handles, saved states, points and pieces."""

    @for_each_program
    def test_an_emf_has_any_count_of_handles(self, program):
        for handles in self.sizes(100, 2, MOST_HANDLES):
            last = handles - 1
            records = EMF.records(f"brush_at {last}; delete_at {last}; pen_at {last}; select_at {last}; pixel 1 1")
            self.check(program, SHOW, EMF.file(records, SIDE, handles), DRAWN, handles)

    @for_each_program
    def test_no_index_is_behind_the_handles(self, program):
        for handles in self.sizes(50, 1, MOST_HANDLES):
            given = EMF.file(EMF.records(f"pixel 1 1; pen_at {handles}"), SIDE, handles)
            self.check(program, SHOW, given, refused("NoSuchHandle", 2), handles)

    @for_each_program
    def test_a_wmf_has_any_count_of_objects(self, program):
        for objects in self.sizes(40, 1, 1024):
            given = WMF.file(WMF.records(f"{objects}x pen 0; select {objects - 1}; pixel 1 1"), SIDE, 0)
            self.check(program, SHOW, given, DRAWN, objects)

    @for_each_program
    def test_states_are_saved_to_any_depth(self, program):
        for depth in range(1, 257):
            form = self.random.choice(FORMS)
            given = form.file(form.records(f"{depth}x save; restore {-depth}; pixel 1 1"), SIDE, 2)
            self.check(program, SHOW, given, DRAWN, depth)

    def check_points(self, program, form, shape, counts):
        """A shape of each count of points, apart from the surface, is drawn."""
        for count in counts:
            points = " ".join(["-9 -9 -5 -9"] * (count // 2) + ["-9 -5"] * (count % 2))
            records = form.records(f"move -9 -9; {shape} {points}; pixel 1 1")
            self.check(program, SHOW, form.file(records, SIDE, 2), DRAWN, (form.name, shape, count))

    @for_each_program
    def test_lists_have_any_count_of_points(self, program):
        for shape in ("polygon", "polyline"):
            self.check_points(program, WMF, shape, self.sizes(40, 2, 32767))
            self.check_points(program, EMF, f"short_{shape}", self.sizes(20, 2, 1 << 15))
        self.check_points(program, EMF, "polyline_to", self.sizes(20, 1, 1 << 15))

    @for_each_program
    def test_paths_have_any_count_of_pieces(self, program):
        for count in self.sizes(60, 1, 1 << 16):
            painted = self.random.choice(["fill_path", "stroke_path", "stroke_and_fill_path"])
            records = EMF.records(f"begin_path; {count}x polygon -9 -9 -5 -9; end_path; {painted}; pixel 1 1")
            self.check(program, SHOW, EMF.file(records, SIDE, 2), DRAWN, (painted, count))


class Records(SizesTest):
    """Records up to one with a fault or to the end, and the pixels that they write."""

    @for_each_program
    def test_a_fault_is_told_with_its_record(self, program):
        for count in self.sizes(60, 0, 100_000):
            form = self.random.choice(FORMS)
            front = b"".join(form.records("move 1 2")) * count
            given = form.file([front, *form.records("select 0; pixel 1 1")], SIDE, 2)
            self.check(program, SHOW, given, refused("NoSuchHandle", form.first + count), (form.name, count))

    @for_each_program
    def test_a_file_of_any_count_of_records_is_shown(self, program):
        for count in self.sizes(60, 1, 100_000):
            form = self.random.choice(FORMS)
            given = form.file([b"".join(form.records("pixel 1 1")) * count], SIDE, 2)
            self.check(program, SHOW, given, DRAWN, (form.name, count))

    @for_each_program
    def test_a_drawing_writes_any_count_of_pixels(self, program):
        # A red rectangle all over the surface.
        for count in self.sizes(100, 1, 1 << 17):
            width = min(count, LARGEST_SIDE)
            rows = count // width
            form = self.random.choice(FORMS)
            script = f"solid_pen 0 0xFF0000; select 0; solid_brush 1 0xFF0000; select 1; rectangle 0 0 {width} {rows}"
            given = form.file(form.records(script), (width, rows), 3)
            size = f"P6\n{width} {rows}\n255\n".encode()
            wanted = shown({}, 1, 1)._replace(out=size + bytes(RED) * (width * rows))
            self.check(program, ["show", "stdin", str(width), str(rows)], given, wanted, (width, rows))


class Lengths(SizesTest):
    """Inputs of all sorts of lengths: a comment that fills them up, a pixel, the end, and at most three bytes behind it."""

    def check_lengths(self, program, lengths):
        """An input of each length is shown, from a file and from a pipe."""
        least = len(placeable_file([wmf_record(0x0626), wmf_pixel(1, 1, RED), WMF_END]))
        with tempfile.NamedTemporaryFile() as file:
            for length in lengths:
                comment = wmf_record(0x0626, bytes((length - least) // 2 * 2))
                given = placeable_file([comment, wmf_pixel(1, 1, RED), WMF_END]).ljust(length, b"\0")
                self.assertEqual(len(given), length)
                file.seek(0)
                file.truncate()
                file.write(given)
                file.flush()
                for name, piped in [(file.name, b""), ("stdin", given)]:
                    self.check(program, ["show", name, "4", "4"], piped, shown({(1, 1): RED}), (name, length))

    @for_each_program
    def test_lengths_about_whole_pieces(self, program):
        self.check_lengths(program, [pieces * 65536 + beside for pieces in range(1, 65) for beside in (-1, 0, 1)])

    @for_each_program
    def test_lengths_about_pages_and_powers_of_two(self, program):
        pages = [pages * 4096 + beside for pages in range(1, 65) for beside in (-1, 0, 1)]
        self.check_lengths(program, [*pages, *beside_powers(1 << 10, 1 << 24)])

    @for_each_program
    def test_any_length(self, program):
        self.check_lengths(program, self.drawn(150, 100, 1 << 22))


if __name__ == "__main__":
    unittest.main()
