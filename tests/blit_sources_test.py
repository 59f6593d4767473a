"""Which parts of a picture blits may read ([MS-WMF] 2.3.1, [MS-EMF] 2.3.1), in the built programs:
a part has pixels and lies within the picture, where the operation depends on the source at all. And
the order of a blit's faults: no source, one outside, a box off the plane."""

import unittest

from answers import refused
from bitmap_pictures import BitmapTest, told
from built import for_each_program
from metafile.blits import BLACKNESS, DSTINVERT, PATCOPY, PATINVERT, SRCCOPY
from metafile.scripts import EMF, FORMS

# A picture of twelve colours, whose rows and columns are all different.
TWELVE = told("rgby cmop ld#.")

STRETCHES = ["stretch_blt", "stretch_dib"]

# Operations that don't depend on a source, and some that do.
WITHOUT = [BLACKNESS, DSTINVERT, PATINVERT, PATCOPY, 0x00AA0029, 0x00A000C9, 0x00FF0062]
WITH = [SRCCOPY, 0x00330008, 0x00660046, 0x00EE0086, 0x00E20746, 0x00CA0749, 0x00220000]

# Parts of the picture by x, y, width, height, rows counted from the top.
INSIDE = {
    (0, 0, 4, 3): "rgby cmop ld#.",
    (0, 0, 1, 1): "r",
    (3, 0, 1, 1): "y",
    (0, 2, 1, 1): "l",
    (3, 2, 1, 1): ".",
    (1, 1, 2, 1): "mo",
    (0, 1, 2, 2): "cm ld",
    (2, 1, 2, 2): "op #.",
    (1, 0, 3, 1): "gby",
    (1, 2, 3, 1): "d#.",
    (0, 0, 1, 3): "r c l",
    (3, 0, 1, 3): "y p .",
}

# Parts that go one past a side or more, or have no pixel, with extents of both signs.
OUTSIDE = [
    *[(-1, 0, 4, 3), (-1, 0, 1, 1), (1, 0, 4, 3), (0, 0, 5, 3), (4, 0, 1, 1), (3, 0, 2, 1)],
    *[(0, -1, 4, 3), (0, -1, 1, 1), (0, 1, 4, 3), (0, 0, 4, 4), (0, 3, 1, 1), (0, 2, 1, 2)],
    *[(0, 0, -1, 1), (5, 0, -4, 3), (5, 0, -1, 1), (3, 0, -4, 3), (4, 0, -5, 3)],
    *[(0, 0, 1, -1), (0, 4, 4, -3), (0, 4, 1, -1), (0, 2, 4, -3), (0, 3, 4, -4)],
    *[(0, 0, 0, 3), (0, 0, 4, 0), (0, 0, 0, 0), (4, 3, 0, 0), (2, 1, 0, 1), (2, 1, 1, 0)],
    *[(32767, 0, 1, 1), (0, 32767, 1, 1), (-32768, 0, 1, 1), (0, -32768, 1, 1)],
    *[(32767, 0, 32767, 1), (0, 32767, 1, 32767), (-32768, 0, -32768, 1), (0, 2, 1, -32768)],
    *[(0, 0, 32767, 3), (0, 0, 4, 32767), (32767, 0, -32768, 1), (4, 0, -32768, 3)],
]

# Of these the ends would wrap in four bytes.
FAR_OUTSIDE = [
    *[(0x7FFFFFFF, 0, 1, 1), (0, 0x7FFFFFFF, 1, 1), (1, 0, 0x7FFFFFFF, 1), (0, 1, 1, 0x7FFFFFFF)],
    *[(-0x80000000, 0, -0x80000000, 1), (0, -0x80000000, 1, -0x80000000)],
    *[(-0x80000000, 0, -1, 1), (0, -0x80000000, 1, -1), (0, -0x7FFFFFFF, 1, -0x7FFFFFFF)],
    *[(0, 0, -0x80000000, 1), (0, 0, 1, -0x80000000), (0x7FFFFFFF, 0, -0x80000000, 1)],
    *[(0, -0x80000000, 1, 0x7FFFFFFF), (0, -0x7FFFFFFD, 1, 1), (-0x7FFFFFFC, 0, 1, 1)],
]


def from_bottom(part, height=3):
    """The same part with its rows counted from the picture's bottom: its upper end becomes its
    lower one."""
    x, y, across, down = part
    return x, height - y - down, across, down


def words(*numbers):
    """Numbers in a script."""
    return " ".join(map(str, numbers))


class Parts(BitmapTest):
    """Parts of a picture that are read."""

    def check_refused(self, program, form, script, fault, before=0):
        """A file whose record behind so many others is refused."""
        self.check(program, form, script, refused(fault, form.first + before))

    @for_each_program
    def test_parts_inside(self, program):
        for part, rows in INSIDE.items():
            x, y, across, down = part
            box = words(0, 0, across, down)
            backwards = words(x + across, y, -across, down)
            upwards = words(x, y + down, across, -down)
            images = {
                f"bit_blt {SRCCOPY} {box} {x} {y} {TWELVE}": rows,
                f"stretch_blt {SRCCOPY} {box} {words(*part)} {TWELVE}": rows,
                f"stretch_dib {SRCCOPY} {box} {words(*from_bottom(part))} {TWELVE}": rows,
                f"stretch_blt {SRCCOPY} {box} {backwards} {TWELVE}": self.mirrored(rows),
                f"stretch_blt {SRCCOPY} {box} {upwards} {TWELVE}": self.mirrored(rows[::-1]),
            }
            self.check_images(program, images)

    def mirrored(self, rows):
        """Rows from right to left."""
        return " ".join(row[::-1] for row in rows.split())

    @for_each_program
    def test_rows_from_the_bottom(self, program):
        # A part that runs upwards from the bottom is one that runs downwards from the top.
        images = {"0 0 4 1": "ld#.", "0 1 4 1": "cmop", "0 2 4 1": "rgby", "0 3 4 -1": "rgby"}
        images |= {"0 0 4 2": "cmop ld#.", "0 1 4 2": "rgby cmop", "0 2 4 -2": "ld#. cmop"}
        for part, rows in images.items():
            box = words(0, 0, 4, len(rows.split()))
            script = f"stretch_dib {SRCCOPY} {box} {part} {TWELVE}"
            self.check_images(program, {script: rows})

    @for_each_program
    def test_parts_outside(self, program):
        for form in FORMS:
            for part in OUTSIDE + FAR_OUTSIDE * (form is EMF):
                for name in STRETCHES:
                    script = f"{name} {SRCCOPY} 0 0 4 3 {words(*part)} {TWELVE}"
                    self.check_refused(program, form, script, "SourceOutside")

    @for_each_program
    def test_parts_of_a_box_s_own_sides(self, program):
        # The box itself lies within the plane, but for the far ones, where the source comes first.
        for form in FORMS:
            for x, y, across, down in OUTSIDE + FAR_OUTSIDE * (form is EMF):
                script = f"bit_blt {SRCCOPY} {words(0, 0, across, down, x, y)} {TWELVE}"
                self.check_refused(program, form, script, "SourceOutside")

    @for_each_program
    def test_the_box_has_no_say(self, program):
        # A part outside is refused for a box of no pixel, beside the surface, or cut away too.
        boxes = ["0 0 0 0", "1 1 0 3", "1 1 4 0", "900 900 4 3", "-90 0 4 3"]
        for form in FORMS:
            for box in boxes:
                script = f"stretch_blt {SRCCOPY} {box} 1 0 4 3 {TWELVE}"
                self.check_refused(program, form, script, "SourceOutside")
            script = f"cut 0 0 16 16; stretch_dib {SRCCOPY} 0 0 4 3 0 1 4 3 {TWELVE}"
            self.check_refused(program, form, script, "SourceOutside", before=1)
            script = f"null_brush 0; select 0; stretch_dib 0x00C000CA 0 0 4 3 0 1 4 3 {TWELVE}"
            self.check_refused(program, form, script, "SourceOutside", before=2)

    @for_each_program
    def test_operations_that_depend_on_the_source_and_others(self, program):
        hidden = "cut 0 0 4 4"
        for form in FORMS:
            for operation in WITH:
                for part in ["1 0 4 3", "0 0 0 0"]:
                    script = f"{hidden}; stretch_blt {operation} 0 0 4 3 {part} {TWELVE}"
                    self.check_refused(program, form, script, "SourceOutside", before=1)
                for bare in ["pat_blt {} 0 0 4 3", "bare_bit_blt {} 0 0 4 3 0 0"]:
                    script = f"{hidden}; {bare.format(operation)}"
                    self.check_refused(program, form, script, "SourceMissing", before=1)
            for operation in WITHOUT:
                scripts = [f"pat_blt {operation} 0 0 4 3"]
                scripts += [f"bare_stretch_blt {operation} 0 0 4 3 9 9 9 9"]
                for part in ("1 0 4 3", "0 0 0 0", "-9 7 32767 -5"):
                    scripts += [f"stretch_dib {operation} 0 0 4 3 {part} {TWELVE}"]
                images = {f"{hidden}; {script}": ".... " * 4 for script in scripts}
                self.check_images(program, images, [form])

    @for_each_program
    def test_each_way_to_have_no_bitmap(self, program):
        ways = {
            "pat_blt": "0 0 4 4",
            "bare_bit_blt": "0 0 4 4 0 0",
            "bare_stretch_blt": "0 0 4 4 0 0 4 4",
            "bare_stretch_dib": "0 0 4 4 0 0 4 4",
        }
        for name, rest in ways.items():
            for form in FORMS[name == "bare_stretch_dib" :]:
                self.check_images(program, {f"{name} {BLACKNESS} {rest}": "#### " * 4}, [form])
                self.check_refused(program, form, f"{name} {SRCCOPY} {rest}", "SourceMissing")
                # Behind other records, at its own number.
                script = f"move 1 1; pixel 0 0; {name} {SRCCOPY} {rest}; pixel 1 1"
                self.check_refused(program, form, script, "SourceMissing", before=2)


# The farthest coordinate on a surface as large as the frame.
FAR = 1 << 28

# Boxes both of whose corners are as far as they may be, or one of which isn't.
ON_PLANE = [(FAR, 0, 0, 1), (0, FAR, 1, -FAR), (-FAR, 0, 2 * FAR, 1)]
ON_PLANE += [(FAR, FAR, -2 * FAR, -2 * FAR)]
OFF_PLANE = [
    *[(FAR + 1, 0, 0, 1), (0, FAR + 1, 1, 0), (-FAR - 1, 0, 1, 1), (0, -FAR - 1, 1, 1)],
    *[(FAR, 0, 1, 1), (0, FAR, 1, 1), (-FAR, 0, -1, 1), (0, -FAR, 1, -1), (1, 0, FAR, 1)],
    *[(0x7FFFFFFF, 0, 1, 1), (0x7FFFFFFF, 0, 0x7FFFFFFF, 1), (0, 0x7FFFFFFF, 1, 0x7FFFFFFF)],
    *[(-0x80000000, 0, -0x80000000, 1), (-0x80000000, 0, 0x7FFFFFFF, 1), (0, 2, 1, -0x80000000)],
    *[(0x7FFFFFFF, 0, -0x80000000, 1), (FAR, 0, 0x7FFFFFFF, 1), (0, 0, -FAR - 1, -FAR - 1)],
]


class Far(BitmapTest):
    """Boxes whose corners lie far off, behind the faults of sources."""

    @for_each_program
    def test_corners_of_an_emf(self, program):
        for box in ON_PLANE:
            script = f"cut 0 0 16 16; pat_blt {BLACKNESS} {words(*box)}"
            self.check_images(program, {script: ".... " * 4}, [EMF])
        for box in OFF_PLANE:
            for script in [
                f"pat_blt {BLACKNESS} {words(*box)}",
                f"stretch_blt {SRCCOPY} {words(*box)} 0 0 4 3 {TWELVE}",
                f"stretch_dib {SRCCOPY} {words(*box)} 0 0 4 3 {TWELVE}",
                f"stretch_dib {DSTINVERT} {words(*box)} 9 0 4 0 {TWELVE}",
            ]:
                self.check(program, EMF, script, refused("OffPlane", 1))

    @for_each_program
    def test_corners_of_a_wmf(self, program):
        # A unit is 32,767 pixels: 8,192 of them are within the reach, and 8,193 aren't.
        large = "map_mode 8; window_extent 1 1; viewport_extent 32767 32767"
        for form in FORMS:
            for box in ["8192 0 -8192 1", "0 -8192 1 8192", "-8192 0 16384 1"]:
                script = f"{large}; cut 0 0 1 1; pat_blt {BLACKNESS} {box}"
                self.check_images(program, {script: ".... " * 4}, [form])
            for box in ["8193 0 1 1", "8192 0 1 1", "0 8000 1 193", "-8193 0 9 9", "0 0 1 -8193"]:
                script = f"{large}; pat_blt {BLACKNESS} {box}"
                self.check(program, form, script, refused("OffPlane", form.first + 3))

    @for_each_program
    def test_the_source_s_fault_comes_first(self, program):
        for box in OFF_PLANE:
            cases = {
                f"pat_blt {SRCCOPY} {words(*box)}": "SourceMissing",
                f"bare_stretch_dib {SRCCOPY} {words(*box)} 9 9 0 0": "SourceMissing",
                f"stretch_blt {SRCCOPY} {words(*box)} 1 0 4 3 {TWELVE}": "SourceOutside",
                f"stretch_dib {SRCCOPY} {words(*box)} 0 0 4 0 {TWELVE}": "SourceOutside",
                f"bit_blt {SRCCOPY} {words(*box)} 9 9 {TWELVE}": "SourceOutside",
            }
            for script, fault in cases.items():
                self.check(program, EMF, script, refused(fault, 1))


if __name__ == "__main__":
    unittest.main()
