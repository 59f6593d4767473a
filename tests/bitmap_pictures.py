"""Pictures of several colours, told by marks, and whether the built programs show them."""

from answers import shown
from metafile.bitmaps import GREEN, WHITE, bitmap
from metafile.blits import SRCCOPY
from metafile.fields import BLACK, BLUE, RED
from metafile.scripts import FORMS
from script_answers import StateTest

# The colours of marks.
INKS = {
    ".": WHITE,
    "#": BLACK,
    "r": RED,
    "g": GREEN,
    "b": BLUE,
    "y": (255, 255, 0),
    "c": (0, 255, 255),
    "m": (255, 0, 255),
    "o": (255, 128, 0),
    "p": (128, 0, 255),
    "l": (170, 170, 170),
    "d": (85, 85, 85),
}


def colours(rows):
    """The rows of colours that rows of marks tell, apart by white space."""
    return [[INKS[mark] for mark in row] for row in rows.split()]


def told(rows, depth=24, /, **how):
    """The bitmap that shows rows of marks, in 24 bits if no other depth is told."""
    return bitmap(colours(rows), depth, **how)


def copied(picture, width, height):
    """A script that copies so much of a bitmap to the surface's corner, pixel by pixel."""
    return f"bit_blt {SRCCOPY} 0 0 {width} {height} 0 0 {picture}"


def sides_of_picture(rows):
    """How wide and how high rows of marks are."""
    return len(rows.split()[0]), len(rows.split())


def answer_with(rows):
    """The answer that shows rows of colours."""
    drawn = {(x, y): rgb for y, row in enumerate(rows) for x, rgb in enumerate(row)}
    return shown(drawn, len(rows[0]), len(rows))


class BitmapTest(StateTest):
    """What a program shows for scripts, as pictures of marks."""

    def check_images(self, program, images, forms=FORMS, frame=None):
        """Each script shows its picture on a surface as large, and the frame is as large too, if
        no other is told: then a page unit is a pixel."""
        for script, rows in images.items():
            sides = sides_of_picture(rows)
            for form in forms:
                wanted = answer_with(colours(rows))
                self.check(program, form, script, wanted, frame=frame or sides, surface=sides)

    def check_copy(self, program, picture, rows):
        """A bitmap shows rows of colours."""
        sides = len(rows[0]), len(rows)
        for form in FORMS:
            script = copied(picture, *sides)
            self.check(program, form, script, answer_with(rows), frame=sides, surface=sides)
