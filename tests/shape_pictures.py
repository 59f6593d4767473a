"""Pictures of shapes, and whether the built programs draw them."""

from answers import shown
from metafile.fields import BLACK, BLUE, RED
from metafile.scripts import FORMS
from script_answers import StateTest

# The colours of a picture's marks; any other mark is white.
INKS = {"#": BLACK, "o": RED, "b": BLUE}

# Brushes without a pen, and pens without a brush: a picture is then one layer. Where none is told,
# the pen is black and the brush white.
BLACK_FILL = "null_pen 0; select 0; solid_brush 1 0x000000; select 1"
RED_FILL = "null_pen 0; select 0; solid_brush 1 0xFF0000; select 1"
BLACK_STROKE = "null_brush 0; select 0"

# A red fill, and a black stroke above it.
BOTH = "solid_brush 0 0xFF0000; select 0"

# The raster operation that turns what is there, whatever the paint.
INVERT = "raster 6"

ALTERNATE, WINDING = "fill_mode 1", "fill_mode 2"


def drawing(rows):
    """The answer that shows rows of marks, apart by white space."""
    rows = rows.split()
    drawn = {
        (x, y): INKS[mark]
        for y, row in enumerate(rows)
        for x, mark in enumerate(row)
        if mark in INKS
    }
    return shown(drawn, len(rows[0]), len(rows))


def side_by_side(block):
    """Pictures that stand beside each other."""
    lines = [line.split() for line in block.strip().splitlines()]
    return [" ".join(rows) for rows in zip(*lines, strict=True)]


def marked(rows, marks):
    """A picture of some marks of another alone, all of them black."""
    return "".join("#" if mark in marks else mark if mark.isspace() else "." for mark in rows)


def empty(rows):
    """A picture as large, with nothing on it."""
    return marked(rows, "")


class ShapeTest(StateTest):
    """What a program draws for scripts, as pictures."""

    def check_drawings(self, program, pictures, forms=FORMS, frame=None):
        """Each script draws its picture on a surface as large; the frame is a square as wide as
        that, if no other side is told."""
        for script, rows in pictures.items():
            width, height = len(rows.split()[0]), len(rows.split())
            file = {"frame": frame or width, "surface": (width, height)}
            for form in forms:
                self.check(program, form, script, drawing(rows), **file)
