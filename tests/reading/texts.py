"""What a step asks for, as the lines of listings say it (docs/FORMATS.md)."""

from metafile.bitmaps import bitmap_of
from metafile.shapes import BETWEEN
from reading.fields import Record

# The operations that lines name in other words than scripts do.
OPERATIONS = {
    "back_mode": "background mode",
    "cut": "exclude",
    "keep": "intersect",
    "offset_viewport": "viewport offset",
    "offset_window": "window offset",
    "polygons": "polygon",
    "polylines": "polyline",
    "raster": "raster operation",
    "unclip": "no clip",
}


def hexadecimal(shade):
    """A colour, which a step has as one number."""
    return f"#{shade:06x}"


def size(word):
    """The size of a bitmap without a fault, as its header has it: a height below 0 is that of rows which are stored from the top."""
    width, height = Record(bitmap_of(word).info).signed(4, 2, 4)
    return f"{width}x{abs(height)}"


def pixel(x, y, rgb):
    """A pixel, and its colour, which a step has as three numbers."""
    return f"pixel {x},{y} #{bytes(rgb).hex()}"


# What is said of an object that draws, after its kind, by the reference's name for it.
OBJECTS = {
    "null_pen": lambda: "null",
    "solid_pen": lambda shade, width: f"{hexadecimal(shade)} width {width}",
    "null_brush": lambda: "null",
    "solid_brush": hexadecimal,
    "hatched_brush": lambda hatch, shade: f"hatch {hatch} {hexadecimal(shade)}",
    "tiled_brush": lambda word: f"tile {size(word)}",
}


def make(index, kind, name, *words):
    """A new object: its index, if its record has one; its kind; and what it draws with, if it draws."""
    parts = ["create", index, kind, name and OBJECTS[name](*words)]
    return " ".join(str(part) for part in parts if part is not None)


def bare_blit(operation, x, y, width, height, *unread):
    """A blit that brings no bitmap: its corner, its extent, and the table of its operation."""
    return f"blit {x},{y} extent {width},{height} table {operation >> 16 & 0xFF}"


def stretch_blit(*words):
    """A blit that brings a bitmap, and the corner and the extent that it reads."""
    *box, x, y, width, height, word = words
    return f"{bare_blit(*box)} of {size(word)} from {x},{y} extent {width},{height}"


def bit_blit(*words):
    """A blit that reads the same extent of its bitmap as it draws."""
    *box, x, y, word = words
    return stretch_blit(*box, x, y, *box[3:], word)


# The steps of which more is said than their numbers.
TEXTS = {
    "back_colour": lambda shade: f"background {hexadecimal(shade)}",
    "bit_blt": bit_blit,
    "make": make,
    "pixel": pixel,
    "polyline_to": lambda *numbers: f"polyline to points {len(numbers) // 2}",
    "stretch_blt": stretch_blit,
    "stretch_dib": stretch_blit,
    **dict.fromkeys(["pat_blt", "bare_bit_blt", "bare_stretch_blt", "bare_stretch_dib"], bare_blit),
}


def step_text(step):
    """What a step asks for: its operation, then its numbers. Of lists of points these are how many lists there are, and how many points."""
    if step.name in TEXTS:
        return TEXTS[step.name](*step.words)
    operation = OPERATIONS.get(step.name, step.name.replace("_", " "))
    if step.lists is not None:
        points = sum(word != BETWEEN for word in step.words) // 2
        return f"{operation} lists {step.lists}, points {points}"
    numbers = ",".join(map(str, step.words))
    return f"{operation} {numbers}" if numbers else operation
