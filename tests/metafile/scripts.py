"""Records of both formats, by names that they share, and files of them, told as scripts.

`pen 0; select 0; 2x save; keep 1 1 3 3; pixel 2 2` makes a pen, selects it, saves the state twice,
keeps a box of the clip, and draws a red pixel: five kinds of records, each with its numbers, the
third twice.
"""

import re
from collections.abc import Callable
from typing import NamedTuple

from metafile.bitmaps import APART
from metafile.blits import EMF_BLITS, WMF_BLITS
from metafile.fields import BLUE, RED, colour, i16, i32, u16, u32
from metafile.files import (
    EMF_END,
    WMF_END,
    emf_file,
    emf_pixel,
    emf_record,
    placeable_file,
    wmf_pixel,
    wmf_record,
)
from metafile.shapes import BETWEEN, EMF_SHAPES, WMF_SHAPES, wmf_box, wmf_point

# The side of the frame and of the surface where a test tells no other: a point of the plane is then
# a pixel.
SIDE = 16

# How many indexes an EMF has, that of 0 included, where a test tells no other number.
HANDLES = 16


def word_of(word):
    """What a script's word tells: a number, or the word itself where it is a mark between lists or
    a bitmap."""
    return word if word == BETWEEN or APART in word else int(word, 0)


def sides_of(frame):
    """A frame's sides, of which a square has one told."""
    return frame if isinstance(frame, tuple) else (frame, frame)


class Form(NamedTuple):
    """A format: how one record of it is written, its records by their names in scripts (a number,
    and how the numbers behind the name become parameters), its pixel, its end, its files of records
    with a frame and a count of handles, and the number of their first record."""

    name: str
    record: Callable
    named: dict[str, tuple[int, Callable]]
    pixel: Callable
    end: bytes
    file: Callable
    first: int

    def step(self, name, *numbers):
        """The bytes of a record, or of the pixels of `paint`."""
        if name == "pixel":
            return self.pixel(*numbers, RED)
        if name == "blue":
            return self.pixel(*numbers, BLUE)
        if name == "paint":
            return self.paint()
        number, parameters = self.named[name]
        return self.record(number, parameters(*numbers))

    def paint(self):
        """Red pixels at all page points round the surface, wherever its origin is moved."""
        places = range(-SIDE // 2, SIDE)
        return b"".join(self.pixel(x, y, RED) for y in places for x in places)

    def records(self, script):
        """The records that a script tells, in order."""
        told = []
        for step in filter(None, map(str.strip, script.split(";"))):
            times, name, numbers = re.fullmatch(r"(?:(\d+)x )?([a-z_]+)(.*)", step).groups()
            record = self.step(name, *map(word_of, numbers.split()))
            told += [record] * int(times or 1)
        return told


# WMF. Creates take the lowest free index: the one behind their names is for the reader.

WMF_OBJECTS = {
    "pen": (0x02FA, u16(0) + i16(1, 0) + colour()),
    "brush": (0x02FC, u16(0) + colour() + u16(0)),
    "font": (0x02FB, b""),
    "palette": (0x00F7, b""),
}


def wmf_object(parameters):
    """A create's parameters, whatever its index."""
    return lambda index: parameters


def wmf_frame(records, frame, handles):
    """A placeable file whose box is at the origin, mostly a square; it counts no handles."""
    width, height = sides_of(frame)
    return placeable_file([*records, WMF_END], right=i16(width), bottom=i16(height))


WMF = Form(
    name="WMF",
    record=wmf_record,
    named={name: (number, wmf_object(rest)) for name, (number, rest) in WMF_OBJECTS.items()}
    | WMF_SHAPES
    | WMF_BLITS
    | {
        "select": (0x012D, u16),
        "delete": (0x01F0, u16),
        "select_palette": (0x0234, u16),
        "save": (0x001E, i16),
        "restore": (0x0127, i16),
        "map_mode": (0x0103, u16),
        "window_origin": (0x020B, wmf_point),
        "window_extent": (0x020C, wmf_point),
        "viewport_origin": (0x020D, wmf_point),
        "viewport_extent": (0x020E, wmf_point),
        "offset_window": (0x020F, wmf_point),
        "offset_viewport": (0x0211, wmf_point),
        "move": (0x0214, wmf_point),
        "cut": (0x0415, wmf_box),
        "keep": (0x0416, wmf_box),
    },
    pixel=wmf_pixel,
    end=WMF_END,
    file=wmf_frame,
    first=0,
)


# EMF. Objects are counted from 0 as in WMF, though their least index is 1; `select_at 1` selects
# the object that `select 0` does, and so with each record that tells an index.

EMF_INDEXED = {
    "pen": (38, u32(0) + i32(1, 0) + colour()),
    "brush": (39, u32(0) + colour() + u32(0)),
    "font": (82, b""),
    "palette": (49, b""),
    "long_pen": (95, u32(0, 0, 0, 0, 0, 1, 0) + colour() + u32(0, 0)),
    "select": (37, b""),
    "delete": (40, b""),
    "select_palette": (48, b""),
}


def emf_indexed(rest, lowest):
    """An index, counted from the lowest, and the other parameters."""
    return lambda index: u32(lowest + index) + rest


def emf_region():
    """No region, and the mode that copies: the clip is taken away."""
    return u32(0, 5)


def emf_frame(records, frame, handles):
    """An EMF whose bounds are at the origin, mostly a square, with a count of handles."""
    width, height = sides_of(frame)
    ends = {"right": i32(width - 1), "bottom": i32(height - 1)}
    return emf_file([*records, EMF_END], handles=u16(handles), **ends)


EMF = Form(
    name="EMF",
    record=emf_record,
    named={name: (kind, emf_indexed(rest, 1)) for name, (kind, rest) in EMF_INDEXED.items()}
    | {f"{name}_at": (kind, emf_indexed(rest, 0)) for name, (kind, rest) in EMF_INDEXED.items()}
    | EMF_SHAPES
    | EMF_BLITS
    | {
        "save": (33, i32),
        "restore": (34, i32),
        "map_mode": (17, u32),
        "window_extent": (9, i32),
        "window_origin": (10, i32),
        "viewport_extent": (11, i32),
        "viewport_origin": (12, i32),
        "move": (27, i32),
        "cut": (29, i32),
        "keep": (30, i32),
        "unclip": (75, emf_region),
    },
    pixel=emf_pixel,
    end=EMF_END,
    file=emf_frame,
    first=1,
)

FORMS = [WMF, EMF]
