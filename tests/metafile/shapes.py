"""The records that draw lines, polygons, rectangles and paths, and those that say how: pens,
brushes, modes and raster operations, by the names that scripts have for them.

`polygon 0 0 4 0 0 4` has three points, and `polygons 0 0 4 0 0 4 | 1 1 2 2` two lists. A colour is
told as 0xRRGGBB. The records that make an object tell its index first.
"""

from metafile.fields import colour, i16, i32, u16, u32

# What stands between the lists of a record that has several.
BETWEEN = "|"

# The bounds of EMF's records, which aren't read.
BOUNDS = i32(0, 0, -1, -1)

# Styles of brushes ([MS-WMF] 2.1.1.4), and the one of a pen that draws nothing (2.1.1.23).
SOLID, NULL, HATCHED = 0, 1, 2
NULL_PEN = 5


def rgb_of(number):
    """The red, green and blue of 0xRRGGBB."""
    return tuple(number.to_bytes(3, "big"))


def ink(number):
    """A colour of 0xRRGGBB, as records have it."""
    return colour(0, rgb_of(number))


def lists_of(words):
    """The lists of numbers between the marks; without a number there is none."""
    lists = [[]]
    for word in words:
        if word == BETWEEN:
            lists.append([])
        else:
            lists[-1].append(word)
    return lists if words else []


# WMF: numbers of two bytes, and points from y to x but in lists.


def wmf_point(x, y):
    """A point, y first."""
    return i16(y, x)


def wmf_box(left, top, right, bottom):
    """A box from its last edge to its first."""
    return i16(bottom, right, top, left)


def wmf_list(*numbers):
    """A count of points, and the points."""
    return u16(len(numbers) // 2) + i16(*numbers)


def wmf_lists(*words):
    """A count of lists, the count of each list's points, and all points."""
    lists = lists_of(words)
    counts = [len(numbers) // 2 for numbers in lists]
    return u16(len(lists), *counts) + i16(*sum(lists, []))


def wmf_pen(style):
    """A pen of a style: its index is told in scripts alone."""
    return lambda index, number=0: u16(style) + i16(1, 0) + ink(number)


def wmf_styled_pen(index, style, width, number):
    """A pen of any style and width."""
    return u16(style) + i16(width, 0) + ink(number)


def wmf_brush(style):
    """A brush of a style, a hatched one with its hatch before its colour."""
    if style == HATCHED:
        return lambda index, hatch, number: u16(style) + ink(number) + u16(hatch)
    return lambda index, number=0: u16(style) + ink(number) + u16(0)


WMF_SHAPES = {
    "back_mode": (0x0102, u16),
    "raster": (0x0104, u16),
    "fill_mode": (0x0106, u16),
    "back_colour": (0x0201, ink),
    "line": (0x0213, wmf_point),
    "polygon": (0x0324, wmf_list),
    "polyline": (0x0325, wmf_list),
    "polygons": (0x0538, wmf_lists),
    "rectangle": (0x041B, wmf_box),
    "solid_pen": (0x02FA, wmf_pen(SOLID)),
    "null_pen": (0x02FA, wmf_pen(NULL_PEN)),
    "styled_pen": (0x02FA, wmf_styled_pen),
    "solid_brush": (0x02FC, wmf_brush(SOLID)),
    "null_brush": (0x02FC, wmf_brush(NULL)),
    "hatched_brush": (0x02FC, wmf_brush(HATCHED)),
}


# EMF: points of two or four bytes a number, behind bounds. Indexes count from 0, though the least
# that a record has is 1.


def emf_list(signed):
    """A count of points, and the points."""
    return lambda *numbers: BOUNDS + u32(len(numbers) // 2) + signed(*numbers)


def emf_lists(signed):
    """A count of lists, the count of all points, that of each list's, and all points."""

    def written(*words):
        """The parameters of these lists."""
        lists = lists_of(words)
        counts = [len(numbers) // 2 for numbers in lists]
        return BOUNDS + u32(len(lists), sum(counts), *counts) + signed(*sum(lists, []))

    return written


def emf_pen(style):
    """A pen of a style."""
    return lambda index, number=0: u32(1 + index, style) + i32(1, 0) + ink(number)


def emf_styled_pen(index, style, width, number):
    """A pen of any style and width."""
    return u32(1 + index, style) + i32(width, 0) + ink(number)


def emf_long_pen(index, style, width, brush, number):
    """A pen of any style and width, with the style of a brush."""
    return u32(1 + index, 0, 0, 0, 0, style, width, brush) + ink(number) + u32(0, 0)


def emf_brush(style):
    """A brush of a style, a hatched one with its hatch before its colour."""
    if style == HATCHED:
        return lambda index, hatch, number: u32(1 + index, style) + ink(number) + u32(hatch)
    return lambda index, number=0: u32(1 + index, style) + ink(number) + u32(0)


def emf_painting():
    """The parameters of a record that paints a path."""
    return BOUNDS


EMF_PATHS = {
    "begin_path": (59, u32),
    "end_path": (60, u32),
    "close_figure": (61, u32),
    "fill_path": (62, emf_painting),
    "stroke_and_fill_path": (63, emf_painting),
    "stroke_path": (64, emf_painting),
    "abort_path": (68, u32),
}

EMF_SHAPES = EMF_PATHS | {
    "polygon": (3, emf_list(i32)),
    "polyline": (4, emf_list(i32)),
    "polyline_to": (6, emf_list(i32)),
    "polylines": (7, emf_lists(i32)),
    "polygons": (8, emf_lists(i32)),
    "back_mode": (18, u32),
    "fill_mode": (19, u32),
    "raster": (20, u32),
    "back_colour": (25, ink),
    "solid_pen": (38, emf_pen(SOLID)),
    "null_pen": (38, emf_pen(NULL_PEN)),
    "styled_pen": (38, emf_styled_pen),
    "styled_long_pen": (95, emf_long_pen),
    "solid_brush": (39, emf_brush(SOLID)),
    "null_brush": (39, emf_brush(NULL)),
    "hatched_brush": (39, emf_brush(HATCHED)),
    "rectangle": (43, i32),
    "line": (54, i32),
    "short_polygon": (86, emf_list(i16)),
    "short_polyline": (87, emf_list(i16)),
    "short_polyline_to": (89, emf_list(i16)),
    "short_polylines": (90, emf_lists(i16)),
    "short_polygons": (91, emf_lists(i16)),
}
