"""Records of drawings as other programs write them, told by colours and by places of any numbers:
the bounds of EMF's are those of what they draw."""

from metafile.fields import i32
from metafile.scripts import EMF, WMF
from metafile.shapes import BETWEEN, BOUNDS, SOLID

TRANSPARENT, OPAQUE = 1, 2

ALTERNATE, WINDING = 1, 2

COPY_PEN = 13

# Stock objects of EMF, by their indexes.
NULL_BRUSH, BLACK_PEN, NULL_PEN = 0x80000005, 0x80000007, 0x80000008


def number_of(rgb):
    """A colour as scripts tell it, 0xRRGGBB."""
    return int.from_bytes(bytes(rgb), "big")


def numbers_of(places):
    """The numbers of places, x before y, as whole ones."""
    return [round(number) for place in places for number in place]


# Records of WMF. Objects get the lowest free index.


def wmf_pen(rgb, width=1):
    """A solid pen, so many units of the page wide."""
    return WMF.step("styled_pen", 0, SOLID, width, number_of(rgb))


def wmf_brush(rgb, hatch=None):
    """A solid or a hatched brush."""
    if hatch is None:
        return WMF.step("solid_brush", 0, number_of(rgb))
    return WMF.step("hatched_brush", 0, hatch, number_of(rgb))


def wmf_select(index):
    """META_SELECTOBJECT."""
    return WMF.step("select", index)


def wmf_line(start, end):
    """META_MOVETO and META_LINETO."""
    return WMF.step("move", *numbers_of([start])) + WMF.step("line", *numbers_of([end]))


def wmf_rectangle(left, top, right, bottom):
    """META_RECTANGLE: the right edge and the bottom one don't belong to it."""
    return WMF.step("rectangle", left, top, right, bottom)


# Records of EMF.


def emf_pen(index, rgb, width=1):
    """A solid pen, so many units of the page wide. The least index is 1, while scripts count from 0."""
    return EMF.step("styled_pen", index - 1, SOLID, width, number_of(rgb))


def emf_brush(index, rgb, hatch=None):
    """A solid or a hatched brush."""
    if hatch is None:
        return EMF.step("solid_brush", index - 1, number_of(rgb))
    return EMF.step("hatched_brush", index - 1, hatch, number_of(rgb))


def emf_select(index):
    """EMR_SELECTOBJECT, of a stock object too."""
    return EMF.step("select_at", index)


def emf_rectangle(left, top, right, bottom):
    """EMR_RECTANGLE, to which all four edges belong."""
    return EMF.step("rectangle", left, top, right, bottom)


def within(edges, record):
    """A record whose bounds are these edges."""
    begin, end = 8, 8 + len(BOUNDS)
    return record[:begin] + i32(*edges) + record[end:]


def around(places, record):
    """A record whose bounds are those of places: all four edges belong to them."""
    xs, ys = zip(*places, strict=True)
    return within(numbers_of([(min(xs), min(ys)), (max(xs), max(ys))]), record)


def emf_polyline(places):
    """EMR_POLYLINE16."""
    return around(places, EMF.step("short_polyline", *numbers_of(places)))


def emf_polyline_to(places):
    """EMR_POLYLINETO16: lines from where the last one ended."""
    return around(places, EMF.step("short_polyline_to", *numbers_of(places)))


def emf_polygon(places):
    """EMR_POLYGON16."""
    return around(places, EMF.step("short_polygon", *numbers_of(places)))


def emf_polygons(lists):
    """EMR_POLYPOLYGON16: polygons that are filled together."""
    places = [place for one in lists for place in one]
    words = [word for one in lists for word in (BETWEEN, *numbers_of(one))]
    return around(places, EMF.step("short_polygons", *words[1:]))


def emf_move(place):
    """EMR_MOVETOEX."""
    return EMF.step("move", *numbers_of([place]))


def emf_line(place):
    """EMR_LINETO."""
    return EMF.step("line", *numbers_of([place]))


# Records that open a path, end it, and close its open figure.
BEGIN_PATH, END_PATH, CLOSE_FIGURE = map(EMF.step, ("begin_path", "end_path", "close_figure"))

# Records that paint a path.
STROKE_AND_FILL, STROKE = "stroke_and_fill_path", "stroke_path"


def emf_path(painting, records, side):
    """A path that records gather, and the record that paints it, whose bounds are a square."""
    edges = (0, 0, side - 1, side - 1)
    return [BEGIN_PATH, *records, END_PATH, within(edges, EMF.step(painting))]
