"""How a font stands on the device: what a page unit and a font unit become along the line and up from it."""

from __future__ import annotations

from dataclasses import dataclass

from .affine import Point
from .angles import ANGLE_BITS, cosine_and_sine
from .faults import Fault, FaultName
from .fixed import rounded_quotient
from .fonts import FontMetrics
from .text import COMPATIBLE, LogicalFont, PageToDevice

VECTOR_BITS = 60
"""The vectors of this module count parts of 2^-60 device unit, so that sums over a text stay exact to 2^-20."""
MOST_UNITS = 1 << 28
"""An em of more device units is off the plane."""
_DEFAULT_HEIGHT = 12


@dataclass(frozen=True, slots=True)
class Ratio:
    """A ratio above 0, or 0."""

    numerator: int
    denominator: int

    def times(self, other: Ratio) -> Ratio:
        """The product."""
        return Ratio(self.numerator * other.numerator, self.denominator * other.denominator)


@dataclass(frozen=True, slots=True)
class Direction:
    """The directions along a line and up from it: unit vectors on the page, in units of 2^-40.

    They run so that text isn't mirrored where an axis of the page runs against that of the device.
    """

    along: Point
    up: Point


@dataclass(frozen=True, slots=True)
class Frame:
    """Vectors on the device, in units of 2^-60.

    `distance_along` and `distance_up` are those of a page unit along the line and up from it, `advance` and `rise`
    those of a font unit, `glyph_x` and `glyph_y` those of a font unit of a glyph. `slant` is a font unit of a glyph's
    height, laid along the line.
    """

    distance_along: Point
    distance_up: Point
    advance: Point
    rise: Point
    glyph_x: Point
    glyph_y: Point
    slant: Point


def height_scale(font: LogicalFont, metrics: FontMetrics) -> Ratio:
    """Page units for a font unit.

    A height below 0 is that of the em, one above 0 that of ascent and descent, 0 is 12.
    """
    if font.height < 0:
        return Ratio(-font.height, metrics.units_per_em)
    return Ratio(font.height or _DEFAULT_HEIGHT, metrics.ascent + metrics.descent)


def width_scale(font: LogicalFont, metrics: FontMetrics) -> Ratio | None:
    """Page units for a font unit along the line if the record gives the average width of characters, else None."""
    if font.width == 0 or metrics.average_width <= 0:
        return None
    return Ratio(abs(font.width), metrics.average_width)


def direction_of(tenths: int, page: PageToDevice) -> Direction:
    """The directions of a line that is turned by tenths of a degree against the clock, as it is seen on the device."""
    cosine, sine = cosine_and_sine(tenths)
    x = 1 if page.viewport_extent.x * page.window_extent.x > 0 else -1
    y = 1 if page.viewport_extent.y * page.window_extent.y > 0 else -1
    return Direction(Point(x * cosine, -y * sine), Point(-x * sine, -y * cosine))


def frame_of(font: LogicalFont, metrics: FontMetrics, page: PageToDevice, graphics_mode: int) -> Frame:
    """The vectors of a text. Raises Fault with OffPlane if its em is larger than MOST_UNITS, or the page has no width.

    In the compatible mode glyphs keep their shape where the page is stretched: the height decides, and a width, if it
    is given, along the line. In the advanced mode, and under a world transform, the whole text is transformed. In the
    advanced mode the orientation may turn characters against the line.
    """
    height = height_scale(font, metrics)
    width = width_scale(font, metrics)
    if graphics_mode == COMPATIBLE and page.world_is_identity:
        frame = _compatible(font, page, height, width)
    else:
        tenths = font.escapement if graphics_mode == COMPATIBLE else font.orientation
        lines = direction_of(font.escapement, page), direction_of(tenths, page)
        frame = _advanced(lines, page, height, width or height)
    largest = max(abs(part) for part in (*frame.glyph_x, *frame.glyph_y, *frame.advance, *frame.rise))
    if largest * metrics.units_per_em > MOST_UNITS << VECTOR_BITS or not any(frame.distance_along):
        raise Fault(FaultName.OffPlane, "the font is too large, or the page too small")
    return frame


def _compatible(font: LogicalFont, page: PageToDevice, height: Ratio, width: Ratio | None) -> Frame:
    line = direction_of(font.escapement, page)
    up = height.times(_scale(page.viewport_extent.y, page.window_extent.y))
    along = up if width is None else width.times(_scale(page.viewport_extent.x, page.window_extent.x))
    cosine, sine = cosine_and_sine(font.escapement)
    glyph_x = _scaled(Point(cosine, -sine), along)
    glyph_y = _scaled(Point(-sine, -cosine), up)
    one = Ratio(1, 1)
    return Frame(
        distance_along=_on_device(line.along, page, one),
        distance_up=_on_device(line.up, page, one),
        advance=glyph_x,
        rise=glyph_y,
        glyph_x=glyph_x,
        glyph_y=glyph_y,
        slant=_scaled(Point(cosine, -sine), up),
    )


def _advanced(directions: tuple[Direction, Direction], page: PageToDevice, height: Ratio, width: Ratio) -> Frame:
    """The vectors for the direction of the line and that of its characters."""
    line, character = directions
    one = Ratio(1, 1)
    return Frame(
        distance_along=_on_device(line.along, page, one),
        distance_up=_on_device(line.up, page, one),
        advance=_on_device(line.along, page, width),
        rise=_on_device(line.up, page, height),
        glyph_x=_on_device(character.along, page, width),
        glyph_y=_on_device(character.up, page, height),
        slant=_on_device(character.along, page, height),
    )


def _scale(viewport: int, window: int) -> Ratio:
    return Ratio(abs(viewport), abs(window))


def _on_device(vector: Point, page: PageToDevice, scale: Ratio) -> Point:
    """What a vector on the page, in units of 2^-40, becomes when it is scaled."""
    affine = page.affine
    linear = Point(affine.a * vector.x + affine.c * vector.y, affine.b * vector.x + affine.d * vector.y)
    return _scaled(linear, scale.times(Ratio(1, affine.denominator)))


def _scaled(vector: Point, scale: Ratio) -> Point:
    """A vector in units of 2^-40, scaled, in units of 2^-60."""
    numerator = scale.numerator << (VECTOR_BITS - ANGLE_BITS)
    return Point(
        rounded_quotient(vector.x * numerator, scale.denominator),
        rounded_quotient(vector.y * numerator, scale.denominator),
    )
