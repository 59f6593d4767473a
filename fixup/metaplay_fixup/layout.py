"""Text as Windows' GDI lays it out, without kerning, hinting or shaping."""

from __future__ import annotations

from dataclasses import dataclass
from math import isqrt

from .affine import Contour, Point
from .angles import ANGLE_BITS
from .faults import Fault, FaultName
from .fixed import FRACTION_BITS, of_ratio, rounded_quotient
from .fonts import FontMetrics
from .glyphs import Glyph
from .metrics import VECTOR_BITS, Direction, Frame
from .scripts import SPACE
from .glyph_shapes import Axes, ShapeCache
from .text import BOTTOM, CENTRE, HORIZONTAL_ALIGNMENT, RIGHT, VERTICAL_ALIGNMENT, TextSettings

MOST_POINTS = 1 << 20
"""A text has at most so many points, like any drawing."""
_SYMBOL_SPACE = 0xF020
_TOP = 0
# Where a family has no italic, x moves by a quarter of y: wine's slant (dlls/win32u/freetype.c), which stands in for
# that of Windows, as its own isn't published. A width that the font gives doesn't change it.
_PARTS_OF_SLANT = 4
_SHIFT = VECTOR_BITS - FRACTION_BITS
_HALF = 1 << (_SHIFT - 1)


@dataclass(frozen=True, slots=True)
class Line:
    """A line of text: its glyphs with their distances in page units, and the vectors that it is laid by."""

    glyphs: list[Glyph]
    distances_x: tuple[int, ...] | None
    distances_y: tuple[int, ...] | None
    metrics: FontMetrics
    frame: Frame


@dataclass(frozen=True, slots=True)
class Laid:
    """A line with its place, in units of 2^-60 device unit.

    `origin` is where the baseline begins, `steps` lead from glyph to glyph, `total` is their sum.
    """

    line: Line
    origin: Point
    steps: list[Point]
    total: Point


def laid(line: Line, settings: TextSettings, reference: Point) -> Laid:
    """The line, aligned to its reference point, which is in fixed device units."""
    steps = _steps(line, settings)
    total = Point(sum(step.x for step in steps), sum(step.y for step in steps))
    origin = Point(reference.x << _SHIFT, reference.y << _SHIFT)
    horizontal = settings.align & HORIZONTAL_ALIGNMENT
    if horizontal == RIGHT:
        origin = Point(origin.x - total.x, origin.y - total.y)
    elif horizontal == CENTRE:
        origin = Point(origin.x - total.x // 2, origin.y - total.y // 2)
    return Laid(line, _on_baseline(origin, line, settings.align & VERTICAL_ALIGNMENT), steps, total)


def glyph_contours(text: Laid, shapes: ShapeCache) -> list[Contour]:
    """The contours of all glyphs. Raises Fault with TooManyEdges if they have more than MOST_POINTS points."""
    contours: list[Contour] = []
    points = 0
    origin = text.origin
    for glyph, step in zip(text.line.glyphs, text.steps):
        shape = _shape(glyph, text.line, shapes)
        points += sum(map(len, shape))
        if points > MOST_POINTS:
            raise Fault(FaultName.TooManyEdges, f"a text has more than {MOST_POINTS} points")
        start = _rounded(origin)
        contours += [_moved(contour, start) for contour in shape]
        origin = Point(origin.x + step.x, origin.y + step.y)
    return contours


def band(text: Laid, low: int, high: int) -> Contour:
    """The quadrangle along the line between two heights in halves of a font unit, from its upper left corner on."""
    rise, origin, total = text.line.frame.rise, text.origin, text.total
    corners = ((0, high), (1, high), (1, low), (0, low))
    xs = [origin.x + part * total.x + height * rise.x // 2 for part, height in corners]
    ys = [origin.y + part * total.y + height * rise.y // 2 for part, height in corners]
    return [_rounded(Point(x, y)) for x, y in zip(xs, ys)]


def moved_position(text: Laid, settings: TextSettings, reference: Point, direction: Direction) -> Point | None:
    """The current position after the text in whole page units: behind it, before it if it is aligned to the right.

    Text that is centred doesn't move it.
    """
    horizontal = settings.align & HORIZONTAL_ALIGNMENT
    if horizontal == CENTRE:
        return None
    along, divisor = _page_length(text.line, settings)
    up = sum(text.line.distances_y or ()) * divisor
    if horizontal == RIGHT:
        along, up = -along, -up
    one = divisor << ANGLE_BITS
    return Point(
        reference.x + rounded_quotient(along * direction.along.x + up * direction.up.x, one),
        reference.y + rounded_quotient(along * direction.along.y + up * direction.up.y, one),
    )


def _steps(line: Line, settings: TextSettings) -> list[Point]:
    """The vectors from glyph to glyph: by the record's distances, else by the font's advances and the extras."""
    if line.distances_x is None:
        return [_own_step(glyph, line, settings) for glyph in line.glyphs]
    along, up = line.frame.distance_along, line.frame.distance_up
    ys = line.distances_y or (0,) * len(line.distances_x)
    return [Point(x * along.x + y * up.x, x * along.y + y * up.y) for x, y in zip(line.distances_x, ys)]


def _own_step(glyph: Glyph, line: Line, settings: TextSettings) -> Point:
    advance, along = line.frame.advance, line.frame.distance_along
    units, of = glyph.advance * line.metrics.units_per_em, glyph.source.font.metrics.units_per_em
    extra, share = _extra(glyph, settings)
    return Point(
        rounded_quotient(advance.x * units, of) + rounded_quotient(along.x * extra, share),
        rounded_quotient(advance.y * units, of) + rounded_quotient(along.y * extra, share),
    )


def _extra(glyph: Glyph, settings: TextSettings) -> tuple[int, int]:
    """What is added after a character, in page units, as a ratio."""
    if glyph.code in (SPACE, _SYMBOL_SPACE) and settings.break_count > 0:
        count = settings.break_count
        return settings.character_extra * count + settings.break_extra, count
    return settings.character_extra, 1


def _on_baseline(origin: Point, line: Line, vertical: int) -> Point:
    """The origin on the baseline, when the reference point is at the top or the bottom of the cell."""
    rise = line.frame.rise
    height = {_TOP: -line.metrics.ascent, BOTTOM: line.metrics.descent}.get(vertical, 0)
    return Point(origin.x + height * rise.x, origin.y + height * rise.y)


def _shape(glyph: Glyph, line: Line, shapes: ShapeCache) -> list[Contour]:
    if glyph.index == 0:
        return []
    font = glyph.source.font
    return shapes.shape(font, glyph.index, _axes(line, font.metrics.units_per_em, glyph.source.made_slant))


def _axes(line: Line, units_per_em: int, made_slant: bool) -> Axes:
    """The axes of a glyph whose font has so many units in an em: both fonts have the same em."""
    ratio = (line.metrics.units_per_em, units_per_em)
    x, y = line.frame.glyph_x, line.frame.glyph_y
    if made_slant:
        slant = line.frame.slant
        y = Point(y.x + slant.x // _PARTS_OF_SLANT, y.y + slant.y // _PARTS_OF_SLANT)
    if ratio[0] == ratio[1]:
        return Axes(x, y)
    return Axes(_times(x, ratio), _times(y, ratio))


def _times(vector: Point, ratio: tuple[int, int]) -> Point:
    return Point(rounded_quotient(vector.x * ratio[0], ratio[1]), rounded_quotient(vector.y * ratio[0], ratio[1]))


def _rounded(vector: Point) -> Point:
    """A vector in units of 2^-60 in fixed device units; a half is rounded up."""
    return Point((vector.x + _HALF) >> _SHIFT, (vector.y + _HALF) >> _SHIFT)


def _moved(contour: Contour, start: Point) -> Contour:
    x, y = start
    new = tuple.__new__
    return [new(Point, (left + x, top + y)) for left, top in contour]


def _page_length(line: Line, settings: TextSettings) -> tuple[int, int]:
    """The length of the line in page units, as a ratio."""
    if line.distances_x is not None:
        return sum(line.distances_x), 1
    count = max(1, settings.break_count)
    extras = sum(
        numerator * (count // share) for numerator, share in (_extra(glyph, settings) for glyph in line.glyphs)
    )
    units = sum(of_ratio(glyph.advance, glyph.source.font.metrics.units_per_em) for glyph in line.glyphs)
    # Along the line a page unit and an em have these lengths on the device.
    page_unit = _length(line.frame.distance_along) << FRACTION_BITS
    em = _length(line.frame.advance) * line.metrics.units_per_em
    return units * em * count + extras * page_unit, page_unit * count


def _length(vector: Point) -> int:
    return isqrt(vector.x * vector.x + vector.y * vector.y)
