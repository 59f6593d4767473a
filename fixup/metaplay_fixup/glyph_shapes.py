"""Glyphs as polygons around their origins, kept for the next time that they are needed."""

from __future__ import annotations

from dataclasses import dataclass

from .affine import Contour, Point
from .fixed import FRACTION_BITS
from .flattening import flattened
from .fonts import Font
from .metrics import VECTOR_BITS
from .outlines import GlyphContour

_MOST_KEPT_POINTS = 1 << 19
# Points of an outline count halves of a font unit.
_SHIFT = VECTOR_BITS + 1 - FRACTION_BITS
_HALF = 1 << (_SHIFT - 1)


@dataclass(frozen=True, slots=True)
class Axes:
    """What a font unit along x and y becomes, in units of 2^-60 device unit."""

    x: Point
    y: Point


class ShapeCache:
    """Flattened glyphs. It keeps at most _MOST_KEPT_POINTS points, and then begins anew."""

    def __init__(self, tolerance: int) -> None:
        """`tolerance` is how far chords may be off their curves, in fixed device units, above 0."""
        self._tolerance = tolerance
        self._kept: dict[tuple[Font, int, Axes], list[Contour]] = {}
        self._points = 0

    def shape(self, font: Font, glyph: int, axes: Axes) -> list[Contour]:
        """The polygons of a glyph around its origin, in fixed device units.

        All run the way of TrueType's, so that glyphs of several fonts can overlap. Raises Fault with BadFont or
        TooManyEdges.
        """
        key = (font, glyph, axes)
        if key not in self._kept:
            self._keep(key, self._made(font, glyph, axes))
        return self._kept[key]

    def _made(self, font: Font, glyph: int, axes: Axes) -> list[Contour]:
        outline = font.outline(glyph)
        contours = tuple(_transformed(contour, axes) for contour in outline.contours)
        polygons = flattened(contours, self._tolerance)
        return [polygon[::-1] for polygon in polygons] if font.is_postscript else polygons

    def _keep(self, key: tuple[Font, int, Axes], polygons: list[Contour]) -> None:
        if self._points > _MOST_KEPT_POINTS:
            self._kept.clear()
            self._points = 0
        self._points += sum(map(len, polygons))
        self._kept[key] = polygons


def _transformed(contour: GlyphContour, axes: Axes) -> GlyphContour:
    pieces = tuple(tuple(_landed(point, axes) for point in piece) for piece in contour.pieces)
    return GlyphContour(_landed(contour.start, axes), pieces)


def _landed(point: Point, axes: Axes) -> Point:
    """Where a point in halves of a font unit lands, in fixed device units; a half is rounded up."""
    x = point.x * axes.x.x + point.y * axes.y.x
    y = point.x * axes.x.y + point.y * axes.y.y
    return Point((x + _HALF) >> _SHIFT, (y + _HALF) >> _SHIFT)
