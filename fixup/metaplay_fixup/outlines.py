"""Outlines of glyphs: lines, quadratic and cubic curves, in halves of a font unit.

A TrueType contour leaves out a point on the curve midway between two control points ([OpenType] glyf). In halves of a
unit these implied points are whole numbers.
"""

from __future__ import annotations

from dataclasses import dataclass

from .affine import Point
from .faces import RawGlyph
from .faults import Fault, FaultName

_ON_CURVE = 1
_CUBIC = 2
Piece = tuple[Point, ...]
"""A part of a contour after its start: the end of a line, or one or two control points and the end of a curve."""


@dataclass(frozen=True, slots=True)
class GlyphContour:
    """A closed contour in halves of a font unit. The last piece ends at the start."""

    start: Point
    pieces: tuple[Piece, ...]


@dataclass(frozen=True, slots=True)
class GlyphOutline:
    """A glyph: its advance in font units, its contours in halves of a font unit."""

    advance: int
    contours: tuple[GlyphContour, ...]


def outline_of(glyph: RawGlyph, label: str) -> GlyphOutline:
    """The outline of a glyph as FreeType reads it. Raises Fault with BadFont, and the font's label, if it isn't one."""
    xs, ys = glyph.coordinates[::2], glyph.coordinates[1::2]
    points = [Point(2 * x, 2 * y) for x, y in zip(xs, ys)]
    contours, first = [], 0
    for last in glyph.ends:
        if not first <= last < len(points):
            raise Fault(FaultName.BadFont, f"{label}: a contour ends outside of its glyph")
        end = last + 1
        contour = _contour(points[first:end], glyph.tags[first:end])
        if any(len(piece) > 3 for piece in contour.pieces):
            raise Fault(FaultName.BadFont, f"{label}: a curve has more than two control points")
        contours.append(contour)
        first = end
    return GlyphOutline(glyph.advance, tuple(contours))


def _contour(points: list[Point], tags: bytes) -> GlyphContour:
    """The contour through points.

    Bit 0 of a tag says that its point is on the curve, bit 1 that it controls a cubic.
    """
    points, tags = _started(points, tags)
    pieces: list[Piece] = []
    controls: list[Point] = []
    for point, tag in zip(points[1:] + points[:1], tags[1:] + tags[:1]):
        if tag & _ON_CURVE:
            pieces.append((*controls, point))
            controls = []
        elif tag & _CUBIC or not controls:
            controls.append(point)
        else:
            pieces.append((*controls, _middle(controls[0], point)))
            controls = [point]
    return GlyphContour(points[0], tuple(pieces))


def _started(points: list[Point], tags: bytes) -> tuple[list[Point], bytes]:
    """The contour from a point on the curve on.

    If it has none, it begins midway between its last and its first point.
    """
    for index, tag in enumerate(tags):
        if tag & _ON_CURVE:
            return points[index:] + points[:index], tags[index:] + tags[:index]
    return [_middle(points[-1], points[0])] + points, bytes([_ON_CURVE]) + tags


def _middle(one: Point, other: Point) -> Point:
    """The point midway. Points of a font are even here, so it is a whole number of halves."""
    return Point((one.x + other.x) // 2, (one.y + other.y) // 2)
