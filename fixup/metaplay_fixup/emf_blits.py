"""Records of EMF that draw bitmaps ([MS-EMF] 2.3.1)."""

from __future__ import annotations

from dataclasses import dataclass

from .affine import Point
from .bitmaps import plays_as_stored, read_dib, stored
from .blends import Layer, blended, keyed
from .emf_objects import bitmap_parts
from .emf_session import EmfSession
from .faults import Fault, FaultName
from .output import Action
from .records import Fields
from .sources import Placed, depends_on_source, is_within, placed, side
from .worlds import IDENTITY_WORLD, read_world

_BITMAP_AT = 80


@dataclass(frozen=True, slots=True)
class Blit:
    """A blit as its record has it: the box and the source as corner and extent, the operation, and the bitmap's two
    parts.
    """

    corner: Point
    extent: Point
    source: Point
    source_extent: Point
    operation: int
    usage: int
    header: bytes
    bits: bytes


def _blit(session: EmfSession, source_extent: Point) -> Blit:
    fields = session.fields
    header, bits = bitmap_parts(session)
    corner, extent = fields.point(), fields.point("width", "height")
    source = fields.point("source_x", "source_y")
    return Blit(corner, extent, source, source_extent, fields["operation"], fields["usage"], header, bits)


def bit_blit(session: EmfSession) -> None:
    """EMR_BITBLT, whose source is as large as its box."""
    _check_transform(session.fields)
    _plain_blit(session, _blit(session, session.fields.point("width", "height")), False)


def stretch_blit(session: EmfSession) -> None:
    """EMR_STRETCHBLT."""
    _check_transform(session.fields)
    _plain_blit(session, _blit(session, session.fields.point("source_width", "source_height")), False)


def stretch_dib(session: EmfSession) -> None:
    """EMR_STRETCHDIBITS, whose source counts rows from the one that is stored first."""
    _plain_blit(session, _blit(session, session.fields.point("source_width", "source_height")), True)


def alpha_blend(session: EmfSession) -> None:
    """EMR_ALPHABLEND: its operation is a BLENDFUNCTION."""
    _check_transform(session.fields)
    blit = _blit(session, session.fields.point("source_width", "source_height"))
    shown = _shown(session, blit, False)
    layers = [] if shown is None else blended(shown.picture, blit.operation, session.options.alpha)
    _draw(session, shown, layers)


def transparent_blit(session: EmfSession) -> None:
    """EMR_TRANSPARENTBLT: its operation is the colour that isn't drawn."""
    _check_transform(session.fields)
    blit = _blit(session, session.fields.point("source_width", "source_height"))
    shown = _shown(session, blit, False)
    _draw(session, shown, [] if shown is None else keyed(shown.picture, blit.operation))


def _check_transform(fields: Fields) -> None:
    """Raises Fault Unsupported if a bitmap has a transform of its own, which the checker doesn't read."""
    if fields["header_size"] and read_world(fields) != IDENTITY_WORLD:
        raise Fault(FaultName.Unsupported, "a bitmap with a transform of its own")


def _plain_blit(session: EmfSession, blit: Blit, counts_as_stored: bool) -> None:
    """A blit by a ternary raster operation: kept if the checker reads it as it is."""
    if not blit.header:
        _patch(session, blit)
    elif session.state.is_plain and _plays(blit):
        session.keep()
    else:
        shown = _shown(session, blit, counts_as_stored)
        _draw(session, shown, [] if shown is None else [Layer(shown.picture, blit.operation)])


def _plays(blit: Blit) -> bool:
    """Whether the checker reads the bitmap and, if the operation needs it, finds the source within."""
    if not plays_as_stored(blit.header, blit.usage):
        return False
    if not depends_on_source(blit.operation):
        return True
    dib = read_dib(blit.header)
    across = is_within(blit.source.x, blit.source_extent.x, dib.width)
    return across and is_within(blit.source.y, blit.source_extent.y, dib.height)


def _corners(session: EmfSession, blit: Blit) -> tuple[Point, Point]:
    """The corners of the box in fixed device units. Raises Fault Turned under a world that turns."""
    device = session.state.device
    if not device.is_straight():
        raise Fault(FaultName.Turned, "a bitmap under a world that turns")
    last = Point(blit.corner.x + blit.extent.x, blit.corner.y + blit.extent.y)
    return device.apply(blit.corner), device.apply(last)


def _patch(session: EmfSession, blit: Blit) -> None:
    """A blit without a bitmap: its box is placed by a block where the world isn't the identity."""
    if session.state.is_plain:
        session.keep()
        return
    if depends_on_source(blit.operation):
        raise Fault(FaultName.SourceMissing)
    first, last = _corners(session, blit)

    def drawn(origin: Point) -> list[bytes]:
        near, far = session.grid.units(first, origin), session.grid.units(last, origin)
        numbers = {"x": near.x, "y": near.y, "width": far.x - near.x, "height": far.y - near.y}
        return [session.kind_at_hand.changed(session.data, **numbers)]

    session.replace(Action.BITMAP, session.block(first, drawn))


def _shown(session: EmfSession, blit: Blit, counts_as_stored: bool) -> Placed | None:
    """The part of the bitmap that is shown, as 24 bits, and where, or None if nothing of it is."""
    first, last = _corners(session, blit)
    if not blit.header:
        raise Fault(FaultName.SourceMissing)
    picture = session.picture(blit.header, blit.bits, blit.usage)
    across = side(first.x, last.x, blit.source.x, blit.source_extent.x)
    down = side(first.y, last.y, blit.source.y, blit.source_extent.y)
    if counts_as_stored and not read_dib(blit.header).is_top_down:
        down = down._replace(start=picture.height - down.start - down.length)
    return placed(picture, across, down)


def _draw(session: EmfSession, shown: Placed | None, layers: list[Layer]) -> None:
    """Replaces the record by a block that paints layers in a box, one after the other."""
    if shown is None or not layers:
        session.replace(Action.HIDDEN_BITMAP)
        return
    first, last = shown.first, shown.last

    def drawn(origin: Point) -> list[bytes]:
        near, far = session.grid.units(first, origin), session.grid.units(last, origin)
        return [_stretched(session, layer, near, far) for layer in layers]

    session.replace(Action.BITMAP, session.block(first, drawn))


def _stretched(session: EmfSession, layer: Layer, near: Point, far: Point) -> bytes:
    """An EMR_STRETCHDIBITS that paints a whole picture between two corners."""
    header, bits = stored(layer.picture)
    sides = (layer.picture.width, layer.picture.height)
    parts = (_BITMAP_AT, len(header), _BITMAP_AT + len(header), len(bits))
    extent = (far.x - near.x, far.y - near.y)
    numbers = (0, 0, -1, -1, *near, 0, 0, *sides, *parts, 0, layer.operation, *extent)
    return session.write("EMR_STRETCHDIBITS", *numbers, rest=header + bits)
