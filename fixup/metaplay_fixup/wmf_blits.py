"""Records of WMF that draw bitmaps ([MS-WMF] 2.3.1)."""

from __future__ import annotations

from .affine import Point
from .bitmaps import plays_as_stored, read_dib
from .faults import Fault, FaultName
from .output import Action
from .pictures import Picture
from .records import Fields
from .sources import Placed, depends_on_source, is_within, placed, side
from .wmf_pictures import read_packed, stored_packed
from .wmf_session import WmfSession


def bit_blit(session: WmfSession) -> None:
    """META_DIBBITBLT, whose source is as large as its box."""
    if not _is_without_bitmap(session):
        _blit(session, session.fields.point("width", "height"), 0, False)


def stretch_blit(session: WmfSession) -> None:
    """META_DIBSTRETCHBLT."""
    if not _is_without_bitmap(session):
        _blit(session, session.fields.point("source_width", "source_height"), 0, False)


def stretch_dib(session: WmfSession) -> None:
    """META_STRETCHDIB, whose source counts rows from the one that is stored first."""
    extent = session.fields.point("source_width", "source_height")
    _blit(session, extent, session.fields["usage"], True)


def _is_without_bitmap(session: WmfSession) -> bool:
    """Keeps a record without a bitmap, which the size tells ([MS-WMF] 2.3.1.2)."""
    if len(session.data) != 2 * ((session.kind_at_hand.number >> 8) + 3):
        return False
    session.keep()
    return True


def _blit(session: WmfSession, extent: Point, usage: int, counts_as_stored: bool) -> None:
    """Keeps a blit that the checker reads, or replaces it by one of 24 bits that is shown whole."""
    fields, dib = session.fields, session.data[session.kind_at_hand.end :]
    if plays_as_stored(dib, usage) and _is_source_within(fields, extent, dib):
        session.keep()
        return
    picture = read_packed(session, dib, usage)
    shown = _shown(fields, extent, picture, counts_as_stored and not read_dib(dib).is_top_down)
    if shown is None:
        session.replace(Action.HIDDEN_BITMAP)
    else:
        session.replace(Action.BITMAP, [_stretched(session, shown, fields["operation"])])


def _is_source_within(fields: Fields, extent: Point, dib: bytes) -> bool:
    if not depends_on_source(fields["operation"]):
        return True
    header = read_dib(dib)
    across = is_within(fields["source_x"], extent.x, header.width)
    return across and is_within(fields["source_y"], extent.y, header.height)


def _shown(fields: Fields, extent: Point, picture: Picture, counts_up: bool) -> Placed | None:
    """The part of the picture that is shown and where, in page units, or None if nothing is."""
    x, y, width, height = fields.several("x", "y", "width", "height")
    across = side(x, x + width, fields["source_x"], extent.x)
    down = side(y, y + height, fields["source_y"], extent.y)
    if counts_up:
        down = down._replace(start=picture.height - down.start - down.length)
    return placed(picture, across, down)


def _stretched(session: WmfSession, shown: Placed, operation: int) -> bytes:
    """A META_STRETCHDIB that paints a whole picture between two corners."""
    picture, first, last = shown.picture, shown.first, shown.last
    extent = (last.y - first.y, last.x - first.x)
    if max(picture.width, picture.height) > 0x7FFF:
        raise Fault(FaultName.BadDib, "a side of 32,768 pixels in a WMF")
    numbers = (operation, 0, picture.height, picture.width, 0, 0, *extent, first.y, first.x)
    return session.write("META_STRETCHDIB", *numbers, rest=stored_packed(picture))
