"""Records of text in WMF ([MS-WMF] 2.3.3.5, 2.3.3.20) and the blocks that take their place."""

from __future__ import annotations

from .affine import Point
from .doubts import check_text
from .faults import Fault, FaultName
from .output import Action
from .palettes import colour_word
from .records import numbers_at
from .shapes import bounds
from .state import ISOTROPIC
from .text import CLIPPED_BOX, COMPATIBLE, OPAQUE_BOX, UPDATE_POSITION, Box, TextRecord
from .text_blocks import TextFills, text_fills
from .wmf_blocks import FineWindow, polygons
from .wmf_session import WmfSession

_STRING_AT = 8
_WINDING, _COPY_PEN, _NULL_PEN_STYLE = 2, 13, 5


def text(session: WmfSession) -> None:
    """META_TEXTOUT: the string, then the reference point."""
    count = _count(session)
    string = _string(session, _STRING_AT, count)
    y, x = numbers_at(session.data, _STRING_AT + count + count % 2, 2, "h")
    _replace_text(session, TextRecord(string, None, None, 0, None, _reference(session, Point(x, y)), COMPATIBLE))


def long_text(session: WmfSession) -> None:
    """META_EXTTEXTOUT: a box if the options ask for one, the string, and perhaps distances."""
    fields = session.fields
    count, options, at, box = _count(session), fields["options"], session.kind_at_hand.end, None
    if options & (OPAQUE_BOX | CLIPPED_BOX):
        left, top, right, bottom = numbers_at(session.data, at, 4, "h")
        box, at = Box(left, top, right, bottom), at + 8
    string = _string(session, at, count)
    at += count + count % 2
    has_distances = count > 0 and at + 2 * count <= len(session.data)
    distances = numbers_at(session.data, at, count, "h") if has_distances else None
    reference = _reference(session, fields.point())
    _replace_text(session, TextRecord(string, distances, None, options, box, reference, COMPATIBLE))


def _count(session: WmfSession) -> int:
    count = session.fields["count"]
    if count < 0:
        raise Fault(FaultName.BadParams, "a negative count of characters")
    return count


def _string(session: WmfSession, at: int, count: int) -> bytes:
    string = session.data[at : at + count]
    if len(string) < count:
        raise Fault(FaultName.BadParams, "a string goes past the record's end")
    return string


def _reference(session: WmfSession, point: Point) -> Point:
    return session.state.position if session.state.align & UPDATE_POSITION else point


def _replace_text(session: WmfSession, record: TextRecord) -> None:
    state = session.state
    if session.texts is None:
        session.keep()
        return
    check_text(state.doubts, state.align)
    laid = session.texts.lay_out(record, state.font, state.text_settings(), state.page_to_device())
    fills = text_fills(laid, record, state)
    points = [point for fill in fills.fills for contour in fill.contours for point in contour]
    if points:
        action = Action.OUTLINES if laid.glyphs else Action.TEXT_BOX
        session.replace_text(action, _block(session, fills), bounds(points), laid.note)
    else:
        session.replace_text(Action.BLANK, [], None, laid.note)
    if laid.position is not None:
        state.position = laid.position


def _block(session: WmfSession, text_to_draw: TextFills) -> list[bytes]:
    """The block of a text: the window, the clip, the settings, and each fill with its brush; pen and brush go after
    the block.
    """
    session.check_depth()
    write = session.write
    window = FineWindow.around(session.state.page, text_to_draw.points, session.state.page.mode == ISOTROPIC)
    pen, *brushes = session.slots.lowest_free(3 if len(text_to_draw.colours) > 1 else 2)
    records = [write("META_SAVEDC"), *window.records(), *_clip(session, window, text_to_draw.clip)]
    records += [write("META_SETPOLYFILLMODE", _WINDING), write("META_SETROP2", _COPY_PEN)]
    records += [write("META_CREATEPENINDIRECT", _NULL_PEN_STYLE, 0, 0, 0), write("META_SELECTOBJECT", pen)]
    colour = None
    for fill in text_to_draw.fills:
        if fill.colour != colour:
            records.append(write("META_CREATEBRUSHINDIRECT", 0, colour_word(fill.colour), 0))
            records.append(write("META_SELECTOBJECT", brushes[0]))
            if colour is not None:
                # The brush before is deleted now that it isn't selected; the next one takes its index.
                records.append(write("META_DELETEOBJECT", brushes[-1]))
            brushes.reverse()
            colour = fill.colour
        records += polygons(window, fill.contours)
    return [
        *records,
        write("META_RESTOREDC", -1),
        write("META_DELETEOBJECT", pen),
        write("META_DELETEOBJECT", brushes[-1]),
    ]


def _clip(session: WmfSession, window: FineWindow, box: Box | None) -> list[bytes]:
    if box is None:
        return []
    first = window.units(Point(box.left, box.top))
    last = window.units(Point(box.right, box.bottom))
    return [session.write("META_INTERSECTCLIPRECT", last.y, last.x, first.y, first.x)]
