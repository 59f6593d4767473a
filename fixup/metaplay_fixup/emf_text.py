"""Records of text in EMF ([MS-EMF] 2.3.5.7, 2.3.5.8, 2.3.5.37) and the blocks that take their place."""

from __future__ import annotations

from collections.abc import Sequence

from .affine import Point
from .doubts import check_text
from .emf_blocks import Lines, lines_record, origin_near
from .emf_session import EmfSession
from .fixed import FRACTION_BITS
from .faults import Fault, FaultName
from .objects import NULL_BRUSH, NULL_PEN
from .output import Action
from .palettes import colour_word
from .records import Fields, numbers_at
from .shapes import bounds, fixed_bounds
from .text import CLIPPED_BOX, DISTANCES_IN_PAIRS, OPAQUE_BOX, UPDATE_POSITION, Box, LaidText, TextRecord
from .text_blocks import Fill, TextBlock, TextFills, text_fills

# Options of EMR_SMALLTEXTOUT: it has no box; its characters have one byte each.
_NO_BOX, _SMALL = 0x100, 0x200

_WINDING, _COPY_PEN = 2, 13

# A block of text ends with this many records: the state is restored, and the brush deleted.
_END_OF_BLOCK = 2

# How far text may be from a block's origin and still fit numbers of 16 bits, in parts.
_SHARED_REACH = 20_000


def long_text(session: EmfSession) -> None:
    """EMR_EXTTEXTOUTA and EMR_EXTTEXTOUTW."""
    fields = session.fields
    count, at = fields["count"], fields["string_at"]
    is_wide = session.kind_at_hand.name == "EMR_EXTTEXTOUTW"
    across, down = _distances(session, fields)
    left, top, right, bottom = fields.several("left", "top", "right", "bottom")
    text: tuple[int, ...] | bytes = (
        numbers_at(session.data, at, count, "H") if is_wide else session.data[at : at + count]
    )
    if len(text) < count:
        raise Fault(FaultName.BadParams, "a string goes past the record's end")
    box = Box(left, top, right, bottom)
    reference = _reference(session, fields.point())
    record = TextRecord(text, across, down, fields["options"], box, reference, fields["graphics_mode"])
    _replace_text(session, record)


def _distances(session: EmfSession, fields: Fields) -> tuple[tuple[int, ...] | None, tuple[int, ...] | None]:
    """The distances along the line and upwards from it, or None where the record has none."""
    count, at = fields["count"], fields["distances_at"]
    is_paired = bool(fields["options"] & DISTANCES_IN_PAIRS)
    total = count * (2 if is_paired else 1)
    if count == 0 or at == 0 or at + 4 * total > len(session.data):
        return None, None
    numbers = numbers_at(session.data, at, total, "i")
    if not is_paired:
        return numbers, None
    down = numbers[1::2]
    return numbers[::2], down if any(down) else None


def small_text(session: EmfSession) -> None:
    """EMR_SMALLTEXTOUT."""
    fields = session.fields
    options, at = fields["options"], session.kind_at_hand.end
    box = None
    if not options & _NO_BOX:
        left, top, right, bottom = numbers_at(session.data, at, 4, "i")
        box, at = Box(left, top, right, bottom), at + 16
    codes = numbers_at(session.data, at, fields["count"], "B" if options & _SMALL else "H")
    plain = options & ~(_NO_BOX | _SMALL)
    if box is None:
        plain &= ~(OPAQUE_BOX | CLIPPED_BOX)
    reference = _reference(session, fields.point())
    _replace_text(session, TextRecord(codes, None, None, plain, box, reference, fields["graphics_mode"]))


def _reference(session: EmfSession, point: Point) -> Point:
    return session.state.position if session.state.align & UPDATE_POSITION else point


def _replace_text(session: EmfSession, record: TextRecord) -> None:
    state = session.state
    if session.texts is None:
        session.keep()
        return
    check_text(state.doubts, state.align)
    laid = session.texts.lay_out(record, state.font, state.text_settings(), state.page_to_device())
    if session.open_path is not None:
        _add_to_path(session, laid)
    else:
        _put_text(session, laid, text_fills(laid, record, state))
    if laid.position is not None:
        state.position = laid.position


def _add_to_path(session: EmfSession, laid: LaidText) -> None:
    """Text in an open path adds its outlines."""
    path = session.open_path
    assert path is not None
    session.give_up_path()
    for contour in (*laid.glyphs, *laid.lines):
        path.add(contour, True)
    path.is_joined = False
    session.replace_text(Action.PATH, [], None, laid.note)


def _put_text(session: EmfSession, laid: LaidText, text: TextFills) -> None:
    points = [point for fill in text.fills for contour in fill.contours for point in contour]
    shared = _open_block(session)
    if not points:
        entry = session.replace_text(Action.BLANK, [], None, laid.note)
        if shared is not None:
            shared.last = entry
        return
    action, box = Action.OUTLINES if laid.glyphs else Action.TEXT_BOX, bounds(points)
    if shared is not None and _fits(session, shared, text):
        polygons = [record for fill in text.fills for record in _polygons(session, fill, shared.origin)]
        session.output.put_in(shared.entry, shared.end, polygons)
        shared.end += len(polygons)
        shared.last = session.replace_text(action, [], box, laid.note)
        return
    origin = origin_near(points[0])
    block = _block(session, text, origin)
    entry = session.replace_text(action, block, box, laid.note)
    is_shared = text.clip is None and len(text.colours) == 1
    end = len(block) - _END_OF_BLOCK
    session.shared_text = TextBlock(entry, end, entry, text.fills[0].colour, origin) if is_shared else None


def _open_block(session: EmfSession) -> TextBlock | None:
    """The newest block of text, if nothing else was put into the output after it."""
    shared = session.shared_text
    return shared if shared is not None and session.output.entries[-1] is shared.last else None


def _fits(session: EmfSession, shared: TextBlock, text: TextFills) -> bool:
    """Whether a text can be put into a block: it has the same colour, no clip, and is near."""
    is_alike = text.clip is None and text.colours == {shared.colour}
    return is_alike and _is_near(session, text.points, shared.origin)


def _is_near(session: EmfSession, points: Sequence[Point], origin: Point) -> bool:
    reach = (_SHARED_REACH << FRACTION_BITS) // session.grid.parts
    left, top, right, bottom = fixed_bounds(points)
    across, down = origin.x << FRACTION_BITS, origin.y << FRACTION_BITS
    return max(across - left, right - across, down - top, bottom - down) <= reach


def _polygons(session: EmfSession, fill: Fill, origin: Point) -> list[bytes]:
    return lines_record(session.grid, Lines.CLOSED, fill.contours, origin)


def _block(session: EmfSession, text: TextFills, origin: Point) -> list[bytes]:
    """The block of a text: the map, the clip, the settings, and each fill with its brush; the brush goes after the
    block.
    """
    session.check_depth()
    index, write = session.use_extra(), session.write
    records = [write("EMR_SAVEDC"), *session.map_records(origin)]
    if text.clip is not None:
        corners = (Point(text.clip.left, text.clip.top), Point(text.clip.right, text.clip.bottom))
        first, last = (session.grid.units(corner, origin) for corner in corners)
        records.append(write("EMR_INTERSECTCLIPRECT", *first, *last))
    records += [
        write("EMR_SETPOLYFILLMODE", _WINDING),
        write("EMR_SETROP2", _COPY_PEN),
        write("EMR_SELECTOBJECT", NULL_PEN),
    ]
    colour = None
    for fill in text.fills:
        if colour is not None and fill.colour != colour:
            records += [write("EMR_SELECTOBJECT", NULL_BRUSH), write("EMR_DELETEOBJECT", index)]
        if fill.colour != colour:
            colour = fill.colour
            records.append(write("EMR_CREATEBRUSHINDIRECT", index, 0, colour_word(colour), 0))
            records.append(write("EMR_SELECTOBJECT", index))
        records += _polygons(session, fill, origin)
    return [*records, write("EMR_RESTOREDC", -1), write("EMR_DELETEOBJECT", index)]
