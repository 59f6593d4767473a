"""Records of EMF that make, select, change and delete objects ([MS-EMF] 2.3.7, 2.3.8)."""

from __future__ import annotations

from .bitmaps import bitmap_use, plays_as_stored, stored
from .emf_session import EmfSession
from .faults import Fault, FaultName
from .objects import FIRST_STOCK, Brush, Object, Pen, logical_font, stock_object
from .output import Action
from .palettes import NO_USE, STOCK_PALETTE, Palette, PaletteUse, entries_at, read_colour, read_palette
from .pens import PenLook, extended_pen, is_user_style, older_pen
from .records import Fields, numbers_at
from .text import LogicalFont

_NULL_PEN = 5
_SOLID_BRUSH, _NULL_BRUSH = 0, 1
_GEOMETRIC = 0x10000
_FACE_AT, _FACE_LENGTH = 40, 32


def select(session: EmfSession) -> None:
    """EMR_SELECTOBJECT."""
    found, state = _object(session, session.fields["index"]), session.state
    if isinstance(found, Pen):
        state.pen = found
    elif isinstance(found, Brush):
        state.brush = found
    elif isinstance(found, LogicalFont):
        state.font = found
    session.keep()


def select_palette(session: EmfSession) -> None:
    """EMR_SELECTPALETTE."""
    found = _object(session, session.fields["index"])
    if isinstance(found, Palette):
        session.state.palette = found
    session.keep()


def _object(session: EmfSession, index: int) -> Object | None:
    return stock_object(index) if index >= FIRST_STOCK else session.objects.get(index)


def delete(session: EmfSession) -> None:
    """EMR_DELETEOBJECT. One of nothing, or of a stock object, does nothing, and is left out: the checker rejects it."""
    if session.objects.pop(session.fields["index"], None) is None:
        session.replace(Action.DELETION)
    else:
        session.keep()


def create_pen(session: EmfSession) -> None:
    """EMR_CREATEPEN."""
    fields = session.fields
    is_null = fields["style"] & 15 == _NULL_PEN
    use, data = _keep(session, is_null)
    look = None if is_null else _look(session, data)
    session.make(fields["index"], Pen(abs(fields["width"]), is_null, data, look, use))


def create_long_pen(session: EmfSession) -> None:
    """EMR_EXTCREATEPEN. Only geometric pens have a width."""
    fields = session.fields
    is_null = fields["style"] & 15 == _NULL_PEN or fields["brush_style"] == _NULL_BRUSH
    use, data = _keep(session, is_null)
    width = fields["width"] if fields["style"] & _GEOMETRIC else 0
    look = None if is_null or fields["brush_style"] != _SOLID_BRUSH else _look(session, data)
    session.make(fields["index"], Pen(width, is_null, data, look, use))


def _look(session: EmfSession, data: bytes) -> PenLook | None:
    """What a pen's record in the output says of its strokes, if they may be replaced."""
    if not session.has_strokes:
        return None
    kind = session.kind_at_hand
    style, width, reference = kind.read(data).several("style", "width", "colour")
    colour = read_colour(reference, STOCK_PALETTE)
    if kind.name == "EMR_CREATEPEN":
        return older_pen(style, width, colour)
    count = kind.read(data)["entries"] if is_user_style(style) else 0
    return extended_pen(style, width, colour, numbers_at(data, kind.end, count, "I"))


def _keep(session: EmfSession, is_null: bool) -> tuple[PaletteUse, bytes]:
    """Keeps the record at hand, or replaces its colour if that is one of the palette.

    Gives what was taken from the palette, and what stands in the output.
    """
    use = NO_USE
    if is_null:
        session.keep()
    else:
        use = session.keep_with_colour()
    return use, session.output.entries[-1].records[0]


def create_brush(session: EmfSession) -> None:
    """EMR_CREATEBRUSHINDIRECT."""
    fields = session.fields
    use, _ = _keep(session, fields["style"] == _NULL_BRUSH)
    session.make(fields["index"], Brush(use))


def create_bitmap_brush(session: EmfSession) -> None:
    """EMR_CREATEDIBPATTERNBRUSHPT. A bitmap that the checker doesn't read becomes one of 24 bits."""
    fields = session.fields
    session.make(fields["index"], Brush())
    header, bits = bitmap_parts(session)
    usage = fields["usage"]
    if plays_as_stored(header, usage):
        session.keep()
        return
    picture = session.picture(header, bits, usage)
    session.make(fields["index"], Brush(bitmap_use(header, usage, session.state.palette)))
    header, bits = stored(picture)
    numbers = (fields["index"], 0, 32, len(header), 32 + len(header), len(bits))
    session.replace(Action.BITMAP, [session.write("EMR_CREATEDIBPATTERNBRUSHPT", *numbers, rest=header + bits)])


def bitmap_parts(session: EmfSession) -> tuple[bytes, bytes]:
    """The header with its table, and the rows, of the record's bitmap.

    Raises Fault BadParams if they go past the record's end.
    """
    header_at, header_size, bits_at, bits_size = session.fields.several(
        "header_at", "header_size", "bits_at", "bits_size"
    )
    length = len(session.data)
    if header_at + header_size > length or bits_at + bits_size > length:
        raise Fault(FaultName.BadParams, "a bitmap goes past the record's end")
    header = session.data[header_at : header_at + header_size]
    return header, session.data[bits_at : bits_at + bits_size]


def create_palette(session: EmfSession) -> None:
    """EMR_CREATEPALETTE."""
    fields = session.fields
    session.make(fields["index"], read_palette(session.data, session.kind_at_hand.end, fields["entries"]))
    session.keep()


def set_palette_entries(session: EmfSession) -> None:
    """EMR_SETPALETTEENTRIES, of the palette of an index."""

    def change(fields: Fields) -> None:
        found = _object(session, fields["index"])
        entries = entries_at(session.data, session.kind_at_hand.end, fields["entries"])
        if isinstance(found, Palette):
            found.set_entries(fields["start"], entries)

    session.keep_palette_change(change)


def resize_palette(session: EmfSession) -> None:
    """EMR_RESIZEPALETTE."""

    def change(fields: Fields) -> None:
        found = _object(session, fields["index"])
        if isinstance(found, Palette):
            found.resize(fields["entries"])

    session.keep_palette_change(change)


def create_font(session: EmfSession) -> None:
    """EMR_EXTCREATEFONTINDIRECTW ([MS-EMF] 2.2.13)."""
    fields = session.fields
    letters = numbers_at(session.data, _FACE_AT, _FACE_LENGTH, "H")
    end = letters.index(0) if 0 in letters else len(letters)
    face = b"".join(letter.to_bytes(2, "little") for letter in letters[:end]).decode("utf-16-le", "replace")
    session.make(fields["index"], logical_font(fields, face))
    session.keep()
