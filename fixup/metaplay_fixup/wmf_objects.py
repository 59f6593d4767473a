"""Records of WMF that make, select, change and delete objects ([MS-WMF] 2.3.4)."""

from __future__ import annotations

from .bitmaps import bitmap_use, plays_as_stored
from .objects import Brush, Pen, logical_font
from .output import Action
from .palettes import NO_USE, STOCK_PALETTE, Palette, PaletteUse, entries_at, read_colour, read_palette
from .pens import PenLook, older_pen
from .records import Fields
from .text import LogicalFont
from .wmf_pictures import read_packed, stored_packed
from .wmf_session import WmfSession

_NULL_PEN, _NULL_BRUSH = 5, 1
_FACE_AT, _FACE_LENGTH = 24, 32
_BITMAP_AT = 10
# Brush styles of META_DIBCREATEPATTERNBRUSH ([MS-WMF] 2.1.1.4): the usage of the first isn't read.
_PATTERN, _DIB_PATTERN = 3, 5

# Code pages of face names by charset ([MS-WMF] 2.1.1.5).
_FACE_PAGES = {128: "cp932", 129: "cp949", 134: "gbk", 136: "big5"}


def select(session: WmfSession) -> None:
    """META_SELECTOBJECT."""
    found = session.slots.find(session.fields["index"])
    state = session.state
    if isinstance(found, Pen):
        state.pen = found
    elif isinstance(found, Brush):
        state.brush = found
    elif isinstance(found, LogicalFont):
        state.font = found
    session.keep()


def select_palette(session: WmfSession) -> None:
    """META_SELECTPALETTE."""
    found = session.slots.find(session.fields["index"])
    if isinstance(found, Palette):
        session.state.palette = found
    session.keep()


def delete(session: WmfSession) -> None:
    """META_DELETEOBJECT. One of nothing does nothing, and is left out, since the checker rejects it."""
    if session.slots.delete(session.fields["index"]):
        session.keep()
    else:
        session.replace(Action.DELETION)


def create_pen(session: WmfSession) -> None:
    """META_CREATEPENINDIRECT."""
    fields = session.fields
    is_null = fields["style"] & 15 == _NULL_PEN
    use = _keep(session, is_null)
    data = session.output.entries[-1].records[0]
    look = None if is_null else _look(session, data)
    session.slots.add(Pen(abs(fields["width"]), is_null, data, look, use))


def _look(session: WmfSession, data: bytes) -> PenLook | None:
    """What a pen's record in the output says of its strokes, if they may be replaced."""
    if not session.has_strokes:
        return None
    style, width, reference = session.kind_at_hand.read(data).several("style", "width", "colour")
    return older_pen(style, width, read_colour(reference, STOCK_PALETTE))


def create_brush(session: WmfSession) -> None:
    """META_CREATEBRUSHINDIRECT."""
    session.slots.add(Brush(_keep(session, session.fields["style"] not in (0, 2))))


def _keep(session: WmfSession, is_unread: bool) -> PaletteUse:
    """Keeps the record at hand, or replaces its colour if that is one of the palette; gives what was taken from it."""
    if is_unread:
        session.keep()
        return NO_USE
    return session.keep_with_colour()


def create_bitmap_brush(session: WmfSession) -> None:
    """META_DIBCREATEPATTERNBRUSH. A bitmap that the checker doesn't read becomes one of 24 bits."""
    fields = session.fields
    usage = 0 if fields["style"] == _PATTERN else fields["usage"]
    dib = session.data[_BITMAP_AT:]
    if plays_as_stored(dib, usage):
        session.keep()
    else:
        picture = read_packed(session, dib, usage)
        record = session.write("META_DIBCREATEPATTERNBRUSH", _DIB_PATTERN, 0, rest=stored_packed(picture))
        session.replace(Action.BITMAP, [record])
    session.slots.add(Brush(bitmap_use(dib, usage, session.state.palette)))


def create_palette(session: WmfSession) -> None:
    """META_CREATEPALETTE."""
    palette = read_palette(session.data, session.kind_at_hand.end, session.fields["entries"])
    session.keep()
    session.slots.add(palette)


def set_palette_entries(session: WmfSession) -> None:
    """META_SETPALENTRIES, of the palette that is selected."""

    def change(fields: Fields) -> None:
        entries = entries_at(session.data, session.kind_at_hand.end, fields["entries"])
        session.state.palette.set_entries(fields["start"], entries)

    session.keep_palette_change(change)


def animate_palette(session: WmfSession) -> None:
    """META_ANIMATEPALETTE."""

    def change(fields: Fields) -> None:
        entries = entries_at(session.data, session.kind_at_hand.end, fields["entries"])
        session.state.palette.animate(fields["start"], entries)

    session.keep_palette_change(change)


def resize_palette(session: WmfSession) -> None:
    """META_RESIZEPALETTE."""
    session.keep_palette_change(lambda fields: session.state.palette.resize(fields["entries"]))


def create_font(session: WmfSession) -> None:
    """META_CREATEFONTINDIRECT. The face's name is in the code page of the charset."""
    fields = session.fields
    name = session.data[_FACE_AT : _FACE_AT + _FACE_LENGTH].split(b"\0")[0]
    face = name.decode(_FACE_PAGES.get(fields["charset"], "cp1252"), "replace")
    session.keep()
    session.slots.add(logical_font(fields, face))
