"""Conversion of WMF files: a handler for each kind of record that matters."""

from __future__ import annotations

from collections.abc import Callable

from . import wmf_blits, wmf_drawings, wmf_objects, wmf_state, wmf_text
from .doubts import Part
from .steps import Steps
from .wmf_session import WmfSession

Handler = Callable[[WmfSession], None]

HANDLERS: dict[int, Handler] = {
    0x001E: WmfSession.save,
    0x0037: wmf_objects.set_palette_entries,
    0x00F7: wmf_objects.create_palette,
    0x0102: wmf_state.background_mode,
    0x0103: wmf_state.map_mode,
    0x0108: wmf_state.character_extra,
    0x0127: WmfSession.restore,
    0x012C: wmf_state.select_region,
    0x012D: wmf_objects.select,
    0x012E: wmf_state.text_align,
    0x0139: wmf_objects.resize_palette,
    0x0142: wmf_objects.create_bitmap_brush,
    0x01F0: wmf_objects.delete,
    0x0201: wmf_state.background_colour,
    0x0209: wmf_state.text_colour,
    0x020A: wmf_state.text_justification,
    0x020B: wmf_state.window_origin,
    0x020C: wmf_state.window_extent,
    0x020D: wmf_state.viewport_origin,
    0x020E: wmf_state.viewport_extent,
    0x020F: wmf_state.offset_window,
    0x0211: wmf_state.offset_viewport,
    0x0213: wmf_drawings.line_to,
    0x0214: wmf_state.move,
    0x0234: wmf_objects.select_palette,
    0x02FA: wmf_objects.create_pen,
    0x02FB: wmf_objects.create_font,
    0x02FC: wmf_objects.create_brush,
    0x0324: wmf_drawings.polygons,
    0x0325: wmf_drawings.polyline,
    0x0410: wmf_state.scale_window,
    0x0412: wmf_state.scale_viewport,
    0x0415: wmf_state.clip,
    0x0416: wmf_state.clip,
    0x0418: wmf_drawings.ellipse,
    0x041B: wmf_drawings.rectangle,
    0x041F: wmf_drawings.pixel,
    0x0436: wmf_objects.animate_palette,
    0x0521: wmf_text.text,
    0x0538: wmf_drawings.polygons,
    0x061C: wmf_drawings.round_rectangle,
    0x0817: wmf_drawings.arc,
    0x081A: wmf_drawings.pie,
    0x0830: wmf_drawings.chord,
    0x0940: wmf_blits.bit_blit,
    0x0A32: wmf_text.long_text,
    0x0B41: wmf_blits.stretch_blit,
    0x0F43: wmf_blits.stretch_dib,
}

# Records that neither the checker plays nor the fix-up replaces.
_UNSUPPORTED = {0x012A, 0x012B, 0x01F9, 0x0220, 0x0228, 0x0419, 0x0429, 0x0548, 0x06FF, 0x0922, 0x0B23, 0x0D33}

_TEXTS = {0x0521, 0x0A32}
_DRAWINGS = {0x0324, 0x0325, 0x0418, 0x041B, 0x041F, 0x0538, 0x061C, 0x0817, 0x081A, 0x0830, 0x0940, 0x0B41, 0x0F43}
_PARTS = {
    0x0103: Part.MAP,
    0x0213: Part.POSITION,
    0x0214: Part.POSITION,
    0x0410: Part.MAP,
    0x0412: Part.MAP,
}

# Records that draw with the pen, the brush or the background, whose colours the output has as they were taken.
_PAINTED = frozenset((*_DRAWINGS - {0x041F}, 0x0213, 0x061D))

WMF_STEPS = Steps(HANDLERS, frozenset(_UNSUPPORTED), frozenset(_TEXTS), frozenset(_DRAWINGS), {}, _PARTS, _PAINTED)
