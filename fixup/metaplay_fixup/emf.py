"""Conversion of EMF files: a handler for each kind of record that matters."""

from __future__ import annotations

from collections.abc import Callable

from . import emf_blits, emf_drawings, emf_objects, emf_paths, emf_state, emf_text
from .doubts import Part
from .emf_session import EmfSession
from .steps import Steps

Handler = Callable[[EmfSession], None]

HANDLERS: dict[int, Handler] = {
    2: emf_drawings.beziers,
    3: emf_drawings.polygons,
    4: emf_drawings.polylines,
    5: emf_drawings.beziers_to,
    6: emf_drawings.lines_to,
    7: emf_drawings.polylines,
    8: emf_drawings.polygons,
    9: emf_state.window_extent,
    10: emf_state.window_origin,
    11: emf_state.viewport_extent,
    12: emf_state.viewport_origin,
    15: emf_drawings.pixel,
    17: emf_state.map_mode,
    18: emf_state.background_mode,
    22: emf_state.text_align,
    24: emf_state.text_colour,
    25: emf_state.background_colour,
    27: emf_state.move,
    28: emf_paths.meta_region,
    29: emf_paths.cut_box,
    30: emf_paths.keep_box,
    31: emf_state.scale_viewport,
    32: emf_state.scale_window,
    33: EmfSession.save,
    34: EmfSession.restore,
    35: emf_state.set_world,
    36: emf_state.modify_world,
    37: emf_objects.select,
    38: emf_objects.create_pen,
    39: emf_objects.create_brush,
    40: emf_objects.delete,
    42: emf_drawings.ellipse,
    43: emf_drawings.rectangle,
    44: emf_drawings.round_rectangle,
    45: emf_drawings.arc,
    46: emf_drawings.chord,
    47: emf_drawings.pie,
    48: emf_objects.select_palette,
    49: emf_objects.create_palette,
    50: emf_objects.set_palette_entries,
    51: emf_objects.resize_palette,
    54: emf_drawings.line_to,
    55: emf_drawings.arc_to,
    57: emf_state.arc_direction,
    58: emf_state.miter_limit,
    59: emf_paths.begin,
    60: emf_paths.end,
    61: emf_paths.close_figure,
    62: emf_drawings.paint,
    63: emf_drawings.paint,
    64: emf_drawings.paint,
    65: emf_paths.flatten,
    67: emf_paths.select_path,
    68: emf_paths.abort,
    70: emf_state.comment,
    75: emf_paths.select_region,
    76: emf_blits.bit_blit,
    77: emf_blits.stretch_blit,
    81: emf_blits.stretch_dib,
    82: emf_objects.create_font,
    83: emf_text.long_text,
    84: emf_text.long_text,
    85: emf_drawings.beziers,
    86: emf_drawings.polygons,
    87: emf_drawings.polylines,
    88: emf_drawings.beziers_to,
    89: emf_drawings.lines_to,
    90: emf_drawings.polylines,
    91: emf_drawings.polygons,
    94: emf_objects.create_bitmap_brush,
    95: emf_objects.create_long_pen,
    108: emf_text.small_text,
    114: emf_blits.alpha_blend,
    116: emf_blits.transparent_blit,
    120: emf_state.text_justification,
}

# Records that neither the checker plays nor the fix-up replaces.
_UNSUPPORTED = {26, 41, 53, 56, 66, 71, 72, 73, 74, 78, 79, 80, 92, 93, 96, 97, 99, 100, 101, 102, 103, 104}
_UNSUPPORTED |= {111, 112, 113, 118, 121, 122}

_TEXTS = {83, 84, 108}
_DRAWINGS = {2, 3, 4, 7, 8, 15, 42, 43, 44, 45, 46, 47, 76, 77, 81, 85, 86, 87, 90, 91, 114, 116}
# Only EMR_ANGLEARC and EMR_POLYDRAW among the unsupported move the position.
_MOVES: dict[int, Handler] = {
    **dict.fromkeys((5, 6, 88, 89), emf_drawings.move_along),
    27: emf_state.move,
    54: emf_drawings.move_by_line,
    55: emf_drawings.move_by_arc,
}
_PARTS = {
    **dict.fromkeys((17, 31, 32), Part.MAP),
    **dict.fromkeys((35, 36), Part.WORLD),
    **dict.fromkeys((*_MOVES, 41, 56, 92), Part.POSITION),
}

# Records that draw with the pen, the brush or the background, whose colours the output has as they were taken.
_PAINTED = frozenset((*_DRAWINGS - {15, 114, 116}, 5, 6, 54, 55, 62, 63, 64, 88, 89))

EMF_STEPS = Steps(HANDLERS, frozenset(_UNSUPPORTED), frozenset(_TEXTS), frozenset(_DRAWINGS), _MOVES, _PARTS, _PAINTED)
