"""Records of WMF that set the state ([MS-WMF] 2.3.5)."""

from __future__ import annotations

from dataclasses import replace

from .affine import Point
from .clips import Clip
from .doubts import Part, settled
from .extents import scaled_extent
from .faults import Fault, FaultName
from .output import Action
from .state import ANISOTROPIC, ISOTROPIC, TEXT_MODE
from .text import Box
from .viewports import UNSCALED, ViewportScale
from .wmf_session import WmfSession

# What a clip of a WMF is doesn't matter here, only whether there is one.
_CLIPPED = Clip(Box(0, 0, 0, 0))


def map_mode(session: WmfSession) -> None:
    """META_SETMAPMODE. A WMF doesn't say how large its device is, so metric modes are faults."""
    mode = session.fields["mode"]
    if mode not in (TEXT_MODE, ISOTROPIC, ANISOTROPIC):
        raise Fault(FaultName.MetricMode if 2 <= mode <= 6 else FaultName.BadValue, f"map mode {mode}")
    state = session.state
    state.set_page(state.page.in_mode(mode))
    if mode == TEXT_MODE:
        state.viewport_scale, state.asked_window = UNSCALED, state.page.window_extent
        state.doubts = settled(state.doubts, Part.MAP)
    session.keep()


def window_origin(session: WmfSession) -> None:
    """META_SETWINDOWORG."""
    session.state.set_page(replace(session.state.page, window_origin=session.fields.point()))
    session.keep()


def viewport_origin(session: WmfSession) -> None:
    """META_SETVIEWPORTORG."""
    session.state.set_page(replace(session.state.page, viewport_origin=session.fields.point()))
    session.keep()


def offset_window(session: WmfSession) -> None:
    """META_OFFSETWINDOWORG."""
    origin = _sum(session.state.page.window_origin, session.fields.point())
    session.state.set_page(replace(session.state.page, window_origin=origin))
    session.keep()


def offset_viewport(session: WmfSession) -> None:
    """META_OFFSETVIEWPORTORG."""
    origin = _sum(session.state.page.viewport_origin, session.fields.point())
    session.state.set_page(replace(session.state.page, viewport_origin=origin))
    session.keep()


def _sum(one: Point, other: Point) -> Point:
    return Point(one.x + other.x, one.y + other.y)


def window_extent(session: WmfSession) -> None:
    """META_SETWINDOWEXT. Where the file scales a viewport that it hasn't set, the window changes for that."""
    extent = session.fields.point()
    if not session.is_scaled:
        session.keep()
    elif session.state.viewport_scale == UNSCALED:
        session.state.set_page(replace(session.state.page, window_extent=extent))
        session.state.asked_window = extent
        session.keep()
    else:
        _ask_window(session, extent)


def _ask_window(session: WmfSession, asked: Point) -> None:
    """Replaces the record by the window that stands for one that was asked for and the viewport's scale."""
    state = session.state
    window = state.viewport_scale.window(asked)
    state.set_page(replace(state.page, window_extent=window))
    state.asked_window = asked
    session.replace(Action.EXTENT, [session.write_point("META_SETWINDOWEXT", window)])


def viewport_extent(session: WmfSession) -> None:
    """META_SETVIEWPORTEXT: from now on the viewport is the file's own."""
    state = session.state
    if not session.is_scaled:
        session.keep()
        return
    is_scaled, window = state.viewport_scale != UNSCALED, state.asked_window
    state.set_page(replace(state.page, window_extent=window, viewport_extent=session.fields.point()))
    state.viewport_scale, state.has_own_viewport = UNSCALED, True
    if not is_scaled:
        session.keep()
        return
    session.replace(Action.EXTENT, [session.data, session.write_point("META_SETWINDOWEXT", window)])


def scale_window(session: WmfSession) -> None:
    """META_SCALEWINDOWEXT becomes META_SETWINDOWEXT."""
    if not session.is_scaled:
        session.replace(Action.EXTENT)
        return
    extent = scaled_extent(session.fields, session.state.asked_window)
    if session.options.text_only:
        session.state.set_page(replace(session.state.page, window_extent=extent))
        session.state.asked_window = extent
    else:
        _ask_window(session, extent)


def scale_viewport(session: WmfSession) -> None:
    """META_SCALEVIEWPORTEXT becomes META_SETVIEWPORTEXT, or a change of the window if the file hasn't set a
    viewport.

    Where only text is replaced the record stays, and scales whatever viewport there is.
    """
    state = session.state
    if not session.is_scaled:
        session.replace(Action.EXTENT)
    elif session.options.text_only:
        extent = scaled_extent(session.fields, state.page.viewport_extent)
        state.set_page(replace(state.page, viewport_extent=extent))
    elif state.has_own_viewport:
        extent = scaled_extent(session.fields, state.page.viewport_extent)
        state.set_page(replace(state.page, viewport_extent=extent))
        session.replace(Action.EXTENT, [session.write_point("META_SETVIEWPORTEXT", extent)])
    else:
        names = ("x_numerator", "x_denominator", "y_numerator", "y_denominator")
        state.viewport_scale = state.viewport_scale.scaled(ViewportScale(*session.fields.several(*names)))
        _ask_window(session, state.asked_window)


def background_mode(session: WmfSession) -> None:
    """META_SETBKMODE."""
    session.state.background_mode = session.fields["mode"]
    session.keep()


def text_align(session: WmfSession) -> None:
    """META_SETTEXTALIGN."""
    session.state.align = session.fields["mode"]
    session.keep()


def character_extra(session: WmfSession) -> None:
    """META_SETTEXTCHAREXTRA."""
    session.state.character_extra = session.fields["extra"]
    session.keep()


def text_justification(session: WmfSession) -> None:
    """META_SETTEXTJUSTIFICATION."""
    session.state.break_extra, session.state.break_count = session.fields.several("extra", "count")
    session.keep()


def text_colour(session: WmfSession) -> None:
    """META_SETTEXTCOLOR, which the checker doesn't read."""
    session.state.text_reference = session.fields["colour"]
    session.keep()


def background_colour(session: WmfSession) -> None:
    """META_SETBKCOLOR."""
    session.state.back_reference = session.fields["colour"]
    session.state.background_use = session.keep_with_colour()


def move(session: WmfSession) -> None:
    """META_MOVETO, and META_LINETO as it is: both set the position, and lines from it play as they are."""
    state = session.state
    if session.kind_at_hand.name == "META_LINETO" and state.output_position != state.position:
        session.insert(session.move_record())
    state.position = state.output_position = session.fields.point()
    session.keep()


def clip(session: WmfSession) -> None:
    """META_EXCLUDECLIPRECT and META_INTERSECTCLIPRECT."""
    session.state.clip = _CLIPPED
    session.keep()


def select_region(session: WmfSession) -> None:
    """META_SELECTCLIPREGION: index 0 where nothing is clipped changes nothing. Raises Fault Unsupported for regions."""
    if session.fields["index"] or not session.state.clip.is_empty:
        raise Fault(FaultName.Unsupported, "META_SELECTCLIPREGION")
    session.replace(Action.CLIP)
