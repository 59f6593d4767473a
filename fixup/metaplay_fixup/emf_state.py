"""Records of EMF that set the state ([MS-EMF] 2.3.11, 2.3.12)."""

from __future__ import annotations

from dataclasses import replace

from .affine import Point
from .doubts import Part, settled
from .emf_plus import is_emf_plus
from .emf_session import EmfSession
from .extents import scaled_extent
from .faults import Fault, FaultName
from .output import Action
from .pens import read_miter_limit
from .state import ANISOTROPIC, ISOTROPIC, TEXT_MODE
from .worlds import IDENTITY_WORLD, World, modified, read_world

# The units of the metric modes ([MS-WMF] 2.1.1.16): so many units are so many tenths of a millimetre.
_METRIC_UNITS = {2: (1, 1), 3: (10, 1), 4: (100, 254), 5: (1000, 254), 6: (1440, 254)}

_LARGEST_DEVICE = 65535

# The mode of EMR_MODIFYWORLDTRANSFORM that takes another world whatever there was ([MS-EMF] 2.1.24).
_SETS_WORLD = 4


def _is_scaled(session: EmfSession) -> bool:
    return session.state.page.mode in (ISOTROPIC, ANISOTROPIC)


def window_extent(session: EmfSession) -> None:
    """EMR_SETWINDOWEXTEX."""
    _extent(session, "window_extent", session.fields.point())


def viewport_extent(session: EmfSession) -> None:
    """EMR_SETVIEWPORTEXTEX."""
    _extent(session, "viewport_extent", session.fields.point())


def _extent(session: EmfSession, name: str, extent: Point) -> None:
    """Sets an extent.

    In the metric modes it does nothing, so the record is left out: the mode has become an anisotropic one.
    """
    mode = session.state.page.mode
    if mode not in (TEXT_MODE, ISOTROPIC, ANISOTROPIC):
        session.replace(Action.EXTENT)
        return
    if mode != TEXT_MODE:
        session.state.set_page(replace(session.state.page, **{name: extent}))
    session.keep()


def window_origin(session: EmfSession) -> None:
    """EMR_SETWINDOWORGEX."""
    session.state.set_page(replace(session.state.page, window_origin=session.fields.point()))
    session.keep()


def viewport_origin(session: EmfSession) -> None:
    """EMR_SETVIEWPORTORGEX."""
    session.state.set_page(replace(session.state.page, viewport_origin=session.fields.point()))
    session.keep()


def scale_viewport(session: EmfSession) -> None:
    """EMR_SCALEVIEWPORTEXTEX becomes EMR_SETVIEWPORTEXTEX."""
    if _is_scaled(session):
        extent = scaled_extent(session.fields, session.state.page.viewport_extent)
        session.state.set_page(replace(session.state.page, viewport_extent=extent))
        session.replace(Action.EXTENT, [session.write("EMR_SETVIEWPORTEXTEX", *extent)])
    else:
        session.replace(Action.EXTENT)


def scale_window(session: EmfSession) -> None:
    """EMR_SCALEWINDOWEXTEX becomes EMR_SETWINDOWEXTEX."""
    if _is_scaled(session):
        extent = scaled_extent(session.fields, session.state.page.window_extent)
        session.state.set_page(replace(session.state.page, window_extent=extent))
        session.replace(Action.EXTENT, [session.write("EMR_SETWINDOWEXTEX", *extent)])
    else:
        session.replace(Action.EXTENT)


def map_mode(session: EmfSession) -> None:
    """EMR_SETMAPMODE: a metric mode becomes an anisotropic one with the extents of the header's device ([MS-EMF]
    2.2.9).
    """
    mode = session.fields["mode"]
    if mode in (TEXT_MODE, ISOTROPIC, ANISOTROPIC):
        session.state.set_page(session.state.page.in_mode(mode))
        if mode == TEXT_MODE:
            session.state.doubts = settled(session.state.doubts, Part.MAP)
        session.keep()
        return
    if mode not in _METRIC_UNITS:
        raise Fault(FaultName.BadValue, f"map mode {mode}")
    window, viewport = _metric_extents(session, mode)
    page = replace(session.state.page, mode=mode, window_extent=window, viewport_extent=viewport)
    session.state.set_page(page)
    records = [
        session.write("EMR_SETMAPMODE", ANISOTROPIC),
        session.write("EMR_SETWINDOWEXTEX", *window),
        session.write("EMR_SETVIEWPORTEXTEX", *viewport),
    ]
    session.replace(Action.MAP_MODE, records)


def _metric_extents(session: EmfSession, mode: int) -> tuple[Point, Point]:
    """Window and viewport of a metric mode: y points upwards.

    Raises Fault MetricMode if the header has no usable device.
    """
    names = ("device_width", "device_height", "millimetres_width", "millimetres_height")
    width, height, wide, high = session.header.several(*names)
    if not all(1 <= side <= _LARGEST_DEVICE for side in (width, height, wide, high)):
        raise Fault(FaultName.MetricMode, "the header has no size of the device")
    units, tenths = _METRIC_UNITS[mode]
    return Point(10 * wide * units, 10 * high * units), Point(width * tenths, -height * tenths)


def background_mode(session: EmfSession) -> None:
    """EMR_SETBKMODE."""
    session.state.background_mode = session.fields["mode"]
    session.keep()


def text_align(session: EmfSession) -> None:
    """EMR_SETTEXTALIGN."""
    session.state.align = session.fields["mode"]
    session.keep()


def text_colour(session: EmfSession) -> None:
    """EMR_SETTEXTCOLOR, which the checker doesn't read."""
    session.state.text_reference = session.fields["colour"]
    session.keep()


def background_colour(session: EmfSession) -> None:
    """EMR_SETBKCOLOR."""
    session.state.back_reference = session.fields["colour"]
    session.state.background_use = session.keep_with_colour()


def text_justification(session: EmfSession) -> None:
    """EMR_SETTEXTJUSTIFICATION."""
    session.state.break_extra, session.state.break_count = session.fields.several("extra", "count")
    session.keep()


def arc_direction(session: EmfSession) -> None:
    """EMR_SETARCDIRECTION ([MS-EMF] 2.1.2)."""
    session.state.is_clockwise = session.fields["mode"] == 2
    session.keep()


def move(session: EmfSession) -> None:
    """EMR_MOVETOEX. It is kept even where a path isn't, since it moves the position."""
    session.state.position = session.fields.point()
    session.state.output_position = session.state.position
    path = session.open_path
    if path is not None:
        path.is_joined = False
    session.keep()


def set_world(session: EmfSession) -> None:
    """EMR_SETWORLDTRANSFORM."""
    _take_world(session, read_world(session.fields), False)
    session.state.doubts = settled(session.state.doubts, Part.WORLD)


def modify_world(session: EmfSession) -> None:
    """EMR_MODIFYWORLDTRANSFORM."""
    fields = session.fields
    is_reset = fields["mode"] == 1
    _take_world(session, modified(session.state.world, fields, fields["mode"]), is_reset)
    if is_reset or fields["mode"] == _SETS_WORLD:
        session.state.doubts = settled(session.state.doubts, Part.WORLD)


def _take_world(session: EmfSession, world: World, is_reset: bool) -> None:
    """Takes a world. The record is kept only if it sets the identity by identity: the checker reads no other."""
    session.state.set_world(world)
    if is_reset or (session.state.is_plain and _has_identity(session)):
        session.keep()
    else:
        session.replace(Action.WORLD)


def _has_identity(session: EmfSession) -> bool:
    return read_world(session.fields) == IDENTITY_WORLD


def comment(session: EmfSession) -> None:
    """EMR_COMMENT: one that holds EMF+ is left out if the caller says so."""
    if session.options.drop_emf_plus and is_emf_plus(session.data):
        session.replace(Action.EMF_PLUS)
    else:
        session.keep()


def miter_limit(session: EmfSession) -> None:
    """EMR_SETMITERLIMIT ([MS-EMF] 2.3.11): a limit below 1 is none, so the one before stays."""
    if session.has_strokes:
        limit = read_miter_limit(session.fields["limit"])
        if limit is not None:
            session.state.miter_limit = limit
    session.keep()
