"""Records of WMF that draw lines and curves ([MS-WMF] 2.3.3)."""

from __future__ import annotations

from collections.abc import Callable
from functools import partial

from . import wmf_state, wmf_strokes
from .affine import Point
from .rounds import PageBox
from .shapes import Figure, corners_of, fixed_bounds
from .wmf_session import WmfSession
from .text import Box


def _box(session: WmfSession) -> Box:
    left, top, right, bottom = session.fields.several("left", "top", "right", "bottom")
    return Box(left, top, right, bottom)


def _page_box(session: WmfSession) -> PageBox:
    return PageBox.ordered(_box(session), session.state.device)


def _keep_or_stroke(session: WmfSession, figures: Callable[[WmfSession], list[Figure]]) -> None:
    """Keeps a record of lines, unless its pen's strokes are replaced. `figures` reads it."""
    if wmf_strokes.replaces_strokes(session):
        wmf_strokes.draw(session, figures(session))
    else:
        session.keep()


def _figures(is_closed: bool, session: WmfSession) -> list[Figure]:
    """The lists of points of the record at hand."""
    lists, device = session.kind_at_hand.point_lists(session.data), session.state.device
    return [Figure([device.apply(point) for point in points], is_closed) for points in lists]


def _outline(session: WmfSession) -> list[Figure]:
    """The outline of a box, as GDI draws it for a WMF: from the upper right corner on the device, against the clock."""
    left, top, right, bottom = fixed_bounds(map(session.state.device.apply, corners_of(_box(session))))
    return [Figure([Point(right, top), Point(left, top), Point(left, bottom), Point(right, bottom)], True)]


def polygons(session: WmfSession) -> None:
    """META_POLYGON and META_POLYPOLYGON."""
    _keep_or_stroke(session, partial(_figures, True))


def polyline(session: WmfSession) -> None:
    """META_POLYLINE."""
    _keep_or_stroke(session, partial(_figures, False))


def rectangle(session: WmfSession) -> None:
    """META_RECTANGLE."""
    _keep_or_stroke(session, _outline)


def line_to(session: WmfSession) -> None:
    """META_LINETO."""
    if not wmf_strokes.replaces_strokes(session):
        wmf_state.move(session)
        return
    state, end = session.state, session.fields.point()
    wmf_strokes.draw(session, [Figure([state.device.apply(state.position), state.device.apply(end)], False)])
    state.position = end


def pixel(session: WmfSession) -> None:
    """META_SETPIXEL."""
    session.keep_with_colour()


def ellipse(session: WmfSession) -> None:
    """META_ELLIPSE."""
    wmf_strokes.draw_curve(session, Figure(_page_box(session).oval().ring(session.budget), True))


def round_rectangle(session: WmfSession) -> None:
    """META_ROUNDRECT."""
    corner = session.fields.point("corner_width", "corner_height")
    wmf_strokes.draw_curve(session, Figure(_page_box(session).round_rectangle(corner, session.budget), True))


def _arc_points(session: WmfSession) -> list[Point]:
    """The points of an arc, which a WMF always draws counterclockwise."""
    fields = session.fields
    start, end = fields.point("start_x", "start_y"), fields.point("end_x", "end_y")
    return _page_box(session).arc(start, end, False, session.budget)


def arc(session: WmfSession) -> None:
    """META_ARC."""
    wmf_strokes.draw_curve(session, Figure(_arc_points(session), False))


def chord(session: WmfSession) -> None:
    """META_CHORD."""
    wmf_strokes.draw_curve(session, Figure(_arc_points(session), True))


def pie(session: WmfSession) -> None:
    """META_PIE."""
    wmf_strokes.draw_curve(session, Figure([_page_box(session).centre(), *_arc_points(session)], True))
