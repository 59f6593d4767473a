"""Records of EMF that draw lines, polygons, curves and boxes ([MS-EMF] 2.3.5)."""

from __future__ import annotations

from collections.abc import Sequence

from . import emf_strokes
from .affine import Point
from .curves import flattened
from .emf_session import EmfSession
from .output import Action
from .palettes import colour_word, read_colour
from .rounds import PageBox
from .shapes import Figure, corners_of
from .text import Box


def _on_device(session: EmfSession, points: Sequence[Point]) -> list[Point]:
    return [session.state.device.apply(point) for point in points]


def record_box(session: EmfSession) -> Box:
    """The box in the fields of the record at hand."""
    left, top, right, bottom = session.fields.several("left", "top", "right", "bottom")
    return Box(left, top, right, bottom)


def _plays_as_it_is(session: EmfSession) -> bool:
    """Whether the player draws a record of lines as the file says."""
    return session.state.is_plain and not emf_strokes.replaces_strokes(session)


def polygons(session: EmfSession) -> None:
    """EMR_POLYGON, EMR_POLYPOLYGON and their kinds of 16 bits."""
    _separate_lines(session, True)


def polylines(session: EmfSession) -> None:
    """EMR_POLYLINE, EMR_POLYPOLYLINE and their kinds of 16 bits."""
    _separate_lines(session, False)


def _separate_lines(session: EmfSession, is_closed: bool) -> None:
    """Lists of points that don't use the position: kept where the world is the identity."""
    lists = [points for points in session.kind_at_hand.point_lists(session.data) if points]
    path = session.open_path
    if path is not None:
        if not session.state.is_plain and lists:
            session.give_up_path()
        for points in lists:
            path.add(_on_device(session, points), is_closed)
        session.keep_in_path()
    elif not lists or _plays_as_it_is(session):
        session.keep()
    else:
        figures = [Figure(_on_device(session, points), is_closed) for points in lists]
        emf_strokes.draw_record(session, figures)


def lines_to(session: EmfSession) -> None:
    """EMR_POLYLINETO and EMR_POLYLINETO16."""
    _joined_lines(session, session.kind_at_hand.point_lists(session.data)[0])


def line_to(session: EmfSession) -> None:
    """EMR_LINETO."""
    _joined_lines(session, [session.fields.point()])


def move_along(session: EmfSession) -> None:
    """What EMR_POLYLINETO, EMR_POLYBEZIERTO and their kinds of 16 bits do to the position alone."""
    points = session.kind_at_hand.point_lists(session.data)[0]
    if points:
        session.state.position = points[-1]


def move_by_line(session: EmfSession) -> None:
    """What EMR_LINETO does to the position alone."""
    session.state.position = session.fields.point()


def _joined_lines(session: EmfSession, points: Sequence[Point]) -> None:
    """Lines from the position, which moves to their end: kept where the world is the identity."""
    state, path = session.state, session.open_path
    if not points:
        session.keep()
        return
    if not state.is_plain and path is not None:
        session.give_up_path()
    if path is not None:
        _lines_in_path(session, points)
    elif _plays_as_it_is(session):
        session.sync_position()
        session.keep()
        state.output_position = points[-1]
    else:
        emf_strokes.draw_record(session, [Figure(_on_device(session, [state.position, *points]), False)])
    state.position = points[-1]


def _lines_in_path(session: EmfSession, points: Sequence[Point]) -> None:
    state, path = session.state, session.open_path
    assert path is not None
    if path.is_plain:
        if not path.is_joined:
            session.sync_position()
        state.output_position = points[-1]
    path.continue_from(state.device.apply(state.position), _on_device(session, points))
    session.keep_in_path()


def beziers(session: EmfSession) -> None:
    """EMR_POLYBEZIER and EMR_POLYBEZIER16."""
    points = session.kind_at_hand.point_lists(session.data)[0]
    placed = _on_device(session, points)
    curve = placed[:1] + (flattened(placed[0], placed[1:], session.budget) if placed else [])
    draw_figure(session, Figure(curve, False))


def beziers_to(session: EmfSession) -> None:
    """EMR_POLYBEZIERTO and EMR_POLYBEZIERTO16."""
    points = session.kind_at_hand.point_lists(session.data)[0]
    if not points:
        session.replace(Action.CURVE)
        return
    start = session.state.device.apply(session.state.position)
    _joined_curve(session, start, flattened(start, _on_device(session, points), session.budget))
    session.state.position = points[-1]


def _joined_curve(session: EmfSession, start: Point, curve: Sequence[Point]) -> None:
    """A curve from the position on: `start` is its place, and the curve has the points after it."""
    path = session.open_path
    if path is None:
        emf_strokes.draw(session, [Figure([start, *curve], False)], Action.CURVE)
        return
    session.give_up_path()
    path.continue_from(start, curve)
    session.replace(Action.PATH)


def draw_figure(session: EmfSession, figure: Figure) -> None:
    """Draws a figure that doesn't use the position, or adds it to the open path."""
    path = session.open_path
    if path is None:
        emf_strokes.draw(session, [figure], Action.CURVE)
        return
    session.give_up_path()
    path.add(figure.points, figure.is_closed)
    session.replace(Action.PATH)


def _page_box(session: EmfSession) -> PageBox:
    return PageBox.ordered(record_box(session), session.state.device)


def ellipse(session: EmfSession) -> None:
    """EMR_ELLIPSE."""
    draw_figure(session, Figure(_page_box(session).oval().ring(session.budget), True))


def round_rectangle(session: EmfSession) -> None:
    """EMR_ROUNDRECT."""
    corner = session.fields.point("corner_width", "corner_height")
    draw_figure(session, Figure(_page_box(session).round_rectangle(corner, session.budget), True))


def _arc_points(session: EmfSession) -> list[Point]:
    fields = session.fields
    start, end = fields.point("start_x", "start_y"), fields.point("end_x", "end_y")
    return _page_box(session).arc(start, end, session.state.is_clockwise, session.budget)


def arc(session: EmfSession) -> None:
    """EMR_ARC."""
    draw_figure(session, Figure(_arc_points(session), False))


def chord(session: EmfSession) -> None:
    """EMR_CHORD."""
    draw_figure(session, Figure(_arc_points(session), True))


def pie(session: EmfSession) -> None:
    """EMR_PIE."""
    draw_figure(session, Figure([_page_box(session).centre(), *_arc_points(session)], True))


def arc_to(session: EmfSession) -> None:
    """EMR_ARCTO: a line from the position to the arc, and the arc, whose end is the new position."""
    state = session.state
    points = _arc_points(session)
    _joined_curve(session, state.device.apply(state.position), points)
    state.position = state.device.inverse_rounded(points[-1])


def move_by_arc(session: EmfSession) -> None:
    """What EMR_ARCTO does to the position alone."""
    session.state.position = session.state.device.inverse_rounded(_arc_points(session)[-1])


def rectangle(session: EmfSession) -> None:
    """EMR_RECTANGLE: a box stays one under a world that scales and moves, and is a polygon under others."""
    box, state, path = record_box(session), session.state, session.open_path
    corners = _on_device(session, corners_of(box))
    if path is not None:
        if not state.is_plain:
            session.give_up_path()
        path.add(corners, True)
        session.keep_in_path()
    elif _plays_as_it_is(session):
        session.keep()
    elif emf_strokes.replaces_strokes(session) or not state.device.is_straight():
        emf_strokes.draw_record(session, [Figure(corners, True)])
    else:
        session.replace(
            Action.LINES, session.stroked_block(corners[0], lambda origin: [_box(session, corners, origin)])
        )


def _box(session: EmfSession, corners: Sequence[Point], origin: Point) -> bytes:
    first, last = session.grid.units(corners[0], origin), session.grid.units(corners[2], origin)
    return session.write("EMR_RECTANGLE", *first, *last)


def pixel(session: EmfSession) -> None:
    """EMR_SETPIXELV."""
    if session.state.is_plain:
        session.keep_with_colour()
        return
    colour = colour_word(read_colour(session.fields["colour"], session.state.palette))
    place = session.state.device.apply(session.fields.point())

    def drawn(origin: Point) -> list[bytes]:
        return [session.write("EMR_SETPIXELV", *session.grid.units(place, origin), colour)]

    session.replace(Action.LINES, session.block(place, drawn))


def paint(session: EmfSession) -> None:
    """EMR_FILLPATH, EMR_STROKEANDFILLPATH and EMR_STROKEPATH."""
    path = session.finished_path()
    name = session.kind_at_hand.name
    if name != "EMR_FILLPATH" and emf_strokes.replaces_strokes(session):
        session.give_up(path)
    if path.is_plain:
        session.keep()
        return
    figures = [figure for figure in path.figures if len(figure.points) > 1]
    if not figures or (name == "EMR_STROKEPATH" and session.state.pen.is_null):
        session.replace(Action.PATH)
    elif name == "EMR_FILLPATH":
        session.replace(Action.PATH, session.fill_only([figure.points for figure in figures]))
    elif name == "EMR_STROKEANDFILLPATH":
        emf_strokes.draw(session, [Figure(figure.points, True) for figure in figures], Action.PATH)
    else:
        emf_strokes.stroke_path(session, figures)
