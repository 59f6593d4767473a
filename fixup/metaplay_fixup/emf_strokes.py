"""Strokes of EMF that the player doesn't draw as their pens say, as blocks of lines or polygons."""

from __future__ import annotations

from collections.abc import Callable, Sequence
from functools import partial

from .affine import Point
from .dashes import pattern_of, thin_lines
from .emf_blocks import Lines, lines_record, origin_near
from .emf_session import EmfSession
from .fixed import ONE
from .objects import NULL_PEN
from .output import Action
from .palettes import colour_word
from .pens import PenLook, PenShape, Way
from .shapes import Figure, fixed_bounds
from .state import page_length
from .stroke_shapes import aligned, stroke_contours
from .text import OPAQUE, Colour

_WINDING = 2

Drawn = Callable[[Point], list[bytes]]


def replaces_strokes(session: EmfSession) -> bool:
    """Whether the strokes of the pen at hand are replaced."""
    return _way(session) is not Way.AS_PLAYED


def _way(session: EmfSession) -> Way:
    look = session.state.pen.look
    return Way.AS_PLAYED if look is None else look.way(partial(page_length, session.state.device), ONE)


def draw(session: EmfSession, figures: Sequence[Figure], action: Action, fill: bytes | None = None) -> None:
    """Replaces the record by a block that fills closed figures and strokes all.

    `fill` is a record that fills them under the file's own page map; without it they are polygons. All figures are
    closed, or none is.
    """
    look, way = session.state.pen.look, _way(session)
    shown = [figure for figure in figures if figure.points]
    if look is None or way is Way.AS_PLAYED or not shown:
        session.draw(figures, action)
        return
    _check(session, shown)
    stroke = _polygons(session, shown, look) if way is Way.POLYGONS else _lines(session, shown, look)
    before, filled = _fill(session, shown, fill)
    session.replace(action, _block(session, shown[0].points[0], before, [*filled, stroke]))


def _check(session: EmfSession, figures: Sequence[Figure]) -> None:
    """Raises Fault OffPlane for figures off the plane before their strokes, which may be very many, are made."""
    session.grid.check(fixed_bounds(point for figure in figures for point in figure.points))


def _fill(session: EmfSession, figures: Sequence[Figure], fill: bytes | None) -> tuple[list[bytes], list[Drawn]]:
    """What fills closed figures under the file's page map, and under a block's."""
    if not figures[0].is_closed:
        return [], []
    if fill is not None:
        return [session.write("EMR_SELECTOBJECT", NULL_PEN), fill], []
    return [], [_filled(session, figures)]


def draw_record(session: EmfSession, figures: Sequence[Figure]) -> None:
    """Replaces the record at hand, which draws figures of lines that don't play as they are.

    Where the world is the identity, the record itself fills them.
    """
    is_plain = session.state.is_plain
    draw(session, figures, Action.STROKE if is_plain else Action.LINES, session.data if is_plain else None)


def stroke_path(session: EmfSession, figures: Sequence[Figure]) -> None:
    """Replaces the record at hand, which strokes a path of these figures, of which some may be closed."""
    look, way = session.state.pen.look, _way(session)
    if look is None or way is Way.AS_PLAYED:
        session.draw([Figure(_line(figure), False) for figure in figures], Action.PATH)
        return
    _check(session, figures)
    stroke = _polygons(session, figures, look) if way is Way.POLYGONS else _lines(session, figures, look)
    session.replace(Action.PATH, _block(session, figures[0].points[0], [], [stroke]))


def _line(figure: Figure) -> list[Point]:
    """The points of a figure's outline: a closed one ends where it begins."""
    return [*figure.points, figure.points[0]] if figure.is_closed else figure.points


def _filled(session: EmfSession, figures: Sequence[Figure]) -> Drawn:
    """Fills closed figures as polygons without a pen."""

    def drawn(origin: Point) -> list[bytes]:
        lists = [figure.points for figure in figures]
        null_pen = session.write("EMR_SELECTOBJECT", NULL_PEN)
        return [null_pen, *lines_record(session.grid, Lines.CLOSED, lists, origin)]

    return drawn


def _block(session: EmfSession, first: Point, before: list[bytes], drawn: Sequence[Drawn]) -> list[bytes]:
    """Records under the file's own page map, and drawings under a block's, of which the last makes an object.

    They stand between EMR_SAVEDC and EMR_RESTOREDC.
    """
    session.check_depth()
    origin = origin_near(first)
    parts = [part(origin) for part in drawn]
    if not before and not any(parts):
        return []
    save, restore = session.write("EMR_SAVEDC"), session.write("EMR_RESTOREDC", -1)
    inner = [*session.map_records(origin), *(record for part in parts for record in part)]
    drop = [session.write("EMR_DELETEOBJECT", session.use_extra())] if parts[-1] else []
    return [save, *before, *inner, restore, *drop]


def _polygons(session: EmfSession, figures: Sequence[Figure], look: PenLook) -> Drawn:
    """Draws the strokes as polygons, filled together in the winding mode by a brush of the pen's colour."""
    state = session.state
    measure = partial(page_length, state.device)
    pattern = pattern_of(look, measure, ONE)
    shape = PenShape(measure(look.width), look.cap, look.join, state.miter_limit, pattern)
    contours = stroke_contours(figures, shape, session.budget)

    def drawn(origin: Point) -> list[bytes]:
        lists = aligned(contours, lambda points: session.grid.placed(points, origin), False)
        polygons = lines_record(session.grid, Lines.CLOSED, lists, origin)
        return [*_brush(session, look.colour), *polygons] if polygons else []

    return drawn


def _brush(session: EmfSession, colour: Colour) -> list[bytes]:
    """The winding mode, no pen, and a solid brush."""
    index, write = session.use_extra(), session.write
    return [
        write("EMR_SETPOLYFILLMODE", _WINDING),
        write("EMR_SELECTOBJECT", NULL_PEN),
        write("EMR_CREATEBRUSHINDIRECT", index, 0, colour_word(colour), 0),
        write("EMR_SELECTOBJECT", index),
    ]


def _lines(session: EmfSession, figures: Sequence[Figure], look: PenLook) -> Drawn:
    """Draws thin dashes as lines; gaps of an older pen have the background's colour in the OPAQUE mode."""
    state, budget = session.state, session.budget
    pattern = pattern_of(look, partial(page_length, state.device), ONE)
    drawn_dashes = thin_lines(figures, pattern, budget, True)
    is_opaque = look.is_older and state.background_mode == OPAQUE
    drawn_gaps = thin_lines(figures, pattern, budget, False) if is_opaque else []

    def drawn(origin: Point) -> list[bytes]:
        under = _thin_lines(session, drawn_gaps, state.background, origin)
        over = _thin_lines(session, drawn_dashes, look.colour, origin)
        if not (under and over):
            return [*under, *over]
        drop = [session.write("EMR_SELECTOBJECT", NULL_PEN), session.write("EMR_DELETEOBJECT", session.use_extra())]
        return [*under, *drop, *over]

    return drawn


def _thin_lines(session: EmfSession, parts: Sequence[list[Point]], colour: Colour, origin: Point) -> list[bytes]:
    """A thin solid pen, selected, and lines; nothing if no line has a length."""
    lines = lines_record(session.grid, Lines.OPEN, parts, origin) if parts else []
    if not lines:
        return []
    index = session.use_extra()
    make = session.write("EMR_CREATEPEN", index, 0, 0, 0, colour_word(colour))
    return [make, session.write("EMR_SELECTOBJECT", index), *lines]
