"""Strokes of WMF that the player doesn't draw as their pens say, as blocks of lines or polygons."""

from __future__ import annotations

from collections.abc import Callable, Sequence
from functools import partial
from typing import NamedTuple

from .affine import Contour, Point
from .dashes import pattern_of, thin_lines
from .output import Action
from .palettes import colour_word
from .pens import PenLook, PenShape, Way
from .shapes import Figure
from .state import ISOTROPIC, page_length
from .stroke_shapes import aligned, stroke_contours
from .text import OPAQUE, Colour
from .wmf_blocks import FineWindow, lines, polygons
from .wmf_session import WmfSession

_WINDING = 2
_NULL_PEN_STYLE = 5


class Stroke(NamedTuple):
    """What a stroke draws, in order: contours, filled together in the pen's colour; gaps and dashes, as thin lines."""

    contours: list[Contour]
    gaps: list[list[Point]]
    dashes: list[list[Point]]

    @property
    def points(self) -> list[Point]:
        """All points."""
        return [point for points in (*self.contours, *self.gaps, *self.dashes) for point in points]


def replaces_strokes(session: WmfSession) -> bool:
    """Whether the strokes of the pen at hand are replaced."""
    return _way(session) is not Way.AS_PLAYED


def _way(session: WmfSession) -> Way:
    look = session.state.pen.look
    return Way.AS_PLAYED if look is None else look.way(partial(page_length, session.state.device), session.pixel)


def draw(session: WmfSession, figures: Sequence[Figure]) -> None:
    """Replaces the record at hand, which draws figures of lines, and which itself fills those that are closed.

    The pen's strokes are replaced. All figures are closed, or none is.
    """
    _replace(session, figures, Action.STROKE, session.data)


def draw_curve(session: WmfSession, figure: Figure) -> None:
    """Replaces the record at hand, which draws a curve, as lines or polygons."""
    if replaces_strokes(session):
        _replace(session, [figure], Action.CURVE, None)
    else:
        session.draw(figure)


def _replace(session: WmfSession, figures: Sequence[Figure], action: Action, fill: bytes | None) -> None:
    """Replaces the record by a block. Closed figures are filled by the record `fill`, or else as polygons."""
    look = session.state.pen.look
    shown = [figure for figure in figures if len(figure.points) > 1]
    if look is None or not shown:
        session.replace(action)
        return
    session.check_depth()
    points = [point for figure in shown for point in figure.points]
    is_even = session.state.page.mode == ISOTROPIC
    # Figures that have no place in a block are rejected before their strokes, which may be very many, are made.
    FineWindow.around(session.state.page, points, is_even)
    stroke = _stroke(session, shown, look)
    window = FineWindow.around(session.state.page, [*points, *stroke.points], is_even)
    lists = [figure.points for figure in shown if figure.is_closed]
    filled = polygons(window, lists) if fill is None else []
    before = [fill] if fill is not None and lists else []
    steps = _steps(session, window, stroke, look.colour)
    session.replace(action, _block(session, before, [*window.records(), *filled], steps))


class _Step(NamedTuple):
    """An object of a block, given its index, and what is drawn with it."""

    make: Callable[[int], list[bytes]]
    drawn: list[bytes]


def _block(session: WmfSession, before: list[bytes], filled: list[bytes], steps: Sequence[_Step]) -> list[bytes]:
    """A fill under the file's own window, the block's window with a fill, and steps.

    They stand between META_SAVEDC and META_RESTOREDC; the objects are deleted after it.
    """
    write = session.write
    used = [step for step in steps if step.drawn]
    no_pen, *indexes = session.slots.lowest_free(1 + len(used))
    records = [write("META_SAVEDC"), *_pen(session, _NULL_PEN_STYLE, (0, 0, 0), no_pen), *before, *filled]
    records += [record for index, step in zip(indexes, used) for record in (*step.make(index), *step.drawn)]
    return [*records, write("META_RESTOREDC", -1), *(write("META_DELETEOBJECT", index) for index in (no_pen, *indexes))]


def _steps(session: WmfSession, window: FineWindow, stroke: Stroke, colour: Colour) -> list[_Step]:
    """The steps of a stroke: the polygons, the gaps, and the dashes."""
    is_mirrored = session.state.page.affine().determinant() < 0
    filled = polygons(window, aligned(stroke.contours, window.placed, is_mirrored))
    under = [record for points in stroke.gaps for record in lines(window, points)]
    over = [record for points in stroke.dashes for record in lines(window, points)]
    return [
        _Step(partial(_brush, session, colour), filled),
        _Step(partial(_pen, session, 0, session.state.background), under),
        _Step(partial(_pen, session, 0, colour), over),
    ]


def _pen(session: WmfSession, style: int, colour: Colour, index: int) -> list[bytes]:
    """A pen of width 0, made at the lowest free index, and selected."""
    make = session.write("META_CREATEPENINDIRECT", style, 0, 0, colour_word(colour))
    return [make, session.write("META_SELECTOBJECT", index)]


def _brush(session: WmfSession, colour: Colour, index: int) -> list[bytes]:
    """The winding mode, and a solid brush, made at the lowest free index, and selected."""
    make = session.write("META_CREATEBRUSHINDIRECT", 0, colour_word(colour), 0)
    return [session.write("META_SETPOLYFILLMODE", _WINDING), make, session.write("META_SELECTOBJECT", index)]


def _stroke(session: WmfSession, figures: Sequence[Figure], look: PenLook) -> Stroke:
    state, budget = session.state, session.budget
    measure = partial(page_length, state.device)
    pattern = pattern_of(look, measure, session.pixel)
    if look.way(measure, session.pixel) is Way.POLYGONS:
        shape = PenShape(measure(look.width), look.cap, look.join, state.miter_limit, pattern)
        return Stroke(stroke_contours(figures, shape, budget), [], [])
    under = thin_lines(figures, pattern, budget, False) if state.background_mode == OPAQUE else []
    return Stroke([], under, thin_lines(figures, pattern, budget, True))
