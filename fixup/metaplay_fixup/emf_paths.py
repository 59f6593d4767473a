"""Records of EMF that begin, end and drop paths ([MS-EMF] 2.3.10), and clip by them or by regions ([MS-EMF] 2.3.2)."""

from __future__ import annotations

from collections.abc import Sequence

from .affine import Point
from .clips import NO_CLIP, Clip, box_of_figure, clip_of_region, ordered, region_boxes
from .emf_drawings import record_box
from .emf_session import EmfSession
from .faults import Fault, FaultName
from .output import Action
from .paths import Path
from .text import Box

# How a region or a path is joined with the clip ([MS-EMF] 2.1.29).
_AND, _DIFFERENCE, _COPY = 1, 4, 5


def begin(session: EmfSession) -> None:
    """EMR_BEGINPATH."""
    if session.open_path is not None:
        raise Fault(FaultName.PathState)
    session.path = Path()
    session.keep_in_path()


def end(session: EmfSession) -> None:
    """EMR_ENDPATH."""
    path = session.open_path
    if path is None:
        raise Fault(FaultName.PathState)
    session.keep_in_path()
    path.is_open = False


def close_figure(session: EmfSession) -> None:
    """EMR_CLOSEFIGURE."""
    path = session.open_path
    if path is None:
        raise Fault(FaultName.PathState)
    path.close_figure()
    session.keep_in_path()


def abort(session: EmfSession) -> None:
    """EMR_ABORTPATH."""
    session.keep_in_path()
    session.path = None


def flatten(session: EmfSession) -> None:
    """EMR_FLATTENPATH: all figures are lines anyway."""
    path = session.path
    if path is None or path.is_open:
        raise Fault(FaultName.PathState)
    session.give_up_path()
    session.replace(Action.PATH)


def keep_box(session: EmfSession) -> None:
    """EMR_INTERSECTCLIPRECT."""
    box = _device_box(session)
    session.state.clip = session.state.clip.keeping(box)
    _keep_or_place(session, session.grid.clip_records("EMR_INTERSECTCLIPRECT", box))


def cut_box(session: EmfSession) -> None:
    """EMR_EXCLUDECLIPRECT."""
    box = _device_box(session)
    session.state.clip = session.state.clip.cutting(box)
    _keep_or_place(session, session.grid.clip_records("EMR_EXCLUDECLIPRECT", box))


def _device_box(session: EmfSession) -> Box:
    device = session.state.device
    if not device.is_straight():
        raise Fault(FaultName.Turned, "a clip under a world that turns")
    box = record_box(session)
    return ordered(device.apply(Point(box.left, box.top)), device.apply(Point(box.right, box.bottom)))


def _keep_or_place(session: EmfSession, record: bytes) -> None:
    """Keeps a clip's record where the world is the identity, or sets the same box in parts of a device unit."""
    if session.state.is_plain:
        session.keep()
    else:
        session.replace(Action.CLIP, _under_grid(session, [record]))


def _under_grid(session: EmfSession, records: Sequence[bytes]) -> list[bytes]:
    """Clip records under the page map of the grid, and the file's page map again."""
    return [*session.grid.map_records(session.grid.corner), *records, *session.map_back()] if records else []


def _clip_records(session: EmfSession, clip: Clip) -> list[bytes]:
    kept = [] if clip.kept is None else [session.grid.clip_records("EMR_INTERSECTCLIPRECT", clip.kept)]
    return kept + [session.grid.clip_records("EMR_EXCLUDECLIPRECT", cut) for cut in clip.cuts]


def meta_region(session: EmfSession) -> None:
    """EMR_SETMETARGN: the clip so far stays. The output's clip is that already, so the record only leaves."""
    state = session.state
    state.meta_clip = state.meta_clip.and_also(state.clip)
    state.clip = NO_CLIP
    session.replace(Action.CLIP)


def select_region(session: EmfSession) -> None:
    """EMR_EXTSELECTCLIPRGN. A region becomes a box, with what its other boxes leave out cut out of it."""
    size, mode = session.fields.several("size", "mode")
    if size == 0:
        _remove_clip(session, mode)
        return
    boxes = region_boxes(session.data)
    if mode not in (_AND, _DIFFERENCE, _COPY):
        raise Fault(FaultName.ClipShape, f"a region with mode {mode}")
    if mode == _DIFFERENCE:
        change = NO_CLIP
        for box in boxes:
            change = change.cutting(box)
    else:
        change = clip_of_region(boxes)
    _change_clip(session, change, mode == _COPY)


def _remove_clip(session: EmfSession, mode: int) -> None:
    if mode != _COPY:
        raise Fault(FaultName.ClipShape, f"no region with mode {mode}")
    if session.state.meta_clip.is_empty:
        session.state.clip = NO_CLIP
        session.keep()
    else:
        _change_clip(session, NO_CLIP, True)


def _change_clip(session: EmfSession, change: Clip, is_copy: bool) -> None:
    """Narrows the clip, or sets it anew within the meta region."""
    state = session.state
    if is_copy:
        state.clip = change
        new = state.meta_clip.and_also(change)
        removal = [session.write("EMR_EXTSELECTCLIPRGN", 0, _COPY)]
    else:
        state.clip = state.clip.and_also(change)
        new, removal = change, []
    session.replace(Action.CLIP, removal + _under_grid(session, _clip_records(session, new)))


def select_path(session: EmfSession) -> None:
    """EMR_SELECTCLIPPATH: a path that is one box."""
    path = session.finished_path()
    session.give_up(path)
    mode = session.fields["mode"]
    figures = [figure.points for figure in path.figures if len(figure.points) > 1]
    box = box_of_figure(figures[0]) if len(figures) == 1 else None
    if not figures:
        box = Box(0, 0, 0, 0)
    if box is None or mode not in (_AND, _DIFFERENCE, _COPY):
        raise Fault(FaultName.ClipShape, "a path that isn't one box")
    change = NO_CLIP.cutting(box) if mode == _DIFFERENCE else NO_CLIP.keeping(box)
    _change_clip(session, change, mode == _COPY)
