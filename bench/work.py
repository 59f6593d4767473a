"""Files of work, each as WMF and as EMF, at 1,024 and at 4,096 pixels a side. One to one they stand beside wine's GDI, or, where that isn't
there, beside an empty picture; on a map that scales, beside the same places one to one. Memory is what a run takes beyond the file's size, at
8,192 pixels a side too."""

from collections.abc import Callable
from functools import partial
from typing import NamedTuple

import peer
from bitmaps import whole
from shapes import FRAME, HANDLES, PAGE, any_lines, dense_spikes, hatched_rectangles, map_of, small_polygons, spiked_polygon
from timing import MIB, Row, least_seconds, memory_of
from writers import EMF, WMF, emf_file, i16, i32, placeable_file, u16, u32

SIDES = 1024, 4096

LARGEST = 8192

# How much of its own time one to one a file may take on a map that scales.
MAP_GOAL = 1.1

MOST_MEMORY = 7 * MIB

EMPTY = "an empty picture"


class Work(NamedTuple):
    """What the records of a file draw, by its format and the units of its page, and how much of the peer's time it may take at the two sides."""

    records: Callable
    goals: tuple = (None, None)


WORK = {
    "10,000 polygons of 3 to 8 corners": Work(small_polygons, (0.45, 0.35)),
    "10,000 polygons of 20 corners": Work(partial(small_polygons, corners=[20]), (0.6, 0.4)),
    "50,000 lines of any slope": Work(any_lines, (0.6, 0.4)),
    "a bitmap of 1,024 by 1,024": Work(lambda form, page: whole(24, (0, 0, page, page), form=form)(), (0.25, 0.35)),
    "2,000 hatched rectangles": Work(hatched_rectangles, (0.25, 0.2)),
    "a polygon of 4,000 edges": Work(spiked_polygon, (0.1, 0.12)),
    "a polygon of 1,000 spikes": Work(partial(dense_spikes, 1_000)),
}

GOALS = {EMPTY: (0.1, 0.12)} | {name: work.goals for name, work in WORK.items()}

# The sides of a device whose pixels are the frame's units, in hundredths of a millimetre, in pixels and in millimetres.
DEVICE = {"frame": i32(0, 0, 100 * FRAME, 100 * FRAME), "device": u32(FRAME, FRAME), "millimetres": u32(FRAME, FRAME)}


def file_of(form, records):
    """A file with what another player needs, and ours doesn't read: of WMF the count of objects, and of EMF the device."""
    if form is WMF:
        return placeable_file([*records, WMF.end], right=i16(FRAME), bottom=i16(FRAME), objects=u16(HANDLES))
    return emf_file([*records, EMF.end], right=i32(FRAME - 1), bottom=i32(FRAME - 1), handles=u16(HANDLES), **DEVICE)


def files():
    """The files, each by its format, what it draws, and how many units its page has on the frame."""
    for form in (WMF, EMF):
        yield (form.name, EMPTY, FRAME), lambda form=form: [file_of(form, [])]
        for name, (records, _) in WORK.items():
            yield (form.name, name, FRAME), lambda form=form, records=records: [file_of(form, records(form=form, page=FRAME))]
            mapped = lambda form=form, records=records: [file_of(form, [*map_of(form, PAGE), *records(form=form, page=PAGE)])]  # noqa: E731
            yield (form.name, name, PAGE), mapped


def above(bench, path, side):
    """The most memory of a run beyond the file's size."""
    return memory_of(bench.show(path, side)) - path.stat().st_size


def taken(bench, paths, side, beside):
    """The seconds of all files at one side, ours and the peer's, who play a file one after the other: what the peer's command is, is asked for
    each, if there is a peer."""
    commands = {}
    for key, path in paths.items():
        commands["ours", *key] = bench.show(path, side)
        if beside is not None and key[-1] == FRAME:
            commands["peer", *key] = beside(path, side)
    return least_seconds(commands)


def rows_of(bench, paths, side, beside):
    """All files at one side."""
    seconds = taken(bench, paths, side, beside)
    for (form, name, page), path in paths.items():
        ours, memory = seconds["ours", form, name, page], (above(bench, path, side), MOST_MEMORY)
        subject, plain, empty = f"{form}: {name}, {side:,} a side", seconds["ours", form, name, FRAME], seconds["ours", form, EMPTY, FRAME]
        if page != FRAME:
            yield Row(f"{subject}, scaled", "s", ours, plain, "one to one", most_ratio=MAP_GOAL, memory=memory)
        elif beside is None:
            yield Row(subject, "s", ours, empty, EMPTY, memory=memory)
        else:
            goal = GOALS[name][SIDES.index(side)]
            yield Row(subject, "s", ours, seconds["peer", form, name, page], peer.NAME, most_ratio=goal, memory=memory)


def largest_rows(bench, paths):
    """What memory the files take at the largest side: the most of both formats and maps."""
    for name in (EMPTY, *WORK):
        most = max(above(bench, path, LARGEST) for key, path in paths.items() if key[1] == name)
        limit = MOST_MEMORY / MIB
        yield Row(f"memory beyond the file: {name}, {LARGEST:,} a side", "MiB", most / MIB, limit, "the limit", goal=limit)


def rows(bench):
    """All of them."""
    paths = {key: bench.write(pieces) for key, pieces in files()}
    with peer.running() as beside:
        timed = [row for side in SIDES for row in rows_of(bench, paths, side, beside)]
    return [*timed, *largest_rows(bench, paths)]
