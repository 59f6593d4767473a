"""Paths of EMF at 1,024 by 1,024: those that are gathered and not painted, of as many points and pieces as a path may
have (1,048,576 and 65,536); the same points painted, beside one record that draws as many edges; and paths that are begun
and dropped as often as a file has room for, beside as many moves. Memory is what is taken beyond the file and an empty
picture's."""

import array
import itertools
import random

from timing import MIB, Row, least_seconds, memory_of
from writers import EMF

SIDE = 1024

PIECES, POINTS = 1 << 16, 1 << 20

EACH = POINTS // PIECES

# How many records files of begun and dropped paths have at most, beside the header and the end.
RECORDS = (1 << 20) - 8

GATHERING_GOAL, PAINTING_GOAL = 0.2, 1.1

# What gathering may take, and what dropping may.
MOST_GATHERED, MOST_DROPPED = 96 * PIECES + 8 * MIB, 8 * MIB

# How far a point is from the one before at most, across and down: each edge meets few rows.
STEP = 3

BOUNDS = bytes(16)

# Types of records: lists of points of four bytes a number and of two, and several lists.
LONG_POLYGON, LONG_POLYLINE, LONG_POLYLINE_TO = 3, 4, 6
POLYGON, POLYLINE, POLYLINE_TO, POLYGONS = 86, 87, 89, 91


def walk(count, code="h"):
    """Points of the frame, each a little apart from the one before: their numbers."""
    chance, place = random.Random(1), [SIDE // 2, SIDE // 2]
    numbers = array.array(code, bytes(2 * count * array.array(code).itemsize))
    for at, step in enumerate(chance.choices(range(-STEP, STEP + 1), k=2 * count)):
        place[at % 2] = min(SIDE - 1, max(0, place[at % 2] + step))
        numbers[at] = place[at % 2]
    return numbers


def one_list(kind, numbers):
    """A record of one list of points."""
    return EMF.record(kind, BOUNDS + (len(numbers) // 2).to_bytes(4, "little") + numbers.tobytes())


def equal_lists(kind, numbers, points):
    """A record of several lists, each of so many points."""
    total = len(numbers) // 2
    counts = array.array("I", [total // points, total] + [points] * (total // points))
    return EMF.record(kind, BOUNDS + counts.tobytes() + numbers.tobytes())


def parts(numbers, points):
    """Numbers of so many points at a time."""
    return (numbers[at : at + 2 * points] for at in range(0, len(numbers), 2 * points))


# What gathers points.


def going_on(code, points, first, others):
    """One figure of records of so many points: a polyline, and what goes on with it."""
    kinds = itertools.chain([first], itertools.repeat(others))
    return (one_list(kind, part) for kind, part in zip(kinds, parts(walk(POINTS, code), points)))


def figures(code, kind):
    """A figure for each record of so many points."""
    return (one_list(kind, part) for part in parts(walk(POINTS, code), EACH))


def lines():
    """One figure of records of one point each, of which the first is a polyline."""
    numbers = walk(PIECES)
    yield one_list(POLYLINE, numbers[:2])
    yield from (EMF.step("line", *place) for place in zip(numbers[2::2], numbers[3::2]))


def begun():
    """Figures of two points, each of them begun at a position."""
    numbers = walk(PIECES)
    for x, y, right, down in zip(*(numbers[at::4] for at in range(4))):
        yield EMF.step("move", x, y) + EMF.step("line", right, down)


ONE, MANY = "65,536 lists of 16 points, going on", "65,536 polygons of 16 points"

GATHERED = {
    ONE: lambda: going_on("h", EACH, POLYLINE, POLYLINE_TO),
    "the lists in four bytes": lambda: going_on("i", EACH, LONG_POLYLINE, LONG_POLYLINE_TO),
    MANY: lambda: figures("h", POLYGON),
    "the polygons in four bytes": lambda: figures("i", LONG_POLYGON),
    "one list of 1,048,576 points": lambda: going_on("h", POINTS, POLYLINE, POLYLINE_TO),
    "one record of 65,536 polygons": lambda: [equal_lists(POLYGONS, walk(POINTS), EACH)],
    "65,536 lines, going on": lines,
    "32,768 times a move and a line": begun,
}


def path(name, painting=None):
    """A path of one of the sorts above, with a record that paints it, or with none."""

    def records():
        """The records."""
        yield EMF.step("begin_path")
        yield from GATHERED[name]()
        yield EMF.step("end_path")
        if painting is not None:
            yield EMF.step(painting)

    return records


# The same points in one record, where a stock object leaves out a layer.

NULL_BRUSH, NULL_PEN = "select_at 0x80000005", "select_at 0x80000008"


def drawn(kind, objects="", points=None):
    """One record of all points: one list, or lists of so many points each."""

    def records():
        """The objects and the list."""
        numbers = walk(POINTS)
        return [*EMF.records(objects), one_list(kind, numbers) if points is None else equal_lists(kind, numbers, points)]

    return records


# Each with what gathers its path, its painting, and the record beside it.
PAINTED = {
    "filled, one figure": (ONE, "fill_path", drawn(POLYGON, NULL_PEN)),
    "stroked, one figure": (ONE, "stroke_path", drawn(POLYLINE)),
    "both, one figure": (ONE, "stroke_and_fill_path", drawn(POLYGON)),
    "filled, 65,536 figures": (MANY, "fill_path", drawn(POLYGONS, NULL_PEN, EACH)),
    "stroked, 65,536 figures": (MANY, "stroke_path", drawn(POLYGONS, NULL_BRUSH, EACH)),
    "both, 65,536 figures": (MANY, "stroke_and_fill_path", drawn(POLYGONS, "", EACH)),
}


def repeated(script):
    """As many rounds of a script's records as a file has room for."""
    round_of = EMF.records(script)
    return lambda: itertools.repeat(b"".join(round_of), RECORDS // len(round_of))


MOVES = "as many moves"

DROPPED = {
    "begun, a line, dropped": repeated("begin_path; line 3 3; abort_path"),
    "begun, dropped": repeated("begin_path; abort_path"),
    "begun, a line, ended": repeated("begin_path; line 3 3; end_path"),
}


def measured(bench, files):
    """The seconds of files and of an empty one, and where they are."""
    places = {}
    for name, records in ({"empty": list} | files).items():
        places[name] = bench.write(lambda records=records: framed(records()))
    return least_seconds({name: bench.show(place, SIDE) for name, place in places.items()}), places


def framed(records):
    """The pieces of a file."""
    yield EMF.file([], SIDE, 2)[: -len(EMF.end)]
    yield from records
    yield EMF.end


def memory_beside(bench, places, name, most):
    """The memory of a file beyond its own size and an empty one's, beside what that may be."""
    taken = [memory_of(bench.show(places[key], SIDE)) - places[key].stat().st_size for key in (name, "empty")]
    return taken[0] - taken[1], most


def gathered_rows(bench):
    """Paths that aren't painted, beside an empty picture."""
    taken, places = measured(bench, {name: path(name) for name in GATHERED})
    for name in GATHERED:
        memory = memory_beside(bench, places, name, MOST_GATHERED)
        row = Row(f"gathered: {name}", "s", taken[name], taken["empty"], "an empty picture", GATHERING_GOAL)
        yield row._replace(memory=memory)


def painted_rows(bench):
    """Paintings, without the gathering, beside records that draw as much, without an empty picture."""
    files = {name: path(name) for name in (ONE, MANY)}
    for name, (points, painting, by_record) in PAINTED.items():
        files |= {(name, "path"): path(points, painting), (name, "record"): by_record}
    taken, _ = measured(bench, files)
    for name, (points, _, _) in PAINTED.items():
        by_path = taken[name, "path"] - taken[points]
        by_record = taken[name, "record"] - taken["empty"]
        yield Row(f"painted: {name}", "s", by_path, by_record, "in one record", most_ratio=PAINTING_GOAL)


def dropped_rows(bench):
    """Paths that come and go, beside moves: nanoseconds a record."""
    taken, places = measured(bench, {MOVES: repeated("move 3 3")} | DROPPED)
    each = {name: 1e9 * (taken[name] - taken["empty"]) / RECORDS for name in taken}
    for name in DROPPED:
        memory = memory_beside(bench, places, name, MOST_DROPPED)
        yield Row(f"a record of paths: {name}", "ns", each[name], each[MOVES], "a move", memory=memory)


def rows(bench):
    """All of them."""
    return [*gathered_rows(bench), *painted_rows(bench), *dropped_rows(bench)]
