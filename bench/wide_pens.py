"""Lines under wide pens: single ones, and polylines of 200 lines, beside wine's GDI; a walk of many lines beside the same under a pen of one
pixel; and a million flat lines under the widest pen, beside a limit."""

import random

import peer
from timing import Row, least_seconds
from work import DEVICE, EMPTY
from writers import EMF, WMF, emf_file, i16, i32, placeable_file, u16, u32

SIDES = 1024, 4096

# The widths of pens in pixels, and how many lines and polylines are drawn under each.
WIDTHS = {2: (2_000, 20), 5: (2_000, 20), 20: (2_000, 20), 200: (300, 20)}

# How much of the peer's time a file may take, how much more a walk under a wider pen, and the seconds of the flat lines.
PEER_GOAL, WALK_GOAL, FLAT_GOAL = 0.3, 1.5, 10.0

# The side of the surfaces that the walk and the flat lines are drawn on.
LARGE = 4096


def selected_pen(width):
    """Records that make a pen so wide, and select it."""
    return WMF.records(f"styled_pen 0 0 {width} 0x8040; select 0")


def wmf(records, side):
    """A file of WMF whose units are pixels of a surface with this side."""
    return placeable_file([*records, WMF.end], right=i16(side), bottom=i16(side), objects=u16(2))


def emf(records, side):
    """The same as EMF."""
    return emf_file([*records, EMF.end], right=i32(side - 1), bottom=i32(side - 1), handles=u16(3), **DEVICE)


def places(chance, count, side):
    """The numbers of so many places anywhere on a surface."""
    return [chance.randrange(side) for _ in range(2 * count)]


def lone_lines(side, width):
    """Lines of any slope, each a stroke of its own."""
    chance = random.Random(width)
    yield from selected_pen(width)
    for _ in range(WIDTHS[width][0]):
        yield WMF.step("move", *places(chance, 1, side)) + WMF.step("line", *places(chance, 1, side))


def polylines(side, width):
    """Lists of 200 lines of any slope, each list one stroke."""
    chance = random.Random(width)
    yield from selected_pen(width)
    for _ in range(WIDTHS[width][1]):
        yield WMF.step("polyline", *places(chance, 201, side))


def walk():
    """The numbers of 65,537 places, each ten pixels from the last on each axis."""
    chance = random.Random(7)
    place = [LARGE // 2, LARGE // 2]
    for _ in range(65_537):
        yield from place
        place = [min(max(number + chance.choice((-10, 10)), 0), LARGE - 1) for number in place]


def flat():
    """The numbers of a million and one places, by flat lines to and fro but for where the row ends."""
    for number in range(1_000_001):
        row = number // 245
        yield (LARGE - 1) * (number % 2)
        yield row


def stroke_of(width, numbers):
    """One stroke of EMF."""
    yield from EMF.records(f"styled_pen 0 0 {width} 0x8040; select 0")
    yield EMF.step("polyline", *numbers)


def compared(bench, side, beside):
    """Single lines and polylines at one side, ours and the peer's, beside an empty picture where there is no peer."""
    paths = {EMPTY: bench.write(lambda: [wmf([], side)])}
    for width, (lines, lists) in WIDTHS.items():
        paths[f"{lines:,} lines {width} wide"] = bench.write(lambda width=width: [wmf(lone_lines(side, width), side)])
        paths[f"{lists:,} polylines of 200 lines {width} wide"] = bench.write(lambda width=width: [wmf(polylines(side, width), side)])
    commands = {("ours", name): bench.show(path, side) for name, path in paths.items()}
    if beside is not None:
        commands |= {("peer", name): beside(path, side) for name, path in paths.items()}
    seconds = least_seconds(commands)
    for name in paths:
        subject, ours = f"{name}, {side:,} a side", seconds["ours", name]
        if beside is None:
            yield Row(subject, "s", ours, seconds["ours", EMPTY], EMPTY)
        else:
            yield Row(subject, "s", ours, seconds["peer", name], peer.NAME, most_ratio=None if name == EMPTY else PEER_GOAL)


def many_lines(bench):
    """Strokes of many lines."""
    thin, wide = (bench.write(lambda width=width: [emf(stroke_of(width, walk()), LARGE)]) for width in (1, 5))
    widest = bench.write(lambda: [emf(stroke_of(LARGE, flat()), LARGE)])
    seconds = least_seconds({name: bench.show(path, LARGE) for name, path in (("thin", thin), ("wide", wide), ("widest", widest))})
    yield Row("a walk of 65,536 lines, 5 wide", "s", seconds["wide"], seconds["thin"], "1 wide", most_ratio=WALK_GOAL)
    yield Row("a million flat lines, 4,096 wide", "s", seconds["widest"], FLAT_GOAL, "the limit", goal=FLAT_GOAL)


def rows(bench):
    """All of them."""
    with peer.running() as beside:
        timed = [row for side in SIDES for row in compared(bench, side, beside)]
    return [*timed, *many_lines(bench)]
