"""Files of a size that stand for themselves: each sample, a picture of one pixel, a million pixels, the largest picture as P6, and a file that
is read to its end before it is opened."""

import random

from timing import MIB, Row, least_seconds, memory_of
from writers import ROOT, WMF

SIDE = 1024

PIXELS = 1_000_000

LARGEST = 8192

# The seconds of a start.
START_GOAL = 0.001

# The samples that show how a file is refused.
REFUSED = ["held.wmf"]

# Escapes of 64 bytes, nearly as many as a file of 64 MiB has room for.
ESCAPES = 1_048_570


def pixels():
    """A file of pixels at places of a square frame, in any order."""
    chance = random.Random(1)
    yield WMF.file([], SIDE, 0)[: -len(WMF.end)]
    for _ in range(PIXELS):
        place = chance.randrange(SIDE), chance.randrange(SIDE)
        yield WMF.pixel(*place, chance.randbytes(3))
    yield WMF.end


def late_extent(is_placeable):
    """A file of records that are skipped, and one that sets the window's extent to 4 by 4."""

    def pieces():
        """The file."""
        headers = WMF.file([], 4, 0)[: -len(WMF.end)]
        yield headers if is_placeable else headers[-18:]
        yield WMF.record(0x0626, bytes(58)) * ESCAPES
        yield WMF.step("window_extent", 4, 4) + WMF.end

    return pieces


def sample_rows(bench):
    """Each sample beside an empty picture."""
    samples = sorted(path for path in (ROOT / "samples").iterdir() if path.suffix in (".wmf", ".emf"))
    empty = bench.write(lambda: [WMF.file([], SIDE, 0)])
    commands = {path: bench.show(path, SIDE) for path in samples if path.name not in REFUSED}
    taken = least_seconds(commands | {empty: bench.show(empty, SIDE)})
    for path in commands:
        yield Row(f"samples/{path.name}, 1,024 a side", "s", taken[path], taken[empty], "an empty picture")


def pixels_row(bench):
    """A million pixels beside an empty picture."""
    path, empty = bench.write(pixels), bench.write(lambda: [WMF.file([], SIDE, 0)])
    taken = least_seconds({name: bench.show(name, SIDE) for name in (path, empty)})
    memory = memory_of(bench.show(path, SIDE)), path.stat().st_size + 7 * MIB
    row = Row("1,000,000 pixels, 1,024 a side", "s", taken[path], taken[empty], "an empty picture", memory=memory)
    return row._replace(goal=0.05)


def start_row(bench):
    """The smallest picture: what a start takes."""
    taken = least_seconds({"ours": bench.show(ROOT / "samples" / "dot.wmf", 1)})
    return Row("a picture of one pixel", "s", taken["ours"], START_GOAL, "the goal", START_GOAL)


def canvas_row(bench):
    """The largest picture written to a file, beside as many bytes of 0: seconds of the clock, as a disk has a part in them."""
    dot = ROOT / "samples" / "dot.wmf"
    shown, out = bench.show(dot, LARGEST), bench.folder / "picture"
    size = 3 * LARGEST * LARGEST + len(f"P6\n{LARGEST} {LARGEST}\n255\n")
    commands = {"ours": shown, "zeros": ["head", "-c", str(size), "/dev/zero"]}
    taken = least_seconds(commands, output=out, by_the_clock=True)
    memory = memory_of(shown), dot.stat().st_size + 7 * MIB
    return Row("8,192 by 8,192 as P6, by the clock", "s", taken["ours"], taken["zeros"], "head -c", most_ratio=1.2, memory=memory)


def late_row(bench):
    """A plain file whose extent stands at its end beside a placeable one."""
    commands = {name: bench.show(bench.write(late_extent(name)), 4) for name in (True, False)}
    taken = least_seconds(commands)
    return Row("64 MiB, its extent last", "s", taken[False], taken[True], "with the extent first", most_ratio=2)


def rows(bench):
    """All of them."""
    return [*sample_rows(bench), start_row(bench), pixels_row(bench), canvas_row(bench), late_row(bench)]
