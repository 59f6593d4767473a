"""The fix-up: one file with all fonts, many small files in one call, and how its time grows with the records of a file."""

import itertools
import pathlib
from collections.abc import Callable, Iterable, Iterator

from fixing import FIXUP, link_fonts
from timing import MIB, RUNS, Bench, Row, least_seconds, memory_of
from writers import EMF, i32, u32

SIDE = 1024

# The seconds and the memory of a call with one file, and the milliseconds of each file of many.
ONE_GOAL, MEMORY_LIMIT, EACH_GOAL = 0.4, 60 * MIB, 25.0

# The small files of a call. Each has one record of text: so has the median of the real files with text.
FILES = 100

# The records of a file, and how many times as long ten times as many may take.
COUNTS = 300, 3_000
MOST = 11

WORDS = ["Total", "Revenue in 2024", "Figure 3", "kilograms", "0.75", "North-east", "Average", "Step 1"]


def font() -> list[bytes]:
    """Arial 24 units high, selected (EMR_EXTCREATEFONTINDIRECTW, [MS-EMF] 2.3.7.8)."""
    sizes = i32(-24, 0, 0, 0, 400) + bytes(8)
    return [EMF.record(82, u32(1) + sizes + "Arial".encode("utf-16-le").ljust(64, b"\0")), EMF.step("select_at", 1)]


def text(number: int) -> bytes:
    """A word at a place (EMR_EXTTEXTOUTW, [MS-EMF] 2.3.5.8)."""
    codes = WORDS[number % len(WORDS)].encode("utf-16-le")
    place = i32(number * 37 % SIDE, number * 101 % SIDE)
    return EMF.record(84, bytes(16) + u32(1, 0, 0) + place + u32(len(codes) // 2, 76, 0) + bytes(20) + codes + bytes(-len(codes) % 4))


def texts() -> Iterator[bytes]:
    """Words, without an end."""
    yield from font()
    yield from map(text, itertools.count())


def ellipses() -> Iterator[bytes]:
    """Ellipses (EMR_ELLIPSE, [MS-EMF] 2.3.5.5)."""
    for number in itertools.count():
        x, y = number * 37 % SIDE, number * 101 % SIDE
        yield EMF.record(42, i32(x, y, x + 20, y + 12))


def turned() -> Iterator[bytes]:
    """Rectangles under a world that turns (EMR_SETWORLDTRANSFORM, [MS-EMF] 2.3.12.2)."""
    yield EMF.record(35, bytes.fromhex("0000403f 0000003f 000000bf 0000403f 00000000 00000000"))
    for number in itertools.count():
        x, y = number * 37 % SIDE, number * 101 % SIDE
        yield EMF.step("rectangle", x, y, x + 20, y + 12)


KINDS: dict[str, Callable[[], Iterator[bytes]]] = {"words": texts, "ellipses": ellipses, "turned rectangles": turned}


def made(records: Iterable[bytes]) -> bytes:
    """The file of these records."""
    return EMF.file(records, SIDE, 4)


def growth_rows(bench: Bench, call: Callable[[pathlib.Path], list[str]]) -> Iterator[Row]:
    """Ten times the records of each kind."""
    commands = {}
    for kind, records in KINDS.items():
        for count in COUNTS:
            commands[kind, count] = call(bench.write(lambda records=records, count=count: [made(itertools.islice(records(), count))]))
    seconds = least_seconds(commands)
    for kind in KINDS:
        few, many = COUNTS
        yield Row(f"fix-up of {many:,} {kind}", "s", seconds[kind, many], seconds[kind, few], f"{few:,}", most_ratio=MOST)


def rows(bench: Bench) -> Iterator[Row]:
    """All of them."""
    fonts, out = bench.folder / "fonts", bench.folder / "out"
    count = link_fonts(fonts)
    out.mkdir()

    def call(path: pathlib.Path) -> list[str]:
        """The command that fixes one file."""
        return [str(FIXUP), str(path), str(out / "one"), "--fonts", str(fonts)]

    small = [bench.write(lambda number=number: [made([*font(), text(number)])]) for number in range(FILES)]
    one, many = call(small[0]), [str(FIXUP), "--out-dir", str(out), *map(str, small), "--fonts", str(fonts)]
    seconds = least_seconds({"one": one, "many": many}, runs=RUNS)
    memory = memory_of(one), MEMORY_LIMIT
    yield Row(f"fix-up of a file with a text, {count} fonts", "s", seconds["one"], ONE_GOAL, "the limit", ONE_GOAL, memory=memory)
    yield Row(f"fix-up of {FILES} such files in one call, each", "ms", 1000 * seconds["many"] / FILES, EACH_GOAL, "the limit", EACH_GOAL)
    yield from growth_rows(bench, call)
