"""Drawings by chance, a sort at a time: shapes of one kind under one pen, one brush, one raster operation, one clip and one map. The files of them
stand in modules of their own."""

import random
from collections.abc import Callable

from instruction_files import Counted, noise
from slip_files import listed
from writers import EMF, MASKED, PATCOPY, PATINVERT, SRCCOPY

# About how many instructions the drawings of a sort take, and the most of them.
WORK, MOST_DRAWINGS = 400_000, 400

# How many times as much is drawn where nothing is painted.
UNPAINTED = 100

NIBS = [2, 3, 4, 5, 9, 17, 33, 40, 64, 65, 100, 300, 2000]

# Columns that a line goes to the side for each row, in tenths.
SLOPES = [0, 1, 3, 9, 10, 11, 20, 30, 40, 50, 80, 160, 320, 1000]

BLACKNESS, WHITENESS, INVERSION, SRCINVERT = 0x00000042, 0x00FF0062, 0x00550009, 0x00660046

# Ternary raster operations without a bitmap, and with one.
PATTERNED = [PATCOPY, PATINVERT, BLACKNESS, WHITENESS, INVERSION, 0x00A000C9]
SOURCED = [SRCCOPY, SRCCOPY, SRCINVERT, MASKED, 0x008800C6]

DEPTHS = [1, 4, 8, 16, 24, 32]

Box = tuple[int, int, int, int]

# Records, and about how many instructions they take.
Made = tuple[list[bytes], int]


class Sort:
    """Drawings of one sort on a surface: by chance, but for what they have in common."""

    def __init__(self, chance: random.Random, width: int, height: int) -> None:
        self.chance, self.width, self.height = chance, width, height
        self.longest = width + height
        self.many = chance.choice([1, 2, 3, 7, 15, 16, 17, 40, 200, 1_100])
        self.side = chance.choice([3, 8, 20, 60])
        self.bits = str(noise(self.side, chance.choice(DEPTHS)))
        self.operations = chance.choice(PATTERNED), chance.choice(SOURCED)
        self.nib = chance.choice([0, 1, chance.choice(NIBS)])
        hatched = f"hatched_brush 1 {chance.randrange(6)} 0x8040"
        self.brush, self.brush_made = chance.choice([("", "null_brush 1"), ("solid", "solid_brush 1 0x206040"), ("other", hatched), ("other", "")])

    def drawn(self, name: str, *places: object) -> bytes:
        """A record of these places, which are those of pixels."""
        return EMF.step(name, *places)

    def blitted(self, name: str, operation: int, box: Box, *source: int | str) -> bytes:
        """A record of a blit to a box of pixels, from a source if there is one."""
        return EMF.step(name, operation, box[0], box[1], box[2] - box[0], box[3] - box[1], *source)

    def box(self) -> Box:
        """A box by chance: all of the surface, a strip, small or large, on it, across its edge or beside it."""
        chance, width, height = self.chance, self.width, self.height
        across = chance.choice([width, chance.randrange(1, 21), chance.randrange(1, 21), 1 + width // chance.randrange(1, 9)])
        down = chance.choice([height, chance.randrange(1, 21), chance.randrange(1, 21), 1 + height // chance.randrange(1, 9)])
        left, top = chance.randrange(-across // 2, width), chance.randrange(-down // 2, height)
        if across >= width:
            left = chance.choice([0, 0, -5])
        if down >= height:
            top = chance.choice([0, 0, -5])
        return left, top, left + across, top + down

    def seen(self, box: Box) -> tuple[int, int]:
        """How many columns and rows of a box the surface has."""
        return max(0, min(box[2], self.width) - max(box[0], 0)), max(0, min(box[3], self.height) - max(box[1], 0))

    def line(self) -> tuple[list[int], int]:
        """The ends of a line by chance, and its length."""
        chance = self.chance
        down = chance.choice([chance.randrange(1, 10), chance.randrange(1, 40), chance.randrange(1, 3 * self.height)])
        side = chance.choice((-1, 1)) * down * chance.choice(SLOPES) // 10
        if chance.random() < 0.2:
            side, down = chance.choice([side, chance.randrange(-2 * self.width, 2 * self.width)]), chance.choice([0, 0, 1, 2])
        left, top = chance.randrange(self.width), chance.randrange(self.height)
        ends = [left, top, left + side, top + chance.choice((-1, 1)) * down]
        return [max(-30_000, min(30_000, it)) for it in ends], abs(side) + down

    def places(self, count: int, near: bool) -> list[int]:
        """So many places by chance: anywhere around the surface, or one near the other."""
        chance = self.chance
        if near:
            left, top = chance.randrange(self.width), chance.randrange(self.height)
            return [part for _ in range(count) for part in (left + chance.randrange(30), top + chance.randrange(30))]
        left, top = self.width // 4, self.height // 4
        return [part for _ in range(count) for part in (chance.randrange(-left, self.width + left), chance.randrange(-top, self.height + top))]

    def filling(self, across: int, down: int) -> int:
        """About how many instructions it takes to fill so many columns and rows."""
        pixels = across * down
        return {"": 0, "solid": down * 15 + pixels // 4, "other": down * 60 + pixels * 5}[self.brush]

    def stroking(self, lines: int, length: int) -> int:
        """About how many instructions it takes to stroke so many lines of this length together."""
        if self.nib < 2:
            return lines * 80 + self.nib * (lines * 70 + length * 15)
        covered = min(self.width * self.height, (length + self.nib * lines) * self.nib)
        return 3_000 + lines * 400 + length * 15 + covered * 2

    def rectangle(self) -> Made:
        """A rectangle."""
        box = self.box()
        across, down = self.seen(box)
        return [self.drawn("rectangle", *box)], 300 + self.filling(across, down) + self.stroking(4, 2 * (across + down))

    def pattern(self) -> Made:
        """A blit without a bitmap."""
        box = self.box()
        across, down = self.seen(box)
        work = 300 + max(self.filling(across, down), down * 15 + across * down // 2)
        return [self.blitted("pat_blt", self.operations[0], box)], work

    def bitmap(self) -> Made:
        """A stretched bitmap."""
        box = self.box()
        across, down = self.seen(box)
        source = 0, 0, self.side, self.side
        return [self.blitted("stretch_dib", self.operations[1], box, *source, self.bits)], 2_000 + down * 60 + across * down * 6

    def one_line(self) -> Made:
        """A line."""
        ends, length = self.line()
        return [self.drawn("move", *ends[:2]), self.drawn("line", *ends[2:])], 400 + self.stroking(1, min(length, self.longest))

    def lone_polyline(self) -> Made:
        """A polyline of two points, or of one behind the position."""
        ends, length = self.line()
        work = 400 + self.stroking(1, min(length, self.longest))
        if self.chance.random() < 0.5:
            return [self.drawn("move", *ends[:2]), self.drawn("short_polyline_to", *ends[2:])], work
        return [self.drawn("short_polyline", *ends)], work

    def polylines(self) -> Made:
        """A stroke of many lines apart."""
        drawn = [self.line() for _ in range(self.many)]
        work = 500 + self.stroking(self.many, sum(min(length, self.longest) for _, length in drawn))
        return [self.drawn("short_polylines", *listed([ends for ends, _ in drawn]))], work

    def polyline(self) -> Made:
        """A stroke of many lines that go on from each other."""
        near = self.chance.random() < 0.6
        length = 30 if near else self.longest // 2
        return [self.drawn("short_polyline", *self.places(self.many + 1, near))], 500 + self.stroking(self.many, self.many * length)

    def polygon(self) -> Made:
        """A polygon of few points or of many."""
        count, near = 2 + self.many, self.chance.random() < 0.6
        across, down, length = (30, 30, 30) if near else (self.width, self.height, self.longest // 2)
        work = 500 + count * 200 + down * (60 + 15 * count) + self.filling(across, down) + self.stroking(count, count * length)
        return [self.drawn("short_polygon", *self.places(count, near))], work

    def polygons(self) -> Made:
        """Several triangles that are filled together."""
        lists = [self.places(3, True) for _ in range(self.many)]
        work = 500 + self.many * (3_000 + self.filling(15, 30)) + self.stroking(3 * self.many, 90 * self.many)
        return [self.drawn("short_polygons", *listed(lists))], work

    def path(self) -> Made:
        """A path of some of these, painted."""
        records: list[bytes] = []
        work = 500
        for _ in range(self.chance.randrange(1, 6)):
            made, taken = self.chance.choice([self.one_line, self.lone_polyline, self.polyline, self.polygon])()
            records += made
            work += taken
        painted = self.chance.choice(["stroke_path", "fill_path", "stroke_and_fill_path", "abort_path"])
        return [*EMF.records("begin_path"), *records, *EMF.records(f"end_path; {painted}")], work

    def pixels(self) -> Made:
        """A pixel."""
        return [self.drawn("pixel", self.chance.randrange(-9, self.width + 9), self.chance.randrange(self.height))], 200

    def state(self) -> list[bytes]:
        """Records for the pen and the brush, and for a raster operation, modes, a clip and a map by chance."""
        chance, pen = self.chance, f"styled_pen 0 0 {self.nib} 0x8040" if self.nib else "null_pen 0"
        brush = EMF.records(self.brush_made) or [EMF.step("tiled_brush", 1, str(noise(8, 24)))]
        made = [*EMF.records(f"save; {pen}; select 0"), *brush, *EMF.records("select 1")]
        made += EMF.records(f"back_mode {chance.choice((1, 2))}; fill_mode {chance.choice((1, 2))}; raster {chance.choice((13, 13, 13, 7, 6, 1, 16, 9))}")
        for _ in range(chance.choice([0, 0, 0, 1, 1, 3])):
            made.append(self.drawn(chance.choice(["keep", "cut"]), *self.box()))
        if chance.random() < 0.3:
            made += EMF.records("map_mode 8; window_extent 3000 3000; viewport_extent 3100 2900")
        return made

    def shapes(self) -> list[Callable[[], Made]]:
        """The shapes, of which a sort has one."""
        shapes: list[Callable[[], Made]] = [self.rectangle, self.pattern, self.bitmap, self.one_line, self.lone_polyline]
        return shapes + [self.polylines, self.polyline, self.polygon, self.polygons, self.path, self.pixels]

    def drawings(self, most: int = WORK, largest: int | None = None) -> list[bytes]:
        """As many drawings of a shape by chance as take about so much work, or the most. Where there is a limit for one, those above it are left out, and
        those after them have half as many parts."""
        records: list[bytes] = []
        shape, work = self.chance.choice(self.shapes()), 0
        for _ in range(MOST_DRAWINGS):
            made, taken = shape()
            if largest is not None and taken > largest:
                self.many = max(1, self.many // 2)
                continue
            records += made
            work += taken
            if work >= most:
                break
        return records

    def records(self) -> list[bytes]:
        """A state, and the drawings."""
        return [*self.state(), *self.drawings(), *EMF.records("restore -1; delete 0; delete 1")]


def times(way: str) -> int:
    """How many times as much is drawn in a file that is played in this way as in one that is painted."""
    return 1 if way in ("show", "bands", "whole", "over") else UNPAINTED


def played(made: Counted, way: str) -> Counted:
    """The same file, played in this way: shown, in bands or whole, over a white image, or prepared or checked."""
    width, height = made.width, made.height
    if way == "over":
        return made._replace(command="over", image=b"P6\n%d %d\n255\n" % (width, height) + b"\xff" * (3 * width * height))
    if way in ("bands", "whole"):
        return made._replace(command="play", bands=1 + height // 6 if way == "bands" else height)
    return made._replace(command=way)
