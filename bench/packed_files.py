"""Files of drawings by chance in WMF, placeable and plain: each record that draws, under every sort of pen, brush, raster operation, clip and map, on
surfaces of many proportions. If one sort takes longer, a count rises by a few hundredths or thousandths."""

import functools
import random
from collections.abc import Callable, Iterator

from chance import Box, Made, Sort, played, times
from instruction_files import Counted, noise
from mixed_files import SURFACES
from page_axes import Axis, Page
from print_files import PRINT
from writers import WMF, i16, placeable_file

from metafile.files import WMF_END, plain_file, window_extent

# How many files there are, how many sorts of drawings are in each, and about how many instructions each sort takes, and one
# drawing at most.
FILES_MADE, SORTS, WORK, LARGEST = 60, 10, 80_000, 300_000

WAYS = ["show", "bands", "whole", "show", "over", "prepare", "show", "bands", "check", "list", "info"]

# The least number of a record, and the greatest.
LEAST, GREATEST = -(1 << 15), (1 << 15) - 1

# The most columns or rows of a nib, and of a surface: `list` and `info` look at the largest one.
MOST_NIB, MOST_SIDE = 4_096, 8_192

# Extents of windows and of viewports beside them.
SCALES = [(1, 1), (3, 2), (2, 3), (1, 2), (3, 1), (1, 10), (100, 33), (3_000, 3_100), (3_000, 2_900), (1, 100)]


def widest(axis: Axis, nib: int, surface: int) -> int:
    """The width of a pen, in units of the page, whose nib has so many pixels on an axis of a surface, or nearly."""
    return nib * abs(axis.window) * axis.frame // (axis.viewport * surface)


class PackedSort(Sort):
    """Drawings of one sort in WMF, on the file's own page or on another."""

    def __init__(self, chance: random.Random, page: Page, is_listed: bool) -> None:
        super().__init__(chance, page.across.surface, page.down.surface)
        self.setting = ""
        if chance.random() < 0.5:
            page = page._replace(across=self.axis(page.across), down=self.axis(page.down))
            self.setting = page.setting()
        self.page = page
        most = (widest(axis, MOST_NIB, MOST_SIDE if is_listed else axis.surface) for axis in (page.across, page.down))
        self.pen = min(widest(page.across, self.nib, self.width), *most, GREATEST)

    def axis(self, own: Axis) -> Axis:
        """An axis that scales, is mirrored, or is moved."""
        chance, (window, viewport) = self.chance, self.chance.choice(SCALES)
        moved = chance.choice([0, 0, chance.randrange(-99, 100)]), chance.choice([0, 0, chance.randrange(-9, 10)])
        return Axis(window * chance.choice([1, 1, -1]), viewport, *moved, own.frame, own.surface)

    def drawn(self, name: str, *places: object) -> bytes:
        """A record of these places on the page."""
        return WMF.step(name.removeprefix("short_"), *self.page.places(places))

    def blitted(self, name: str, operation: int, box: Box, *source: int | str) -> bytes:
        """A record of a blit to a box on the page."""
        left, top, width, height = self.page.box(box)
        sides = (max(LEAST, min(GREATEST, side)) for side in (width, height))
        return WMF.step(name, operation, left, top, *sides, *source)

    def lone_polyline(self) -> Made:
        """A polyline of two points."""
        ends, length = self.line()
        return [self.drawn("polyline", *ends)], 400 + self.stroking(1, min(length, self.longest))

    def lines(self) -> Made:
        """Lines that go on from each other."""
        places = self.places(1 + min(self.many, 40), True)
        records = [self.drawn("line", *places[at : at + 2]) for at in range(2, len(places), 2)]
        return [self.drawn("move", *places[:2]), *records], len(records) * (300 + self.stroking(1, 30))

    def copy(self) -> Made:
        """A blit of a bitmap, or of a part of it, by one of two records."""
        chance, most = self.chance, self.side
        across, down = chance.randrange(1, most + 1), chance.randrange(1, most + 1)
        corner = chance.randrange(most + 1 - across), chance.randrange(most + 1 - down)
        if chance.random() < 0.5:
            box = self.box()
            seen = self.seen(box)
            record = self.blitted("stretch_blt", self.operations[1], box, *corner, across, down, self.bits)
            return [record], 2_000 + seen[1] * 60 + seen[0] * seen[1] * 6
        place = self.page.places((chance.randrange(-9, self.width), chance.randrange(-9, self.height)))
        return [WMF.step("bit_blt", self.operations[1], *place, across, down, *corner, self.bits)], 2_000 + down * 60 + across * down * 6

    def bare(self) -> Made:
        """A blit by a record that may have a bitmap and has none."""
        box = self.box()
        across, down = self.seen(box)
        work = 300 + max(self.filling(across, down), down * 15 + across * down // 2)
        if self.chance.random() < 0.5:
            return [self.blitted("bare_bit_blt", self.operations[0], box, 0, 0)], work
        return [self.blitted("bare_stretch_blt", self.operations[0], box, 0, 0, 1, 1)], work

    def shapes(self) -> list[Callable[[], Made]]:
        """The shapes that WMF has records for."""
        shapes: list[Callable[[], Made]] = [self.rectangle, self.pattern, self.bitmap, self.one_line, self.lone_polyline, self.polyline]
        return shapes + [self.polygon, self.polygons, self.pixels, self.lines, self.copy, self.bare]

    def state(self) -> list[bytes]:
        """Records for the pen and the brush, and for a raster operation, modes, a clip and a map by chance."""
        chance, pen = self.chance, f"styled_pen 0 {self.chance.choice((0, 0, 6))} {self.pen} 0x8040" if self.nib else "null_pen 0"
        brush = WMF.records(self.brush_made) or [WMF.step("tiled_brush", 1, str(noise(8, 24)))]
        made = WMF.records(f"save; {self.setting}; {pen}; select 0") + [*brush, WMF.step("select", 1)]
        made += WMF.records(f"back_mode {chance.choice((1, 2))}; fill_mode {chance.choice((1, 2))}; raster {chance.choice((13, 13, 13, 7, 6, 1, 16, 9))}")
        kept = [self.drawn("keep", *self.box())] if chance.random() < 0.2 else []
        return made + kept + [self.drawn("cut", *self.box()) for _ in range(chance.choice([0, 0, 0, 1, 1, 3, 16]))]


def file_of(chance: random.Random, width: int, height: int) -> tuple[Page, Callable[[list[bytes]], bytes]]:
    """A page for a file, and what makes the file of its records: a placeable one with a box anywhere, mirrored or not, or a plain one."""
    sides = [chance.choice([side, side, side, 1 + side // 2]) for side in (width, height)]
    extents = [side * chance.choice([1, 1, 1, -1]) for side in sides]
    is_placeable = chance.random() < 0.6
    first = [chance.choice([0, 0, chance.randrange(-99, 100)]) if is_placeable else 0 for _ in sides]
    axes = [Axis(extent, side, near, 0, side, surface) for extent, side, near, surface in zip(extents, sides, first, (width, height), strict=True)]
    page = Page(axes[0], axes[1], LEAST, GREATEST)
    if not is_placeable:
        return page, lambda records: plain_file([window_extent(*extents), *records, WMF_END])
    edges = {"left": first[0], "top": first[1], "right": first[0] + extents[0], "bottom": first[1] + extents[1]}
    return page, lambda records: placeable_file([*records, WMF_END], **{name: i16(number) for name, number in edges.items()})


def packed(number: int) -> Counted:
    """The file of this number."""
    chance, way = random.Random(9_000 + number), WAYS[number % len(WAYS)]
    width, height = SURFACES[number % len(SURFACES)]
    page, made = file_of(chance, width, height)
    records: list[bytes] = []
    for _ in range(SORTS):
        sort = PackedSort(chance, page, way in ("list", "info"))
        records += [*sort.state(), *sort.drawings(WORK * times(way), LARGEST * times(way)), *WMF.records("restore -1; delete 0; delete 1")]
    return played(Counted(made(records), width, height, options=PRINT if number % 2 else ()), way)


def makers() -> Iterator[tuple[str, Callable[[], Counted]]]:
    """The name and the maker of each file, every second one under the print profile."""
    for number in range(FILES_MADE):
        yield f"drawings by chance in WMF, {number}", functools.partial(packed, number)


FILES = dict(makers())
