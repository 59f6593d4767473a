"""Files of drawings by chance whose pens have nibs much wider than high, or much higher than wide: on maps whose axes scale apart, mirrored or not, on
surfaces of many proportions, behind boxes that are kept and cut out. If one nib takes longer, a count rises by a few hundredths or thousandths."""

import functools
import random
from collections.abc import Callable, Iterator

from chance import Made, Sort, played, times
from instruction_files import Counted
from mixed_files import SURFACES
from page_axes import Axis, Page
from print_files import PRINT
from writers import EMF

# How many files there are, how many sorts of drawings are in each, and about how many instructions each sort takes, and one
# drawing at most.
FILES_MADE, SORTS, WORK, LARGEST = 60, 8, 60_000, 400_000

# How many there are where nothing is painted.
UNPAINTED_SORTS = 30

WAYS = ["show", "bands", "whole", "show", "over", "prepare", "check"]

# A nib's long side and its short one, in pixels.
LONG, SHORT = [10, 16, 17, 30, 40, 64, 65, 100, 100, 300, 1_000, 2_000, 4_000], [1, 1, 1, 2, 3, 4, 9]

# The greatest number of a record, and of one whose numbers have two bytes.
GREATEST, SHORT_GREATEST = (1 << 31) - 1, (1 << 15) - 1


class NibSort(Sort):
    """Drawings of one sort under a pen whose nib has one long side and one short one, or two that are nearly alike."""

    def __init__(self, chance: random.Random, width: int, height: int, frame: tuple[int, int]) -> None:
        super().__init__(chance, width, height)
        long, short = chance.choice(LONG), chance.choice(SHORT)
        if chance.random() < 0.2:
            short = 1 + long * 2 // 3
        sides = (long, short) if chance.random() < 0.5 else (short, long)
        self.nib = chance.choice([1, long, 7 * long, 1 + long // 3])
        axes = [self.axis(*told) for told in zip(sides, frame, (width, height), strict=True)]
        self.page = Page(axes[0], axes[1], -GREATEST - 1, GREATEST)
        self.columns, self.rows = (max(1, self.nib * it.viewport * it.surface // (abs(it.window) * it.frame)) for it in axes)
        if chance.random() < 0.7:
            self.brush, self.brush_made = "", "null_brush 1"

    def axis(self, side: int, frame: int, surface: int) -> Axis:
        """An axis on which the nib has so many pixels."""
        chance, times = self.chance, self.chance.choice([1, 8, 64])
        window, viewport = times * self.nib, max(1, (times * side * frame + surface // 2) // surface)
        moved = chance.choice([0, 0, chance.randrange(-99, 100)]), chance.choice([0, 0, chance.randrange(-9, 10)])
        return Axis(window * chance.choice([1, 1, -1]), viewport, *moved, frame, surface)

    def drawn(self, name: str, *places: object) -> bytes:
        """A record of these places on the page, of short numbers where they fit."""
        placed = self.page.places(places)
        is_long = any(abs(it) > SHORT_GREATEST for it in placed if isinstance(it, int))
        return EMF.step(name.removeprefix("short_") if is_long else name, *placed)

    def stroking(self, lines: int, length: int) -> int:
        """About how many instructions it takes to stroke so many lines of this length together."""
        swept = lines * self.columns * self.rows + length * (self.columns + self.rows) // 2
        return 3_000 + lines * (400 + 20 * min(self.rows, self.height)) + length * 20 + min(self.width * self.height, swept) // 2

    def shapes(self) -> list[Callable[[], Made]]:
        """The shapes that a pen strokes."""
        shapes: list[Callable[[], Made]] = [self.rectangle, self.one_line, self.lone_polyline, self.polylines]
        return shapes + [self.polyline, self.polygon, self.polygons, self.path]

    def clips(self) -> list[bytes]:
        """A box that is kept, or none, and boxes that are cut out."""
        chance = self.chance
        kept = [self.drawn("keep", *self.box())] if chance.random() < 0.3 else []
        return kept + [self.drawn("cut", *self.box()) for _ in range(chance.choice([0, 0, 0, 1, 1, 2, 4, 16]))]

    def state(self) -> list[bytes]:
        """Records for the map, the pen and the brush, a raster operation, modes and a clip."""
        chance = self.chance
        pen = chance.choice([f"styled_pen 0 0 {self.nib} 0x8040", f"styled_long_pen 0 0x10000 {self.nib} 0 0x8040"])
        made = EMF.records(f"save; {self.page.setting()}; {pen}; select 0; {self.brush_made or 'hatched_brush 1 4 0x8040'}; select 1")
        made += EMF.records(f"back_mode {chance.choice((1, 2))}; fill_mode {chance.choice((1, 2))}; raster {chance.choice((13, 13, 13, 7, 6))}")
        return made + self.clips()


def nibs(number: int) -> Counted:
    """The file of this number."""
    chance, way = random.Random(8_000 + number), WAYS[number % len(WAYS)]
    width, height = SURFACES[number % len(SURFACES)]
    frame = chance.choice([(width, height), (width, height), (2 * width, height), (width, 3 * height), (1 + width // 2, height), (width, 1 + height * 2 // 3)])
    records: list[bytes] = []
    for _ in range(SORTS if times(way) == 1 else UNPAINTED_SORTS):
        sort = NibSort(chance, width, height, frame)
        records += [*sort.state(), *sort.drawings(WORK * times(way), LARGEST * times(way)), *EMF.records("restore -1; delete 0; delete 1")]
    made = Counted(EMF.file(records, frame, 16), width, height, options=PRINT if number % 2 else ())
    return played(made, way)


def makers() -> Iterator[tuple[str, Callable[[], Counted]]]:
    """The name and the maker of each file, every second one under the print profile."""
    for number in range(FILES_MADE):
        yield f"nibs by chance, {number}", functools.partial(nibs, number)


FILES = dict(makers())
