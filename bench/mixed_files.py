"""Files of drawings by chance, a dozen sorts in each: every sort of shape, slope and place under every sort of pen, brush, raster operation, clip and map,
on surfaces of many proportions, whole and in bands, and over an image. If one sort takes longer, a count rises by a few hundredths or thousandths."""

import functools
import random
from collections.abc import Callable, Iterator

from chance import Sort, played
from instruction_files import Counted
from print_files import PRINT
from writers import EMF

# How many files there are, and how many sorts of drawings are in each.
FILES_MADE, SORTS = 180, 12

# The surfaces, and how they are played. On those of more than 2,097,152 pixels a mask has a part of the rows.
SURFACES = [(1024, 256), (256, 1024), (4096, 64), (64, 4096), (16, 8192), (8192, 16), (333, 777), (1000, 1000), (2048, 500), (7, 3000), (1023, 511), (2050, 1100)]
WAYS = ["show", "bands", "whole", "show", "over"]


def mixed(number: int) -> Counted:
    """The file of this number."""
    chance = random.Random(7_000 + number)
    width, height = SURFACES[number % len(SURFACES)]
    records = [record for _ in range(SORTS) for record in Sort(chance, width, height).records()]
    made = Counted(EMF.file(records, (width, height), 16), width, height, options=PRINT if number % 2 else ())
    return played(made, WAYS[number % len(WAYS)])


def makers() -> Iterator[tuple[str, Callable[[], Counted]]]:
    """The name and the maker of each file, every second one under the print profile."""
    for number in range(FILES_MADE):
        yield f"drawings by chance, {number}", functools.partial(mixed, number)


FILES = dict(makers())
