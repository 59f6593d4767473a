"""Files of records by chance that draw little: objects that come and go in many orders, states that are saved and restored, records that set something,
boxes of the clip, records without an effect, and comments with much data, in both formats, and in EMF also while a path is open. If one sort takes
longer, a count rises by a few hundredths or thousandths."""

import functools
import random
from collections.abc import Callable, Iterator

from chance import played
from instruction_files import Counted, noise
from print_files import PRINT
from writers import EMF, WMF, Form, u32

# How many files there are, and how many sorts of records are in each.
FILES_MADE, SORTS = 60, 5

WAYS = ["show", "check", "list", "info", "bands", "prepare", "show"]

# The most objects at a time, by formats, and how many records a sort has.
MOST, RECORDS = {"WMF": 1_024, "EMF": 6_000}, [150, 400, 800]

# The side of frame and surface.
SIDE = 64

# What makes an object, but for its index.
MAKES = [("pen", ()), ("brush", ()), ("font", ()), ("palette", ()), ("null_pen", ()), ("styled_pen", (2, 9, 0x8040)), ("hatched_brush", (3, 0x8040))]

# Records without an effect: functions and types, and those of them that may have much data.
IDLE = {"WMF": [0x35, 0x37, 0x139, 0x436, 0x105, 0x107, 0x108, 0x12E, 0x209, 0x20A, 0x231]}
IDLE["EMF"] = [13, 16, 21, 22, 23, 24, 50, 51, 52, 57, 58, 98, 109, 119, 120]
LONG = {"WMF": [0x626], "EMF": [70, 105, 106, 110]}


class Objects:
    """The objects of a file, and records that make, select and delete them."""

    def __init__(self, chance: random.Random, form: Form) -> None:
        self.chance, self.form = chance, form
        self.kinds: dict[int, str] = {}

    def free(self) -> int:
        """A free index: the lowest in WMF, and in EMF that or one by chance."""
        if self.form is EMF and self.chance.random() < 0.7:
            index = self.chance.randrange(MOST["EMF"])
            if index not in self.kinds:
                return index
        return next(index for index in range(MOST[self.form.name]) if index not in self.kinds)

    def made(self) -> bytes:
        """A new object."""
        name, words = self.chance.choice(MAKES)
        index = self.free()
        self.kinds[index] = name
        return self.form.step(name, index, *words)

    def selected(self, index: int) -> bytes:
        """Selects an object."""
        return self.form.step("select_palette" if self.kinds[index] == "palette" else "select", index)

    def dropped(self, index: int) -> bytes:
        """Deletes an object."""
        del self.kinds[index]
        return self.form.step("delete", index)

    def ordered(self) -> list[int]:
        """All indexes in some order: as they were made, the other way about, rising, falling or mixed."""
        indexes, order = list(self.kinds), self.chance.randrange(5)
        if order < 2:
            return indexes[:: 1 - 2 * order]
        return sorted(indexes, reverse=order == 3) if order < 4 else self.chance.sample(indexes, len(indexes))


class States:
    """Sorts of records by chance. Each leaves states, objects and clip as they were."""

    def __init__(self, chance: random.Random, form: Form) -> None:
        self.chance, self.form = chance, form

    def table(self) -> list[bytes]:
        """A table that is filled, of which some are selected, and emptied in some order."""
        objects, most = Objects(self.chance, self.form), min(MOST[self.form.name], self.chance.choice([40, 300, 1_024, 1_500]))
        records = [objects.made() for _ in range(most)] + self.form.records("save")
        records += [objects.selected(index) for index in objects.ordered()[:: self.chance.choice([1, 3, 50])]]
        return [*records, *self.form.records("restore -1"), *(objects.dropped(index) for index in objects.ordered())]

    def churn(self) -> list[bytes]:
        """Objects that come and go: the newest, the oldest or any of those that are there."""
        chance, objects = self.chance, Objects(self.chance, self.form)
        most, which = chance.choice([3, 30, 300]), chance.choice([0, -1, None])
        records = [objects.made() for _ in range(most)]
        for _ in range(chance.choice(RECORDS) // 2):
            indexes = list(objects.kinds)
            at = chance.randrange(len(indexes)) if which is None else which
            records += [objects.dropped(indexes[at]), objects.made()]
        return records + [objects.dropped(index) for index in objects.ordered()]

    def saves(self) -> list[bytes]:
        """States that are saved, changed and restored, one or many at a time, by both ways of counting."""
        chance, depth, records = self.chance, 0, list[bytes]()
        most = chance.choice([3, 40, 255])
        for _ in range(chance.choice(RECORDS)):
            if depth == 0 or depth < most and chance.random() < 0.6:
                records.append(self.form.step("save"))
                depth += 1
            elif chance.random() < 0.5:
                back = chance.choice([1, 1, chance.randrange(1, depth + 1)])
                depth -= back
                records.append(self.form.step("restore", chance.choice([-back, depth + 1])))
            else:
                records.append(self.setting())
        return records + ([self.form.step("restore", 1)] if depth else [])

    def setting(self) -> bytes:
        """A record that sets something, or moves the position."""
        chance = self.chance
        steps: list[tuple[str, tuple[int, ...]]] = [("back_mode", (chance.randrange(1, 3),)), ("fill_mode", (chance.randrange(1, 3),))]
        steps += [("raster", (chance.randrange(1, 17),)), ("back_colour", (chance.randrange(1 << 24),)), ("map_mode", (chance.choice([1, 7, 8]),))]
        names = ["window_origin", "viewport_origin", "move"] + ["offset_window", "offset_viewport"] * (self.form is WMF)
        steps += [(name, (chance.randrange(-2, 3), chance.randrange(-2, 3))) for name in names]
        steps += [(name, (chance.randrange(50, 70), chance.randrange(50, 70))) for name in ("window_extent", "viewport_extent")]
        name, numbers = chance.choice(steps)
        return self.form.step(name, *numbers)

    def settings(self) -> list[bytes]:
        """Many of these in one state, and a pixel between."""
        records = [self.pixel() if nth % 50 == 0 else self.setting() for nth in range(self.chance.choice(RECORDS))]
        return self.form.records("save") + records + self.form.records("restore -1")

    def pixel(self) -> bytes:
        """A pixel by chance."""
        return self.form.step("pixel", self.chance.randrange(SIDE), self.chance.randrange(SIDE))

    def box(self, name: str) -> bytes:
        """A box that is kept, which is nearly the surface, or a small one that is cut out."""
        chance = self.chance
        if name == "keep":
            return self.form.step(name, chance.randrange(4), chance.randrange(4), SIDE - chance.randrange(4), SIDE - chance.randrange(4))
        left, top = chance.randrange(SIDE), chance.randrange(SIDE)
        return self.form.step(name, left, top, left + chance.randrange(1, 9), top + chance.randrange(1, 9))

    def clips(self) -> list[bytes]:
        """Long lists of boxes that are kept, and short ones of such as are cut out, with a rectangle behind some."""
        chance, records = self.chance, list[bytes]()
        for _ in range(chance.choice([10, 60])):
            boxes = [self.box("keep") for _ in range(chance.choice([1, 40]))] + [self.box("cut") for _ in range(chance.choice([0, 3, 15, 16]))]
            records += [self.form.step("save"), *chance.sample(boxes, len(boxes))]
            records += [self.pixel(), self.form.step("rectangle", 1, 1, chance.randrange(SIDE), chance.randrange(SIDE)), self.form.step("restore", -1)]
        return records

    def idle(self) -> list[bytes]:
        """Records without an effect and with few parameters."""
        chance = self.chance
        return [self.form.record(chance.choice(IDLE[self.form.name]), u32(*range(chance.randrange(9)))) for _ in range(chance.choice(RECORDS))]

    def comments(self) -> list[bytes]:
        """Comments and escapes, of which some have much data, and in EMF some are of EMF+."""
        chance, records = self.chance, list[bytes]()
        for _ in range(chance.choice(RECORDS) // 2):
            length = 4 * chance.choice([1, 4, chance.randrange(100), chance.choice([10, 10, 10, 5_000])])
            data = b"EMF+" if chance.random() < 0.1 else b"none"
            records += [self.form.record(chance.choice(LONG[self.form.name]), u32(length) + data * (length // 4))] + [self.pixel()] * (chance.random() < 0.02)
        return records

    def bitmaps(self) -> list[bytes]:
        """Brushes of a bitmap that come and go, which are read, and paint little."""
        chance, records = self.chance, list[bytes]()
        for _ in range(chance.choice(RECORDS) // 10):
            brush = self.form.step("tiled_brush", 0, str(noise(chance.choice([2, 8, 16]), chance.choice([1, 8, 24]))))
            records += [brush, *self.form.records("save; select 0; rectangle 1 1 3 3; restore -1; delete 0")]
        return records

    def sorts(self) -> list[Callable[[], list[bytes]]]:
        """All sorts."""
        return [self.table, self.churn, self.saves, self.settings, self.clips, self.idle, self.comments, self.bitmaps]

    def in_a_path(self) -> list[bytes]:
        """One of them by itself, or in EMF while a path is open, or is ended and not painted, and is dropped then."""
        records = self.chance.choice(self.sorts())()
        if self.form is WMF or self.chance.random() < 0.5:
            return records
        opened = EMF.records("begin_path") + [EMF.step("line", nth % 60, nth % 7) for nth in range(self.chance.choice([10, 1_000]))]
        ended = EMF.records("end_path") if self.chance.random() < 0.5 else []
        return [*opened, *ended, *records, *EMF.records("abort_path")]


def states(number: int) -> Counted:
    """The file of this number, in WMF and in EMF by turns."""
    chance, form = random.Random(10_000 + number), (WMF, EMF)[number % 2]
    made = States(chance, form)
    records = [record for _ in range(SORTS) for record in made.in_a_path()]
    given = form.file([*records, made.pixel()], SIDE, MOST["EMF"] + 1)
    return played(Counted(given, SIDE, SIDE, options=PRINT if number % 4 > 1 else ()), WAYS[number % len(WAYS)])


def makers() -> Iterator[tuple[str, Callable[[], Counted]]]:
    """The name and the maker of each file, half of them under the print profile."""
    for number in range(FILES_MADE):
        yield f"states by chance, {number}", functools.partial(states, number)


FILES = dict(makers())
