"""What the playing state costs at 64 by 64: files of many creates and deletes, saved states, cuts, saves and restores,
beside one of 1,000,000 pixels of the same format. Limits: 0.5 s each, and the file, the surface and 16 MiB of memory.

A table of WMF has 1,024 objects, and one of EMF 65,534. Indexes count from 0 in both.
"""

import functools
import itertools
import random

from timing import MIB, Row, least_seconds, memory_of
from writers import EMF, WMF

SIDE, GOAL = 64, 0.5

STATES = 256

HANDLES = 0xFFFF

FORMS = {"WMF": WMF, "EMF": EMF}

INDEXES = {"WMF": range(1024), "EMF": range(65534)}

OBJECTS = ["pen", "brush", "font", "palette"]


@functools.cache
def made(form_name, name, *numbers):
    """The bytes of a record, made once."""
    return FORMS[form_name].step(name, *numbers)


def step(form, name, *numbers):
    """The bytes of a record."""
    return made(form.name, name, *numbers)


def pixels(form):
    """1,000,000 pixels at places of the frame, in any order."""
    chance = random.Random(1)
    places = [step(form, "pixel", x, y) for x in range(SIDE) for y in range(SIDE)]
    return (chance.choice(places) for _ in range(1_000_000))


def gone_and_come(form, indexes):
    """The records by which pens at these indexes go and come. The lowest comes first, as in WMF."""
    yield from (step(form, "delete", index) for index in indexes)
    yield from (step(form, "pen", index) for index in sorted(indexes))


def slots(form, rounds):
    """A full table, and rounds in which pens at some indexes go and come: 1,000,000 records."""
    full = (step(form, "pen", index) for index in INDEXES[form.name])
    changes = (gone_and_come(form, indexes) for indexes in rounds)
    return itertools.islice(itertools.chain(full, itertools.chain.from_iterable(changes)), 1_000_000)


def slots_ends(form):
    """The first and the last go and come."""
    return slots(form, itertools.repeat([INDEXES[form.name][0], INDEXES[form.name][-1]]))


def slots_last(form):
    """The last goes and comes."""
    return slots(form, itertools.repeat([INDEXES[form.name][-1]]))


def slots_up(form):
    """All go upwards, and come."""
    return slots(form, itertools.repeat(INDEXES[form.name]))


def slots_down(form):
    """All go downwards, and come."""
    return slots(form, itertools.repeat(INDEXES[form.name][::-1]))


def slots_random(form):
    """So many as chance says go, from anywhere, and as many come."""
    chance = random.Random(1)
    return slots(form, (chance.sample(INDEXES[form.name], chance.randrange(1, 1024)) for _ in itertools.count()))


def taken(form, kind, index):
    """A record that selects an object of a kind."""
    return step(form, "select_palette" if kind == "palette" else "select", index)


def held_states(form):
    """States of which all but the last hold a pen, a brush, a font and a palette of their own."""
    for index in range(len(OBJECTS) * (STATES - 1)):
        kind = OBJECTS[index % len(OBJECTS)]
        yield step(form, kind, index)
        yield taken(form, kind, index)
        if kind == OBJECTS[-1]:
            yield step(form, "save")
    yield step(form, "save")


def states(form):
    """An object of each kind comes, is selected, leaves its place to the oldest of its kind, and goes: 500,000 records
    under 256 saved states that hold 1,020 objects."""
    free, rounds = len(OBJECTS) * (STATES - 1), []
    for oldest, kind in enumerate(OBJECTS):
        rounds += [step(form, kind, free), taken(form, kind, free), taken(form, kind, oldest), step(form, "delete", free)]
    return itertools.chain(held_states(form), rounds * (500_000 // len(rounds)))


def states_deletes(form):
    """A pen comes and goes under these states, 250,000 times."""
    free = len(OBJECTS) * (STATES - 1)
    return itertools.chain(held_states(form), [step(form, "pen", free), step(form, "delete", free)] * 250_000)


def clipped(form):
    """A clip of one kept box and sixteen cuts, four in each of four rows."""
    yield step(form, "keep", 1, 1, SIDE - 1, SIDE - 1)
    for row, column in itertools.product(range(4), repeat=2):
        left, top = 16 * column + 6, 16 * row + 6
        yield step(form, "cut", left, top, left + 4, top + 4)


def clip(form):
    """1,000,000 pixels in that clip."""
    return itertools.chain(clipped(form), pixels(form))


def saves(saved, restored, number):
    """500,000 saves and restores of a state with that clip: so many saves, and so many restores by a number, in turn."""

    def records(form):
        """The records."""
        turn = [step(form, "save")] * saved + [step(form, "restore", number)] * restored
        return itertools.chain(clipped(form), itertools.islice(itertools.cycle(turn), 500_000))

    return records


KINDS = {
    "1,000,000 pixels": pixels,
    "creates and deletes, first and last": slots_ends,
    "creates and deletes, the last": slots_last,
    "creates and deletes, upwards": slots_up,
    "creates and deletes, downwards": slots_down,
    "creates and deletes, in any order": slots_random,
    "selects, creates, deletes under 256 states": states,
    "creates and deletes under 256 states": states_deletes,
    "1,000,000 pixels under sixteen cuts": clip,
    "saves and restores, one by one": saves(1, 1, -1),
    "saves and restores, 256 deep": saves(STATES, STATES, -1),
    "256 saves and one restore of the oldest": saves(STATES, 1, 1),
}


def file_of(form, records):
    """What writes a file piece by piece."""

    def pieces():
        """Its headers, its records and its end."""
        yield form.file([], SIDE, HANDLES)[: -len(form.end)]
        yield from records(form)
        yield form.end

    return pieces


def rows(bench):
    """All of them."""
    paths = {(form.name, name): bench.write(file_of(form, make)) for form in FORMS.values() for name, make in KINDS.items()}
    seconds = least_seconds({key: bench.show(path, SIDE) for key, path in paths.items()})
    for (form, name), path in paths.items():
        memory = memory_of(bench.show(path, SIDE)), path.stat().st_size + 3 * SIDE * SIDE + 16 * MIB
        beside = seconds[form, "1,000,000 pixels"]
        yield Row(f"{form}: {name}", "s", seconds[form, name], beside, "1,000,000 pixels", GOAL, None, memory)
