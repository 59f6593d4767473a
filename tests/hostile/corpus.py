"""The files that hostile ones are made from: samples, random files of drawings, files of each kind of record at the edges of its values, and
files that make, select, delete, save and restore at random."""

import random
from functools import cache

from built import SAMPLES
from metafile.fields import joined
from metafile.files import EMF_END, WMF_END, emf_file, placeable_file, plain_file, window_extent
from metafile.scripts import EMF, FORMS, WMF
from reading.commands import Asked
from reference_test import Maker
from standards.emf import EMF as EMF_KINDS
from standards.wmf import WMF as WMF_KINDS

# How many files of each sort there are, of each format.
DRAWN, OF_KINDS, OF_STATES = 150, 150, 150

# Samples longer than this are left to tests of their own.
LONGEST = 6_000

# Values of records' fields longer than this are left to tests of their own.
LONGEST_RECORD = 600


def drawn(form, nth):
    """The records of a file of drawings."""
    maker = Maker(form, f"{form.name} hostile {nth}")
    return maker.axes_and_file("; ".join(" ".join(map(str, [name, *words])) for name, words in maker.steps()))[1]


@cache
def kinds_of(is_emf):
    """A record for each kind of a format and each of its values at their edges."""
    made, form = [], EMF_KINDS if is_emf else WMF_KINDS
    for kind in form.kinds:
        for changes in [{}, *(change for change, _ in kind.others)]:
            parameters = joined(kind.least, changes)
            if len(parameters) <= LONGEST_RECORD:
                made.append(form.record(kind.number, parameters))
    return made


def of_kinds(is_emf, chance):
    """A file of some of these."""
    records = grown(chance, lambda records: file_of(is_emf, records), lambda: [chance.choice(kinds_of(is_emf))])
    if not is_emf and chance.random() < 0.4:
        return plain_file([window_extent(chance.randint(1, 9), -4), *records, WMF_END])
    return file_of(is_emf, records)


def file_of(is_emf, records):
    """A file of some records."""
    return emf_file([*records, EMF_END]) if is_emf else placeable_file([*records, WMF_END])


def grown(chance, file_of, more):
    """Records for a file, one after another, of which few are refused."""
    records = []
    for _ in range(chance.randint(3, 22)):
        new = [*records, *more()]
        if chance.random() < 0.02 or Asked(file_of(new)).prepared((9, 9)):
            records = new
    return records


def near(chance, count):
    """Numbers near 0."""
    return [chance.randint(-2, 6) for _ in range(count)]


# What a step of states does, by its name: with how many numbers near 0 behind it, or how often one of paths comes.
POINTS = {"window_origin": 2, "window_extent": 2, "viewport_origin": 2, "viewport_extent": 2, "move": 2, "line": 2, "cut": 4, "keep": 4}
POINTS |= {"rectangle": 4, "polygon": 6, "polyline": 4}
OFFSETS = {"offset_window": 2, "offset_viewport": 2}
PATH_STEPS = {"begin_path": 2, "end_path": 3, "close_figure": 2, "fill_path": 2, "stroke_path": 2, "stroke_and_fill_path": 2}
PATH_STEPS |= {"abort_path": 1, "unclip": 1}
WIDTHS = [0, 1, 2, 2, 3, 3, 4, 9, 40, 300, 5000, -2]
OBJECTS = ["pen", "brush", "font", "palette", "select", "select", "select", "delete", "delete", "select_palette"]


def wide_pen(form, chance):
    """A step that makes a pen of a width, which in EMF may be that of the page or not."""
    index, width = chance.randint(0, 4), chance.choice(WIDTHS)
    if form is EMF and chance.random() < 0.3:
        return f"styled_long_pen {index} {chance.choice([0, 0x10000, 0x10000])} {abs(width)} 0 0x0000FF"
    return f"styled_pen {index} 0 {width} 0x0000FF"


def step(form, chance):
    """A step that changes the state, or draws by it."""
    sort = chance.randrange(10)
    if sort < 4 and chance.random() < 0.15:
        return wide_pen(form, chance)
    if sort < 4:
        return f"{chance.choice(OBJECTS)} {chance.randint(0, 4)}"
    if sort == 4:
        return chance.choice(["save", "save", f"restore {chance.choice([-1, -1, -2, 1, 2, 0])}"])
    if sort == 5:
        return f"map_mode {chance.choice([1, 7, 8])}"
    if sort == 6 and form is EMF:
        return chance.choices(list(PATH_STEPS), PATH_STEPS.values())[0]
    if sort == 7 and form is EMF:
        return f"select_at {0x80000000 + chance.randrange(21)}"
    name, count = chance.choice([*POINTS.items(), *(OFFSETS.items() if form is WMF else [])])
    return " ".join(map(str, [name, *near(chance, count)]))


def of_states(form, chance):
    """A file of such steps."""
    frame, handles = (chance.randint(1, 9), chance.randint(1, 9)), chance.choice([4, 6])
    records = grown(chance, lambda records: form.file(records, frame, handles), lambda: form.records(step(form, chance)))
    return form.file(records, frame, handles)


@cache
def corpus():
    """All files."""
    made = [path.read_bytes() for path in sorted(SAMPLES.glob("*.?mf"))]
    made = [given for given in made if len(given) <= LONGEST]
    made += [drawn(form, nth) for form in FORMS for nth in range(DRAWN)]
    chance = random.Random("of kinds and states")
    made += [of_kinds(is_emf, chance) for is_emf in (False, True) for _ in range(OF_KINDS)]
    return made + [of_states(form, chance) for form in FORMS for _ in range(OF_STATES)]
