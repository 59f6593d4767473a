"""Files by chance that are given to the commands that don't play: long descriptions, faults of many sorts, comments with much data, many drawings under
thin and wide pens; and certificates that are there already, for this size or another, or that belong to another file. If one sort takes longer, a count
rises by some hundredths."""

import functools
import random
from collections.abc import Callable, Iterator

from instruction_files import COMMENT, Counted
from print_files import PRINT
from writers import EMF, WMF, Form, emf_file, i32, u16, u32

# How many files there are, the side of each frame, and the side that a certificate is for, where it's for another size.
FILES_MADE, SIDE, OTHER = 60, 64, 32

# What is asked: reports and listings, new certificates, those that are there already, and checks of two files that have nothing to do with each other.
WAYS = ["info", "certify", "list", "kept", "check", "other size", "prepare"]

DRAWINGS = ["pixel 9 9", "line 9 50", "rectangle 1 1 30 30", "polyline 1 1 40 40 5 60", "polygon 1 1 30 30 5 40", "move 3 3"]


def drawn(chance: random.Random, form: Form) -> list[bytes]:
    """Drawings, some of them under a wide pen, and what makes none."""
    pen = form.records(f"styled_pen 2 0 {chance.choice([1, 1, 3, 20])} 0x8040; select 2") if chance.random() < 0.7 else []
    script = "; ".join(chance.choices(DRAWINGS, k=8))
    records = form.records(script) * chance.choice([2, 50, 300])
    return [*form.records("solid_pen 0 0x102030; solid_brush 1 0x206040"), *pen, *records]


def unread(chance: random.Random, form: Form) -> list[bytes]:
    """Comments, and in EMF some with much data."""
    if form is WMF:
        return WMF.records("save; restore -1") * chance.choice([0, 20, 400])
    return [EMF.record(COMMENT, u32(length) + bytes(length)) for length in chance.choices([4, 40, 4_000, 60_000], k=chance.choice([0, 3, 9]))]


def rejected(chance: random.Random, form: Form) -> list[bytes]:
    """Records that are rejected, of few numbers or of many."""
    numbers = chance.choice([1, 30, 500])
    return [form.record(0x3000 + nth % numbers) for nth in range(chance.choice([1, 100, 1_000]))]


def file_of(chance: random.Random, form: Form, records: list[bytes]) -> bytes:
    """A file of these records, in EMF with a description, which may be long or end in zeros."""
    if form is WMF:
        return WMF.file(records, SIDE, 0)
    words = "a program\\0a picture".encode("utf-16-le") * chance.choice([0, 1, 30, 300]) + bytes(2 * chance.choice([0, 2, 100, 5_000]))
    words += bytes(-len(words) % 4)
    changes = {"right": i32(SIDE - 1), "bottom": i32(SIDE - 1), "handles": u16(16), "description": u32(len(words) // 2, 88 if words else 0)}
    return emf_file([*records, EMF.end], words, **changes)


def asked(number: int) -> Counted:
    """The file of this number, in WMF and in EMF by turns, and what is asked about it."""
    chance, form, way = random.Random(20_000 + number), (WMF, EMF)[number % 2], WAYS[number % len(WAYS)]
    records = drawn(chance, form) + unread(chance, form)
    is_rejected = way not in ("kept", "other size") and chance.random() < 0.5
    if is_rejected:
        records += rejected(chance, form)
    given = file_of(chance, form, records)
    made = Counted(given, SIDE, SIDE, command=way, options=PRINT if number % 4 > 1 else (), status=int(is_rejected))
    if way == "list":
        return made._replace(status=0)
    if way in ("kept", "other size"):
        return made._replace(command="certify", kept=True, kept_for=0 if way == "kept" else OTHER, status=0 if way == "kept" else 3)
    if way == "check":
        other = file_of(chance, WMF, drawn(chance, WMF) + drawn(chance, WMF))
        return made._replace(certified=other, status=1)
    return made


def makers() -> Iterator[tuple[str, Callable[[], Counted]]]:
    """The name and the maker of each file, half of them under the print profile."""
    for number in range(FILES_MADE):
        yield f"asked by chance, {number}", functools.partial(asked, number)


FILES = dict(makers())
