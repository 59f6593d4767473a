"""What is known of a file without a certificate (docs/FORMATS.md): the line that `info` writes about it."""

import json
from collections import Counter
from fractions import Fraction
from math import floor

from reading.commands import LARGEST_SIDE, Asked, codes
from reading.fields import Record, text_of
from reading.listing import EMF_KINDS, WMF_KINDS
from reading.opening import EMF, PLACEABLE, form_of
from reading.rules import CORE
from reference.pixels import Refused

# The names in a line.
NAMES = [
    "description",
    "dots_per_inch",
    "drawings",
    "emf_frame",
    "error",
    "fault",
    "faults",
    "file",
    "format",
    "frame",
    "notes",
    "number",
    "objects",
    "plays",
    "record",
    "record_name",
    "records",
    "size",
]

# Those that a line has only under the print profile.
PRINT_NAMES = ["allowed", "profile"]

# The largest number in a size.
LARGEST = (1 << 32) - 1


def nearest(number):
    """The nearest whole number; a half is rounded up."""
    return floor(number + Fraction(1, 2))


def short(numbers):
    """The nearest whole numbers, if none has more than 32 bits."""
    found = [nearest(it) for it in numbers]
    return None if max(found) > LARGEST else found


def paper(file, form, frame):
    """The dots per inch on both axes and the frame's size in hundredths of a millimetre, each if the headers give it."""
    head = Record(file)
    if form is PLACEABLE:
        dots = [Fraction(head.u16(14))] * 2
    elif form is EMF and all(head.u32(at) for at in (72, 76, 80, 84)):
        dots = [Fraction(head.u32(at) * 254, head.u32(at + 8) * 10) for at in (72, 76)]
    else:
        return None, None
    if 0 in dots:
        return None, None
    return short(dots), short([side * 2540 / it for side, it in zip(frame, dots, strict=True)])


def description(file, form):
    """The text in the header of an EMF file that names the program and the picture, without the NULs at its end."""
    if form is not EMF or len(file) < 88:
        return None
    size, count, place = (int.from_bytes(file[at : at + 4], "little") for at in (4, 60, 64))
    if size > len(file) or place < 88 or place + 2 * count > size:
        return None
    try:
        return file[place : place + 2 * count].decode("utf-16-le").rstrip("\0") or None
    except UnicodeDecodeError:
        return None


class Counts:
    """The records of a file that begins like one of a form, with their notes and faults."""

    def __init__(self, file, form, stops):
        self.file, self.form, self.stops = file, form, dict(stops)
        self.records, self.notes, self.faults = 0, Counter(), Counter()
        self.count_all()

    def count_all(self):
        """Counts records up to the end record, or to the fault by which they break."""
        place, kind = self.form.records, None
        while kind != self.form.framing.end:
            try:
                kind, data = self.form.framing.front(self.file, place, self.records)
            except Refused as refused:
                self.faults[text_of(refused)] += 1
                return
            place += len(data)
            self.count(kind, data, place < len(self.file))
            self.records += 1

    def count(self, kind, data, is_followed):
        """Counts the notes of a record and its fault."""
        try:
            step = self.form.step_of(kind, Record(data), self.records)
        except Refused as refused:
            self.faults[text_of(refused)] += 1
            return
        self.notes.update(step.notes)
        self.notes.update(["AfterEnd"] * (is_followed and kind == self.form.framing.end))
        if self.records in self.stops:
            self.faults[self.stops[self.records]] += 1


def fault_parts(text):
    """The name of a fault, and the kind of record that it refers to, or none."""
    name, _, kind = text.partition(" ")
    return name, int(kind) if kind else None


def record_name(form, kind):
    """The standard's name of a kind of record in a file of a form, or none."""
    if form is None or kind is None:
        return None
    return (EMF_KINDS if form is EMF else WMF_KINDS).names.get(kind)


def counted(faults, form):
    """All faults with their counts, in the order of their codes and kinds."""
    parts = [(*fault_parts(text), count) for text, count in faults.items()]
    parts.sort(key=lambda it: (codes()[it[0]], it[1] or 0))
    return [{"count": count, "fault": name, "number": kind, "record_name": record_name(form, kind)} for name, kind, count in parts]


def line_of(members, rules):
    """The line with these members, by rules."""
    names = sorted([*NAMES, *PRINT_NAMES]) if rules.is_print else NAMES
    members = members | {"profile": "print"}
    return json.dumps({name: members.get(name) for name in names}, separators=(",", ":"), ensure_ascii=False).encode() + b"\n"


def unread(name, error, rules=CORE):
    """The line of a file that wasn't read."""
    return line_of({"file": name, "error": error}, rules)


def sizes(file, opened):
    """What the headers say of sizes."""
    dots, size = paper(file, opened.form, opened.frame)
    edges = Record(file).signed(24, 4, 4) if opened.form is EMF else None
    return {"frame": opened.frame, "dots_per_inch": dots, "size": size, "emf_frame": edges}


def playing(asked, form):
    """How the run of a file of a form on the largest surface ends."""
    certifier, refusal = asked.certified((LARGEST_SIDE, LARGEST_SIDE))
    if refusal:
        name, kind = fault_parts(refusal[0])
        return {"plays": False, "fault": name, "number": kind, "record": refusal[1], "record_name": record_name(form, kind)}
    certificate = asked.prepared((LARGEST_SIDE, LARGEST_SIDE))
    return {"plays": True, "allowed": asked.steps.uses(certifier), "drawings": len(certificate.entries), "objects": certificate[4]}


def info(name, file, rules=CORE):
    """The line of a file, and the status of `info` for it."""
    asked, form = Asked(file, rules), form_of(file)
    faults, notes, members = Counter(), Counter(), {"file": name, "description": description(file, form)}
    stops = []
    if asked.refusal:
        faults[asked.refusal[0]] += 1
    else:
        stops = asked.steps.faults(1, LARGEST_SIDE)
        notes.update(asked.steps.opened.notes)
        members |= sizes(file, asked.steps.opened)
    if form:
        counts = Counts(file, form, stops)
        faults, notes = faults + counts.faults, notes + counts.notes
        members |= {"format": form.name, "records": counts.records}
    members |= {"faults": counted(faults, form), "notes": dict(sorted(notes.items())), **playing(asked, form)}
    return line_of(members, rules), 0 if members["plays"] else 1
