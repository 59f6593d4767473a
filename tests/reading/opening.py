"""Opens files, and finds their records."""

from collections.abc import Callable
from typing import NamedTuple

from reading import emf, wmf
from reading.fields import Record, fault
from reading.rules import CORE, Rules
from reference.pixels import Refused

LONGEST_FILE = 1 << 26
MOST_RECORDS = 1 << 20
LONGEST_FRAME = 1 << 28


class Framing(NamedTuple):
    """How records of a format are told apart: how many bytes a head has, where the size stands and the kind, how long the kind is, how many
    bytes a size counts, and of how many it is a multiple; and the kind that ends a file."""

    head: int
    size_at: int
    kind_at: int
    kind_length: int
    unit: int
    multiple: int
    end: int

    def front(self, file, place, number):
        """The kind and the bytes of the record at a place, or its first fault."""
        if number >= MOST_RECORDS:
            raise fault("TooManyRecords")
        if len(file) - place < self.head:
            raise fault("NoEnd")
        head = Record(file[place : place + self.head])
        size = self.unit * head.u32(self.size_at)
        if size < self.head or size % self.multiple:
            raise fault("ShortRecord")
        if size > len(file) - place:
            raise fault("PastEnd")
        return head.number(self.kind_at, self.kind_length), file[place : place + size]


WMF_FRAMING = Framing(6, 0, 4, 2, 2, 2, 0)
EMF_FRAMING = Framing(8, 4, 0, 4, 1, 4, 14)


class Form(NamedTuple):
    """A form of files: its name in reports, how records of it are told apart, what reads the step of one, and where the first one begins."""

    name: str
    framing: Framing
    step_of: Callable
    records: int

    @property
    def is_emf(self):
        """Whether its records are those of EMF."""
        return self.framing is EMF_FRAMING


PLACEABLE = Form("placeable", WMF_FRAMING, wmf.step_of, 40)
PLAIN = Form("wmf", WMF_FRAMING, wmf.step_of, 18)
EMF = Form("emf", EMF_FRAMING, emf.step_of, 0)


class Opened(NamedTuple):
    """An opened file: its form, the sides of its frame, the numbers of each axis of its page at the start (origin and extent of the window, and of
    the viewport, and the corner), how many indexes it may use, where it says so, what is noted of its headers, and the rules."""

    form: Form
    frame: tuple
    axes: tuple
    handles: int | None
    notes: list
    rules: Rules = CORE

    def parts(self):
        """How many parts of the plane a unit of its frame has."""
        return self.rules.parts(self.frame)


def is_standard_header(head, at):
    """META_HEADER begins here by its type and its size."""
    return head.u16(at) in (1, 2) and head.u16(at + 2) == 9


def has_version(head, at):
    """META_HEADER has one of its versions."""
    return head.u16(at + 4) in (0x0100, 0x0300)


def size_notes(head, at):
    """META_HEADER tells another size than that of the file from here on."""
    return [] if 2 * head.u32(at + 6) == len(head.data) - at else ["SizeField"]


def opened_placeable(head):
    """A placeable file."""
    if len(head.data) < 40:
        raise fault("ShortHeader")
    if not (is_standard_header(head, 22) and has_version(head, 22)):
        raise fault("BadHeader")
    left, top, right, bottom = head.signed(6, 4, 2)
    sides = right - left, bottom - top
    if 0 in sides:
        raise fault("NoFrame")
    checksum = 0
    for at in range(0, 20, 2):
        checksum ^= head.u16(at)
    notes = ["PlaceableChecksum"] * (checksum != head.u16(20)) + size_notes(head, 22)
    notes += ["PlaceableFields"] * (head.u16(4) != 0 or head.u32(16) != 0)
    frame = tuple(map(abs, sides))
    axes = tuple((near, side, 0, abs(side), 0) for near, side in zip((left, top), sides, strict=True))
    return Opened(PLACEABLE, frame, axes, None, notes)


def first_extent(file, place):
    """The first extent of a window among records that has both its numbers, and no 0."""
    number = 0
    while True:
        try:
            kind, data = WMF_FRAMING.front(file, place, number)
        except Refused:
            raise fault("NoFrame") from None
        if kind == WMF_FRAMING.end:
            raise fault("NoFrame")
        extent = Record(data).signed(6, 2, 2)[::-1] if kind == 0x020C and len(data) >= 10 else [0]
        if 0 not in extent:
            return extent
        place, number = place + len(data), number + 1


def opened_plain(head):
    """A plain WMF file."""
    if len(head.data) < 18:
        raise fault("ShortHeader")
    if not has_version(head, 0):
        raise fault("BadHeader")
    extent = first_extent(head.data, PLAIN.records)
    axes = tuple((0, side, 0, abs(side), 0) for side in extent)
    return Opened(PLAIN, tuple(map(abs, extent)), axes, None, size_notes(head, 0))


def opened_emf(head):
    """An EMF file, whose header is its record 0."""
    if len(head.data) < 88:
        raise fault("ShortHeader")
    if head.u32(4) < 88 or head.u32(4) % 4:
        raise fault("BadHeader")
    if len(head.data) < head.u32(4):
        raise fault("ShortHeader")
    left, top, right, bottom = head.signed(8, 4, 4)
    frame = max(1, right - left + 1), max(1, bottom - top + 1)
    if max(frame) > LONGEST_FRAME:
        raise fault("NoFrame")
    notes = [] if head.u32(48) == len(head.data) else ["SizeField"]
    return Opened(EMF, frame, ((0, 1, 0, 1, left), (0, 1, 0, 1, top)), head.u16(56), notes)


def form_of(file):
    """The form of a file, by the bytes that it begins with, or none."""
    head = Record(file)
    if len(file) >= 4 and head.u32(0) == 0x9AC6CDD7:
        return PLACEABLE
    if len(file) >= 44 and head.u32(0) == 1 and file[40:44] == b" EMF":
        return EMF
    if len(file) >= 4 and is_standard_header(head, 0):
        return PLAIN
    return None


OPENERS = {PLACEABLE: opened_placeable, PLAIN: opened_plain, EMF: opened_emf}


def opened(file):
    """What a file is opened to, or the first fault."""
    if len(file) > LONGEST_FILE:
        raise fault("TooLong")
    form = form_of(file)
    if form is None:
        raise fault("NotMetafile")
    return OPENERS[form](Record(file))
