"""The converted file's records, with what each of them comes from."""

from __future__ import annotations

from collections.abc import Sequence
from dataclasses import dataclass
from enum import Enum

from .faults import Fault, FaultName
from .reader import LONGEST_FILE
from .text import Box, Note


class Action(Enum):
    """What became of a record that was replaced."""

    OUTLINES = "outlines"
    TEXT_BOX = "text box"
    BLANK = "blank"
    LINES = "lines"
    CURVE = "curve"
    PATH = "path"
    WORLD = "world"
    BITMAP = "bitmap"
    HIDDEN_BITMAP = "hidden bitmap"
    CLIP = "clip"
    COLOUR = "colour"
    EXTENT = "extent"
    MAP_MODE = "map mode"
    EMF_PLUS = "EMF+"
    STROKE = "stroke"
    DELETION = "deletion"


@dataclass(frozen=True, slots=True)
class Replacement:
    """A record of the original that was replaced: its number from 0, its kind's name, and what became of it.

    `box` is what text covers, in device units; `note` is about text too.
    """

    record: int
    kind: str
    action: Action
    box: Box | None = None
    note: Note | None = None


class Source(Enum):
    """Where an entry of the output comes from."""

    KEPT = "kept"
    REPLACED = "replaced"
    INSERTED = "inserted"


@dataclass(slots=True)
class Entry:
    """Records of the output that stand in the place of one record of the original, or before it if they were
    inserted.
    """

    number: int
    source: Source
    records: list[bytes]


class Output:
    """The entries in the order of the original's records."""

    def __init__(self) -> None:
        self.entries: list[Entry] = []
        self.replacements: list[Replacement] = []
        self._size = 0

    def add(self, number: int, source: Source, records: Sequence[bytes]) -> Entry:
        """Adds an entry. Raises Fault TooLong if the output would be longer than the checker allows."""
        entry = Entry(number, source, list(records))
        self._count(records)
        self.entries.append(entry)
        return entry

    def put_in(self, entry: Entry, at: int, records: Sequence[bytes]) -> None:
        """Puts more records into an entry, at a place among its records. Raises Fault TooLong as `add` does."""
        self._count(records)
        entry.records[at:at] = records

    def _count(self, records: Sequence[bytes]) -> None:
        self._size += sum(map(len, records))
        if self._size > LONGEST_FILE:
            raise Fault(FaultName.TooLong, "the converted file")

    def report(self, number: int, kind: str, action: Action, box: Box | None = None, note: Note | None = None) -> None:
        """Reports that a record was replaced."""
        self.replacements.append(Replacement(number, kind, action, box, note))

    @property
    def is_changed(self) -> bool:
        """Whether any record was replaced or inserted."""
        return any(entry.source is not Source.KEPT for entry in self.entries)
