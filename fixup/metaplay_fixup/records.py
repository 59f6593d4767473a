"""How records of both formats are laid out: one table entry for each kind, by which records are read and written.

A record of WMF begins with its size in words and its function ([MS-WMF] 2.3), one of EMF with its type and its size in
bytes ([MS-EMF] 2.3). Fixed fields follow one another without gaps; then come lists of points, or bytes that a module
reads for itself.
"""

from __future__ import annotations

import struct
from collections.abc import Mapping, Sequence
from dataclasses import dataclass
from enum import Enum

from .affine import Point
from .faults import Fault, FaultName


_HEAD_NUMBERS = 2


class Layout(Enum):
    """The head of a record: of WMF or of EMF."""

    WMF = "wmf"
    EMF = "emf"

    @property
    def head_size(self) -> int:
        """The bytes of a head."""
        return 8 if self is Layout.EMF else 6

    @property
    def head_codes(self) -> str:
        """The two numbers of a head, as letters of the module `struct`."""
        return "II" if self is Layout.EMF else "IH"

    def number(self, data: bytes) -> int:
        """The type or function of a record that has a whole head."""
        return int.from_bytes(data[:4], "little") if self is Layout.EMF else int.from_bytes(data[4:6], "little")


class PointsIn(Enum):
    """What follows the fixed fields: nothing of note, a list of points, or lists of points with their counts."""

    NONE = ""
    LIST = "points"
    LISTS = "lists"


class Fields:
    """The fixed fields of one record, by name."""

    __slots__ = ("_places", "_numbers")

    def __init__(self, places: Mapping[str, int], numbers: Sequence[int]) -> None:
        self._places = places
        self._numbers = numbers

    def __getitem__(self, name: str) -> int:
        """The number of a field. Singles are their 32 bits."""
        return self._numbers[self._places[name]]

    def several(self, *names: str) -> tuple[int, ...]:
        """The numbers of fields, in the order of the names."""
        return tuple(self[name] for name in names)

    def point(self, x: str = "x", y: str = "y") -> Point:
        """The point of two fields."""
        return Point(self[x], self[y])


@dataclass(frozen=True, slots=True)
class Kind:
    """A kind of record: its number and name in the standard, its fixed fields, and what points follow them.

    `fixed` is the head with the fields, whose places are counted with the two numbers of the head. `end` is where the
    fields end, in bytes from the record's start.
    """

    layout: Layout
    number: int
    name: str
    places: Mapping[str, int]
    fixed: struct.Struct
    end: int
    points_in: PointsIn
    point_code: str

    def read(self, data: bytes) -> Fields:
        """The fixed fields of a record. Raises Fault BadParams if they aren't all there."""
        if len(data) < self.end:
            raise Fault(FaultName.BadParams, "fields are missing")
        return Fields(self.places, self.fixed.unpack_from(data))

    def write(self, *numbers: int, rest: bytes = b"") -> bytes:
        """A record of the numbers of all fixed fields and the bytes after them.

        Raises Fault OffPlane if a number doesn't fit its field.
        """
        size = self.end + len(rest)
        head = (self.number, size) if self.layout is Layout.EMF else (size // 2, self.number)
        try:
            return self.fixed.pack(*head, *numbers) + rest
        except struct.error as error:
            raise Fault(FaultName.OffPlane, f"{self.name}: {error}") from error

    def changed(self, data: bytes, **numbers: int) -> bytes:
        """The record with other numbers in some of its fixed fields. Raises Fault as `read` and `write` do."""
        fields = self.read(data)
        return self.write(*(numbers.get(name, fields[name]) for name in self.places), rest=data[self.end :])

    def point_lists(self, data: bytes) -> list[list[Point]]:
        """The lists of points after the fixed fields.

        Raises Fault BadParams if counts don't add up or points are missing.
        """
        fields = self.read(data)
        if self.points_in is PointsIn.LIST:
            return [_points(data, self.end, fields["count"], self.point_code)]
        code = "I" if self.layout is Layout.EMF else "H"
        counts = numbers_at(data, self.end, fields["list_count"], code)
        total = sum(counts)
        if "total" in self.places and fields["total"] != total:
            raise Fault(FaultName.BadParams, "counts of points don't add up")
        at = self.end + struct.calcsize(code) * len(counts)
        return _parted(_points(data, at, total, self.point_code), counts)


def numbers_at(data: bytes, at: int, count: int, code: str) -> tuple[int, ...]:
    """So many numbers of one type (a letter of the module `struct`) from a place on.

    Raises Fault BadParams if they aren't there.
    """
    if at < 0 or count < 0 or at + struct.calcsize(code) * count > len(data):
        raise Fault(FaultName.BadParams, "a list goes past the record's end")
    return struct.unpack_from(f"<{count}{code}", data, at)


def _points(data: bytes, at: int, count: int, code: str) -> list[Point]:
    numbers = numbers_at(data, at, 2 * count, code)
    return [Point(x, y) for x, y in zip(numbers[::2], numbers[1::2])]


def _parted(points: list[Point], counts: Sequence[int]) -> list[list[Point]]:
    lists, at = [], 0
    for count in counts:
        lists.append(points[at : at + count])
        at += count
    return lists


class Table:
    """The kinds of one format, by number."""

    def __init__(self, layout: Layout, lines: str) -> None:
        """Reads a table: a line has a number, a name, and fields as `name:code`; codes are those of `struct`.

        A field `points:code` or `lists:code` at the end says how the points after the fields are stored.
        """
        kinds = [_kind(layout, line.split()) for line in lines.strip().splitlines()]
        self.layout = layout
        self._kinds = {kind.number: kind for kind in kinds}
        self._named = {kind.name: kind for kind in kinds}

    def find(self, number: int) -> Kind | None:
        """The kind of a type or function, or None if the standard has none."""
        return self._kinds.get(number)

    def named(self, name: str) -> Kind:
        """The kind with a name of the standard. Raises KeyError if there is none."""
        return self._named[name]


def _kind(layout: Layout, words: list[str]) -> Kind:
    number = int(words[0], 16 if layout is Layout.WMF else 10)
    fields = [tuple(word.split(":")) for word in words[2:]]
    listed = [field for field in fields if field[0] in ("points", "lists")]
    plain = [field for field in fields if field not in listed]
    points_in = PointsIn(listed[0][0]) if listed else PointsIn.NONE
    places = {name: place for place, (name, _) in enumerate(plain, _HEAD_NUMBERS)}
    fixed = struct.Struct("<" + layout.head_codes + "".join(code for _, code in plain))
    return Kind(layout, number, words[1], places, fixed, fixed.size, points_in, listed[0][1] if listed else "")
