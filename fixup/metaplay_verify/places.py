"""The marked places of a fixed file, and whether all records outside of them are the original's.

A mark is a comment of 16 bytes: `MPFX`, its kind (1 begins a place, 2 ends it), the number of the first record of the
original that was replaced, and how many were. Comments of kind 3 before the end record are stamps with a text in JSON.
"""

from __future__ import annotations

import hashlib
import json
import re
import struct
from dataclasses import dataclass

from .files import Metafile, Refused, number

_SIGNATURE = b"MPFX"
_BEGIN, _END, _STAMP = 1, 2, 3
_FONT_STAMP = re.compile(r'\{"family":"(?:[^"\\]|\\.)*","sha256":"[0-9a-f]{64}"\}')


@dataclass(frozen=True, slots=True)
class Place:
    """A place of the fixed file, whose records begin with the number `begin`. They stand for `count` records of the
    original from `first` on.
    """

    first: int
    count: int
    begin: int
    records: list[bytes]


class _Walk:
    """Goes through the fixed file's records beside the original's; `at` is the original's next one.

    A record that is the original's next one is always taken for it, even if it looks like a mark.
    """

    def __init__(self, original: Metafile, fixed: Metafile) -> None:
        self.original = original
        self.fixed = fixed
        self.places: list[Place] = []
        self.stamps: list[bytes] = []
        self.at = 0
        self.open: Place | None = None
        self._after_place = False

    def take(self, here: int) -> None:
        """Takes the fixed file's record of a number."""
        record = self.fixed.records[here]
        if self.open is not None:
            self._take_inside(self.open, here, record)
        elif record == self.original.records[self.at]:
            self.at += 1
            self._after_place = False
        elif self.stamps and _mark_kind(self.fixed, record) != _STAMP:
            raise Refused("a record follows the stamps", here)
        elif _mark_kind(self.fixed, record) == _STAMP:
            self._take_stamp(here, record)
        elif _mark_kind(self.fixed, record) == _BEGIN:
            self._begin(here, record)
        elif _mark_kind(self.fixed, record) is not None:
            raise Refused("a mark ends no place", here)
        else:
            raise Refused(f"the record is neither the original's record {self.at} nor marked", here)

    @property
    def _is_at_end(self) -> bool:
        return self.at == len(self.original.records) - 1

    def _take_inside(self, place: Place, here: int, record: bytes) -> None:
        if _mark_kind(self.fixed, record) is None:
            place.records.append(record)
            return
        if record != _mark(self.fixed, _END, place.first, place.count):
            raise Refused("another mark stands in a place", here)
        if not place.count and not place.records:
            raise Refused("a place is empty and replaces nothing", here)
        self.places.append(place)
        self.at += place.count
        self.open = None
        self._after_place = True

    def _begin(self, here: int, record: bytes) -> None:
        at = 20 if self.fixed.is_emf else 18
        first, count = number(record, at), number(record, at + 4)
        if record != _mark(self.fixed, _BEGIN, first, count):
            raise Refused("a mark has the wrong form", here)
        if first + count > len(self.original.records) - 1:
            raise Refused("a mark names records that the original doesn't have", here)
        if first < self.at:
            raise Refused("a mark names records that stand before it", here)
        if first > self.at:
            raise Refused(f"records from {self.at} to {first - 1} of the original are missing before a mark", here)
        if self._after_place:
            raise Refused("a place follows another without a record between", here)
        self.open = Place(first, count, here + 1, [])

    def _take_stamp(self, here: int, record: bytes) -> None:
        if not self._is_at_end:
            raise Refused("a stamp doesn't stand before the end", here)
        self.stamps.append(record)


def places_of(original: Metafile, fixed: Metafile, data: bytes) -> list[Place]:
    """The places of a fixed file. `data` is the original. The header of an EMF isn't looked at. Raises Refused."""
    walk = _Walk(original, fixed)
    walk.at = start = 1 if fixed.is_emf else 0
    for here in range(start, len(fixed.records)):
        walk.take(here)
    last = len(fixed.records) - 1
    if walk.open is not None:
        raise Refused("a place has no end", last)
    if not walk.places:
        raise Refused("nothing is marked, but the files differ")
    if fixed.tail:
        raise Refused("bytes follow the end record", last)
    _check_stamps(fixed, walk.stamps, hashlib.sha256(data).hexdigest())
    return walk.places


def _mark_kind(file: Metafile, record: bytes) -> int | None:
    """The kind of a comment that has the signature ([MS-EMF] 2.3.3.1, [MS-WMF] 2.3.6.1), else None."""
    at = 12 if file.is_emf else 10
    is_comment = file.kind(record) == 70 if file.is_emf else file.kind(record) == 0x0626 and number(record, 6, 2) == 15
    return number(record, at + 4) if is_comment and record[at : at + 4] == _SIGNATURE else None


def _comment(file: Metafile, data: bytes) -> bytes:
    if file.is_emf:
        padded = data + bytes(-len(data) % 4)
        return struct.pack("<III", 70, 12 + len(padded), len(data)) + padded
    padded = data + bytes(len(data) % 2)
    return struct.pack("<IHHH", 5 + len(padded) // 2, 0x0626, 15, len(data) & 0xFFFF) + padded


def _mark(file: Metafile, kind: int, first: int, count: int) -> bytes:
    return _comment(file, _SIGNATURE + struct.pack("<III", kind, first, count))


def _check_stamps(fixed: Metafile, stamps: list[bytes], digest: str) -> None:
    """The first stamp names the original, each other one a font, in the order of their families."""
    first = len(fixed.records) - 1 - len(stamps)
    wanted = _comment(fixed, _SIGNATURE + struct.pack("<I", _STAMP) + b'{"original":"%s"}' % digest.encode())
    if not stamps:
        raise Refused("the stamp with the original's SHA-256 is missing", len(fixed.records) - 1)
    if stamps[0] != wanted:
        raise Refused("the first stamp hasn't the original's SHA-256", first)
    before: list[str] = []
    for place, stamp in enumerate(stamps[1:], first + 1):
        members = _font(fixed, stamp)
        if members is None or members <= before:
            raise Refused("a stamp of a font has the wrong form or order", place)
        before = members


def _font(fixed: Metafile, stamp: bytes) -> list[str] | None:
    """The family and the SHA-256 of a font's stamp, or None if it has another form."""
    at = 12 if fixed.is_emf else 10
    size = number(stamp, 8) if fixed.is_emf else number(stamp, 8, 2)
    data = stamp[at : at + size]
    try:
        text = data[8:].decode("ascii")
        is_font = _FONT_STAMP.fullmatch(text) is not None and stamp == _comment(fixed, data)
        return [str(member) for member in json.loads(text).values()] if is_font else None
    except ValueError:
        return None
