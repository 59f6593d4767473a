"""Metafiles as their records, read by this package alone."""

from __future__ import annotations

from dataclasses import dataclass

LONGEST_FILE = 67_108_864
_MOST_RECORDS = 1_048_576
_PLACEABLE, _EMF_HEAD = b"\xd7\xcd\xc6\x9a", 88
_PLAIN = (b"\x01\x00\x09\x00", b"\x02\x00\x09\x00")


class Unreadable(Exception):
    """A file isn't a metafile, or its records don't end properly."""


class Refused(Exception):
    """What was said of a file doesn't hold. `record` is the number of a record of the fixed file, or None."""

    def __init__(self, reason: str, record: int | None = None) -> None:
        super().__init__(reason)
        self.reason = reason
        self.record = record


@dataclass(frozen=True, slots=True)
class Metafile:
    """A file: what precedes the records (the headers of a WMF, nothing in an EMF), the records up to the end record,
    and what follows them.
    """

    is_emf: bool
    head: bytes
    records: list[bytes]
    tail: bytes

    def kind(self, record: bytes) -> int:
        """The type of a record of EMF, or the function of one of WMF."""
        return kind_of(self.is_emf, record)


def kind_of(is_emf: bool, record: bytes) -> int:
    """The type of a record of EMF ([MS-EMF] 2.3), or the function of one of WMF ([MS-WMF] 2.3)."""
    return number(record, 0) if is_emf else number(record, 4, 2)


def number(data: bytes | bytearray, at: int, size: int = 4) -> int:
    """A number without a sign, the least byte first. Bytes that aren't there count as 0."""
    return int.from_bytes(data[at : at + size], "little")


def read(data: bytes) -> Metafile:
    """Divides a file into its records ([MS-EMF] 2.3.4, [MS-WMF] 2.3.2). Raises Unreadable."""
    if len(data) > LONGEST_FILE:
        raise Unreadable("the file is too long")
    is_emf = data[:4] == b"\x01\0\0\0" and data[40:44] == b" EMF"
    at = 0 if is_emf else 40 if data[:4] == _PLACEABLE else 18
    if not is_emf and data[at - 18 : at - 14] not in _PLAIN:
        raise Unreadable("the file is no metafile")
    records: list[bytes] = []
    end = 14 if is_emf else 0
    start = at
    while not records or kind_of(is_emf, records[-1]) != end:
        size = _size(data, start, is_emf)
        if len(records) == _MOST_RECORDS or (is_emf and not records and size < _EMF_HEAD):
            raise Unreadable("the header is too short" if not records else "the file has too many records")
        records.append(data[start : start + size])
        start += size
    return Metafile(is_emf, data[:at], records, data[start:])


def _size(data: bytes, at: int, is_emf: bool) -> int:
    """The bytes of the record at a place."""
    least = 8 if is_emf else 6
    size = number(data, at + 4) if is_emf else 2 * number(data, at)
    if at + least > len(data) or size < least or at + size > len(data) or (is_emf and size % 4):
        raise Unreadable(f"the record at byte {at} has a wrong size, or the end record is missing")
    return size
