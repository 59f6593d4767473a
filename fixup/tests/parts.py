"""Reads converted files for the tests, without the converter's own code: their records, and what marks say of them."""

from __future__ import annotations

from dataclasses import dataclass

SIGNATURE = b"MPFX"


def number(data: bytes, at: int, size: int = 4) -> int:
    """A number without a sign, the least byte first."""
    return int.from_bytes(data[at : at + size], "little")


def is_emf(data: bytes) -> bool:
    """Whether a file is an EMF."""
    return data[40:44] == b" EMF" and number(data, 0) == 1


def records_of(data: bytes) -> list[bytes]:
    """The records of a file up to its end record; the header of an EMF is the first."""
    emf = is_emf(data)
    at = 0 if emf else 40 if data[:2] == b"\xd7\xcd" else 18
    records: list[bytes] = []
    while True:
        size = number(data, at + 4) if emf else 2 * number(data, at)
        records.append(data[at : at + size])
        at += size
        if (number(records[-1], 0) == 14) if emf else (number(records[-1], 4, 2) == 0):
            return records


@dataclass(frozen=True)
class Mark:
    """A mark: its kind (1 begins a place, 2 ends it, 3 is a stamp), the first record of the original, and the count."""

    kind: int
    first: int
    count: int


def mark_of(record: bytes, emf: bool) -> Mark | None:
    """The mark that a record is, or None."""
    at = 12 if emf else 10
    is_comment = number(record, 0) == 70 if emf else number(record, 4, 2) == 0x0626
    if not is_comment or record[at : at + 4] != SIGNATURE:
        return None
    return Mark(number(record, at + 4), number(record, at + 8), number(record, at + 12))


@dataclass(frozen=True)
class Place:
    """A replaced place: the original's records that are gone, and what stands there."""

    first: int
    count: int
    records: list[bytes]


def places_of(original: bytes, converted: bytes) -> list[Place]:
    """The replaced places of a converted file. Fails if any other record isn't the original's, in its order.

    Of the header of an EMF only the counts and sizes may differ.
    """
    old, new, emf = records_of(original), records_of(converted), is_emf(original)
    places: list[Place] = []
    at = here = 0
    if emf:
        assert _without_counts(old[0]) == _without_counts(new[0]), "header"
        at = here = 1
    while here < len(new):
        mark = mark_of(new[here], emf)
        if at < len(old) and new[here] == old[at]:
            at, here = at + 1, here + 1
        elif mark is not None and mark.kind == 3:
            assert at == len(old) - 1, "a stamp that isn't before the end"
            here += 1
        else:
            assert mark is not None and mark.kind == 1 and mark.first == at, f"record {at} isn't the original's"
            end = _end_of(new, here, Mark(2, mark.first, mark.count), emf)
            places.append(Place(mark.first, mark.count, new[here + 1 : end]))
            at, here = at + mark.count, end + 1
    assert at == len(old), "records are missing"
    return places


def _end_of(records: list[bytes], begin: int, wanted: Mark, emf: bool) -> int:
    for place in range(begin + 1, len(records)):
        if mark_of(records[place], emf) == wanted:
            return place
    raise AssertionError("a place without an end")


def _without_counts(header: bytes) -> bytes:
    return header[:48] + header[58:]
