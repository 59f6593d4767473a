"""The headers of a fixed file: the original's, but for counts and sizes, which must be right."""

from __future__ import annotations

from collections.abc import Iterable

from .files import Metafile, Refused, number
from .places import Place
from .slots import MAKERS, Slots

_EMF_MAKERS = {38, 39, 49, 82, 93, 94, 95}
_WMF_HEADER = 18


def check_header(original: Metafile, fixed: Metafile, places: Iterable[Place], text_only: bool) -> None:
    """Raises Refused if a header has changed, or a count or a size is wrong."""
    if fixed.is_emf:
        _check_emf(original.records[0], fixed, _made(fixed, places), text_only)
    else:
        _check_wmf(original.head, fixed)


def _made(fixed: Metafile, places: Iterable[Place]) -> int:
    """The greatest index of an object that the places make, or 0."""
    records = (record for place in places for record in place.records)
    return max((number(record, 8) for record in records if fixed.kind(record) in _EMF_MAKERS), default=0)


def _check_emf(old: bytes, fixed: Metafile, made: int, text_only: bool) -> None:
    """[MS-EMF] 2.2.9: the size of the file, the records, and the handles, of which blocks use one more."""
    new = fixed.records[0]
    if old[:48] + old[58:] != new[:48] + new[58:]:
        raise Refused("the header has changed", 0)
    if number(new, 48) != sum(map(len, fixed.records)):
        raise Refused("the header's size is wrong", 0)
    if number(new, 52) != len(fixed.records):
        raise Refused("the header's count of records is wrong", 0)
    handles, extra = number(old, 56, 2), max(1, number(old, 56, 2))
    # A block that turns out to be empty may have asked for an index.
    right = {extra + 1} if made >= extra else {handles} if text_only else {handles, extra + 1}
    if number(new, 56, 2) not in right or made > extra:
        raise Refused("the header's count of handles is wrong", 0)


def _check_wmf(old: bytes, fixed: Metafile) -> None:
    """[MS-WMF] 2.3.2.2: the size of the file, the objects, and the largest record."""
    new, at = fixed.head, len(fixed.head) - _WMF_HEADER
    if len(old) != len(new) or old[: at + 6] + old[at + 16 :] != new[: at + 6] + new[at + 16 :]:
        raise Refused("the header has changed")
    if number(new, at + 6) != (_WMF_HEADER + sum(map(len, fixed.records))) // 2:
        raise Refused("the header's size is wrong")
    if number(new, at + 12) != max(number(old, at + 12), max(map(len, fixed.records)) // 2):
        raise Refused("the header's largest record is wrong")
    if number(new, at + 10, 2) != max(number(old, at + 10, 2), _most_objects(fixed)):
        raise Refused("the header's count of objects is wrong")


def _most_objects(fixed: Metafile) -> int:
    slots = Slots()
    for record in fixed.records:
        if fixed.kind(record) in MAKERS:
            slots.make()
        elif fixed.kind(record) == 0x01F0:
            slots.delete(number(record, 6, 2))
    return slots.most
