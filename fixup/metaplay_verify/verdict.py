"""What is said of a fixed file."""

from __future__ import annotations

from dataclasses import dataclass

from .blocks import check_blocks
from .files import Metafile, Refused, Unreadable, read
from .headers import check_header
from .kinds import name_of
from .places import places_of


@dataclass(frozen=True, slots=True)
class Replaced:
    """A record of the original that was replaced: its number from 0, and its kind's name."""

    record: int
    kind: str


@dataclass(frozen=True, slots=True)
class Verdict:
    """Whether it holds. If not, why not, and the number of the fixed file's record that shows it, or None.

    `replaced` and `places` say what was replaced, in how many places. They are empty if it doesn't hold.
    """

    holds: bool
    reason: str = ""
    record: int | None = None
    replaced: tuple[Replaced, ...] = ()
    places: int = 0


def verify(original: bytes, fixed: bytes, text_only: bool) -> Verdict:
    """Says whether all records of a fixed file outside of its marks are the original's, in the same order.

    Headers may differ in counts and sizes, which must be right. With `text_only` also all marked places must stand for
    text, and only draw it. Raises Unreadable if one of the files can't be read.
    """
    old = _read(original, "the original")
    if original == fixed:
        return Verdict(True)
    new = _read(fixed, "the fixed file")
    try:
        if old.is_emf != new.is_emf or len(old.head) != len(new.head):
            raise Refused("the files have different forms")
        places = places_of(old, new, original)
        check_header(old, new, places, text_only)
        if text_only:
            check_blocks(old, places)
    except Refused as refused:
        return Verdict(False, refused.reason, refused.record)
    numbers = [at for place in places for at in range(place.first, place.first + place.count)]
    replaced = tuple(Replaced(at, name_of(old.is_emf, old.kind(old.records[at]))) for at in numbers)
    return Verdict(True, "", None, replaced, len(places))


def _read(data: bytes, name: str) -> Metafile:
    try:
        return read(data)
    except Unreadable as error:
        raise Unreadable(f"{name}: {error}") from None
