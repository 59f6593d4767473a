"""The records of a place, one after the other."""

from __future__ import annotations

import struct

from .files import Refused, kind_of
from .places import Place


def emf(kind: int, code: str = "", *numbers: float) -> bytes:
    """A record of EMF. The code is that of the module struct."""
    return struct.pack(f"<II{code}", kind, 8 + struct.calcsize(f"<{code}"), *numbers)


def wmf(kind: int, code: str = "", *numbers: int) -> bytes:
    """A record of WMF. The code is that of the module struct."""
    return struct.pack(f"<IH{code}", 3 + struct.calcsize(f"<{code}") // 2, kind, *numbers)


class Cursor:
    """Goes through the records of a place."""

    def __init__(self, place: Place, is_emf: bool) -> None:
        self.place = place
        self.is_emf = is_emf
        self.at = 0

    @property
    def here(self) -> int:
        """The number of the next record in the fixed file."""
        return self.place.begin + self.at

    def peek(self) -> bytes:
        """The next record, or nothing at the place's end."""
        return self.place.records[self.at] if self.at < len(self.place.records) else b""

    def skip(self, record: bytes) -> bool:
        """Goes past a record, if it is the next one."""
        is_next = self.peek() == record
        self.at += is_next
        return is_next

    def want(self, record: bytes, what: str) -> None:
        """Goes past a record. Raises Refused if it isn't the next one."""
        if not self.skip(record):
            raise Refused(f"a block has another record where it {what}", self.here)

    def numbers(self, kind: int, code: str, what: str) -> tuple[int, ...]:
        """Goes past a record of a kind, whatever its numbers are, and gives them."""
        record, at = self.peek(), 8 if self.is_emf else 6
        if kind_of(self.is_emf, record) != kind or len(record) != at + struct.calcsize(f"<{code}"):
            raise Refused(f"a block has another record where it {what}", self.here)
        self.at += 1
        return struct.unpack_from(f"<{code}", record, at)
