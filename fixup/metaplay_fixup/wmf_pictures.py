"""Bitmaps of WMF, whose header, table and rows follow one another."""

from __future__ import annotations

from .bitmaps import read_dib
from .pictures import Picture, stored
from .session import Session


def read_packed(session: Session, data: bytes, usage: int) -> Picture:
    """A bitmap as 24 bits. Raises Fault as `Session.picture` does."""
    dib = read_dib(data)
    rows_at = dib.header_size + dib.table_size(usage)
    return session.picture(data[:rows_at], data[rows_at:], usage)


def stored_packed(picture: Picture) -> bytes:
    """A bitmap of 24 bits, of an even number of bytes."""
    return b"".join(stored(picture))
