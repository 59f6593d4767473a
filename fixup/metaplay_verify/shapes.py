"""Polygons of blocks: how many lists they have, and the box around their points."""

from __future__ import annotations

import struct
from typing import NamedTuple

from .areas import Area
from .files import Refused, kind_of, number

_ONE, _SEVERAL = {3, 86, 0x0324}, {8, 91, 0x0538}


class Polygons(NamedTuple):
    """A record that fills lists of points: how many lists and points, the box around them in the block's units, and
    the record's own box (in EMF) in device units.
    """

    lists: int
    points: int
    area: Area
    bounds: Area | None


def is_polygons(is_emf: bool, record: bytes) -> bool:
    """Whether a record fills polygons."""
    kind = kind_of(is_emf, record)
    return kind in (_ONE | _SEVERAL) and (kind < 0x100) == is_emf


def read_polygons(is_emf: bool, record: bytes, here: int) -> Polygons:
    """Reads a record that fills polygons. Raises Refused if its counts and its size don't fit each other."""
    kind = kind_of(is_emf, record)
    at, width, short = (24, 4, kind > 80) if is_emf else (6, 2, True)
    lists = number(record, at, width) if kind in _SEVERAL else 1
    at += width * (2 if is_emf else 1) if kind in _SEVERAL else 0
    if at + width * lists > len(record):
        raise Refused("a polygon's counts are wrong", here)
    counts = struct.unpack_from(f"<{lists}{'I' if is_emf else 'H'}", record, at)
    total, start = sum(counts), at + width * lists
    size = total * (4 if short else 8)
    is_total = kind not in _SEVERAL or not is_emf or number(record, 28) == total
    if start + size != len(record) or not is_total or not lists or min(counts) < 2:
        raise Refused("a polygon's counts are wrong", here)
    numbers = struct.unpack_from(f"<{2 * total}{'h' if short else 'i'}", record, start)
    xs, ys = numbers[::2], numbers[1::2]
    bounds = Area(*struct.unpack_from("<4i", record, 8)) if is_emf else None
    return Polygons(lists, total, Area(min(xs), min(ys), max(xs), max(ys)), bounds)
