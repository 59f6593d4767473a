"""Comments around each replaced place, by which a reader of both files finds what was replaced.

A mark is a comment of 16 bytes: the signature `MPFX`, the kind of the mark, the number of the first record of the
original that was replaced, and how many were. Numbers are u32. Records that were only inserted have a count of 0 and
stand before that record. The mark is an EMR_COMMENT ([MS-EMF] 2.3.3.1), or a META_ESCAPE with the function MFCOMMENT
([MS-WMF] 2.3.6.1, 2.1.1.17).
"""

from __future__ import annotations

import hashlib
import json
import struct
from collections.abc import Iterable, Sequence
from enum import Enum
from itertools import groupby

from .emf_kinds import EMF
from .output import Entry, Replacement, Source
from .records import Layout
from .wmf_kinds import WMF

SIGNATURE = b"MPFX"

_MFCOMMENT = 15


class MarkKind(Enum):
    """Whether a replaced place begins or ends, or the whole file is stamped."""

    BEGIN = 1
    END = 2
    STAMP = 3


def comment(layout: Layout, data: bytes) -> bytes:
    """A comment record. In WMF it has at most 65,535 bytes of data, and so in both formats."""
    if layout is Layout.EMF:
        return EMF.named("EMR_COMMENT").write(len(data), rest=data + bytes(-len(data) % 4))
    return WMF.named("META_ESCAPE").write(_MFCOMMENT, len(data), rest=data + bytes(len(data) % 2))


def mark(layout: Layout, kind: MarkKind, first: int, count: int) -> bytes:
    """The mark of a place where so many records of the original, from the first one on, were replaced."""
    return comment(layout, SIGNATURE + struct.pack("<III", kind.value, first, count))


def marked(layout: Layout, entries: Sequence[Entry]) -> list[bytes]:
    """The records of all entries, with marks around each place where the original's records don't stand."""
    records: list[bytes] = []
    for is_kept, group in groupby(entries, key=lambda entry: entry.source is Source.KEPT):
        records += _flat(group) if is_kept else _place(layout, list(group))
    return records


def _flat(entries: Iterable[Entry]) -> list[bytes]:
    return [record for entry in entries for record in entry.records]


def _place(layout: Layout, entries: list[Entry]) -> list[bytes]:
    first = entries[0].number
    count = sum(entry.source is Source.REPLACED for entry in entries)
    begin, end = (mark(layout, kind, first, count) for kind in (MarkKind.BEGIN, MarkKind.END))
    return [begin, *_flat(entries), end]


def stamps(layout: Layout, original: bytes, replacements: Iterable[Replacement]) -> list[bytes]:
    """The comments before the end of a converted file: the signature, the kind, and a text in JSON.

    The first text has the SHA-256 of the original, and each other one that of a font, with its family.
    """
    notes = [replacement.note for replacement in replacements if replacement.note is not None]
    fonts = sorted({(note.font, note.sha256) for note in notes if note.font})
    members = [{"original": hashlib.sha256(original).hexdigest()}]
    members += [{"family": family, "sha256": sha256} for family, sha256 in fonts]
    return [_stamp(layout, json.dumps(member, separators=(",", ":"))) for member in members]


def _stamp(layout: Layout, text: str) -> bytes:
    return comment(layout, SIGNATURE + struct.pack("<I", MarkKind.STAMP.value) + text.encode("ascii"))
