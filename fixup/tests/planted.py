"""Converted files with text alone, and changes to plant in them, for the tests of the second reader."""

from __future__ import annotations

from collections.abc import Callable

from metaplay_fixup.convert import convert
from metaplay_fixup.options import Options

from .oracle import emf_file, emf_record, emf_script, i16, placeable_file, u16, u32, wmf_record, wmf_script
from .parts import is_emf, number, records_of
from .squares import Squares
from .text_records import UPDATE_POSITION, font, text

Edit = Callable[[list[bytes]], list[bytes]]


def emf_original() -> bytes:
    """An EMF: text of one colour that shares a block, clipped text over its background, text that moves."""
    records = [
        *emf_script("back_mode 1"),
        *font(4),
        emf_record(24, u32(0x0000FF)),
        text("a", 20, 30),
        text("b", 26, 30),
        *emf_script("pixel 1 1; pixel 1 2; back_mode 2; back_colour 0x00ff00"),
        text("c", 50, 50, 4, (52, 50, 70, 70)),
        *emf_script("pixel 2 2"),
        UPDATE_POSITION,
        *emf_script("move 5 6; back_mode 1"),
        text("d", 0, 0),
        *emf_script("line 9 9"),
    ]
    return emf_file(records)


def wmf_original() -> bytes:
    """The same in WMF, without a shared block."""
    records = [
        *wmf_script("back_mode 1"),
        wmf_record(0x02FB, i16(4, 0, 0, 0, 400) + bytes(8) + b"Squares\0"),
        *wmf_script("select 0"),
        wmf_record(0x0209, u32(0x0000FF)),
        wmf_record(0x0521, i16(1) + b"a\0" + i16(30, 20)),
        *wmf_script("pixel 1 1; pixel 1 2; back_mode 2; back_colour 0x00ff00"),
        wmf_record(0x0A32, i16(50, 50, 1, 4) + i16(52, 50, 70, 70) + b"c\0"),
        *wmf_script("pixel 2 2"),
        wmf_record(0x012E, u16(1)),
        *wmf_script("move 5 6; back_mode 1"),
        wmf_record(0x0521, i16(1) + b"d\0" + i16(0, 0)),
        *wmf_script("line 9 9"),
    ]
    return placeable_file(records)


def converted(data: bytes, text_only: bool = True) -> bytes:
    """A file converted with the layer of squares."""
    return convert(data, Options(text_only=text_only), Squares()).data


def joined(file: bytes, records: list[bytes]) -> bytes:
    """A file with other records, whose header has the right sizes and the right count of records."""
    if is_emf(file):
        head = records[0][:48] + u32(sum(map(len, records)), len(records)) + records[0][56:]
        return head + b"".join(records[1:])
    start = len(file) - sum(map(len, records_of(file)))
    head = bytearray(file[:start])
    head[start - 12 : start - 8] = u32((18 + sum(map(len, records))) // 2)
    head[start - 6 : start - 2] = u32(max(map(len, records)) // 2)
    return bytes(head) + b"".join(records)


def kind_of(record: bytes, emf: bool) -> int:
    """A record's type or function."""
    return number(record, 0) if emf else number(record, 4, 2)


def drop(*places: int) -> Edit:
    """Leaves records out."""
    return lambda records: [record for at, record in enumerate(records) if at not in places]


def double(first: int, last: int | None = None) -> Edit:
    """Writes a record, or records up to another one, twice."""
    end = (first if last is None else last) + 1
    return lambda records: records[:end] + records[first:]


def slip_in(before: int, *new: bytes) -> Edit:
    """Puts records before another."""
    return lambda records: [*records[:before], *new, *records[before:]]


def move(first: int, last: int, before: int) -> Edit:
    """Moves records, both ends included, to before another one that stands outside of them."""

    def edit(records: list[bytes]) -> list[bytes]:
        moved, end = records[first : last + 1], last + 1
        if before < first:
            return records[:before] + moved + records[before:first] + records[end:]
        return records[:first] + records[end:before] + moved + records[before:]

    return edit


def swap(one: int, other: int) -> Edit:
    """Exchanges two records, the earlier one first."""
    return lambda records: [
        *records[:one],
        records[other],
        *records[one + 1 : other],
        records[one],
        *records[other + 1 :],
    ]


def write(place: int, at: int, data: bytes) -> Edit:
    """Writes other bytes into a record."""

    def edit(records: list[bytes]) -> list[bytes]:
        changed = records[place][:at] + data + records[place][at + len(data) :]
        return [*records[:place], changed, *records[place + 1 :]]

    return edit


def both(*edits: Edit) -> Edit:
    """One edit after the other."""

    def edit(records: list[bytes]) -> list[bytes]:
        for one in edits:
            records = one(records)
        return records

    return edit


def emf_comment(data: bytes) -> bytes:
    """EMR_COMMENT."""
    return emf_record(70, u32(len(data)) + data + bytes(-len(data) % 4))


def wmf_comment(data: bytes) -> bytes:
    """META_ESCAPE with the function MFCOMMENT."""
    return wmf_record(0x0626, u16(15, len(data)) + data + bytes(len(data) % 2))


def mark(kind: int, first: int, count: int) -> bytes:
    """The data of a mark."""
    return b"MPFX" + u32(kind, first, count)
