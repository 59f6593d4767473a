"""Records that are rejected, by the faults that FAULTS.md names, in both formats: some have much data themselves, which nobody need read."""

import functools
from collections.abc import Callable
from typing import NamedTuple

from writers import BETWEEN, EMF, SRCCOPY, WMF, Bitmap, Form, header, i16, i32, u16, u32


class Case(NamedTuple):
    """A fault, what has it, and what makes the records up to the one that has it."""

    fault: str
    name: str
    form: Form
    made: Callable[[], list[bytes]]


def told(form: Form, fault: str, name: str, script: str) -> Case:
    """A case of records that a script tells."""
    return Case(fault, name, form, lambda: form.records(script))


def raw(form: Form, fault: str, name: str, kind: int, parameters: bytes) -> Case:
    """A case of one record of few bytes."""
    return Case(fault, name, form, lambda: [form.record(kind, parameters)])


def both(fault: str, name: str, script: str) -> list[Case]:
    """A case in each format."""
    return [told(form, fault, name, script) for form in (WMF, EMF)]


# A colour of a palette, and one million bytes, which are no bitmap's.
PALETTE, MILLION = b"\0\0\0\1", bytes(1_000_000)

# A box, and the source that is as large.
WHOLE = 0, 0, 64, 64, 0, 0, 64, 64


def blit(form: Form, info: bytes, *source: int) -> list[bytes]:
    """A blit of a bitmap with this header and a million bytes of rows."""
    return [form.step("stretch_dib", SRCCOPY, *(WHOLE[:4] + source if source else WHOLE), str(Bitmap(info, MILLION)))]


def brush(form: Form, info: bytes) -> list[bytes]:
    """A brush of such a bitmap."""
    return [form.step("tiled_brush", 0, str(Bitmap(info, MILLION)))]


def bitmap(fault: str, name: str, info: bytes) -> list[Case]:
    """Cases of a bitmap: a blit in each format, and a brush in EMF."""
    blits = [Case(fault, f"a blit of {name}", form, functools.partial(blit, form, info)) for form in (WMF, EMF)]
    return [*blits, Case(fault, f"a brush of {name}", EMF, functools.partial(brush, EMF, info))]


def patched(record: bytes, at: int, number: bytes) -> list[bytes]:
    """A record with other bytes at a place."""
    return [record[:at] + number + record[at + len(number) :]]


def points(kind: int, count: int) -> Callable[[], list[bytes]]:
    """An EMF record of a list that counts so many points, and has bytes of 300,000 behind it."""
    return lambda: [EMF.record(kind, bytes(16) + u32(count) + b"\1\0\2\0" * 300_000)]


def lists(kind: int, counts: list[int], total: int, there: int = 300_000) -> Callable[[], list[bytes]]:
    """An EMF record of lists that count so many points, and are said to have so many in all, with this many behind."""
    return lambda: [EMF.record(kind, bytes(16) + u32(len(counts), total, *counts) + b"\1\0\2\0" * there)]


def good_bitmap() -> bytes:
    """A header of a bitmap of 500 by 500, whose rows have fewer than a million bytes."""
    return header(500, 500, 24)


def long_blit(form: Form) -> bytes:
    """A blit of it."""
    return blit(form, good_bitmap())[0]


def copied() -> bytes:
    """A blit of it in EMF that has a transform."""
    return EMF.step("bit_blt", SRCCOPY, *WHOLE[:6], str(Bitmap(good_bitmap(), MILLION)))


KINDS = [
    raw(WMF, "UnknownRecord", "a function", 0x0999, bytes(40)),
    Case("UnknownRecord", "a type with a million bytes", EMF, lambda: [EMF.record(1_000, MILLION)]),
    Case("Unsupported", "a text with 60,000 bytes", WMF, lambda: [WMF.record(0x0A32, bytes(8) + b"words " * 10_000)]),
    Case("Unsupported", "a text with a million bytes", EMF, lambda: [EMF.record(84, MILLION)]),
    Case("Unsupported", "a region", WMF, lambda: [WMF.record(0x06FF, MILLION)]),
    Case("Unsupported", "a curve of 300,000 points", EMF, points(85, 300_000)),
    Case("Unsupported", "a region as a clip", EMF, lambda: [EMF.record(75, u32(999_992, 5) + MILLION)]),
    raw(WMF, "Unsupported", "a layout", 0x0149, u16(1)),
    raw(EMF, "Unsupported", "a layout", 115, u32(1)),
    raw(EMF, "Unsupported", "a transform", 35, bytes(24)),
    raw(EMF, "Unsupported", "a transform that is changed", 36, bytes(24) + u32(2)),
    told(EMF, "Unsupported", "a pen with a hatched brush", "styled_long_pen 0 0x10000 5 2 0"),
    Case("Unsupported", "a transformed bitmap", EMF, lambda: patched(copied(), 52, u32(0))),
    raw(EMF, "Unsupported", "a second header", 1, bytes(100)),
]

PARAMETERS = [
    Case("BadParams", "a negative count", WMF, lambda: [WMF.record(0x0324, i16(-1) + b"\1\0\2\0" * 300_000)]),
    Case("BadParams", "a count that is too large", WMF, lambda: [WMF.record(0x0538, u16(60_000, *[9] * 60_000) + b"\1\0\2\0" * 300_000)]),
    Case("BadParams", "a count that is too large", EMF, points(86, 300_001)),
    Case("BadParams", "a count that wraps", EMF, points(4, 1 << 29)),
    Case("BadParams", "a total that is too large", EMF, lists(91, [3] * 50_000, 400_000)),
    Case("BadParams", "a total that isn't the sum", EMF, lists(90, [100_000, 100_000], 200_001)),
    raw(EMF, "BadParams", "a pen without a colour", 38, u32(1, 0, 0, 0)),
    raw(WMF, "BadParams", "a rectangle of three edges", 0x041B, i16(1, 1, 1)),
    Case("BadParams", "a header beside its record", EMF, lambda: patched(long_blit(EMF), 48, u32(2_000_000))),
    Case("BadParams", "rows beside their record", EMF, lambda: patched(long_blit(EMF), 60, u32(1_000_100))),
]

VALUES = [
    *both("BadValue", "a background mode", "back_mode 3"),
    *both("BadValue", "a fill mode", "fill_mode 0"),
    *both("BadValue", "a raster operation", "raster 17"),
    *both("BadValue", "a map mode", "map_mode 9"),
    *both("BadValue", "a pen", "styled_pen 0 9 1 0"),
    *both("BadValue", "a hatch", "hatched_brush 0 6 0"),
    raw(WMF, "BadValue", "a brush", 0x02FC, u16(7) + bytes(6)),
    raw(EMF, "BadValue", "a brush", 39, u32(1, 7, 0, 0)),
    raw(WMF, "PaletteColour", "a pixel", 0x041F, PALETTE + i16(1, 1)),
    raw(EMF, "PaletteColour", "a pen", 38, u32(1, 0, 0, 0) + PALETTE),
    raw(WMF, "PaletteColour", "a brush", 0x02FC, u16(0) + PALETTE + u16(0)),
    raw(EMF, "PaletteColour", "a background", 25, PALETTE),
    Case("PaletteColour", "a bitmap", WMF, lambda: patched(long_blit(WMF), 10, u16(1))),
    Case("PaletteColour", "a bitmap", EMF, lambda: patched(long_blit(EMF), 64, u32(1))),
    *both("MetricMode", "a map mode", "map_mode 2"),
]

BITMAPS = [
    *bitmap("BadDib", "a header of 41 bytes", header(500, 500, 24, 41)),
    *bitmap("BadDib", "seven bits", header(500, 500, 7)),
    *bitmap("BadDib", "no width", header(0, 500, 24)),
    *bitmap("BadDib", "32,769 rows", header(8, 32_769, 24)),
    *bitmap("BadDib", "too many colours", header(500, 500, 8, 40, 257) + bytes(4 * 257)),
    *bitmap("CompressedDib", "runs", header(500, 500, 8, compression=u32(1)) + bytes(1_024)),
    *bitmap("ShortDib", "too few rows", header(500, 1_000, 24)),
    *bitmap("ShortDib", "too few colours", header(1, 1, 24, 40, 400_000)),
]

OBJECTS = [
    told(WMF, "TableFull", "a pen", "1025x pen 0"),
    told(EMF, "HandleTaken", "a pen", "brush 3; pen 3"),
    *both("NoSuchHandle", "a selection", "select 9"),
    *both("NoSuchHandle", "a deletion", "delete 9"),
    *both("NoSuchHandle", "a palette", "select_palette 9"),
    told(EMF, "NoSuchHandle", "a pen at 0", "pen_at 0"),
    told(EMF, "NoSuchHandle", "a pen past the last", "pen_at 16"),
    told(EMF, "NoSuchHandle", "a stock object that is deleted", "delete_at 0x80000007"),
    *both("WrongKind", "a palette as a pen", "palette 0; select 0"),
    *both("WrongKind", "a pen as a palette", "pen 0; select_palette 0"),
    *both("HeldObject", "a selected pen", "pen 0; select 0; delete 0"),
    *both("HeldObject", "the pen of the oldest state", "pen 0; pen 1; select 0; save; select 1; 254x save; delete 0"),
    *both("NoSavedState", "one of none", "restore -1"),
    *both("NoSavedState", "one of 200", "200x save; restore 201"),
    *both("DepthLimit", "a state", "257x save"),
    *both("TooManyCuts", "a box", "17x cut 1 1 2 2"),
]

DRAWINGS = [
    told(WMF, "ZeroExtent", "a window", "window_extent 0 9"),
    told(EMF, "ZeroExtent", "a viewport", "map_mode 8; viewport_extent 9 0"),
    told(EMF, "OffPlane", "a pixel", "pixel 1 0x7fffffff"),
    told(EMF, "OffPlane", "a box that is kept", "keep 0 0 0x7fffffff 9"),
    Case("OffPlane", "the first of 100,000 points", EMF, lambda: [EMF.record(3, bytes(16) + u32(100_000) + i32(1 << 30, 1 << 30) + bytes(8 * 99_999))]),
    Case("OffPlane", "the first of 30,000 points", WMF, lambda: far_points("polygon")),
    told(WMF, "SourceMissing", "a blit", f"bare_bit_blt {SRCCOPY} 0 0 64 64 0 0"),
    told(EMF, "SourceMissing", "a blit", f"bare_stretch_blt {SRCCOPY} 0 0 64 64 0 0 64 64"),
    Case("SourceOutside", "a blit", WMF, lambda: blit(WMF, good_bitmap(), 0, 0, 501, 500)),
    Case("SourceOutside", "a blit of no width", EMF, lambda: blit(EMF, good_bitmap(), 0, 0, 0, 500)),
    told(EMF, "PathState", "a path in a path", "begin_path; 1000x line 1 1; begin_path"),
    told(EMF, "PathState", "the end of none", "end_path"),
    told(EMF, "PathState", "a figure of none", "begin_path; end_path; close_figure"),
    told(EMF, "PathState", "none that is filled", "fill_path"),
    told(EMF, "PathState", "an open one that is stroked", "begin_path; 1000x line 1 1; stroke_path"),
    Case("TooManyEdges", "40 polygons of 30,000 points", WMF, lambda: [WMF.record(0x0538, u16(40, *[30_000] * 40) + b"\1\0\2\0" * 1_200_000)]),
    Case("TooManyEdges", "two lists of 600,000 points", EMF, lists(90, [600_000, 600_000], 1_200_000, 1_200_000)),
    Case("NibTooWide", "a polygon of 30,000 points", WMF, lambda: wide_points(WMF, "polygon", 30_000)),
    Case("NibTooWide", "a polyline of 100,000 points", EMF, lambda: wide_points(EMF, "short_polyline", 100_000)),
    Case("NibTooWide", "two lists of 50,000 points", EMF, lambda: wide_points(EMF, "short_polylines", 50_000)),
]


def far_points(name: str) -> list[bytes]:
    """A list of 30,000 points in WMF, the first of which is far off the plane."""
    return [*WMF.records("window_extent 1 1; viewport_extent 32767 32767"), WMF.step(name, 32_767, 32_767, *[1, 1] * 29_999)]


def wide_points(form: Form, name: str, count: int) -> list[bytes]:
    """Lists of so many points under a pen that is too wide."""
    words: list[int | str] = [1, 1] * count
    lists = [*words, BETWEEN, *words] if name == "short_polylines" else words
    return [*form.records("styled_pen 0 0 5000 0x8040; select 0"), form.step(name, *lists)]


CASES = [*KINDS, *PARAMETERS, *VALUES, *BITMAPS, *OBJECTS, *DRAWINGS]
