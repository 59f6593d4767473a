"""The repository's own writers and independent readers of metafiles, for the tests of the fix-up."""

from __future__ import annotations

import sys
from collections.abc import Callable
from pathlib import Path

ROOT = Path(__file__).resolve().parents[2]
SAMPLES = ROOT / "samples"

sys.path.append(str(ROOT / "tests"))

from metafile import bitmaps, fields, files, scripts  # type: ignore[import]  # noqa: E402
from reading.commands import Asked  # type: ignore[import]  # noqa: E402
from reading.rules import Rules  # type: ignore[import]  # noqa: E402

_LARGEST = (8192, 8192)
_RULES = Rules(is_print=True, held_deletion=True, emf_plus=True)

i16: Callable[..., bytes] = fields.i16
i32: Callable[..., bytes] = fields.i32
u16: Callable[..., bytes] = fields.u16
u32: Callable[..., bytes] = fields.u32
emf_record: Callable[..., bytes] = files.emf_record
wmf_record: Callable[..., bytes] = files.wmf_record
EMF_END: bytes = files.EMF_END
WMF_END: bytes = files.WMF_END

NO_BOUNDS = i32(0, 0, -1, -1)


def refusal_of(data: bytes) -> str | None:
    """The first fault of a file under the print profile with both allowances, by the repository's second reader."""
    refusal = Asked(data, _RULES).certified(_LARGEST)[1]
    return None if refusal is None else str(refusal[0])


def picture_of(data: bytes, width: int, height: int) -> bytes:
    """The red, green and blue of each pixel of a file on a surface, by the repository's second player."""
    text = Asked(data, _RULES).image((width, height))[0][1]
    return bytes(text[-3 * width * height :])


def packed_bitmap(rows: list[list[tuple[int, int, int]]], depth: int) -> bytes:
    """A DIB in one piece: header, table, rows, the bottom row first."""
    return bytes(bitmaps.bitmap(rows, depth).packed)


def parted_bitmap(rows: list[list[tuple[int, int, int]]], depth: int, **changes: bytes) -> tuple[bytes, bytes]:
    """A DIB as header with table, and rows, the bottom row first; some fields of the header may be changed."""
    made = bitmaps.bitmap(rows, depth, **changes)
    return bytes(made.info), bytes(made.bits)


def emf_script(script: str) -> list[bytes]:
    """Records of EMF that a script tells."""
    return list(scripts.EMF.records(script))


def wmf_script(script: str) -> list[bytes]:
    """Records of WMF that a script tells."""
    return list(scripts.WMF.records(script))


def emf_file(records: list[bytes], width: int = 100, height: int = 100, handles: int = 4) -> bytes:
    """An EMF whose bounds are at the origin, with an end record."""
    ends = {"right": i32(width - 1), "bottom": i32(height - 1), "handles": u16(handles)}
    return bytes(files.emf_file([*records, EMF_END], **ends))


def placeable_file(records: list[bytes], width: int = 100, height: int = 100) -> bytes:
    """A placeable WMF whose box is at the origin, with an end record."""
    return bytes(files.placeable_file([*records, WMF_END], right=i16(width), bottom=i16(height)))


def plain_file(records: list[bytes]) -> bytes:
    """A plain WMF with an end record."""
    return bytes(files.plain_file([*records, WMF_END]))
