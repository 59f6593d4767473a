"""Records with pens for tests in both formats, and what stands in the replaced places of files of them."""

from metaplay_fixup.convert import Converted, convert
from metaplay_fixup.options import Options
from metaplay_fixup.output import Action

from .oracle import emf_record, i16, i32, refusal_of, u16, u32, wmf_record
from .parts import Place, places_of

STROKES = Options(strokes=True)
GEOMETRIC, FLAT, MITER, DASHED = 0x10000, 0x200, 0x2000, 1
# The object of a block: the least index that a file of four handles can't use.
EXTRA = 4
RED = 0x0000FF

WHITE_PIXEL = b"\xff\xff\xff"


def long_pen(style: int, width: int, *entries: int) -> list[bytes]:
    """A red pen of EMR_EXTCREATEPEN, made and selected."""
    fields = u32(1, 0, 0, 0, 0, style, width, 0, RED, 0, len(entries), *entries)
    return [emf_record(95, fields), emf_record(37, u32(1))]


def old_pen(style: int, width: int) -> list[bytes]:
    """A red pen of EMR_CREATEPEN, made and selected."""
    return [emf_record(38, u32(1, style) + i32(width, 0) + u32(RED)), emf_record(37, u32(1))]


def wmf_pen(style: int, width: int) -> list[bytes]:
    """A red pen of META_CREATEPENINDIRECT at the lowest index, selected."""
    return [wmf_record(0x02FA, u16(style) + i16(width, 0) + u32(RED)), wmf_record(0x012D, u16(0))]


def places(data: bytes) -> list[Place]:
    """The replaced places of a file. It plays as before without strokes, and the converted file plays and stays."""
    assert convert(data, Options(), None) == Converted(data, ()), "something is replaced without strokes"
    result = convert(data, STROKES, None)
    assert refusal_of(result.data) is None, refusal_of(result.data)
    assert convert(result.data, STROKES, None) == Converted(result.data, ())
    assert {replacement.action for replacement in result.replacements} <= {Action.STROKE, Action.PATH}
    return places_of(data, result.data)


def select(index: int) -> bytes:
    """EMR_SELECTOBJECT."""
    return emf_record(37, u32(index))


SAVE, RESTORE, DELETE = emf_record(33), emf_record(34, i32(-1)), emf_record(40, u32(EXTRA))
