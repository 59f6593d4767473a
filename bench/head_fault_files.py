"""Files of some megabytes that are rejected by their first bytes, or by the size of their first record: whoever reads on behind these, or looks for a
record there, takes much longer."""

import functools
from collections.abc import Callable, Iterator

from fault_files import GENEROUS, SIDE, behind
from instruction_files import Counted
from writers import EMF, WMF, emf_file, i16, i32, placeable_file, u16, u32

from metafile.files import EMF_END, WMF_END, plain_file, window_extent

# One million bytes, and records that a search for an extent goes through, with one behind them.
MILLION = bytes(1_000_000)

SEARCHED = [WMF.step("save")] * 60_000 + [window_extent(SIDE, SIDE)]


def placeable(first: list[bytes], **changes: bytes) -> bytes:
    """A placeable file, some fields of its headers changed, with much behind its first records."""
    sides = {"right": i16(SIDE), "bottom": i16(SIDE)}
    return placeable_file([*first, *behind("WMF"), WMF_END], **(sides | changes))


def emf(first: list[bytes], **changes: bytes) -> bytes:
    """An EMF file likewise."""
    sides = {"right": i32(SIDE - 1), "bottom": i32(SIDE - 1)}
    return emf_file([*first, *behind("EMF"), EMF_END], **(sides | changes))


def plain(first: list[bytes], **changes: bytes) -> bytes:
    """A plain file whose extent comes late."""
    return plain_file([*first, *SEARCHED, WMF_END], **changes)


def wmf_head(size: int) -> list[bytes]:
    """A record of WMF that is said to have so many words."""
    return [u32(size) + u16(0x041F) + bytes(8)]


def emf_head(size: int) -> list[bytes]:
    """A record of EMF that is said to have so many bytes."""
    return [u32(15, size) + bytes(12)]


def cut(form_file: Callable[[list[bytes]], bytes], record: bytes, end: bytes) -> bytes:
    """A file that ends in the head of the record behind a long one, or before it."""
    whole = form_file([record])
    return whole[: whole.index(record) + len(record)] + end


OPENINGS: dict[str, Callable[[], bytes]] = {
    "NotMetafile first, a PNG": lambda: b"\x89PNG\r\n\x1a\n" + MILLION * 2,
    "NotMetafile first, an EMF of another signature": lambda: emf([], signature=u32(0x464D4521)),
    "NotMetafile first, a plain file of type 3": lambda: plain([], type=u16(3)),
    "ShortHeader first, a header that ends after the file": lambda: emf([], size=u32(8_000_000)),
    "BadHeader first, a header of 84 bytes": lambda: emf([], size=u32(84)),
    "BadHeader first, a header of 90 bytes": lambda: emf([], size=u32(90)),
    "BadHeader first, a placeable file of version 2": lambda: placeable([], version=u16(0x0200)),
    "BadHeader first, a placeable file of type 3": lambda: placeable([], type=u16(3)),
    "NoFrame first, a box without a width": lambda: placeable([], right=i16(0)),
    "NoFrame first, bounds of 2^30 columns": lambda: emf([], right=i32(1 << 30)),
    "NoFrame first, an end before the extent": lambda: plain([WMF_END]),
    "NoFrame first, a short record before the extent": lambda: plain(wmf_head(2)),
    "NoFrame first, a long record before the extent": lambda: plain(wmf_head(1 << 28)),
}

FRAMINGS: dict[str, Callable[[], bytes]] = {
    "NoEnd first, behind a comment of a million bytes": lambda: cut(emf, EMF.record(70, MILLION), b""),
    "NoEnd first, a head of seven bytes": lambda: cut(emf, EMF.record(70, MILLION), u32(15) + b"\0\0\0"),
    "NoEnd first, a head of five bytes": lambda: cut(placeable, WMF.record(0x0626, MILLION), u32(7) + b"\0"),
    "ShortRecord first, no words": lambda: placeable(wmf_head(0)),
    "ShortRecord first, two words": lambda: placeable(wmf_head(2)),
    "ShortRecord first, no bytes": lambda: emf(emf_head(0)),
    "ShortRecord first, 22 bytes": lambda: emf(emf_head(22)),
    "PastEnd first, 2^28 words": lambda: placeable(wmf_head(1 << 28)),
    "PastEnd first, 2^32 words less one": lambda: placeable(wmf_head((1 << 32) - 1)),
    "PastEnd first, 2^28 bytes": lambda: emf(emf_head(1 << 28)),
    "PastEnd first, 2^32 bytes less four": lambda: emf(emf_head((1 << 32) - 4)),
}

# Each file with one of these by turns.
OPENING, FRAMING = ["show", "check", "prepare"], ["show", "check", "list", "prepare", "info"]

# Files whose headers are rejected, and whose records are listed or told.
RECORDS_TOLD = [("NotMetafile first, a PNG", "list"), ("NotMetafile first, a PNG", "info"), ("BadHeader first, a placeable file of type 3", "info")]
RECORDS_TOLD += [("ShortHeader first, a header that ends after the file", "list"), ("NoFrame first, an end before the extent", "info")]


def rejected(made: Callable[[], bytes], command: str) -> Counted:
    """A file that a command rejects."""
    return Counted(made(), SIDE, SIDE, command=command, status=1, certificate=GENEROUS if command == "check" else b"")


def alone(plus: bytes) -> Counted:
    """A file with EMF+ and no drawing, and much behind its end."""
    records = [EMF.record(70, u32(len(plus)) + plus), EMF_END, *behind("EMF")]
    return Counted(EMF.file(records, SIDE, 16), SIDE, SIDE, options=("--profile", "print"), status=1)


def makers() -> Iterator[tuple[str, Callable[[], Counted]]]:
    """The name and the maker of each file."""
    for table, turns in ((OPENINGS, OPENING), (FRAMINGS, FRAMING)):
        for nth, (name, made) in enumerate(table.items()):
            command = turns[nth % len(turns)]
            yield f"{name}, {command}", functools.partial(rejected, made, command)
    for name, command in RECORDS_TOLD:
        yield f"{name}, {command}", functools.partial(rejected, OPENINGS[name], command)
    yield "EmfPlusAlone, a comment of a million bytes, show", functools.partial(alone, b"EMF+" + MILLION)


FILES = dict(makers())
