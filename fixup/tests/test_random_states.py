"""Random records of state between texts: the second reader accepts what the converter makes of them with text alone."""

import random
import unittest
from collections.abc import Callable

from metaplay_fixup.convert import convert
from metaplay_fixup.faults import Fault, FaultName
from metaplay_fixup.options import Options
from metaplay_verify import verify

from .emf_records import modify, world
from .oracle import NO_BOUNDS, emf_file, emf_record, emf_script, i16, i32, placeable_file, plain_file, u16, u32
from .oracle import wmf_record
from .squares import Squares
from .text_records import font, text

FILES = 600
NUMBERS = (0, 1, 2, 3, -1, -2, 5, 10, 20, 30, 50, 100, -100, 300)
SINGLES = (0, 0.5, 1, 1, 2, -1, 10)
COLOURS = (0, 0xFF, 0xFF00, 0x01000000, 0x01000001, 0x01000007, 0x02000012)
PALETTE = u16(0x300, 2) + bytes([9, 8, 7, 0, 1, 2, 3, 1])
ENTRIES = bytes([4, 5, 6, 1, 0, 0, 255, 0])
WMF_FONT = wmf_record(0x02FB, i16(4, 0, 0, 0, 400) + bytes(8) + b"Squares\0")
EXPECTED = {
    FaultName.BadParams,
    FaultName.ClipShape,
    FaultName.MetricMode,
    FaultName.NoSavedState,
    FaultName.NoSuchHandle,
    FaultName.OffPlane,
    FaultName.PaletteColour,
    FaultName.PathState,
    FaultName.Unsupported,
}

Maker = Callable[[random.Random], list[bytes]]


def some(source: random.Random, count: int) -> list[int]:
    """Numbers of which many are small."""
    return [source.choice(NUMBERS) for _ in range(count)]


def emf_numbers(kind: int, count: int) -> Maker:
    """Makes records of EMF of some numbers."""
    return lambda source: [emf_record(kind, i32(*some(source, count)))]


def emf_choice(kind: int, *values: int) -> Maker:
    """Makes records of EMF of one number out of a few."""
    return lambda source: [emf_record(kind, u32(source.choice(values) & 0xFFFFFFFF))]


def wmf_numbers(kind: int, count: int) -> Maker:
    """Makes records of WMF of some numbers."""
    return lambda source: [wmf_record(kind, i16(*some(source, count)))]


def wmf_choice(kind: int, *values: int) -> Maker:
    """Makes records of WMF of one number out of a few."""
    return lambda source: [wmf_record(kind, u16(source.choice(values) & 0xFFFF))]


def singles(source: random.Random) -> list[float]:
    """The numbers of a world."""
    return [source.choice(SINGLES) for _ in range(6)]


EMF_MAKERS: list[Maker] = [
    *(emf_numbers(kind, 2) for kind in (9, 10, 11, 12, 27, 54)),
    *(emf_numbers(kind, 4) for kind in (30, 31, 32, 43)),
    emf_numbers(55, 8),
    emf_choice(17, 1, 7, 8, 8, 8, 2, 3, 9),
    emf_choice(18, 1, 2),
    emf_choice(22, 0, 1, 1, 6, 24),
    *(emf_choice(kind, *COLOURS) for kind in (24, 25)),
    emf_choice(33, 0),
    emf_choice(34, -1),
    *(emf_choice(kind, 1, 2, 3, 4, 5, 0x8000000D, 0x80000007) for kind in (37, 40)),
    emf_choice(48, 1, 2, 0x8000000F),
    *(emf_choice(kind, 5) for kind in (59, 60, 61, 63, 67, 68)),
    lambda source: [world(*singles(source))],
    lambda source: [modify(source.randrange(1, 6), *singles(source))],
    lambda source: [emf_record(38, u32(source.randrange(1, 6), 0) + i32(1, 0) + u32(source.choice(COLOURS)))],
    lambda source: [emf_record(49, u32(source.randrange(1, 4)) + PALETTE)],
    lambda source: [emf_record(50, u32(source.randrange(1, 4), source.randrange(4), source.randrange(3)) + ENTRIES)],
    lambda source: [emf_record(51, u32(source.randrange(1, 4), source.randrange(10)))],
    emf_choice(52, 0),
    lambda source: font(source.choice((4, 10, -5)), source.randrange(2), source.randrange(1, 6)),
    lambda source: [emf_record(source.choice((88, 89)), NO_BOUNDS + u32(3) + i16(*some(source, 6)))],
    lambda source: [emf_record(source.choice((41, 56, 92)), bytes(32))],
    lambda source: [emf_record(source.choice((93, 94, 95, 99)), u32(source.randrange(1, 6)) + bytes(40))],
]
WMF_MAKERS: list[Maker] = [
    *(wmf_numbers(kind, 2) for kind in (0x020B, 0x020C, 0x020D, 0x020E, 0x020F, 0x0211, 0x0213, 0x0214)),
    *(wmf_numbers(kind, 4) for kind in (0x0410, 0x0412, 0x0416, 0x041B)),
    wmf_choice(0x0103, 1, 7, 8, 8, 8, 2, 9),
    wmf_choice(0x0102, 1, 2),
    wmf_choice(0x012E, 0, 1, 1, 6, 24),
    wmf_choice(0x0108, *NUMBERS),
    wmf_choice(0x001E, 0),
    wmf_choice(0x0127, -1),
    *(wmf_choice(kind, *range(6)) for kind in (0x012D, 0x01F0, 0x0234)),
    *(lambda source, kind=kind: [wmf_record(kind, u32(source.choice(COLOURS)))] for kind in (0x0201, 0x0209)),
    lambda source: [wmf_record(0x02FA, u16(0) + i16(1, 0) + u32(source.choice(COLOURS)))],
    lambda source: [wmf_record(0x00F7, PALETTE)],
    *(
        lambda source, kind=kind: [wmf_record(kind, u16(source.randrange(4), source.randrange(3)) + ENTRIES)]
        for kind in (0x0037, 0x0436)
    ),
    wmf_choice(0x0139, *range(10)),
    wmf_choice(0x0035, 0),
    lambda source: [WMF_FONT],
    lambda source: [
        wmf_record(source.choice((0x0142, 0x01F9, 0x02FC, 0x06FF)), bytes(2 * source.randrange(20))),
    ],
]


def emf_text(source: random.Random) -> bytes:
    """A text of EMF."""
    x, y, *box = some(source, 6)
    string, options = source.choice(("a", "ab", " ", "")), source.choice((0, 0, 2, 4, 6))
    return text(string, x, y, options, (box[0], box[1], box[2], box[3]))


def wmf_text(source: random.Random) -> bytes:
    """A text of WMF."""
    string = source.choice((b"a", b"ab", b" ", b""))
    padded, options = string + bytes(len(string) % 2), source.choice((0, 2, 4, 6))
    if source.random() < 0.5:
        return wmf_record(0x0521, i16(len(string)) + padded + i16(*some(source, 2)))
    box = i16(*some(source, 4)) if options else b""
    return wmf_record(0x0A32, i16(*some(source, 2), len(string), options) + box + padded)


def emf_original(source: random.Random) -> bytes:
    """An EMF that begins with a font."""
    records = [*emf_script("back_mode 1"), *font(4)]
    for _ in range(source.randrange(1, 25)):
        records += source.choice(EMF_MAKERS)(source) if source.random() < 0.7 else [emf_text(source)]
    return emf_file(records)


def wmf_original(source: random.Random) -> bytes:
    """A WMF of either form that begins with a font."""
    records = [WMF_FONT, wmf_record(0x012D, u16(0))]
    for _ in range(source.randrange(1, 25)):
        records += source.choice(WMF_MAKERS)(source) if source.random() < 0.7 else [wmf_text(source)]
    if source.random() < 0.5:
        return placeable_file(records)
    return plain_file([wmf_record(0x020C, i16(100, 100)), *records])


class RandomStates(unittest.TestCase):
    """Both formats, always the same files."""

    def check(self, original: bytes, number: int) -> bool:
        """Whether a file is converted; it has an expected fault otherwise. The second reader accepts the result."""
        try:
            fixed = convert(original, Options(text_only=True), Squares()).data
        except Fault as fault:
            self.assertIn(fault.name, EXPECTED, number)
            return False
        verdict = verify(original, fixed, True)
        self.assertTrue(verdict.holds, (number, verdict))
        return fixed != original

    def test_emf(self) -> None:
        source = random.Random(75)
        converted = sum(self.check(emf_original(source), number) for number in range(FILES))
        self.assertGreater(converted, FILES // 4)

    def test_wmf(self) -> None:
        source = random.Random(76)
        converted = sum(self.check(wmf_original(source), number) for number in range(FILES))
        self.assertGreater(converted, FILES // 4)


if __name__ == "__main__":
    unittest.main()
