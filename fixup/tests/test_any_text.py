"""Any numbers in a record end with a laid text or a named fault."""

from __future__ import annotations

import random

from metaplay_fixup.affine import IDENTITY, Affine, Point
from metaplay_fixup.faults import Fault, FaultName
from metaplay_fixup.text import Box, LaidText, LogicalFont, PageToDevice, TextRecord, TextSettings
from metaplay_fixup.text_boxes import clip_box, opaque_box

from .made_folder import MadeFolder
from .texts import Case, lay, page_of

RUNS = 2000
NUMBERS = (0, 1, -1, 2, 7, -100, 450, 900, 3600, 32767, -32768, 65535, 1 << 20, (1 << 31) - 1, -(1 << 31))
EXTENTS = tuple(number for number in NUMBERS if number)
SINGLES = (0, 1, -1, (1 << 24) - 1, 3)
CODES = (0x41, 0x42, 0x20, 0) * 10 + (0xD800, 0x5D0)
BYTES = b"AB \0" * 10 + b"\x81"
FACES = ("Squares", "squares") * 10 + ("", "@Squares", "Arial")
OPTIONS = (0, 2, 4, 6) * 10 + (0x10, 0x80, 0x1000)
EXPECTED = {
    FaultName.OffPlane,
    FaultName.GlyphIndexes,
    FaultName.ComplexScript,
    FaultName.MissingFont,
    FaultName.VerticalFace,
    FaultName.MissingGlyph,
    FaultName.ClipShape,
}


class AnyText(MadeFolder):
    """Records of extreme numbers, always the same."""

    def test_extreme_numbers(self) -> None:
        source = random.Random(2)
        for _ in range(RUNS):
            self.assert_ends(_case(source))

    def assert_ends(self, case: Case) -> None:
        """The text is laid out in whole numbers, or rejected with an expected fault."""
        try:
            laid = lay(self.layer, case)
            opaque_box(case.record, case.page)
            clip_box(case.record, laid, case.page)
        except Fault as fault:
            self.assertIn(fault.name, EXPECTED)
        else:
            self.assertTrue(all(isinstance(number, int) for number in _numbers(laid)))


def _numbers(laid: LaidText) -> list[int]:
    contours = laid.glyphs + laid.lines + [laid.background or []]
    points = [point for contour in contours for point in contour] + ([laid.position] if laid.position else [])
    return [number for point in points for number in point]


def _case(source: random.Random) -> Case:
    return Case(_font(source), _settings(source), _record(source), _page(source))


def _font(source: random.Random) -> LogicalFont:
    height, width, escapement, orientation = (source.choice(NUMBERS) for _ in range(4))
    weight = source.choice((-1, 0, 400, 550))
    italic, underline, strike_out = (source.random() < 0.5 for _ in range(3))
    face = source.choice(FACES)
    return LogicalFont(height, width, escapement, orientation, weight, italic, underline, strike_out, 0, face)


def _settings(source: random.Random) -> TextSettings:
    extra, break_extra, break_count = (source.choice(NUMBERS) for _ in range(3))
    return TextSettings(source.choice((1, 2)), source.randrange(32), extra, break_extra, break_count)


def _record(source: random.Random) -> TextRecord:
    codes: tuple[int, ...] | bytes = tuple(source.choice(CODES) for _ in range(4))
    if source.random() < 0.5:
        codes = bytes(source.choice(BYTES) for _ in range(4))
    xs = tuple(source.choice(NUMBERS) for _ in range(3)) if source.random() < 0.7 else None
    ys = tuple(source.choice(NUMBERS) for _ in range(2)) if xs and source.random() < 0.3 else None
    box = Box(*(source.choice(NUMBERS) for _ in range(4))) if source.random() < 0.5 else None
    options = source.choice(OPTIONS)
    reference = Point(source.choice(NUMBERS), source.choice(NUMBERS))
    return TextRecord(codes, xs, ys, options, box, reference, source.choice((0, 1, 2)))


def _page(source: random.Random) -> PageToDevice:
    world = IDENTITY
    if source.random() < 0.5:
        a, b, c, d, e, f = (source.choice(SINGLES) << source.randrange(150) for _ in range(6))
        world = Affine.reduced((a, b, c, d, e, f), 1 << source.randrange(150))
    window = Point(source.choice(EXTENTS), source.choice(EXTENTS))
    return page_of(window, Point(source.choice(EXTENTS), source.choice(EXTENTS)), world)
