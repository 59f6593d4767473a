"""What holds of each conversion with strokes, over made files and mutants."""

import random
import time
import unittest
from functools import partial
from unittest.mock import patch

from metaplay_fixup.budgets import Budget
from metaplay_fixup.convert import Converted, convert
from metaplay_fixup.faults import Fault, FaultName
from metaplay_fixup.options import AlphaRule, Options

from .emf_records import world
from .oracle import (
    NO_BOUNDS,
    emf_file,
    emf_record,
    emf_script,
    i16,
    i32,
    placeable_file,
    refusal_of,
    u16,
    u32,
    wmf_record,
    wmf_script,
)
from .parts import places_of
from .stroke_records import DELETE, GEOMETRIC, STROKES, long_pen, select, wmf_pen
from .test_laws import mutant, samples


class Laws(unittest.TestCase):
    """What holds of each conversion with strokes."""

    def made_files(self) -> list[bytes]:
        """Files with many pens and drawings."""
        drawings = "move 1 2; line 70 8; rectangle 10 10 20 20; polygons 10 10 90 90 10 90 | 20 20 30 20 20 30"
        path = emf_script("begin_path; move 5 5; line 0 60; polyline 3 3 50 50; close_figure; end_path; stroke_path")
        emf: list[bytes] = []
        for style, width in ((0, 5), (1, 1), (GEOMETRIC | 2, 3), (GEOMETRIC | 0x1200 | 4, 2), (GEOMETRIC | 7, 6)):
            emf += [*long_pen(style, width, *((3, 4, 5) if style & 7 == 7 else ())), *emf_script(drawings), *path]
            emf += [emf_record(42, i32(1, 1, 40, 20)), emf_record(88, NO_BOUNDS + u32(3) + i16(10, 0, 20, 30, 3, 60))]
            emf += [select(0x80000007), DELETE[:8] + u32(1), world(0.6, 0.8, -0.8, 0.6, 7.5, 8)]
        wmf: list[bytes] = []
        for index, (style, width) in enumerate(((0, 5), (1, 1), (3, 0), (0x1100, 9))):
            wmf += [wmf_pen(style, width)[0], wmf_record(0x012D, u16(index)), *wmf_script(drawings)]
            wmf += [wmf_record(0x0418, i16(90, 90, 10, 10)), *wmf_script("polyline 1 1 5 50")]
        return [emf_file(emf), placeable_file(wmf)]

    def check(self, data: bytes, options: Options) -> Converted:
        """Twice the same; other records stay; converted again, nothing changes."""
        result = convert(data, options, None)
        self.assertEqual(convert(data, options, None), result)
        numbers = [place.first + at for place in places_of(data, result.data) for at in range(place.count)]
        self.assertEqual(numbers, sorted({replacement.record for replacement in result.replacements}))
        self.assertEqual(convert(result.data, options, None), Converted(result.data, ()))
        return result

    def test_made_files(self) -> None:
        """They play after, at several bounds."""
        for data in self.made_files():
            for bound in (1, 64, 1000, 8192):
                result = self.check(data, Options(bound=bound, strokes=True))
                self.assertIsNone(refusal_of(result.data))
                self.assertGreaterEqual(len(result.replacements), 20)

    def test_mutants(self) -> None:
        """Each mutant is converted, with the laws, or has a named fault."""
        source = random.Random(744)
        files = [*(data for data in samples() if len(data) > 100), *self.made_files() * 10]
        converted, options = 0, Options(bound=500, alpha=AlphaRule.WHITE, strokes=True)
        with patch("metaplay_fixup.stroke_shapes.MOST_POINTS", 20_000):
            for number in range(100):
                start = time.process_time()
                try:
                    self.check(mutant(source, source.choice(files)), options)
                    converted += 1
                except Fault:
                    pass
                self.assertLess(time.process_time() - start, 5, number)
        self.assertGreater(converted, 25)

    def test_bombs(self) -> None:
        """Lines with very many dashes are counted, and end with a named fault."""
        long = emf_script("move -30000 0; line 30000 1")
        data = emf_file([*long_pen(8, 1), *long * 1000])
        start = time.process_time()
        with self.assertRaises(Fault) as raised, patch(
            "metaplay_fixup.emf_session.Budget", partial(Budget, points=200_000)
        ):
            convert(data, STROKES, None)
        self.assertIs(raised.exception.name, FaultName.TooManyEdges)
        self.assertLess(time.process_time() - start, 5)

    def test_far_lines(self) -> None:
        """A line off the plane is rejected before it is cut into dashes, and so is one of too many dashes.

        The plane has 2^30 parts on each side, and 4,096 parts are a unit.
        """
        ends = (((1 << 18) + 1, FaultName.OffPlane), (260_000, FaultName.TooManyEdges), (40_000, None))
        start = time.process_time()
        for end, name in ends:
            data = emf_file([*long_pen(8, 1), *emf_script(f"polyline 0 0 {end} {end // 2}")])
            with patch("metaplay_fixup.dashes.MOST_POINTS", 100_000):
                try:
                    convert(data, STROKES, None)
                    found = None
                except Fault as fault:
                    found = fault.name
            self.assertIs(found, name, end)
        self.assertLess(time.process_time() - start, 5)

    def seconds(self, records: list[bytes]) -> float:
        """The processor time of a conversion: the least of three, since other programs may be busy."""
        data = emf_file(records)
        times = []
        for _ in range(3):
            start = time.process_time()
            convert(data, Options(bound=500, strokes=True), None)
            times.append(time.process_time() - start)
        return min(times)

    def test_linear(self) -> None:
        """Four times as many strokes, or points of one stroke, take less than nine times as long."""
        for pen in (long_pen(GEOMETRIC, 4), long_pen(GEOMETRIC | 1, 2), long_pen(2, 1)):
            lines = emf_script("move 1 2; line 70 8")
            few, many = self.seconds([*pen, *lines * 50]), self.seconds([*pen, *lines * 200])
            self.assertLess(many, 9 * few + 0.05)
            zigzag = [number for at in range(400) for number in (at % 90, at % 7)]
            few, many = (
                self.seconds([*pen, emf_record(87, NO_BOUNDS + u32(len(part) // 2) + i16(*part))])
                for part in (zigzag[:200], zigzag)
            )
            self.assertLess(many, 9 * few + 0.05)


if __name__ == "__main__":
    unittest.main()
