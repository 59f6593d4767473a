"""What holds of each conversion: of the samples, of made files, and of mutants of both."""

import os
import random
import struct
import subprocess
import sys
import time
import unittest
from functools import partial
from pathlib import Path
from unittest.mock import patch

from metaplay_fixup.budgets import Budget
from metaplay_fixup.convert import Converted, convert
from metaplay_fixup.faults import Fault, FaultName
from metaplay_fixup.options import AlphaRule, Options

from .oracle import (
    SAMPLES,
    emf_file,
    emf_record,
    emf_script,
    i16,
    i32,
    placeable_file,
    refusal_of,
    u32,
    wmf_record,
    wmf_script,
)
from .parts import is_emf, places_of, records_of
from .squares import Squares
from .emf_records import modify, world
from .text_records import UPDATE_POSITION, font, text

PACKAGES = Path(__file__).resolve().parents[1]

MUTANTS = 500
SECONDS_OF_A_FILE = 5.0


def made_files() -> list[bytes]:
    """Files in which much must be replaced."""
    curve = emf_record(88, i32(0, 0, -1, -1, 3) + i16(10, 0, 20, 30, 3, 60))
    path = [
        *emf_script("begin_path; move 5 5"),
        curve,
        *emf_script("line 0 6; close_figure; end_path; stroke_and_fill_path"),
    ]
    region = i32(96, 5, 32, 1, 2, 32) + i32(0, 0, 90, 90) + i32(0, 0, 20, 90, 50, 0, 90, 90) + i32(0, 0, 0, 0)
    emf = [
        *font(),
        *emf_script("back_mode 1; styled_pen 1 0 3 0xff0000; select 1; map_mode 8; window_extent 50 50"),
        emf_record(31, i32(100, 1, 100, 1)),
        *path,
        emf_record(33),
        modify(2, 0.5, 0.25, -0.25, 0.5, 7.5, 8),
        *emf_script("move 1 2; line 7 8; rectangle 1 1 20 20; polygons 1 1 9 9 1 9 | 20 20 30 20 20 30"),
        UPDATE_POSITION,
        text("ab c", 20, 30),
        emf_record(42, i32(1, 1, 40, 20)),
        emf_record(34, i32(-1)),
        emf_record(75, region),
        emf_record(47, i32(1, 1, 40, 20, 5, 5, 7, -9)),
        text("a", 20, 30, 4, (0, 0, 25, 90)),
    ]
    wmf = [
        wmf_record(0x02FB, i16(10, 0, 0, 0, 400) + bytes(8) + b"Squares\0"),
        *wmf_script("select 0; styled_pen 0 0 3 0xff0000; select 1"),
        wmf_record(0x0412, i16(1, 2, 1, 2)),
        wmf_record(0x0418, i16(90, 90, 10, 10)),
        wmf_record(0x0521, i16(1) + b"a\0" + i16(30, 20)),
        wmf_record(0x061C, i16(10, 20, 90, 90, 10, 10)),
        *wmf_script("move 1 2; line 7 8"),
    ]
    return [emf_file(emf), placeable_file(wmf)]


def samples() -> list[bytes]:
    """The repository's samples."""
    return [path.read_bytes() for path in sorted(SAMPLES.glob("*.[ew]mf"))]


def parameters(data: bytes) -> list[int]:
    """The places of a file's bytes that are in the parameters of a record, neither headers nor heads."""
    records = records_of(data)
    head = 8 if is_emf(data) else 6
    first = 1 if is_emf(data) else 0
    at = len(records[0]) if first else len(data) - sum(map(len, records))
    places: list[int] = []
    for record in records[first:]:
        places += range(at + head, at + len(record))
        at += len(record)
    return places


def mutant(source: random.Random, data: bytes) -> bytes:
    """A file with a few bytes of its records' parameters changed, or one with bytes cut out or doubled anywhere."""
    changed, places = bytearray(data), parameters(data)
    for _ in range(source.randrange(1, 5)):
        kind = source.random()
        at = source.choice(places)
        if kind < 0.9:
            changed[at] = source.choice((0, 1, 2, 0x7F, 0x80, 0xFF, source.randrange(256)))
        elif kind < 0.95:
            del changed[at : at + 4 * source.randrange(1, 4)]
            places = [place for place in places if place < len(changed)]
        else:
            changed[at:at] = changed[at : at + 4 * source.randrange(1, 20)]
    return bytes(changed)


class Laws(unittest.TestCase):
    """The laws of a conversion."""

    def check(self, data: bytes, options: Options) -> Converted:
        """A conversion: twice the same; other records stay; converted again, without a layer, nothing changes."""
        result = convert(data, options, Squares())
        self.assertEqual(convert(data, options, Squares()), result)
        if result.replacements:
            numbers = [place.first + at for place in places_of(data, result.data) for at in range(place.count)]
            self.assertEqual(numbers, sorted({replacement.record for replacement in result.replacements}))
            again = Options(bound=options.bound, alpha=options.alpha)
            if not options.text_only:
                self.assertEqual(convert(result.data, again, None), Converted(result.data, ()))
        else:
            self.assertEqual(result.data, data)
        return result

    def test_samples_stay(self) -> None:
        """The samples play as they are, so they come out byte for byte."""
        for data in samples():
            self.assertEqual(self.check(data, Options()), Converted(data, ()))

    def test_made_files(self) -> None:
        """They are rejected before and play after, at several bounds."""
        for data in made_files():
            self.assertIsNotNone(refusal_of(data))
            for bound in (1, 64, 1000, 8192):
                self.assertIsNone(refusal_of(self.check(data, Options(bound=bound)).data))

    def test_marks_of_before(self) -> None:
        """A file with marks, in which text was left, is converted again: its own marks stay and mislead nobody."""
        for data in made_files():
            first = convert(data, Options(), None).data
            second = self.check(first, Options())
            self.assertIsNone(refusal_of(second.data))
            self.assertEqual({place.count > 0 for place in places_of(first, second.data)}, {True})

    def test_same_on_each_run(self) -> None:
        """Other seeds of Python's hashes give the same bytes."""
        program = (
            "from tests.test_laws import *\nimport hashlib\n"
            "outputs = [convert(data, Options(), Squares()).data for data in made_files()]\n"
            "print(hashlib.sha256(b''.join(outputs)).hexdigest())"
        )
        digests = set()
        for seed in ("0", "1", "4711"):
            environment = {**os.environ, "PYTHONHASHSEED": seed}
            words = [sys.executable, "-c", program]
            run = subprocess.run(words, cwd=PACKAGES, env=environment, capture_output=True, text=True, check=True)
            digests.add(run.stdout)
        self.assertEqual(len(digests), 1)

    def test_smaller_bounds(self) -> None:
        """A smaller bound gives a smaller file."""
        for data in made_files():
            sizes = [len(convert(data, Options(bound=bound), Squares()).data) for bound in (64, 1000, 8192)]
            self.assertEqual(sizes, sorted(set(sizes)))

    def test_text_only(self) -> None:
        """Only records of text are replaced."""
        for data in made_files():
            result = self.check(data, Options(text_only=True))
            kinds = {replacement.kind for replacement in result.replacements}
            self.assertLessEqual(kinds, {"EMR_EXTTEXTOUTW", "META_TEXTOUT"})

    def test_mutants(self) -> None:
        """Each mutant is converted, with the laws, or has a named fault, and none takes long."""
        source = random.Random(74)
        files = [*(data for data in samples() if len(data) > 100), *made_files() * 10]
        converted = 0
        for number in range(MUTANTS):
            data = mutant(source, source.choice(files))
            options = Options(alpha=AlphaRule.WHITE, text_only=number % 4 == 0)
            start = time.process_time()
            try:
                self.check(data, options)
                converted += 1
            except Fault:
                pass
            self.assertLess(time.process_time() - start, SECONDS_OF_A_FILE, number)
        self.assertGreater(converted, MUTANTS // 4)


class Bombs(unittest.TestCase):
    """Small files that ask for very much end by themselves, with a named fault."""

    def fault_of(self, records: list[bytes], points: int = 100_000) -> FaultName:
        """The fault of a file, which must come soon, where curves may have so many chords."""
        start = time.process_time()
        with self.assertRaises(Fault) as raised, patch(
            "metaplay_fixup.emf_session.Budget", partial(Budget, points=points)
        ):
            convert(emf_file(records), Options(), Squares())
        self.assertLess(time.process_time() - start, SECONDS_OF_A_FILE)
        return raised.exception.name

    def test_dropped_paths(self) -> None:
        """Paths of long curves that are dropped again: their chords are counted."""
        curve = emf_record(2, i32(0, 0, -1, -1, 4) + i32(0, 0, 9999, 0, -9999, 50, 0, 99))
        path = [*emf_script("begin_path"), *[curve] * 10, *emf_script("end_path; abort_path")]
        self.assertEqual(self.fault_of(path * 300), FaultName.TooManyEdges)

    def test_hidden_bitmaps(self) -> None:
        """Bitmaps of few bytes and many pixels that aren't shown: their pixels are counted."""
        info = struct.pack("<IiiHHIIiiII", 40, 4000, 4000, 1, 8, 1, 0, 0, 0, 2, 0) + bytes(8)
        parts = u32(80, len(info), 80 + len(info), 2, 0, 0xCC0020)
        hidden = emf_record(81, i32(0, 0, -1, -1, 0, 0, 5000, 0, 4, 4) + parts + i32(9, 9) + info + b"\0\1\0\0")
        self.assertEqual(self.fault_of([hidden] * 1000), FaultName.TooLong)

    def test_long_curves(self) -> None:
        """Curves far outside of the frame: one out of all proportion is rejected at once, and others are counted."""
        far, near = (emf_record(42, i32(-side, -side, side, side)) for side in (1 << 30, 60000))
        self.assertEqual(self.fault_of([far]), FaultName.OffPlane)
        self.assertEqual(self.fault_of([near] * 1000), FaultName.TooManyEdges)


class Growth(unittest.TestCase):
    """Time grows with the number of records, not with its square."""

    def seconds(self, records: list[bytes]) -> float:
        """The processor time of a conversion."""
        data = emf_file([*emf_script("back_mode 1"), *font(), *records])
        start = time.process_time()
        convert(data, Options(), Squares())
        return time.process_time() - start

    def test_linear(self) -> None:
        """Four times as many texts, clips, worlds and saved states take less than nine times as long."""
        groups = [
            [text("a", 20, 30)],
            emf_script("keep 1 1 90 90"),
            [modify(2, 0.6, 0.8, -0.8, 0.6, 7.5, 8), modify(3, 0.6, -0.8, 0.8, 0.6, 1, 1)],
            [emf_record(33), world(2, 0, 0, 2, 1, 1), *emf_script("line 7 8"), emf_record(34, i32(-1))],
            emf_script("begin_path; line 3 4; end_path; abort_path"),
        ]
        for group in groups:
            few, many = self.seconds(group * 1000), self.seconds(group * 4000)
            self.assertLess(many, 9 * few + 0.05, group)


if __name__ == "__main__":
    unittest.main()
