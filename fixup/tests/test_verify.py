"""Converted files that the second reader accepts, hostile ones, and its command."""

import io
import random
import tempfile
import time
import unittest
from contextlib import redirect_stderr, redirect_stdout
from pathlib import Path

from metaplay_fixup.convert import convert
from metaplay_fixup.options import AlphaRule, Options
from metaplay_verify import Replaced, Unreadable, Verdict, verify
from metaplay_verify.__main__ import main

from .oracle import emf_file, emf_record, emf_script, i16, i32, placeable_file, plain_file, u16, u32, wmf_record
from .oracle import wmf_script
from .parts import places_of
from .planted import converted, emf_comment, emf_original, mark, wmf_comment, wmf_original
from .squares import Squares
from .emf_records import world
from .test_laws import made_files, mutant, samples
from .text_records import font, text

MUTANTS = 500
SECONDS_OF_A_FILE = 5.0

TEXT = wmf_record(0x0521, i16(1) + b"a\0" + i16(30, 20))


class Accepted(unittest.TestCase):
    """Outputs of the converter hold."""

    def accept(self, original: bytes, text_only: bool) -> Verdict:
        """Converts a file, and checks that all is well with it."""
        options = Options(text_only=text_only, alpha=AlphaRule.WHITE)
        verdict = verify(original, convert(original, options, Squares()).data, text_only)
        self.assertTrue(verdict.holds, verdict)
        return verdict

    def test_samples(self) -> None:
        """The samples come out as they are, and nothing was replaced."""
        for original in samples():
            self.assertEqual(self.accept(original, True), Verdict(True))

    def test_made_files(self) -> None:
        """Files with worlds, paths, clips, curves and text: all that was replaced is listed."""
        for original in made_files():
            verdict = self.accept(original, False)
            numbers = [replacement.record for replacement in convert(original, Options(), Squares()).replacements]
            self.assertEqual([replaced.record for replaced in verdict.replaced], sorted(set(numbers)))

    def test_text_only(self) -> None:
        """Blocks of text: shared, clipped, over a background, moving; the records and places are named."""
        wanted = [Replaced(number, "EMR_EXTTEXTOUTW") for number in (5, 6, 11, 16)]
        self.assertEqual(self.accept(emf_original(), True), Verdict(True, "", None, tuple(wanted), 3))
        wanted = [Replaced(4, "META_TEXTOUT"), Replaced(9, "META_EXTTEXTOUT"), Replaced(14, "META_TEXTOUT")]
        self.assertEqual(self.accept(wmf_original(), True), Verdict(True, "", None, tuple(wanted), 3))
        self.accept(made_files()[0], True)

    def test_plain_wmf(self) -> None:
        """A WMF without a placeable header, in text mode after its first window."""
        setup = [wmf_record(0x020C, i16(100, 100)), wmf_record(0x02FB, i16(4, 0, 0, 0, 400) + bytes(8) + b"Squares\0")]
        for mode in (1, 7, 8):
            records = [*setup, *wmf_script("select 0"), wmf_record(0x0103, u16(mode)), TEXT]
            self.assertEqual(self.accept(plain_file(records), True).places, 1)

    def test_palettes(self) -> None:
        """Colours that are indexes into the selected palette."""
        entries = bytes([9, 8, 7, 0, 1, 2, 3, 0])
        emf = [
            emf_record(49, u32(2) + u16(0x300, 2) + entries),
            emf_record(48, u32(2)),
            emf_record(24, u32(0x01000001)),
            *font(4),
            text("a", 20, 30),
        ]
        self.assertEqual(self.accept(emf_file(emf), True).places, 1)
        wmf = [
            wmf_record(0x00F7, u16(0x300, 2) + entries),
            wmf_record(0x0234, u16(0)),
            wmf_record(0x0209, u32(0x01000001)),
            wmf_record(0x02FB, i16(4, 0, 0, 0, 400) + bytes(8) + b"Squares\0"),
            *wmf_script("select 1"),
            TEXT,
        ]
        self.assertEqual(self.accept(placeable_file(wmf), True).places, 1)

    def test_saved_states(self) -> None:
        """Colours, fonts and maps come back with a state."""
        inside = [emf_record(24, u32(0xFF00)), world(2, 0, 0, 2, 9, 9), *emf_script("map_mode 8; window_extent 5 5")]
        records = [*font(4), emf_record(33), *inside, text("a", 1, 1), emf_record(34, i32(-1)), text("b", 60, 60)]
        self.assertEqual(self.accept(emf_file(records), True).places, 2)

    def test_metric_mode(self) -> None:
        """Text in tenths of a millimetre, upwards."""
        self.assertEqual(
            self.accept(emf_file([*emf_script("map_mode 2"), *font(40), text("a", 50, -60)]), True).places, 1
        )


class Marks(unittest.TestCase):
    """Originals that have marks, or bytes that look like them."""

    def test_converted_twice(self) -> None:
        """A file that was converted without text, and then with it, against both originals."""
        for original in made_files():
            first = convert(original, Options(), None).data
            second = convert(first, Options(), Squares()).data
            self.assertTrue(verify(original, first, False).holds)
            self.assertTrue(verify(first, second, False).holds)
            self.assertFalse(verify(original, second, False).holds)
            self.assertTrue(verify(first, convert(first, Options(text_only=True), Squares()).data, True).holds)

    def test_lookalikes(self) -> None:
        """Marks of the same places, other places, halves of marks, stamps, and what isn't a comment of that kind."""
        looks = [mark(kind, first, count) for kind in (0, 1, 2, 3) for first in (0, 5, 30) for count in (0, 1)]
        looks += [b"MPFX", b"MPFX\1", b'MPFX\3\0\0\0{"original":"00"}', b"MPF"]
        for look in looks:
            comment = emf_comment(look)
            records = [comment, *font(4), comment, text("a", 20, 30), comment, text("b", 60, 30), comment]
            original = emf_file(records)
            verdict = verify(original, converted(original), True)
            self.assertEqual((verdict.holds, verdict.places), (True, 2), look)
            comment = wmf_comment(look)
            original = placeable_file([comment, comment, TEXT, comment, TEXT, comment])
            verdict = verify(original, converted(original), True)
            self.assertEqual((verdict.holds, verdict.places), (True, 2), look)

    def test_equal_marks(self) -> None:
        """The original's last record before a text is the very mark that the text's place begins with."""
        original = emf_file([*font(4), emf_comment(mark(1, 4, 1)), text("a", 20, 30), emf_comment(mark(2, 4, 1))])
        fixed = converted(original)
        self.assertTrue(verify(original, fixed, True).holds)
        once = fixed.replace(emf_comment(mark(1, 4, 1)), b"", 1)
        self.assertFalse(verify(original, once, False).holds)


class Hostile(unittest.TestCase):
    """Any input ends soon, with a verdict or a named error."""

    def test_mutants(self) -> None:
        """Changed originals and files. What holds also holds for the reader of the tests."""
        source = random.Random(74)
        pairs = [
            (data, converted(data, only), only) for data in (emf_original(), wmf_original()) for only in (True, False)
        ]
        refused = 0
        for number in range(MUTANTS):
            original, fixed, text_only = source.choice(pairs)
            changed = mutant(source, original if number % 5 == 0 else fixed)
            first, second = (changed, fixed) if number % 5 == 0 else (original, changed)
            start = time.process_time()
            try:
                verdict = verify(first, second, text_only)
            except Unreadable:
                refused += 1
                continue
            self.assertLess(time.process_time() - start, SECONDS_OF_A_FILE)
            refused += not verdict.holds
            if verdict.holds and first != second:
                self.assertTrue(places_of(first, second))
        self.assertGreater(refused, MUTANTS // 2)

    def test_cut_files(self) -> None:
        """Files that end anywhere."""
        for original in (emf_original(), wmf_original()):
            fixed = converted(original)
            for size in range(len(fixed)):
                with self.assertRaises(Unreadable):
                    verify(original, fixed[:size], True)
            for size in range(len(original)):
                with self.assertRaises(Unreadable):
                    verify(original[:size], fixed, True)

    def test_linear(self) -> None:
        """Four times as many records take less than nine times as long."""
        groups = [
            [text("a", 20, 30)],
            [text("a", 20, 30), *emf_script("pixel 1 1")],
            [text("", 0, 0), text("a", 20, 30)],
            [emf_record(33), world(2, 0, 0, 2, 1, 1), text("a", 2, 3), emf_record(34, i32(-1))],
            [emf_comment(mark(1, 5, 1))],
        ]
        for group in groups:
            few, many = self.seconds(group * 500), self.seconds(group * 2000)
            self.assertLess(many, 9 * few + 0.05, group)

    def seconds(self, records: list[bytes]) -> float:
        """The processor time of a verdict."""
        original = emf_file([*emf_script("back_mode 1"), *font(4), *records])
        fixed = converted(original)
        start = time.process_time()
        self.assertTrue(verify(original, fixed, True).holds)
        return time.process_time() - start


class Command(unittest.TestCase):
    """python3 -m metaplay_verify ORIGINAL FILE [--text-only]."""

    def run_on(self, original: bytes, fixed: bytes, *words: str) -> tuple[int, str]:
        """The status and the output."""
        with tempfile.TemporaryDirectory() as folder:
            paths = [Path(folder, "original"), Path(folder, "fixed")]
            for path, data in zip(paths, (original, fixed)):
                path.write_bytes(data)
            return self.main([*map(str, paths), *words])

    def main(self, words: list[str]) -> tuple[int, str]:
        """The status and all that is printed."""
        output = io.StringIO()
        with redirect_stdout(output), redirect_stderr(output):
            return main(words), output.getvalue()

    def test_holds(self) -> None:
        """Each replaced record is listed."""
        status, output = self.run_on(emf_original(), converted(emf_original()), "--text-only")
        self.assertEqual(status, 0)
        lines = [f"record {number} was replaced: EMR_EXTTEXTOUTW" for number in (5, 6, 11, 16)]
        self.assertEqual(
            output.splitlines(), [*lines, "holds: 4 records were replaced in 3 places, which only draw text"]
        )

    def test_refused(self) -> None:
        """The reason has the number of the record."""
        status, output = self.run_on(wmf_original(), converted(wmf_original()) + b"\0\0")
        self.assertEqual((status, output), (1, "doesn't hold: record 66 of the file: bytes follow the end record\n"))

    def test_usage(self) -> None:
        """Too few words, too many, unknown ones."""
        rows: list[list[str]] = [
            [],
            ["a"],
            ["a", "b", "c"],
            ["a", "b", "--other"],
            ["a", "b", "--text-only", "--text-only"],
        ]
        for words in rows:
            self.assertEqual(self.main(words)[0], 2)

    def test_unreadable(self) -> None:
        """A file that isn't there, one that is no metafile, a name that can't be."""
        self.assertEqual(self.main(["/no/such/file", "/no/such/file"])[0], 3)
        self.assertEqual(self.main(["a\0b", "/no/such/file"])[0], 3)
        self.assertEqual(self.run_on(b"text", b"text")[0], 3)
        self.assertEqual(self.run_on(emf_original(), b"text")[0], 3)


if __name__ == "__main__":
    unittest.main()
