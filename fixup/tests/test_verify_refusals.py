"""Changes planted in converted files, each of which the second reader refuses for its reason."""

import unittest

from metaplay_verify import verify

from .oracle import emf_record, i16, i32, u16, u32, wmf_record
from .parts import records_of
from .planted import (
    Edit,
    both,
    converted,
    double,
    drop,
    emf_comment,
    emf_original,
    joined,
    kind_of,
    mark,
    move,
    slip_in,
    swap,
    wmf_comment,
    wmf_original,
    write,
)

Row = tuple[str, Edit, int | None]
"""A reason, a change, and the number of the record that shows it."""

RECTANGLE = emf_record(43, i32(1, 1, 9, 9))
NEITHER = "neither the original's record {} nor marked"
BEFORE, OTHER, MORE = "that stand before it", "another mark stands in a place", "draws more than its text has"
MISSING, OUTSIDE = "of the original are missing before a mark", "outside of the text's box"
STAMP = "a stamp of a font has the wrong form or order"

EMF_KINDS = [1, 18, 82, 37, 24, 70, 33, 17, 10, 9, 12, 11, 19, 20, 37, 39, 37, 86, 86, 34, 40, 70, 15, 15, 18, 25]
EMF_KINDS += [70, 33, 17, 10, 9, 12, 11, 30, 19, 20, 37, 39, 37, 86, 37, 40, 39, 37, 86, 34, 40, 70, 15, 22, 27, 18]
EMF_KINDS += [70, 33, 17, 10, 9, 12, 11, 19, 20, 37, 39, 37, 86, 34, 40, 27, 70, 54, 70, 70, 14]


def emf_marks(begin: int, end: int, first: int, count: int) -> Edit:
    """Writes other numbers into the marks of a place."""
    return both(write(begin, 20, u32(first, count)), write(end, 20, u32(first, count)))


KEPT: list[Row] = [
    (NEITHER.format(1), write(1, 8, b"\2"), 1),
    (NEITHER.format(2), write(2, 103, b"\1"), 2),
    (NEITHER.format(7), swap(22, 23), 22),
    (NEITHER.format(7), drop(22), 22),
    (NEITHER.format(8), double(22), 23),
    (NEITHER.format(8), drop(23), 23),
    (NEITHER.format(1), swap(1, 4), 1),
    (NEITHER.format(1), drop(1), 1),
    (NEITHER.format(9), slip_in(24, emf_comment(b"hello")), 24),
    ("a stamp doesn't stand before the end", drop(69), 69),
    ("records from 4 to 4 " + MISSING, drop(4), 4),
    ("a record follows the stamps", write(72, 8, b"\1"), 72),
]

MARKS: list[Row] = [
    (NEITHER.format(5), move(5, 21, 23), 5),
    ("records from 10 to 10 " + MISSING, move(26, 47, 25), 25),
    (NEITHER.format(11), move(26, 47, 49), 26),
    (BEFORE, emf_marks(5, 21, 4, 2), 5),
    (NEITHER.format(8), emf_marks(5, 21, 5, 3), 22),
    (NEITHER.format(6), emf_marks(5, 21, 5, 1), 22),
    (OTHER, write(5, 24, b"\3"), 21),
    (OTHER, drop(21), 25),
    (NEITHER.format(5), drop(5), 5),
    ("a mark ends no place", double(21), 22),
    (OTHER, double(5), 6),
    (OTHER, slip_in(10, emf_comment(mark(1, 5, 2))), 10),
    (OTHER, slip_in(10, emf_comment(mark(1, 6, 1)), emf_comment(mark(2, 6, 1))), 10),
    (BEFORE, double(5, 21), 22),
    ("that the original doesn't have", emf_marks(26, 47, 11, 8), 26),
    ("that the original doesn't have", emf_marks(26, 47, 0xFFFFFFFF, 1), 26),
    (
        "a mark has the wrong form",
        lambda records: [*records[:5], emf_comment(mark(1, 5, 2) + b"more"), *records[6:]],
        5,
    ),
    ("a place follows another", slip_in(22, emf_comment(mark(1, 7, 0)), emf_comment(mark(2, 7, 0))), 22),
    ("is empty and replaces nothing", slip_in(23, emf_comment(mark(1, 8, 0)), emf_comment(mark(2, 8, 0))), 24),
    ("a mark ends no place", slip_in(23, emf_comment(mark(9, 8, 1))), 23),
    ("a place has no end", drop(68, 70, 71), 69),
    ("the first stamp hasn't the original's SHA-256", drop(70), 70),
    ("the stamp with the original's SHA-256 is missing", drop(70, 71), 70),
    ("the first stamp hasn't the original's SHA-256", write(70, 40, b"x"), 70),
    ("the first stamp hasn't the original's SHA-256", swap(70, 71), 70),
    (STAMP, double(71), 72),
    (STAMP, write(71, 21, b"x"), 71),
    ("a stamp doesn't stand before the end", move(70, 70, 69), 69),
    ("a record follows the stamps", slip_in(72, emf_comment(b"hello")), 72),
]

BLOCKS: list[Row] = [
    ("where it saves the state", swap(6, 7), 6),
    ("where it saves the state", slip_in(6, RECTANGLE), 6),
    ("where it saves the state", slip_in(21, RECTANGLE), 21),
    ("where it sets the map mode", drop(7), 7),
    ("where it sets the window's origin", write(8, 8, b"\1"), 8),
    ("counts in wrong parts", write(9, 8, i32(1024, 512)), 9),
    ("counts in wrong parts", write(30, 8, i32(2048, 2048)), 30),
    ("counts in wrong parts", write(9, 8, i32(0, 0)), 9),
    ("counts in wrong parts", write(9, 8, i32(8192, 8192)), 9),
    ("where it sets the viewport's origin", drop(10), 10),
    ("where it sets the viewport's extent", write(11, 8, b"\2"), 11),
    ("a polygon's bounds are wrong", write(10, 8, i32(60)), 17),
    (OUTSIDE, both(write(10, 8, i32(90)), write(17, 8, i32(90, 30, 94, 34)), write(18, 8, i32(96, 30, 100, 34))), 17),
    ("where it sets the fill mode", write(12, 8, b"\1"), 12),
    ("where it sets the raster operation", write(13, 8, b"\7"), 13),
    ("where it selects the null pen", write(14, 8, b"\7"), 14),
    ("makes a wrong brush", write(15, 12, b"\2"), 15),
    ("makes a wrong brush", write(15, 8, b"\1"), 15),
    ("another colour than the text's", write(15, 16, b"\xfe"), 15),
    ("another colour than the text's", write(37, 17, b"\xfe"), 37),
    ("where it selects its brush", write(16, 8, b"\1"), 16),
    (OUTSIDE, both(write(17, 8, i32(-12)), write(17, 28, i16(-32768))), 17),
    ("a polygon's bounds are wrong", write(17, 28, i16(-32768)), 17),
    (OUTSIDE, write(17, 8, i32(-100)), 17),
    ("a polygon's counts are wrong", write(17, 24, u32(3)), 17),
    ("a polygon's counts are wrong", both(write(17, 0, u32(91)), write(17, 24, u32(0x40000000))), 17),
    ("a polygon's counts are wrong", both(write(17, 0, u32(91)), write(17, 24, u32(1, 9, 1))), 17),
    (MORE, double(18), 19),
    (MORE, double(64), 65),
    (MORE, double(39), 45),
    ("where it restores the state", slip_in(18, RECTANGLE), 18),
    ("where it restores the state", slip_in(19, emf_record(37, u32(0x80000000))), 19),
    ("where it restores the state", drop(19), 19),
    ("where it restores the state", write(19, 8, i32(-2)), 19),
    ("where it deletes its brush", drop(20), 20),
    ("where it deletes its brush", write(20, 8, b"\1"), 20),
    (OUTSIDE, drop(33), 38),
    (OUTSIDE, write(33, 8, i32(2000)), 39),
    (OUTSIDE, write(33, 16, i32(20400)), 39),
    ("has a wrong clip", slip_in(12, emf_record(30, i32(0, 0, 4096, 4096))), 18),
    (MORE, both(write(37, 16, u32(0x0000FF)), write(42, 16, u32(0x00FF00))), 44),
    ("where it restores the state", drop(40), 40),
    ("where it deletes a brush", drop(41), 41),
    ("moved outside of the text's box", write(67, 8, i32(90)), 67),
    ("but no text moves it", double(67), 68),
    ("but no text moves it", slip_in(21, emf_record(27, i32(20, 30))), 21),
    ("other records than text", both(emf_marks(5, 21, 5, 3), drop(22)), 5),
]

HEADERS: list[tuple[str, int, bytes]] = [
    ("the header's size is wrong", 48, u32(60)),
    ("the header's count of records is wrong", 52, u32(72)),
    ("the header's count of handles is wrong", 56, u16(4)),
    ("the header's count of handles is wrong", 56, u16(6)),
    ("the header has changed", 8, b"\1"),
    ("the header has changed", 58, b"\1"),
    ("the header has changed", 72, b"\7"),
]


def wmf_marks(begin: int, end: int, first: int, count: int) -> Edit:
    """Writes other numbers into the marks of a place."""
    return both(write(begin, 18, u32(first, count)), write(end, 18, u32(first, count)))


WMF: list[Row] = [
    (NEITHER.format(3), write(3, 6, b"\1"), 3),
    (NEITHER.format(5), swap(19, 20), 19),
    (NEITHER.format(5), drop(19), 19),
    (NEITHER.format(6), double(19), 20),
    (NEITHER.format(7), slip_in(21, wmf_comment(b"hello")), 21),
    (NEITHER.format(4), move(4, 18, 20), 4),
    (BEFORE, wmf_marks(4, 18, 3, 1), 4),
    (BEFORE, double(4, 18), 19),
    (OTHER, slip_in(8, wmf_comment(mark(1, 4, 1))), 8),
    ("that the original doesn't have", wmf_marks(23, 42, 9, 8), 23),
    ("the first stamp hasn't the original's SHA-256", drop(64), 64),
    (STAMP, double(65), 66),
    ("where it saves the state", drop(5), 5),
    ("where it sets the window's origin", drop(6), 6),
    ("isn't the page's, made finer", write(7, 6, i16(5)), 7),
    ("isn't the page's, made finer", write(7, 6, i16(-25600)), 7),
    ("isn't the page's, made finer", write(7, 6, i16(25700, 25700)), 7),
    (OUTSIDE, write(6, 6, i16(-30000)), 14),
    ("where it sets the fill mode", write(8, 6, b"\1"), 8),
    ("where it sets the fill mode", swap(8, 9), 8),
    ("where it sets the raster operation", write(9, 6, b"\7"), 9),
    ("where it makes its pen", write(10, 6, b"\0"), 10),
    ("where it selects its pen", write(11, 6, b"\2"), 11),
    ("another colour than the text's", write(12, 9, b"\1"), 12),
    ("makes a wrong brush", write(12, 6, b"\2"), 12),
    ("where it selects its brush", write(13, 6, b"\1"), 13),
    (OUTSIDE, write(14, 8, i16(30000)), 14),
    ("a polygon's counts are wrong", write(14, 6, b"\3"), 14),
    (MORE, double(14), 15),
    ("where it restores the state", slip_in(14, wmf_record(0x041B, i16(9, 9, 1, 1))), 14),
    ("where it restores the state", write(15, 6, i16(-2)), 15),
    ("where it deletes its pen", swap(16, 17), 16),
    ("where it deletes its brush", slip_in(17, wmf_record(0x041B, i16(9, 9, 1, 1))), 17),
    ("the header's count of objects is wrong", drop(17), None),
    (OUTSIDE, drop(27), 33),
    ("where it deletes a brush", drop(37), 37),
    ("moved outside of the text's box", write(61, 6, i16(0, 90)), 61),
    ("but no text moves it", slip_in(18, wmf_record(0x0214, i16(20, 30))), 18),
]


class Planted(unittest.TestCase):
    """Each planted change is refused."""

    def refuse(self, original: bytes, fixed: bytes, reason: str, record: int | None, text_only: bool) -> None:
        """Checks a refusal. The record is one of the fixed file."""
        verdict = verify(original, fixed, text_only)
        self.assertFalse(verdict.holds, reason)
        self.assertIn(reason, verdict.reason)
        if record is not None:
            self.assertEqual(verdict.record, record, reason)

    def rows(self, original: bytes, rows: list[Row], text_only: bool) -> None:
        """Checks the rows of a table."""
        fixed = converted(original)
        for reason, edit, record in rows:
            with self.subTest(reason=reason, record=record):
                self.refuse(original, joined(fixed, edit(records_of(fixed))), reason, record, text_only)

    def test_kinds(self) -> None:
        """The records that the tables name by their numbers."""
        self.assertEqual([kind_of(record, True) for record in records_of(converted(emf_original()))], EMF_KINDS)

    def test_kept_records(self) -> None:
        """Records outside of the marks, with or without --text-only."""
        for text_only in (False, True):
            self.rows(emf_original(), KEPT, text_only)

    def test_marks(self) -> None:
        """Marks and stamps, with or without --text-only."""
        for text_only in (False, True):
            self.rows(emf_original(), MARKS, text_only)

    def test_blocks(self) -> None:
        """Blocks of EMF."""
        self.rows(emf_original(), BLOCKS, True)

    def test_wmf(self) -> None:
        """All of it in WMF."""
        self.rows(wmf_original(), WMF, True)

    def test_number(self) -> None:
        """There are enough of them."""
        self.assertGreaterEqual(len(KEPT + MARKS + BLOCKS + WMF) + len(HEADERS), 60)

    def test_headers(self) -> None:
        """Counts and sizes of EMF."""
        original = emf_original()
        fixed = converted(original)
        for reason, at, data in HEADERS:
            self.refuse(original, fixed[:at] + data + fixed[at + len(data) :], reason, 0, True)

    def test_wmf_headers(self) -> None:
        """Counts and sizes of WMF; the placeable header is at 0, the other at 22."""
        original = wmf_original()
        fixed = converted(original)
        rows = [(28, u32(7), "size"), (32, u16(3), "count of objects"), (32, u16(5), "count of objects")]
        rows += [(34, u32(100), "largest record"), (6, b"\1", "has changed"), (38, b"\1", "has changed")]
        for at, data, reason in rows:
            self.refuse(original, fixed[:at] + data + fixed[at + len(data) :], reason, None, False)

    def test_tails(self) -> None:
        """Bytes after the end record."""
        for original in (emf_original(), wmf_original()):
            fixed = converted(original)
            self.refuse(original, fixed + b"\0\0", "bytes follow the end record", len(records_of(fixed)) - 1, False)

    def test_nothing_marked(self) -> None:
        """Another file, and one that has lost its tail."""
        original = emf_original()
        self.refuse(original + b"tail", original, "nothing is marked, but the files differ", None, False)
        self.refuse(original, wmf_original(), "the files have different forms", None, False)


if __name__ == "__main__":
    unittest.main()
