"""Texts with a font's metrics lie in the boxes that the second reader expects."""

import random
import unittest

from metaplay_fixup.convert import convert
from metaplay_fixup.faults import Fault
from metaplay_fixup.options import Options
from metaplay_verify import verify

from .made_folder import MadeFolder
from .oracle import emf_file, emf_record, emf_script, i16, i32, placeable_file, u16, u32, wmf_record, wmf_script
from .emf_records import world

RANDOM_FILES = 200


class Fonts(MadeFolder):
    """Texts with fonts, turned, stretched, aligned and spaced, lie in the boxes that the second reader expects."""

    def test_random_texts(self) -> None:
        """Random files of both formats, always the same."""
        source = random.Random(75)
        places = 0
        for number in range(RANDOM_FILES):
            original = random_wmf(source) if number % 3 == 0 else random_emf(source)
            try:
                fixed = convert(original, Options(text_only=True), self.layer).data
            except Fault:
                continue
            verdict = verify(original, fixed, True)
            self.assertTrue(verdict.holds, (number, verdict))
            places += verdict.places
        self.assertGreater(places, RANDOM_FILES)


class Wide(MadeFolder):
    """Texts that are much wider than high."""

    def test_wide_fonts(self) -> None:
        """The average character of 500 units is 200 units wide, so the A is too; the em is 4 units high."""
        sizes = i32(-4, 200, 0, 0, 400) + bytes(8) + "Squares".encode("utf-16-le").ljust(64, b"\0")
        create = [*emf_script("back_mode 1"), emf_record(82, u32(1) + sizes), emf_record(37, u32(1))]
        string = i32(0, 0, -1, -1) + u32(1, 0, 0) + i32(20, 30) + u32(1, 76, 0) + i32(0, 0, -1, -1) + u32(0)
        original = emf_file([*create, emf_record(84, string + b"A\0\0\0")])
        fixed = convert(original, Options(text_only=True), self.layer).data
        self.assertEqual(verify(original, fixed, True).places, 1)

    def test_wide_spaces(self) -> None:
        """A space is 300 units wider than in its font."""
        sizes = i32(-4, 0, 0, 0, 400) + bytes(8) + "Squares".encode("utf-16-le").ljust(64, b"\0")
        create = [*emf_script("back_mode 1"), emf_record(82, u32(1) + sizes), emf_record(37, u32(1))]
        string = i32(0, 0, -1, -1) + u32(1, 0, 0) + i32(20, 30) + u32(3, 76, 0) + i32(0, 0, -1, -1) + u32(0)
        codes = "A A".encode("utf-16-le") + bytes(2)
        original = emf_file([*create, emf_record(120, i32(300, 1)), emf_record(84, string + codes)])
        fixed = convert(original, Options(text_only=True), self.layer).data
        self.assertEqual(verify(original, fixed, True).places, 1)


def random_emf(source: random.Random) -> bytes:
    """An EMF with texts far apart under random fonts, maps and worlds."""
    records = [*emf_script("map_mode 8"), emf_record(9, i32(*source.choices((100, -300, 40), k=2)))]
    records.append(emf_record(11, i32(*source.choices((100, 200, -50), k=2))))
    if source.random() < 0.5:
        records.append(world(*(source.choice((1, 0.5, -0.7, 2, 0.1)) for _ in range(6))))
    for _ in range(3):
        turned = source.choice((0, 0, 450, 900, -300))
        sizes = i32(
            source.choice((-20, 10, 0, 30)), source.choice((0, 0, 7, 30)), turned, source.choice((0, turned)), 400
        )
        lines = bytes([0, source.randrange(2), source.randrange(2), 0, 0, 0, 0, 0])
        records.append(emf_record(82, u32(1) + sizes + lines + "Squares".encode("utf-16-le").ljust(64, b"\0")))
        records += [
            emf_record(37, u32(1)),
            emf_record(22, u32(source.choice((0, 2, 6, 8, 24, 30)))),
            emf_record(18, u32(source.choice((1, 2)))),
        ]
        records.append(random_text(source))
    return emf_file(records)


def random_text(source: random.Random) -> bytes:
    """EMR_EXTTEXTOUTW, with or without distances, in pairs or not, and a box."""
    string, options = source.choice(("A", "AB A", "BBBBBBBB")), source.choice((0, 2, 0x2000, 0x2002))
    codes = string.encode("utf-16-le")
    codes += bytes(-len(codes) % 4)
    count = len(string) * (2 if options & 0x2000 else 1)
    has_distances = source.random() < 0.5
    distances = i32(*(source.randrange(-9, 30) for _ in range(count))) if has_distances else b""
    numbers = u32(source.choice((1, 2)), 0, 0) + i32(source.randrange(100), source.randrange(100))
    numbers += u32(len(string), 76, options) + i32(*(source.randrange(100) for _ in range(4)))
    return emf_record(
        84, i32(0, 0, -1, -1) + numbers + u32(76 + len(codes) if has_distances else 0) + codes + distances
    )


def random_wmf(source: random.Random) -> bytes:
    """The same in WMF."""
    records = [wmf_record(0x020C, i16(*source.choices((100, -300, 40), k=2)))]
    for number in range(3):
        sizes = i16(source.choice((-20, 10, 30)), source.choice((0, 0, 7)), source.choice((0, 0, 450, 900)), 0, 400)
        lines = bytes([0, source.randrange(2), source.randrange(2), 0, 0, 0, 0, 0])
        records += [wmf_record(0x02FB, sizes + lines + b"Squares\0"), *wmf_script(f"select {number}")]
        records.append(wmf_record(0x012E, u16(source.choice((0, 2, 6, 8, 24)))))
        records.append(wmf_record(0x0108, i16(source.choice((0, 0, 5)))))
        string = source.choice((b"A\0", b"AB A", b"BBBBBBBB"))
        distances = i16(*(source.randrange(-9, 30) for _ in string)) if source.random() < 0.5 else b""
        place = i16(source.randrange(100), source.randrange(100), len(string), 0)
        records.append(wmf_record(0x0A32, place + string + distances))
    return placeable_file(records)


if __name__ == "__main__":
    unittest.main()
