"""The text in the header of an EMF file that names the program and the picture ([MS-EMF] 2.2.9), as `info` tells it."""

import json
import struct
import unittest

from info_test import RULES, lines
from metafile.files import EMF_END, emf_file
from reading.info import info
from request_program import PROGRAMS

# Where a header of 88 bytes has its size, and the number and the place of the text's code units.
SIZE, COUNT, PLACE = 4, 60, 64

INKSCAPE = "Inkscape 1.2\0drawing.svg"


def described(units, place=88, count=None, size=None, cut=0):
    """An EMF file with these code units behind the fields of its header."""
    text = struct.pack(f"<{len(units)}H", *units)
    header, end = emf_file([EMF_END])[:88], EMF_END
    text += b"\0" * (-len(text) % 4)
    file = bytearray(header + text + end)
    length = 88 + len(text) if size is None else size
    for at, number in [(SIZE, length), (COUNT, len(units) if count is None else count), (PLACE, place), (48, len(file))]:
        struct.pack_into("<I", file, at, number)
    return bytes(file[: len(file) - cut])


def units_of(text):
    """The code units of a text."""
    coded = text.encode("utf-16-le")
    return list(struct.unpack(f"<{len(coded) // 2}H", coded))


# Files, and their texts by hand.
TEXTS = [
    (described(units_of(INKSCAPE + "\0\0")), INKSCAPE),
    (described(units_of("one")), "one"),
    (described(units_of("Zo\u00eb \U0001f5bc\0")), "Zo\u00eb \U0001f5bc"),
    (described(units_of("\0in the middle\0\0of two\0")), "\0in the middle\0\0of two"),
    (described([]), None),
    (described([0, 0, 0]), None),
    # A surrogate without its other half: the first, the second, both in the wrong order, and one that the count cuts off.
    (described([0x41, 0xD83D]), None),
    (described([0xDDBC, 0x41]), None),
    (described([0xDDBC, 0xD83D]), None),
    (described(units_of("\U0001f5bc"), count=1), None),
    # A part of the code units by the count, and by the place.
    (described(units_of("abcd"), count=2), "ab"),
    (described(units_of("abcd"), place=92, count=2), "cd"),
    # At the end of the header, and behind it by one byte; in the fields before it.
    (described(units_of("abcd"), place=94, count=1), "d"),
    (described(units_of("abcd"), place=95, count=1), None),
    (described(units_of("abcd"), place=86, count=2), None),
    (described(units_of("abcd"), count=0x80000000), None),
    (described(units_of("abcd"), place=0xFFFFFFFF), None),
    # A header of 88 bytes, whatever lies behind it.
    (described(units_of("abcd"), size=88), None),
]


class Descriptions(unittest.TestCase):
    """Texts of headers."""

    def test_texts_by_hand(self):
        for program in PROGRAMS:
            found = [json.loads(line)["description"] for line in lines(program, [("", file) for file, _ in TEXTS])]
            self.assertEqual(found, [text for _, text in TEXTS])

    def test_whole_lines(self):
        for rules in RULES:
            wanted = [info("", file, rules)[0] for file, _ in TEXTS]
            for program in PROGRAMS:
                self.assertEqual(lines(program, [("", file) for file, _ in TEXTS], rules), wanted)

    def test_a_file_that_is_cut(self):
        file = described(units_of("abcd"))
        for program in PROGRAMS:
            cases = [("", file[:length]) for length in range(len(file))]
            found = [json.loads(line)["description"] for line in lines(program, cases)]
            self.assertEqual(found, ["abcd" if length >= 96 else None for length in range(len(file))])

    def test_a_file_that_does_not_open(self):
        file = bytearray(described(units_of("abcd")))
        struct.pack_into("<4i", file, 8, 0, 0, 0x7FFFFFFF, 0x7FFFFFFF)
        for program in PROGRAMS:
            line = json.loads(lines(program, [("", bytes(file))])[0])
            self.assertEqual((line["fault"], line["description"]), ("NoFrame", "abcd"))


if __name__ == "__main__":
    unittest.main()
