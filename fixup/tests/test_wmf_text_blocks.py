"""Blocks that take the place of text of WMF, with a layer of squares whose points are worked out by hand."""

import unittest

from metaplay_fixup.convert import Converted, convert
from metaplay_fixup.faults import Fault, FaultName
from metaplay_fixup.options import Options
from metaplay_fixup.text import Box

from .oracle import i16, placeable_file, refusal_of, u16, u32, wmf_record, wmf_script
from .parts import Place, places_of
from .squares import Squares


class Wmf(unittest.TestCase):
    """Text of WMF."""

    FONT = wmf_record(0x02FB, i16(10, 0, 0, 0, 400) + bytes(8) + b"Squares\0")
    SETUP = [*wmf_script("back_mode 1"), FONT, *wmf_script("select 0")]

    def converted(self, records: list[bytes]) -> list[Place]:
        """The replaced places of a file of these records, which plays, and converts to itself without a layer."""
        data = placeable_file([*self.SETUP, *records])
        result = convert(data, Options(), Squares())
        self.assertIsNone(refusal_of(result.data))
        self.assertEqual(convert(result.data, Options(), None), Converted(result.data, ()))
        return places_of(data, result.data)

    def block(self, x: int, y: int, *records: bytes) -> list[bytes]:
        """A block in 256 parts, counted from a point, with pen and brush at the indexes 1 and 2."""
        return [
            wmf_record(0x001E),
            wmf_record(0x020B, i16(-y * 256, -x * 256)),
            wmf_record(0x020C, i16(25600, 25600)),
            wmf_record(0x0106, u16(2)),
            wmf_record(0x0104, u16(13)),
            wmf_record(0x02FA, u16(5) + bytes(8)),
            wmf_record(0x012D, u16(1)),
            *records,
            wmf_record(0x0127, i16(-1)),
            wmf_record(0x01F0, u16(1)),
        ]

    def brush(self, colour: int, index: int) -> list[bytes]:
        """A brush, selected."""
        return [wmf_record(0x02FC, u16(0) + u32(colour) + u16(0)), wmf_record(0x012D, u16(index))]

    SQUARE = wmf_record(0x0324, i16(4, 0, 0, 2560, 0, 2560, 2560, 0, 2560))

    def test_text(self) -> None:
        """META_TEXTOUT: a string of odd length is filled up; y comes before x."""
        (place,) = self.converted([wmf_record(0x0521, i16(1) + b"a\0" + i16(30, 20))])
        expected = [*self.block(20, 30, *self.brush(0, 2), self.SQUARE), wmf_record(0x01F0, u16(2))]
        self.assertEqual(place.records, expected)

    def test_faces(self) -> None:
        """A face's name is in the code page of its charset ([MS-WMF] 2.1.1.5)."""
        rows = [
            (0, "e9", "\u00e9"),
            (128, "96be92a9", "\u660e\u671d"),
            (129, "b1bcb8b2", "\uad74\ub9bc"),
            (134, "cbcecce5", "\u5b8b\u4f53"),
            (136, "b2d3a9fac5e9", "\u7d30\u660e\u9ad4"),
        ]
        for charset, name, face in rows:
            squares = Squares()
            flags = bytes([0, 0, 0, charset, 0, 0, 0, 0])
            create = wmf_record(0x02FB, i16(10, 0, 0, 0, 400) + flags + bytes.fromhex(name).ljust(8, b"\0"))
            string = wmf_record(0x0521, i16(1) + b"a\0" + i16(30, 20))
            convert(placeable_file([create, *wmf_script("select 0"), string]), Options(), squares)
            self.assertEqual([asked.face for _, asked, _ in squares.asked], [face])

    def test_negative_counts(self) -> None:
        """No string has fewer than no characters."""
        for record in (wmf_record(0x0521, i16(-1) + bytes(20)), wmf_record(0x0A32, i16(1, 1, -1, 0) + bytes(20))):
            with self.assertRaises(Fault) as raised:
                convert(placeable_file([*self.SETUP, record]), Options(), Squares())
            self.assertEqual((raised.exception.name, raised.exception.record), (FaultName.BadParams, 3))

    def test_two_colours(self) -> None:
        """The second brush takes another index, and the first goes when it is no longer selected."""
        record = wmf_record(0x0A32, i16(30, 20, 1, 2) + i16(20, 30, 30, 40) + b"a\0")
        (place,) = self.converted([wmf_record(0x0209, u32(0xFF)), record])
        brushes = [*self.brush(0xFFFFFF, 2), self.SQUARE, *self.brush(0xFF, 3), wmf_record(0x01F0, u16(2)), self.SQUARE]
        self.assertEqual(place.records, [*self.block(20, 30, *brushes), wmf_record(0x01F0, u16(3))])

    def test_distances(self) -> None:
        """META_EXTTEXTOUT: a box, the string, and a distance for each character."""
        squares = Squares()
        record = wmf_record(0x0A32, i16(30, 20, 3, 4) + i16(1, 2, 3, 4) + b"abc\0" + i16(7, -8, 9))
        convert(placeable_file([*self.SETUP, record]), Options(), squares)
        ((asked, asked_font, _),) = squares.asked
        self.assertEqual((asked.codes, asked.distances_x, asked.box), (b"abc", (7, -8, 9), Box(1, 2, 3, 4)))
        self.assertEqual((asked.reference, asked.graphics_mode, asked_font.face), ((20, 30), 1, "Squares"))

    def test_clipped(self) -> None:
        """A text that isn't in its box is clipped by it, its corners in the block's units."""
        record = wmf_record(0x0A32, i16(30, 20, 1, 4) + i16(25, 30, 40, 40) + b"a\0")
        (place,) = self.converted([record])
        self.assertEqual(place.records[3], wmf_record(0x0416, i16(2560, 5120, 0, 1280)))

    def test_empty_clip(self) -> None:
        """A box without an area clips everything."""
        (place,) = self.converted([wmf_record(0x0A32, i16(30, 20, 1, 4) + i16(25, 30, 25, 40) + b"a\0")])
        self.assertEqual(place.records, [])

    def test_position(self) -> None:
        """Text that moves the position begins there, and a line after it begins at its end."""
        records = [
            wmf_record(0x012E, u16(1)),
            *wmf_script("move 5 6"),
            wmf_record(0x0521, i16(1) + b"a\0" + i16(90, 90)),
        ]
        places = self.converted([*records, *wmf_script("line 9 9")])
        self.assertEqual(places[0].records[-1], wmf_record(0x0214, i16(6, 15)))

    def test_text_only(self) -> None:
        """An ellipse stays, and the position is set at once."""
        records = [
            wmf_record(0x012E, u16(1)),
            wmf_record(0x0418, i16(9, 9, 1, 1)),
            wmf_record(0x0521, i16(1) + b"a\0" + i16(0, 0)),
        ]
        data = placeable_file([*self.SETUP, *records])
        (place,) = places_of(data, convert(data, Options(text_only=True), Squares()).data)
        self.assertEqual((place.first, place.count), (5, 1))
        self.assertEqual(place.records[-1], wmf_record(0x0214, i16(0, 10)))


if __name__ == "__main__":
    unittest.main()
