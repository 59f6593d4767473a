"""Palettes: their slots, the records that change them, and the colours that text and objects take from them.

The palette has (1, 2, 3) and (4, 5, 6); the second entry may be animated.
"""

import time
import unittest

from metaplay_fixup.convert import Converted, convert
from metaplay_fixup.faults import Fault, FaultName
from metaplay_fixup.options import Options
from metaplay_verify import verify

from .oracle import emf_file, emf_record, emf_script, i16, i32, placeable_file, u16, u32, wmf_record, wmf_script
from .parts import number, places_of
from .squares import Squares
from .text_records import TRANSPARENT, font, text

TWO = bytes([1, 2, 3, 0, 4, 5, 6, 1])
FIRST, SECOND, THIRD = 0x01000000, 0x01000001, 0x01000002
COLOUR_1, COLOUR_2, BLACK, BLUE, GREEN = 0x030201, 0x060504, 0, 0xFF0000, 0x00FF00
BLUE_ENTRY, GREEN_ENTRY = bytes([0, 0, 255, 0]), bytes([0, 255, 0, 0])
SAVE, RESTORE = emf_record(33), emf_record(34, i32(-1))


class Colours(unittest.TestCase):
    """What both formats have in common."""

    def colours(self, data: bytes) -> list[int]:
        """The colours of the brushes in the places of text, of which the second reader accepts each."""
        for text_only in (False, True):
            fixed = convert(data, Options(text_only=text_only), Squares()).data
            verdict = verify(data, fixed, text_only)
            self.assertTrue(verdict.holds, verdict)
        return [
            self.colour(record) for place in places_of(data, fixed) for record in place.records if self.is_brush(record)
        ]

    def colour(self, record: bytes) -> int:
        """The colour of a record that makes a brush."""
        return number(record, 16) if number(record, 0) == 39 else number(record, 8)

    def is_brush(self, record: bytes) -> bool:
        """Whether a record makes a brush."""
        return number(record, 0) == 39 or number(record, 4, 2) == 0x02FC

    def refuse(self, data: bytes, record: int) -> None:
        """The file is rejected at a record, since a colour of a palette isn't known."""
        with self.assertRaises(Fault) as raised:
            convert(data, Options(), Squares())
        self.assertEqual((raised.exception.name, raised.exception.record), (FaultName.PaletteColour, record))


class Emf(Colours):
    """EMF. The palette has the index 2 and is selected; the font has the index 1."""

    A = text("a", 20, 30)

    def file(self, *records: bytes) -> bytes:
        """A file with the palette, whose first record after it has the number 6."""
        palette = [emf_record(49, u32(2) + u16(0x300, 2) + TWO), emf_record(48, u32(2))]
        return emf_file([*TRANSPARENT, *font(), *palette, *records])

    def colour_of(self, reference: int, *records: bytes) -> int:
        """The colour of a text after its colour is set, and then other records."""
        (found,) = self.colours(self.file(emf_record(24, u32(reference)), *records, self.A))
        return found

    def test_index(self) -> None:
        """An index is looked up; the types 0 and 2 are red, green and blue."""
        self.assertEqual(self.colour_of(FIRST), COLOUR_1)
        self.assertEqual(self.colour_of(SECOND), COLOUR_2)
        self.assertEqual(self.colour_of(0x02000000 | GREEN), GREEN)
        self.refuse(self.file(emf_record(24, u32(THIRD)), self.A), 7)
        self.refuse(self.file(emf_record(24, u32(0x03000000)), self.A), 7)

    def test_not_needed(self) -> None:
        """A colour that no palette has matters neither for blanks nor for text in a path."""
        wrong = emf_record(24, u32(THIRD))
        self.assertEqual(self.colours(self.file(wrong, text(" ", 20, 30))), [])
        path = [*emf_script("begin_path"), self.A, *emf_script("end_path; fill_path")]
        self.assertEqual(
            len(places_of(self.file(wrong, *path), convert(self.file(wrong, *path), Options(), Squares()).data)), 1
        )

    def test_looked_up_when_drawn(self) -> None:
        """A palette that is selected after the colour was set, or comes back, is the one that counts."""
        other = [emf_record(49, u32(3) + u16(0x300, 1) + BLUE_ENTRY), emf_record(48, u32(3))]
        self.assertEqual(self.colour_of(FIRST, *other), BLUE)
        self.assertEqual(self.colour_of(FIRST, SAVE, *other, RESTORE), COLOUR_1)
        self.refuse(self.file(emf_record(24, u32(FIRST)), emf_record(48, u32(0x8000000F)), self.A), 8)

    def test_set_entries(self) -> None:
        """EMR_SETPALETTEENTRIES changes a palette for all states that have it; what goes past its end is left out."""
        second = emf_record(50, u32(2, 1, 2) + BLUE_ENTRY + GREEN_ENTRY)
        self.assertEqual(self.colour_of(SECOND, second), BLUE)
        self.assertEqual(self.colour_of(FIRST, second), COLOUR_1)
        self.assertEqual(self.colour_of(SECOND, SAVE, second, RESTORE), BLUE)
        self.refuse(self.file(second, emf_record(24, u32(THIRD)), self.A), 8)
        cut, other, stock = (
            emf_record(50, u32(*numbers) + BLUE_ENTRY) for numbers in ((2, 1, 2), (3, 1, 1), (1, 1, 1))
        )
        for record in (cut, other, stock, emf_record(50, u32(2)), emf_record(50, u32(2, 2, 1) + BLUE_ENTRY)):
            self.assertEqual(self.colour_of(SECOND, record), COLOUR_2)

    def test_resize(self) -> None:
        """EMR_RESIZEPALETTE drops entries, or adds black ones."""
        larger, smaller = emf_record(51, u32(2, 3)), emf_record(51, u32(2, 1))
        self.assertEqual(self.colour_of(THIRD, larger), BLACK)
        self.assertEqual(self.colour_of(SECOND, smaller, larger), BLACK)
        self.assertEqual(self.colour_of(0x0100FFFF, emf_record(51, u32(2, 0xFFFFFFFF))), BLACK)
        self.refuse(self.file(smaller, emf_record(24, u32(SECOND)), self.A), 8)

    def test_realize(self) -> None:
        """EMR_REALIZEPALETTE changes nothing; neither does a deletion of the selected palette."""
        self.assertEqual(self.colour_of(SECOND, emf_record(52), emf_record(40, u32(2))), COLOUR_2)

    def test_background(self) -> None:
        """The background is looked up too: its box is under the text."""
        back = [emf_record(25, u32(SECOND)), *emf_script("back_mode 2")]
        self.assertEqual(self.colours(self.file(*back, self.A)), [COLOUR_2, BLACK])
        moved = emf_record(50, u32(2, 1, 1) + BLUE_ENTRY)
        data = self.file(*back, moved, self.A)
        fixed = convert(data, Options(text_only=True), Squares()).data
        self.assertTrue(verify(data, fixed, True).holds)
        (place,) = places_of(data, fixed)
        self.assertEqual([self.colour(record) for record in place.records if self.is_brush(record)], [BLUE, BLACK])

    def test_objects(self) -> None:
        """A pen's colour is replaced where its record stands, so a line after the palette has changed is rejected."""
        pen = [emf_record(38, u32(3, 0) + i32(0, 0) + u32(SECOND)), emf_record(37, u32(3))]
        line, change = emf_script("line 5 5"), emf_record(50, u32(2, 1, 1) + BLUE_ENTRY)
        for harmless in (
            emf_record(52),
            emf_record(50, u32(2, 0, 1) + BLUE_ENTRY),
            emf_record(50, u32(2, 1, 1) + TWO[4:]),
        ):
            (place,) = places_of(
                self.file(*pen, harmless, *line), convert(self.file(*pen, harmless, *line), Options(), None).data
            )
            self.assertEqual(place.records, [emf_record(38, u32(3, 0) + i32(0, 0) + u32(COLOUR_2))])
        self.refuse(self.file(*pen, change, *line), 9)
        self.refuse(self.file(*pen, emf_record(48, u32(0x8000000F)), *line), 9)
        unused = [*pen, emf_record(37, u32(0x80000007)), change, *line]
        self.assertEqual(len(places_of(self.file(*unused), convert(self.file(*unused), Options(), None).data)), 1)
        self.refuse(self.file(emf_record(25, u32(SECOND)), change, *line), 8)
        brush = [emf_record(39, u32(3, 0, SECOND, 0)), emf_record(37, u32(3))]
        self.refuse(self.file(*brush, change, *emf_script("rectangle 1 1 9 9")), 9)
        info = u32(40) + i32(1, 1) + u16(1, 8) + u32(0, 0, 0, 0, 2, 0) + u16(1, 1)
        bitmap = emf_record(94, u32(3, 1, 32, 44, 76, 4) + info + bytes(4))
        self.refuse(self.file(bitmap, emf_record(37, u32(3)), change, *emf_script("rectangle 1 1 9 9")), 9)
        path = emf_script("begin_path; polygon 1 1 9 1 9 9; end_path")
        for kind in (62, 63, 64):
            self.refuse(self.file(*path, *brush, change, emf_record(kind, i32(0, 0, -1, -1))), 12)

    def test_slots(self) -> None:
        """A palette takes its index from the font that had it, so the font of index 1 stays selected."""
        taken = [*font(40, 0, 1), emf_record(49, u32(1) + u16(0x300, 2) + TWO), emf_record(37, u32(1))]
        data = self.file(*taken, self.A)
        fixed = convert(data, Options(text_only=True), Squares()).data
        self.assertTrue(verify(data, fixed, True).holds)

    def test_kept(self) -> None:
        """Records of palettes play as they are, also cut ones."""
        records = [emf_record(50, u32(2, 0, 9)), emf_record(50, b""), emf_record(51, u32(2)), emf_record(52)]
        data = self.file(*records, *emf_script("line 5 5"))
        self.assertEqual(convert(data, Options(), None), Converted(data, ()))


class Growth(unittest.TestCase):
    """Palettes of hostile files."""

    def test_linear(self) -> None:
        """Four times as many changes of a palette take less than nine times as long, in both readers."""
        larger, smaller, last = (emf_record(51, u32(2, count)) for count in (0xFFFFFFFF, 1, 60_000))
        some = emf_record(50, u32(2, 59_999, 1) + BLUE_ENTRY)
        palette = [*TRANSPARENT, *font(), emf_record(49, u32(2) + u16(0x300, 2) + TWO), emf_record(48, u32(2))]
        times = []
        for count in (200, 800):
            data = emf_file([*palette, *[larger, some, last, smaller] * count, text("a", 20, 30)])
            start = time.process_time()
            fixed = convert(data, Options(text_only=True), Squares()).data
            self.assertTrue(verify(data, fixed, True).holds)
            times.append(time.process_time() - start)
        self.assertLess(times[1], 9 * times[0] + 0.2)
        self.assertLess(times[1], 5)


class Wmf(Colours):
    """WMF. The palette has the index 0 and is selected; the font has the index 1."""

    TEXT = wmf_record(0x0521, i16(1) + b"a\0" + i16(30, 20))
    FONT = wmf_record(0x02FB, i16(10, 0, 0, 0, 400) + bytes(8) + b"Squares\0")

    def file(self, *records: bytes) -> bytes:
        """A file with the palette, whose first record after it has the number 5."""
        palette = [wmf_record(0x00F7, u16(0x300, 2) + TWO), wmf_record(0x0234, u16(0))]
        return placeable_file([*wmf_script("back_mode 1"), *palette, self.FONT, *wmf_script("select 1"), *records])

    def colour_of(self, reference: int, *records: bytes) -> int:
        """The colour of a text after its colour is set, and then other records."""
        (found,) = self.colours(self.file(wmf_record(0x0209, u32(reference)), *records, self.TEXT))
        return found

    def test_set_entries(self) -> None:
        """META_SETPALENTRIES changes the selected palette."""
        self.assertEqual(self.colour_of(SECOND), COLOUR_2)
        first = wmf_record(0x0037, u16(0, 1) + BLUE_ENTRY)
        self.assertEqual(self.colour_of(FIRST, first), BLUE)
        self.assertEqual(self.colour_of(SECOND, first), COLOUR_2)
        other = [wmf_record(0x00F7, u16(0x300, 1) + GREEN_ENTRY), wmf_record(0x0234, u16(2)), first]
        self.assertEqual(self.colour_of(FIRST, *other), BLUE)
        self.assertEqual(self.colour_of(FIRST, *other, wmf_record(0x0234, u16(0))), COLOUR_1)
        for cut in (wmf_record(0x0037, u16(0, 2) + BLUE_ENTRY), wmf_record(0x0037, u16(0)), wmf_record(0x0037)):
            self.assertEqual(self.colour_of(FIRST, cut), COLOUR_1)

    def test_animate(self) -> None:
        """META_ANIMATEPALETTE changes only entries with the flag, here the second one, which then loses it."""
        both = wmf_record(0x0436, u16(0, 2) + BLUE_ENTRY + BLUE_ENTRY)
        again = wmf_record(0x0436, u16(1, 1) + GREEN_ENTRY)
        self.assertEqual([self.colour_of(index, both) for index in (FIRST, SECOND)], [COLOUR_1, BLUE])
        self.assertEqual(self.colour_of(SECOND, both, again), BLUE)

    def test_resize(self) -> None:
        """META_RESIZEPALETTE, and META_REALIZEPALETTE, which changes nothing."""
        larger, smaller = wmf_record(0x0139, u16(3)), wmf_record(0x0139, u16(1))
        self.assertEqual(self.colour_of(THIRD, larger, wmf_record(0x0035)), BLACK)
        self.assertEqual(self.colour_of(SECOND, smaller, larger), BLACK)
        self.refuse(self.file(smaller, wmf_record(0x0209, u32(SECOND)), self.TEXT), 7)

    def test_slots(self) -> None:
        """A palette that is deleted leaves its index to the next object: a font of 20 units there is selected."""
        small = wmf_record(0x02FB, i16(20, 0, 0, 0, 400) + bytes(8) + b"Squares\0")
        data = self.file(wmf_record(0x01F0, u16(0)), small, *wmf_script("select 0"), self.TEXT)
        fixed = convert(data, Options(text_only=True), Squares()).data
        self.assertTrue(verify(data, fixed, True).holds)
        (place,) = places_of(data, fixed)
        (polygon,) = [record for record in place.records if number(record, 4, 2) == 0x0324]
        self.assertEqual(polygon, wmf_record(0x0324, i16(4, 0, 0, 5120, 0, 5120, 5120, 0, 5120)))

    def test_stock_palette(self) -> None:
        """The palette that is selected at first has no colour here, and no record changes it."""
        changes = [
            wmf_record(0x0139, u16(9)),
            wmf_record(0x0037, u16(0, 1) + BLUE_ENTRY),
            wmf_record(0x0209, u32(FIRST)),
        ]
        self.refuse(
            placeable_file([*wmf_script("back_mode 1"), self.FONT, *wmf_script("select 0"), *changes, self.TEXT]), 6
        )

    def test_objects(self) -> None:
        """As in EMF; a brush of a bitmap that has indexes counts too."""
        change = wmf_record(0x0037, u16(1, 1) + BLUE_ENTRY)
        pen = [wmf_record(0x02FA, u16(0) + i16(0, 0) + u32(SECOND)), *wmf_script("select 2")]
        self.refuse(self.file(*pen, change, *wmf_script("line 5 5")), 8)
        info = u32(40) + i32(1, 1) + u16(1, 8) + u32(0, 0, 0, 0, 1, 0) + u16(1) + bytes(2)
        bitmap = [wmf_record(0x0142, u16(5, 1) + info + bytes(4)), *wmf_script("select 2")]
        box = wmf_script("rectangle 1 1 9 9")
        self.refuse(self.file(*bitmap, change, *box), 8)
        kept = self.file(*bitmap, wmf_record(0x0037, u16(0, 1) + BLUE_ENTRY), *box)
        self.assertEqual(len(places_of(kept, convert(kept, Options(), None).data)), 1)
        brush = [wmf_record(0x02FC, u16(0) + u32(SECOND) + u16(0)), *wmf_script("select 2")]
        patch = wmf_record(0x061D, u32(0xF00021) + i16(9, 9, 1, 1))
        self.refuse(self.file(*brush, change, patch), 8)


if __name__ == "__main__":
    unittest.main()
