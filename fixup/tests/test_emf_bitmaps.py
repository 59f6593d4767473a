"""Conversion of EMF, record by record, with values worked out by hand: bitmaps and palettes."""

import io
import struct
import unittest
from unittest import mock

from PIL import Image

from metaplay_fixup.budgets import Budget
from metaplay_fixup.convert import Converted, convert
from metaplay_fixup.faults import Fault, FaultName
from metaplay_fixup.options import AlphaRule, Options
from metaplay_fixup.output import Action

from .emf_records import PARTS, block, contents, converted, singles, world
from .oracle import NO_BOUNDS, emf_file, emf_record, i32, parted_bitmap, u32


class Bitmaps(unittest.TestCase):
    """Bitmaps that the checker doesn't read become 24 bits, cropped and masked."""

    INFO, BITS = parted_bitmap([[(255, 0, 0), (0, 255, 0)], [(0, 0, 255), (255, 255, 255)]], 24)

    def stretch(self, source: tuple[int, int, int, int], info: bytes) -> bytes:
        """EMR_STRETCHDIBITS into the box from (10, 20) over 40 by 40."""
        parts = u32(80, len(info), 80 + len(info), len(self.BITS))
        numbers = i32(10, 20, *source) + parts + u32(0, 0xCC0020) + i32(40, 40)
        return emf_record(81, NO_BOUNDS + numbers + info + self.BITS)

    def test_cropped(self) -> None:
        """A source of 4 by 2 from -1: its second and third columns are there, and fill half of the box."""
        (records_there,) = contents([self.stretch((-1, 0, 4, 2), self.INFO)])
        parts = u32(80, 40, 120, len(self.BITS))
        numbers = i32(0, 0, 0, 0, 2, 2) + parts + u32(0, 0xCC0020) + i32(20 * PARTS, 40 * PARTS)
        bits = bytes.fromhex("ff0000 ffffff 0000 0000ff 00ff00 0000")
        expected = emf_record(81, i32(0, 0, -1, -1) + numbers + self.INFO[:20] + u32(16) + self.INFO[24:] + bits)
        self.assertEqual(records_there, block(20, 20, expected))

    def test_stored_rows(self) -> None:
        """A source of one row from 1 is the second that is stored, the upper one; out of it come red and green."""
        (records_there,) = contents([self.stretch((0, 1, 4, 1), self.INFO)])
        self.assertEqual(records_there[6][120:126], bytes([0, 0, 255, 0, 255, 0]))

    def test_stored_rows_of_a_picture_from_the_top(self) -> None:
        """The same with rows from the top: the second that is stored is the lower one, which the bits have there."""
        from_top = self.INFO[:8] + i32(-2) + self.INFO[12:]
        (records_there,) = contents([self.stretch((0, 1, 4, 1), from_top)])
        self.assertEqual(records_there[6][120:126], bytes([0, 0, 255, 0, 255, 0]))

    def test_rows_outside(self) -> None:
        """Two rows from 1: the upper one is there, and fills the lower half of the box from (10, 20) over 40 by 40."""
        (records_there,) = contents([self.stretch((0, 1, 2, 2), self.INFO)])
        self.assertEqual(records_there[4], emf_record(12, i32(10, 40)))
        self.assertEqual(records_there[6][72:80], i32(40 * PARTS, 20 * PARTS))
        self.assertEqual(records_there[6][120:126], bytes([0, 0, 255, 0, 255, 0]))

    def test_hidden(self) -> None:
        """A source all outside leaves nothing."""
        self.assertEqual(contents([self.stretch((5, 0, 4, 2), self.INFO)]), [[]])

    def blit(self, kind: int, operation: int, transform: bytes, info: bytes, bits: bytes) -> bytes:
        """A bitmap of 2 by 2 pixels, or none, at (10, 20) over 30 by 40."""
        at = 108 if kind != 76 else 100
        parts = u32(0, 0, at, len(info), at + len(info), len(bits)) + (i32(2, 2) if kind != 76 else b"")
        numbers = i32(10, 20, 30, 40) + u32(operation) + i32(0, 0) + transform + parts
        return emf_record(kind, NO_BOUNDS + numbers + info + bits)

    def test_transform_of_a_bitmap(self) -> None:
        """A bitmap with a transform of its own can't be replaced."""
        for kind in (76, 77, 114, 116):
            record = self.blit(kind, 0xCC0020, singles(2, 0, 0, 2, 0, 0), self.INFO, self.BITS)
            with self.assertRaises(Fault) as raised:
                convert(emf_file([record]), Options(), None)
            self.assertEqual(raised.exception.name, FaultName.Unsupported, kind)

    def test_copy_without_a_bitmap(self) -> None:
        """Under a world, as elsewhere, an operation that needs a bitmap has none."""
        record = self.blit(76, 0xCC0020, bytes(24), b"", b"")
        with self.assertRaises(Fault) as raised:
            convert(emf_file([world(2, 0, 0, 2, 0, 0), record]), Options(), None)
        self.assertEqual((raised.exception.name, raised.exception.record), (FaultName.SourceMissing, 2))

    def test_pixels_of_a_file(self) -> None:
        """Those of a PNG count by its own sides."""
        file = io.BytesIO()
        Image.new("RGB", (3, 2)).save(file, "PNG")
        bits = file.getvalue() + bytes(-len(file.getvalue()) % 4)
        info = struct.pack("<IiiHHIIiiII", 40, 1, 1, 1, 0, 5, len(bits), 0, 0, 0, 0)
        numbers = i32(10, 20, 0, 0, 3, 2) + u32(80, 40, 120, len(bits)) + u32(0, 0xCC0020) + i32(40, 40)
        with mock.patch.object(Budget, "take_pixels") as taken:
            convert(emf_file([emf_record(81, NO_BOUNDS + numbers + info + bits)]), Options(), None)
        taken.assert_called_once_with(6)

    def test_transform_without_a_bitmap(self) -> None:
        """The transform is that of the source ([MS-EMF] 2.3.1.2), so without one it may be anything, such as 0."""
        patch = emf_record(76, NO_BOUNDS + i32(10, 20, 30, 40) + u32(0xF00021) + bytes(8 + 24 + 8 + 16))
        data = emf_file([patch])
        self.assertEqual(convert(data, Options(), None), Converted(data, ()))

    def alpha(self, alpha: int, function: int) -> bytes:
        """EMR_ALPHABLEND of one pixel of 32 bits."""
        info = struct.pack("<IiiHHIIiiII", 40, 1, 1, 1, 32, 0, 0, 0, 0, 0, 0)
        transform = singles(1, 0, 0, 1, 0, 0)
        parts = u32(0, 0, 108, 40, 148, 4)
        numbers = i32(10, 20, 30, 40) + u32(function) + i32(0, 0) + transform + parts + i32(1, 1)
        return emf_record(114, NO_BOUNDS + numbers + info + bytes([1, 2, 3, alpha]))

    def test_alpha(self) -> None:
        """Full alpha is a copy, none is nothing, and others are a fault, or on white."""
        self.assertEqual(len(contents([self.alpha(255, 0x01FF0000)])[0]), 8)
        self.assertEqual(contents([self.alpha(0, 0x01FF0000)]), [[]])
        with self.assertRaises(Fault) as raised:
            convert(emf_file([self.alpha(128, 0x01FF0000)]), Options(), None)
        self.assertEqual(raised.exception.name, FaultName.Alpha)
        (place,) = converted([self.alpha(128, 0x01FF0000)], Options(alpha=AlphaRule.WHITE))
        self.assertEqual(place.records[6][120:123], bytes([128, 129, 130]))

    def test_report(self) -> None:
        """The report has the record, its kind and what became of it."""
        result = convert(emf_file([self.alpha(255, 0x01FF0000)]), Options(), None)
        (replacement,) = result.replacements
        self.assertEqual((replacement.record, replacement.kind), (1, "EMR_ALPHABLEND"))
        self.assertIs(replacement.action, Action.BITMAP)

    def test_palette_colours(self) -> None:
        """A colour of the palette becomes its red, green and blue; one that isn't there is a fault."""
        palette = emf_record(49, u32(1) + struct.pack("<HH", 0x300, 2) + bytes([1, 2, 3, 0, 4, 5, 6, 0]))
        records = [palette, emf_record(48, u32(1)), emf_record(39, u32(2, 0, 0x01000001, 0))]
        self.assertEqual(contents(records), [[emf_record(39, u32(2, 0, 0x060504, 0))]])
        with self.assertRaises(Fault) as raised:
            convert(emf_file([*records[:2], emf_record(39, u32(2, 0, 0x01000002, 0))]), Options(), None)
        self.assertEqual(raised.exception.name, FaultName.PaletteColour)


if __name__ == "__main__":
    unittest.main()
