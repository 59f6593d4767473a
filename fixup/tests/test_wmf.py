"""Conversion of WMF, record by record, with values worked out by hand."""

import struct
import unittest

from metaplay_fixup.convert import Converted, chord_tolerance, convert
from metaplay_fixup.faults import Fault, FaultName
from metaplay_fixup.options import Options
from metaplay_verify import verify

from .oracle import i16, packed_bitmap, placeable_file, plain_file, refusal_of, u16, u32, wmf_record, wmf_script
from .parts import number, places_of, records_of


def contents(records: list[bytes], width: int = 100, height: int = 100) -> list[list[bytes]]:
    """What stands in the replaced places of a file of these records, which plays, and converts to itself."""
    data = placeable_file(records, width, height)
    result = convert(data, Options(), None)
    assert refusal_of(result.data) is None, refusal_of(result.data)
    assert convert(result.data, Options(), None) == Converted(result.data, ())
    return [place.records for place in places_of(data, result.data)]


def fault_of(records: list[bytes]) -> FaultName:
    """The fault of a file of these records."""
    return fault_of_file(placeable_file(records))


def fault_of_file(data: bytes) -> FaultName:
    """The fault of a file."""
    try:
        convert(data, Options(), None)
    except Fault as fault:
        return fault.name
    raise AssertionError("no fault")


class Kept(unittest.TestCase):
    """What the checker plays stays."""

    def test_nothing_to_replace(self) -> None:
        """All the file's bytes come out, with those after its end."""
        script = (
            "save; map_mode 8; window_extent 7 9; polygon 1 1 5 1 5 5; move 1 2; line 3 4; restore -1; keep 1 1 9 9"
        )
        data = placeable_file(wmf_script(script)) + b"tail"
        self.assertEqual(convert(data, Options(), None), Converted(data, ()))


class Curves(unittest.TestCase):
    """Curves are chords in a finer window."""

    def test_window(self) -> None:
        """The window is 100 wide, and no point is farther than 90 from the first: 32,767 / 101 is 324, so 256 parts
        fit.
        """
        (records,) = contents([wmf_record(0x0418, i16(90, 90, 10, 10))])
        save, origin, extent, polygon, restore = records
        self.assertEqual(save, wmf_record(0x001E))
        # The first point is (90, 50): the origin of the window lies 90 and 50 units before it.
        self.assertEqual(origin, wmf_record(0x020B, i16(-50 * 256, -90 * 256)))
        self.assertEqual(extent, wmf_record(0x020C, i16(25600, 25600)))
        self.assertEqual(restore, wmf_record(0x0127, i16(-1)))
        count = number(polygon, 6, 2)
        numbers = struct.unpack_from(f"<{2 * count}h", polygon, 8)
        for x, y in zip(numbers[::2], numbers[1::2]):
            self.assertLess(abs(((x + 40 * 256) ** 2 + y**2) ** 0.5 - 40 * 256), 1)

    def test_plain_file(self) -> None:
        """The frame is the first window extent with two numbers, neither of them 0."""
        extents = [wmf_record(0x020C, i16(0, 5)), wmf_record(0x020C, i16(50, 20000))]
        data = plain_file([wmf_record(0x0103, u16(1)), *extents, wmf_record(0x0103, u16(8)), extents[1]])
        self.assertEqual(convert(data, Options(), None).data, data)
        data = plain_file([extents[1], wmf_record(0x0418, i16(40, 19000, 10, 10))])
        (place,) = places_of(data, convert(data, Options(), None).data)
        self.assertEqual(place.records[2], wmf_record(0x020C, i16(50 * 256, 20000)))
        self.assertEqual(fault_of_file(plain_file([extents[0]])), FaultName.NoFrame)

    def test_large_window(self) -> None:
        """A window of 20,000 by 50 units has one part across and 256 down, and with a wide pen one on both axes."""
        ellipse = wmf_record(0x0418, i16(40, 19000, 10, 10))
        (records,) = contents([ellipse], 20000, 50)
        self.assertEqual(records[2], wmf_record(0x020C, i16(50 * 256, 20000)))
        pen = wmf_script("styled_pen 0 0 3 0xff0000; select 0")
        (records,) = contents([*pen, ellipse], 20000, 50)
        self.assertEqual(records[2], wmf_record(0x020C, i16(50, 20000)))

    def test_wide_pen(self) -> None:
        """It is made again at the lowest free index, 256 times as wide if that has 16 bits, and deleted after it."""
        (records,) = contents(
            [*wmf_script("styled_pen 0 0 3 0xff0000; select 0"), wmf_record(0x0418, i16(90, 90, 10, 10))]
        )
        self.assertEqual(records[3], wmf_record(0x02FA, u16(0) + i16(768, 0) + u32(0xFF)))
        self.assertEqual(records[4], wmf_record(0x012D, u16(1)))
        self.assertEqual(records[-1], wmf_record(0x01F0, u16(1)))
        records = [*wmf_script("styled_pen 0 0 999 0xff0000; select 0"), wmf_record(0x0418, i16(90, 90, 10, 10))]
        data = placeable_file(records)
        (place,) = places_of(data, convert(data, Options(), None).data)
        self.assertEqual(place.records[3], wmf_record(0x02FA, u16(0) + i16(0x7FFF, 0) + u32(0xFF)))

    def test_indexes(self) -> None:
        """The lowest free index is the one that a deleted object had; the header counts the places."""
        script = "brush 0; brush 1; styled_pen 2 0 3 0xff0000; select 2; delete 0"
        data = placeable_file([*wmf_script(script), wmf_record(0x0418, i16(90, 90, 10, 10))])
        result = convert(data, Options(), None).data
        (place,) = places_of(data, result)
        self.assertEqual(place.records[-1], wmf_record(0x01F0, u16(0)))
        self.assertEqual(number(result, 32, 2), 3)

    def test_shapes(self) -> None:
        """Arcs are lines; chords and pies are polygons; a pie begins at the centre."""
        arc = i16(0, 50, 30, 100) + i16(60, 100, 0, 0)
        (open_arc,), (closed,), (pie,) = (contents([wmf_record(kind, arc)]) for kind in (0x0817, 0x0830, 0x081A))
        kinds = [number(records[3], 4, 2) for records in (open_arc, closed, pie)]
        self.assertEqual(kinds, [0x0325, 0x0324, 0x0324])
        self.assertEqual(pie[3][8:12], i16(0, 0))
        self.assertEqual(pie[3][12:16], i16(50 * 256, 0))

    def test_round_rectangle(self) -> None:
        """It is a polygon, whose first point is at the end of the right side: (90, 85) with corners of 20 by 10."""
        (records,) = contents([wmf_record(0x061C, i16(10, 20, 90, 90, 10, 10))])
        self.assertEqual(number(records[3], 4, 2), 0x0324)
        self.assertEqual(records[1], wmf_record(0x020B, i16(-85 * 256, -90 * 256)))

    def test_header(self) -> None:
        """The header has the file's size and the largest record, in words."""
        data = convert(placeable_file([wmf_record(0x0418, i16(90, 90, 10, 10))]), Options(), None).data
        self.assertEqual(number(data, 28), (len(data) - 22) // 2)
        self.assertEqual(number(data, 34), max(map(len, records_of(data))) // 2)

    def test_larger_header(self) -> None:
        """A header that counts more objects and a larger record than there are keeps these numbers."""
        original = placeable_file([wmf_record(0x0418, i16(90, 90, 10, 10))])
        original = original[:32] + u16(7) + u32(60000) + original[38:]
        data = convert(original, Options(), None).data
        self.assertEqual((number(data, 32, 2), number(data, 34)), (7, 60000))
        self.assertTrue(verify(original, data, False).holds)

    def test_versions(self) -> None:
        """METAVERSION100 is read as METAVERSION300 is ([MS-WMF] 2.1.1.19); there is no other one."""
        data = plain_file([*wmf_script("window_extent 100 100"), wmf_record(0x0418, i16(90, 90, 10, 10))])
        first = data[:4] + u16(0x0100) + data[6:]
        self.assertEqual(convert(first, Options(), None).data[18:-200], convert(data, Options(), None).data[18:-200])
        self.assertEqual(fault_of_file(data[:4] + u16(0x0200) + data[6:]), FaultName.BadHeader)

    def test_tolerance(self) -> None:
        """An eighth of a pixel of 8,192 along the longer side of 1,000 units, in 2^20 parts: 1,000 * 2^20 / 2^16."""
        for width, height in ((1000, 10), (10, 1000)):
            self.assertEqual(chord_tolerance(placeable_file([], width, height), Options()), 16000)

    def test_isotropic(self) -> None:
        """In mode 7 a block is in mode 8, as fine on both axes."""
        script = wmf_script("map_mode 7; window_extent 20000 50; viewport_extent 100 100")
        (records,) = contents([*script, wmf_record(0x0418, i16(40, 19000, 10, 10))])
        self.assertEqual(records[1], wmf_record(0x0103, u16(8)))
        self.assertEqual(records[3], wmf_record(0x020C, i16(50, 20000)))


class Extents(unittest.TestCase):
    """Scaled extents become plain ones."""

    def test_scaled_window(self) -> None:
        """100 * 3 / 2 by 100 * 1 / 3."""
        record = wmf_record(0x0410, i16(3, 1, 2, 3))
        self.assertEqual(contents([record]), [[wmf_record(0x020C, i16(33, 150))]])

    def test_viewport_of_the_program(self) -> None:
        """A viewport that the file hasn't set is scaled by the window: by 1 / 2 and 4, a window of 100 becomes 200
        by 25.
        """
        scale = wmf_record(0x0412, i16(1, 4, 2, 1))
        self.assertEqual(contents([scale]), [[wmf_record(0x020C, i16(25, 200))]])
        both = contents([scale, *wmf_script("pixel 1 1"), *wmf_script("window_extent 50 50")])
        self.assertEqual(both[1], [wmf_record(0x020C, i16(13, 100))])

    def test_own_viewport(self) -> None:
        """One that the file has set is scaled itself."""
        records = [*wmf_script("viewport_extent 100 100"), wmf_record(0x0412, i16(1, 4, 2, 1))]
        self.assertEqual(contents(records), [[wmf_record(0x020E, i16(400, 50))]])

    def test_viewport_after_a_scale(self) -> None:
        """When the file sets a viewport, the window is again the one that it asked for."""
        records = [wmf_record(0x0412, i16(1, 1, 2, 1)), *wmf_script("pixel 1 1; viewport_extent 70 80")]
        expected = [*wmf_script("viewport_extent 70 80"), wmf_record(0x020C, i16(100, 100))]
        self.assertEqual(contents(records)[1], expected)

    def test_text_mode_after_a_scale(self) -> None:
        """Text mode sets all extents to 1, so the scale is over, and a later window is the one that stands there."""
        scale = wmf_record(0x0412, i16(1, 1, 2, 1))
        later = wmf_script("pixel 1 1; map_mode 1; map_mode 8; window_extent 50 50")
        self.assertEqual(contents([scale, *later]), [[wmf_record(0x020C, i16(100, 200))]])

    def test_faults(self) -> None:
        """Metric modes, extents of 0, and windows that don't fit."""
        self.assertEqual(fault_of([wmf_record(0x0103, u16(2))]), FaultName.MetricMode)
        self.assertEqual(fault_of([wmf_record(0x0103, u16(9))]), FaultName.BadValue)
        self.assertEqual(fault_of([wmf_record(0x0412, i16(1, 0, 1, 1))]), FaultName.ZeroExtent)
        self.assertEqual(fault_of([wmf_record(0x0412, i16(1, 1, 9999, 1))]), FaultName.OffPlane)
        # Of the quotient's cube both numbers have more than 32 bits.
        scale = wmf_record(0x0412, i16(1, 1, 32766, 32767))
        self.assertEqual(len(contents([scale, scale])[0]), 2)
        self.assertEqual(fault_of([scale] * 3), FaultName.OffPlane)


class Others(unittest.TestCase):
    """Regions, bitmaps, objects."""

    def test_region(self) -> None:
        """No region where nothing is clipped changes nothing; over a clip it can't be replaced."""
        self.assertEqual(contents([wmf_record(0x012C, u16(0))]), [[]])
        self.assertEqual(fault_of([*wmf_script("keep 1 1 5 5"), wmf_record(0x012C, u16(0))]), FaultName.Unsupported)
        self.assertEqual(fault_of([wmf_record(0x012C, u16(1))]), FaultName.Unsupported)

    def test_unsupported(self) -> None:
        """Records that neither play nor become others."""
        for function in (0x012A, 0x01F9, 0x0419, 0x06FF, 0x0922, 0x0D33):
            self.assertEqual(fault_of([wmf_record(function, bytes(20))]), FaultName.Unsupported)

    def test_bitmap_of_a_palette(self) -> None:
        """A bitmap with usage 1 becomes 24 bits: colour 1 of the palette is (4, 5, 6)."""
        palette = wmf_record(0x00F7, u16(0x300, 2) + bytes([1, 2, 3, 0, 4, 5, 6, 0]))
        info = struct.pack("<IiiHHIIiiII", 40, 1, 1, 1, 8, 0, 0, 0, 0, 1, 0) + u16(1)
        blit = wmf_record(0x0F43, u32(0xCC0020) + u16(1) + i16(1, 1, 0, 0, 9, 8, 7, 6) + info + bytes(4))
        (records,) = contents([palette, *wmf_script("select_palette 0"), blit])
        stored = struct.pack("<IiiHHIIiiII", 40, 1, 1, 1, 24, 0, 4, 0, 0, 0, 0) + bytes([6, 5, 4, 0])
        expected = wmf_record(0x0F43, u32(0xCC0020) + u16(0) + i16(1, 1, 0, 0, 9, 8, 7, 6) + stored)
        self.assertEqual(records, [expected])

    def test_rows_from_the_top(self) -> None:
        """META_STRETCHDIB counts rows from the one that is stored first: of a picture from the top the upper one."""
        for height, colour in ((2, bytes([255, 0, 0])), (-2, bytes([0, 0, 255]))):
            info = struct.pack("<IiiHHIIiiII", 40, 1, height, 1, 24, 0, 0, 0, 0, 0, 0)
            rows = bytes([0, 0, 255, 0]) + bytes([255, 0, 0, 0])
            start = i16(1, 2, 0, 0) if height < 0 else i16(1, 2, 1, 0)
            (records,) = contents([wmf_record(0x0F43, u32(0xCC0020) + u16(0) + start + i16(9, 8, 7, 6) + info + rows)])
            self.assertEqual(records[0][-4:-1], colour)

    def test_masks_in_a_long_header(self) -> None:
        """A header of 108 bytes has the masks in itself, so the rows follow it: 31 of 31 is a red of 255."""
        info = struct.pack("<IiiHHIIiiII", 108, 1, 1, 1, 16, 3, 0, 0, 0, 0, 0) + u32(0x7C00, 0x3E0, 0x1F) + bytes(56)
        blit = wmf_record(0x0F43, u32(0xCC0020) + u16(0) + i16(1, 1, 0, 0, 9, 8, 7, 6) + info + u16(0x7C00, 0))
        (records,) = contents([blit])
        self.assertEqual(records[0][-4:], bytes([0, 0, 255, 0]))

    def test_usage_of_a_pattern(self) -> None:
        """A brush of BS_PATTERN has colours in its table, whatever its usage says ([MS-WMF] 2.3.4.8)."""
        dib = packed_bitmap([[(255, 0, 0)]], 8)
        data = placeable_file([wmf_record(0x0142, u16(3, 1) + dib), *wmf_script("select 0; rectangle 1 1 9 9")])
        self.assertEqual(convert(data, Options(), None), Converted(data, ()))

    def test_cropped(self) -> None:
        """A source of 4 by 1 from -2 in a picture of 2 by 1: its right half is all of the picture."""
        dib = packed_bitmap([[(255, 0, 0), (0, 255, 0)]], 24)
        numbers = i16(1, 4, 0, -2, 10, 40, 5, 100 - 40)
        (records,) = contents([wmf_record(0x0B41, u32(0xCC0020) + numbers + dib)])
        self.assertEqual(records[0][12:28], i16(1, 2, 0, 0, 10, 20, 5, 80))

    def test_palette_colour(self) -> None:
        """A pen's colour of the palette becomes its red, green and blue."""
        palette = wmf_record(0x00F7, u16(0x300, 1) + bytes([1, 2, 3, 0]))
        pen = wmf_record(0x02FA, u16(0) + i16(1, 0) + u32(0x01000000))
        (records,) = contents([palette, *wmf_script("select_palette 0"), pen])
        self.assertEqual(records, [wmf_record(0x02FA, u16(0) + i16(1, 0) + u32(0x030201))])

    def test_palette_colour_of_a_brush(self) -> None:
        """A hatched brush has one too, and one without a colour stays."""
        palette = wmf_record(0x00F7, u16(0x300, 1) + bytes([1, 2, 3, 0]))
        solid, none, hatched = (wmf_record(0x02FC, u16(style) + u32(0x01000000) + u16(4)) for style in (0, 1, 2))
        places = contents([palette, *wmf_script("select_palette 0"), solid, none, hatched])
        changed = [wmf_record(0x02FC, u16(style) + u32(0x030201) + u16(4)) for style in (0, 2)]
        self.assertEqual(places, [changed[:1], changed[1:]])

    def test_deletions_of_nothing(self) -> None:
        """A deletion of what isn't there is left out, and the next object still takes the lowest free index."""
        drop, make = wmf_record(0x01F0, u16(1)), wmf_script("brush 0xff")
        self.assertEqual(contents([*make, drop]), [[]])
        later = [*make, drop, *make, *wmf_script("select 1; rectangle 1 1 9 9; select 0"), drop, drop]
        self.assertEqual(contents(later), [[], []])

    def test_table_full(self) -> None:
        """The checker lets a file have 1,024 objects at a time."""
        self.assertEqual(fault_of(wmf_script("1025x brush 0")), FaultName.TableFull)


if __name__ == "__main__":
    unittest.main()
