"""What EMR_RESTOREDC and META_RESTOREDC take back ([MS-EMF] 2.3.11.6, [MS-WMF] 2.3.5.10): all of the saved state."""

import unittest

from metaplay_fixup.convert import convert
from metaplay_fixup.faults import Fault, FaultName
from metaplay_fixup.options import Options
from metaplay_fixup.text import TextSettings

from .emf_records import contents
from .oracle import emf_file, emf_record, emf_script, i16, i32, placeable_file, u16, u32, wmf_record, wmf_script
from .parts import places_of
from .squares import Squares
from .text_records import font, text

SAVE, RESTORE = emf_record(33), emf_record(34, i32(-1))
WMF_SAVE, WMF_RESTORE = wmf_record(0x001E), wmf_record(0x0127, i16(-1))
PALETTE = [emf_record(49, u32(2) + u16(0x300, 1) + bytes([1, 2, 3, 0])), emf_record(48, u32(2))]
BLUE_BACK, PALETTE_BACK = emf_record(25, u32(0xFF0000)), emf_record(25, u32(0x01000000))
CHANGE = emf_record(50, u32(2, 0, 1) + bytes([9, 9, 9, 0]))


class Emf(unittest.TestCase):
    """EMF."""

    def test_settings_of_text(self) -> None:
        """Alignment, justification, the background's mode, and the font."""
        squares = Squares()
        first = [emf_record(120, i32(30, 2)), emf_record(22, u32(24)), *emf_script("back_mode 1")]
        second = [emf_record(120, i32(5, 1)), emf_record(22, u32(8)), *emf_script("back_mode 2"), *font(40, index=2)]
        convert(emf_file([*font(), *first, SAVE, *second, RESTORE, text("a", 20, 30)]), Options(), squares)
        ((_, asked_font, asked),) = squares.asked
        self.assertEqual(asked, TextSettings(1, 24, 0, 30, 2))
        self.assertEqual(asked_font.height, 10)

    def bounds_of_arc(self, *records: bytes) -> bytes:
        """The box of the line that an arc from the right end to the top of an ellipse becomes."""
        (place,) = contents([*records, emf_record(45, i32(0, 0, 80, 60, 80, 30, 40, 0))])
        return place[6][8:24]

    def test_direction_of_arcs(self) -> None:
        """Against the clock it is a quarter, with the clock ([MS-EMF] 2.1.2) three of them, which reach all sides."""
        against, along = emf_record(57, u32(1)), emf_record(57, u32(2))
        quarter, rest = i32(40, 0, 80, 30), i32(0, 0, 80, 60)
        self.assertEqual(self.bounds_of_arc(along), rest)
        self.assertEqual(self.bounds_of_arc(SAVE, along, RESTORE), quarter)
        self.assertEqual(self.bounds_of_arc(along, SAVE, against, RESTORE), rest)

    def test_background_of_a_palette(self) -> None:
        """A background that was taken from a palette counts again, so a line after a change there is rejected."""
        line = emf_script("line 5 5")
        with self.assertRaises(Fault) as raised:
            convert(emf_file([*PALETTE, PALETTE_BACK, SAVE, BLUE_BACK, RESTORE, CHANGE, *line]), Options(), None)
        self.assertEqual((raised.exception.name, raised.exception.record), (FaultName.PaletteColour, 8))
        data = emf_file([*PALETTE, BLUE_BACK, SAVE, PALETTE_BACK, RESTORE, CHANGE, *line])
        (place,) = places_of(data, convert(data, Options(), None).data)
        self.assertEqual(place.records, [emf_record(25, u32(0x030201))])

    def test_clip_and_meta_region(self) -> None:
        """A meta region that was set in between is gone, so the clip is removed by the record itself."""
        meta = [*emf_script("keep 1 1 5 5"), emf_record(28)]
        self.assertEqual(contents([SAVE, *meta, RESTORE, *emf_script("unclip")]), [[]])


class Wmf(unittest.TestCase):
    """WMF."""

    SCALE = wmf_record(0x0412, i16(1, 1, 2, 1))
    SCALED = wmf_record(0x020C, i16(100, 200))

    def contents(self, *records: bytes) -> list[list[bytes]]:
        """What stands in the replaced places of a file of these records, whose box has 100 by 100 units."""
        data = placeable_file(list(records))
        return [place.records for place in places_of(data, convert(data, Options(), None).data)]

    def test_settings_of_text(self) -> None:
        """Alignment, justification, the extra of characters, and the background's mode."""
        squares = Squares()
        first = [wmf_record(0x012E, u16(24)), wmf_record(0x0108, i16(7)), wmf_record(0x020A, i16(2, 30))]
        second = [wmf_record(0x012E, u16(8)), wmf_record(0x0108, i16(9)), wmf_record(0x020A, i16(1, 5))]
        modes = wmf_script("back_mode 1; back_mode 2")
        string = wmf_record(0x0521, i16(1) + b"a\0" + i16(30, 20))
        records = [*first, modes[0], WMF_SAVE, *second, modes[1], WMF_RESTORE, string]
        convert(placeable_file(records), Options(), squares)
        self.assertEqual([asked for _, _, asked in squares.asked], [TextSettings(1, 24, 7, 30, 2)])

    def test_scale_of_the_viewport(self) -> None:
        """By 1 / 2 the window of 100 becomes one of 200. Then the scale is over, and a later window stays as it is."""
        later = wmf_script("pixel 1 1; window_extent 50 50")
        self.assertEqual(self.contents(WMF_SAVE, self.SCALE, WMF_RESTORE, *later), [[self.SCALED]])
        again = self.contents(self.SCALE, WMF_SAVE, *wmf_script("map_mode 1"), WMF_RESTORE, *later)
        self.assertEqual(again, [[self.SCALED], [wmf_record(0x020C, i16(50, 100))]])

    def test_own_viewport(self) -> None:
        """A viewport that was set in between is gone, and that of the program is scaled by the window."""
        own = wmf_script("viewport_extent 70 80")
        self.assertEqual(self.contents(WMF_SAVE, *own, WMF_RESTORE, self.SCALE), [[self.SCALED]])


if __name__ == "__main__":
    unittest.main()
