"""The state that the second reader follows, its colours and reaches, and the names of records."""

import unittest

from metaplay_fixup.emf_kinds import EMF
from metaplay_fixup.wmf_kinds import WMF
from metaplay_verify.areas import Area
from metaplay_verify.files import Unreadable, read
from metaplay_verify.kinds import name_of
from metaplay_verify.reading import Reader
from metaplay_verify.state import Font, State

from .emf_records import singles
from .oracle import EMF_END, emf_file, emf_record, i16, i32, placeable_file, u16, u32, wmf_record


def state_of(*records: bytes) -> State:
    """The state after records of EMF."""
    reader = Reader(read(emf_file([])))
    for record in records:
        reader.see(record)
    return reader.state


def wmf_state_of(*records: bytes) -> State:
    """The state after records of WMF, whose box has 100 by 100 units at the origin."""
    reader = Reader(read(placeable_file([])))
    for record in records:
        reader.see(record)
    return reader.state


class Positions(unittest.TestCase):
    """Where the position may be."""

    def test_angle_arc(self) -> None:
        """EMR_ANGLEARC ends on its circle ([MS-EMF] 2.3.5.1)."""
        arc = emf_record(41, i32(50, 60) + u32(20) + singles(0, 90))
        self.assertEqual(state_of(arc).position, Area(30, 40, 70, 80))

    def test_curves_that_are_not_followed(self) -> None:
        """EMR_POLYDRAW and EMR_POLYDRAW16 leave it anywhere."""
        anywhere = Area(*[float("inf")] * 4)
        for record in (
            emf_record(56, i32(0, 0, -1, -1, 1) + i32(20, 30) + b"\2\0\0\0"),
            emf_record(92, i32(0, 0, -1, -1, 1) + i16(20, 30) + b"\2\0\0\0"),
        ):
            self.assertEqual(state_of(emf_record(27, i32(5, 6)), record).position, anywhere)


class Maps(unittest.TestCase):
    """Page maps."""

    def test_offsets(self) -> None:
        """META_OFFSETWINDOWORG and META_OFFSETVIEWPORTORG add to the origins; y stands first."""
        window = wmf_state_of(wmf_record(0x020B, i16(6, 5)), *[wmf_record(0x020F, i16(-3, 2))] * 2)
        self.assertEqual(window.window_origin, (5 + 2 + 2, 6 - 3 - 3))
        viewport = wmf_state_of(wmf_record(0x020D, i16(6, 5)), *[wmf_record(0x0211, i16(-3, 2))] * 2)
        self.assertEqual(viewport.viewport_origin, (5 + 2 + 2, 6 - 3 - 3))

    def test_scaled_extents(self) -> None:
        """7 * 3 / 2 is 10, and 9 * -1 / 4 is -2: fractions are dropped."""
        mode = emf_record(17, u32(8))
        window = state_of(mode, emf_record(9, i32(7, 9)), emf_record(32, i32(3, 2, -1, 4))).window
        viewport = state_of(mode, emf_record(11, i32(7, 9)), emf_record(31, i32(3, 2, -1, 4))).viewport
        self.assertEqual((window, viewport), ((10, -2), (10, -2)))
        other = wmf_state_of(wmf_record(0x020C, i16(9, 7)), wmf_record(0x0410, i16(4, -1, 2, 3))).window
        self.assertEqual(other, (10, -2))

    def test_scales_of_a_shear(self) -> None:
        """x' = 3 x + 4 y reaches 5 units across for one on the page, y' = y one unit down."""
        self.assertEqual(state_of(emf_record(35, singles(3, 0, 4, 1, 0, 0))).scales, (5, 1))


class Colours(unittest.TestCase):
    """Colours of palettes."""

    ENTRIES = bytes([1, 2, 3, 0, 4, 5, 6, 0])
    PALETTE = [emf_record(49, u32(2) + u16(0x300, 1) + ENTRIES), emf_record(48, u32(2))]

    def test_entries(self) -> None:
        """A palette has as many entries as its record counts, whatever follows them."""
        found = [state_of(*self.PALETTE, emf_record(24, u32(0x01000000 + index))).text_colour for index in (0, 1)]
        self.assertEqual(found, [0x030201, -1])
        wmf = [wmf_record(0x00F7, u16(0x300, 1) + self.ENTRIES), wmf_record(0x0234, u16(0))]
        found = [wmf_state_of(*wmf, wmf_record(0x0209, u32(0x01000000 + index))).text_colour for index in (0, 1)]
        self.assertEqual(found, [0x030201, -1])

    def test_stock_palette(self) -> None:
        """Its colours aren't known ([MS-EMF] 2.1.31)."""
        stock = emf_record(48, u32(0x8000000F))
        self.assertEqual(state_of(*self.PALETTE, stock, emf_record(24, u32(0x01000000))).text_colour, -1)


class States(unittest.TestCase):
    """Fonts, and saved states."""

    def test_fonts(self) -> None:
        """A font is turned if its line or its characters are. Fonts of the stock ([MS-EMF] 2.1.31) take its place."""
        for turns, is_turned in (((0, 0), False), ((900, 0), True), ((0, 900), True), ((3600, -3600), False)):
            made = emf_record(82, u32(1) + i32(-40, 30, *turns, 400) + bytes(8 + 64))
            selected = [made, emf_record(37, u32(1))]
            self.assertEqual(state_of(*selected).font, Font(-40, 30, is_turned))
            for stock, height in ((9, -40), (10, 16), (13, 16), (17, 16), (18, -40)):
                found = state_of(*selected, emf_record(37, u32(0x80000000 + stock))).font
                self.assertEqual(found.height, height, stock)

    def test_saved_twice(self) -> None:
        """Each state is restored once: the newest, then the one before, and then there is none."""
        records = []
        for colour in (1, 2, 3):
            records += [emf_record(24, u32(colour)), emf_record(33)]
        for saved, colour in ((-1, 3), (-1, 2), (1, 1), (-1, 9), (1, 9)):
            records += [emf_record(24, u32(9)), emf_record(34, i32(saved))]
            self.assertEqual(state_of(*records).text_reference, colour)


class Files(unittest.TestCase):
    """Records and their names."""

    def test_sizes(self) -> None:
        """The size of a record of EMF is a multiple of 4 ([MS-EMF] 2.3)."""
        head = emf_file([])[:88]
        for size in (8, 12):
            self.assertEqual(len(read(head + u32(33, size) + bytes(size - 8) + EMF_END).records), 3)
        for size in (4, 9, 10, 11):
            self.assertRaises(Unreadable, read, head + u32(33, size) + bytes(max(0, size - 8)) + EMF_END)

    def test_names(self) -> None:
        """Both programs have the same names."""
        for number in range(0x1000):
            for is_emf, kind in ((True, EMF.find(number)), (False, WMF.find(number))):
                named = f"kind {number}" if is_emf else f"function {number:04X}"
                self.assertEqual(name_of(is_emf, number), named if kind is None else kind.name)


if __name__ == "__main__":
    unittest.main()
