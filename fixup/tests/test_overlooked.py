"""Text alone is replaced: what other records do to the state, also those that have faults, with values by hand."""

import unittest

from metaplay_fixup.convert import convert
from metaplay_fixup.faults import Fault, FaultName
from metaplay_fixup.options import Options
from metaplay_verify import verify

from .oracle import NO_BOUNDS, emf_file, emf_record, emf_script, i16, i32, placeable_file, u16, u32, wmf_record
from .oracle import wmf_script
from .parts import number, places_of
from .squares import Squares
from .emf_records import map_to, modify, world
from .text_records import END, SETTINGS, TRANSPARENT, UPDATE_POSITION, brush, font, square, text

TEXT_ONLY = Options(text_only=True)
NO_COLOUR = 0x01000007
"""An index into a palette that has no colours."""


def block_of(data: bytes) -> list[bytes]:
    """What stands in the one replaced place of a file, which the second reader accepts."""
    fixed = convert(data, TEXT_ONLY, Squares()).data
    verdict = verify(data, fixed, True)
    assert verdict.holds, verdict
    (place,) = places_of(data, fixed)
    return place.records


class Overlooked(unittest.TestCase):
    """What both formats have in common."""

    def refuse(self, data: bytes, name: FaultName, record: int) -> None:
        """The file is rejected by this fault, at this record."""
        with self.assertRaises(Fault) as raised:
            convert(data, TEXT_ONLY, Squares())
        self.assertEqual((raised.exception.name, raised.exception.record), (name, record))


class Emf(Overlooked):
    """EMF, whose text is record 4 if no other one follows the font."""

    A = text("a", 20, 30)

    def file(self, *records: bytes) -> bytes:
        """A file of these records after a font of 10 units, whose header counts four handles."""
        return emf_file([*TRANSPARENT, *font(), *records])

    def block(self, *squares: bytes) -> list[bytes]:
        """A block around (20, 30) with these polygons in black."""
        return [emf_record(33), *map_to(20, 30), *SETTINGS, *brush(0), *squares, *END]

    def test_moving_texts_that_share_a_block(self) -> None:
        """Each letter is 4 units wide and begins where the one before ended; the positions follow the block."""
        small = [*font(4, 0, 2), UPDATE_POSITION, *emf_script("move 20 30")]
        data = self.file(*small, *[text(letter, 0, 0) for letter in "abc"])
        squares = [square(x, 30, (20, 30), 4) for x in (20, 24, 28)]
        moves = [emf_record(27, i32(x, 30)) for x in (24, 28, 32)]
        self.assertEqual(block_of(data), [*self.block(*squares), *moves])

    def test_moving_and_blank_texts(self) -> None:
        """A blank moves the position too."""
        small = [*font(4, 0, 2), UPDATE_POSITION, *emf_script("move 20 30")]
        data = self.file(*small, *[text(letter, 0, 0) for letter in "a b"])
        squares = [square(x, 30, (20, 30), 4) for x in (20, 28)]
        moves = [emf_record(27, i32(x, 30)) for x in (24, 28, 32)]
        self.assertEqual(block_of(data), [*self.block(*squares), *moves])

    def test_faulty_colour(self) -> None:
        """A colour that no palette has: text can't be drawn in it, until another colour is set or comes back."""
        wrong, red = emf_record(24, u32(NO_COLOUR)), emf_record(24, u32(0xFF))
        self.refuse(self.file(wrong, self.A), FaultName.PaletteColour, 5)
        self.refuse(self.file(red, wrong, *emf_script("pixel 1 1"), self.A), FaultName.PaletteColour, 7)
        save, restore = emf_record(33), emf_record(34, i32(-1))
        self.assertEqual(block_of(self.file(save, wrong, restore, self.A)), self.block(square(20, 30, (20, 30))))
        self.assertEqual(number(block_of(self.file(wrong, red, self.A))[9], 16), 0xFF)

    def test_faulty_background(self) -> None:
        """The background's colour matters in the opaque mode and for a box alone."""
        wrong = emf_record(25, u32(NO_COLOUR))
        self.assertEqual(block_of(self.file(wrong, self.A)), self.block(square(20, 30, (20, 30))))
        self.refuse(self.file(wrong, *emf_script("back_mode 2"), self.A), FaultName.PaletteColour, 6)
        box = text("a", 20, 30, 2, (20, 30, 30, 40))
        self.refuse(self.file(wrong, box), FaultName.PaletteColour, 5)

    def test_faulty_modes(self) -> None:
        """Metric modes have no units without a device; only the mode of text makes the map known again."""
        metric, plain = emf_record(17, u32(2)), emf_record(17, u32(1))
        data = self.file(metric, self.A)
        without = data[:72] + i32(0, 0, 0, 0) + data[88:]
        self.refuse(without, FaultName.MetricMode, 4)
        data = self.file(metric, *emf_script("map_mode 8; window_extent 9 9"), self.A)
        self.refuse(data[:72] + i32(0, 0, 0, 0) + data[88:], FaultName.MetricMode, 4)
        data = self.file(metric, plain, self.A)
        without = data[:72] + i32(0, 0, 0, 0) + data[88:]
        self.assertEqual(block_of(without), self.block(square(20, 30, (20, 30))))
        unknown = self.file(emf_record(17, u32(9)), self.A)
        self.assertEqual(block_of(unknown), self.block(square(20, 30, (20, 30))))

    def test_long_extents(self) -> None:
        """An extent of 2^31 - 1 that doubles has more than 32 bits."""
        records = [*emf_script("map_mode 8"), emf_record(9, i32(0x7FFFFFFF, 1)), emf_record(32, i32(2, 1, 1, 1))]
        self.refuse(self.file(*records, self.A), FaultName.OffPlane, 6)

    def test_large_worlds(self) -> None:
        """Numbers of 2^40 and above aren't followed; a world is known again when all of it is set."""
        large, twice, plain = world(2.0**40, 0, 0, 1, 0, 0), modify(2, 2, 0, 0, 2, 0, 0), modify(1, 0, 0, 0, 0, 0, 0)
        self.refuse(self.file(large, self.A), FaultName.OffPlane, 4)
        self.refuse(self.file(large, twice, emf_record(17, u32(1)), self.A), FaultName.OffPlane, 4)
        block = self.block(square(20, 30, (20, 30)))
        self.assertEqual(block_of(self.file(large, plain, self.A)), block)
        self.assertEqual(block_of(self.file(large, world(1, 0, 0, 1, 0, 0), self.A)), block)
        self.assertEqual(block_of(self.file(large, modify(4, 1, 0, 0, 1, 0, 0), self.A)), block)
        for wrong in (world(float("inf"), 0, 0, 1, 0, 0), world(1, 1, 1, 1, 0, 0), modify(5, 2, 0, 0, 2, 0, 0)):
            self.assertEqual(block_of(self.file(wrong, self.A)), block)

    def test_lines_that_move(self) -> None:
        """Lines and curves end at (20, 30), in what state they may be drawn doesn't matter; cut ones don't move."""
        ends = i32(0, 0, -1, -1, 3) + i16(1, 1, 2, 2, 20, 30)
        short = emf_record(89, i32(0, 0, -1, -1, 3) + i16(1, 1, 2, 2))
        shape = self.block(square(20, 30, (20, 30)))
        for record in (emf_record(88, ends), emf_record(89, ends), *emf_script("line 20 30")):
            data = self.file(UPDATE_POSITION, record, short, text("a", 0, 0))
            self.assertEqual(block_of(data), [*shape, emf_record(27, i32(30, 30))])

    def test_moves_that_are_not_followed(self) -> None:
        """EMR_ANGLEARC, EMR_POLYDRAW and EMR_POLYDRAW16 move the position to where nothing here knows."""
        turn = emf_record(41, i32(50, 50, 3) + u32(0, 0))
        long = emf_record(56, NO_BOUNDS + u32(1) + i32(50, 50) + b"\2\0\0\0")
        short = emf_record(92, NO_BOUNDS + u32(1) + i16(50, 50) + b"\2\0\0\0")
        for record in (turn, long, short):
            self.refuse(self.file(UPDATE_POSITION, record, text("a", 0, 0)), FaultName.Unsupported, 5)
            self.assertEqual(block_of(self.file(record, self.A)), self.block(square(20, 30, (20, 30))))
            data = self.file(UPDATE_POSITION, record, *emf_script("line 20 30"), text("a", 0, 0))
            self.assertEqual(block_of(data)[:-1], self.block(square(20, 30, (20, 30))))

    def test_open_path(self) -> None:
        """What would paint an open path, or clip by it, leaves it open, and text isn't drawn in it."""
        for kind, fields in ((62, NO_BOUNDS), (63, NO_BOUNDS), (64, NO_BOUNDS), (67, u32(5)), (59, b"")):
            used = emf_record(kind, fields)
            self.refuse(self.file(*emf_script("begin_path"), used, self.A), FaultName.PathState, 6)
            data = self.file(*emf_script("begin_path"), used, *emf_script("end_path"), self.A)
            self.assertEqual(block_of(data), self.block(square(20, 30, (20, 30))))

    def test_too_many_saved_states(self) -> None:
        """Of more states than 256 it isn't known which one comes back."""
        self.assertEqual(len(block_of(self.file(*[emf_record(33)] * 255, self.A))), 14)
        self.refuse(
            self.file(*[emf_record(33)] * 257, *[emf_record(34, i32(-1))] * 2, self.A), FaultName.DepthLimit, 260
        )

    def test_object_in_the_place_of_a_font(self) -> None:
        """A pen with a fault takes the font's index, so the font of 40 units isn't selected again."""
        pen = emf_record(38, u32(1, 0) + i32(1, 0) + u32(NO_COLOUR))
        data = self.file(*font(40), *font(10, 0, 2), pen, emf_record(37, u32(1)), self.A)
        self.assertEqual(block_of(data), self.block(square(20, 30, (20, 30))))

    def test_index_of_the_blocks(self) -> None:
        """The header counts four handles, so blocks use the index 4, and the file can't."""
        at_four, at_five = (emf_record(39, u32(index, 0, 0xFF, 0)) for index in (4, 5))
        self.refuse(self.file(at_four, self.A), FaultName.NoSuchHandle, 4)
        self.refuse(self.file(self.A, at_four), FaultName.NoSuchHandle, 5)
        self.assertEqual(block_of(self.file(at_five, self.A)), self.block(square(20, 30, (20, 30))))
        blank = self.file(at_four, text(" ", 0, 0))
        self.assertEqual(block_of(blank), [])


class Wmf(Overlooked):
    """WMF, whose text is record 3 if no other one follows the font."""

    FONT = wmf_record(0x02FB, i16(10, 0, 0, 0, 400) + bytes(8) + b"Squares\0")
    TEXT = wmf_record(0x0521, i16(1) + b"a\0" + i16(30, 20))

    def file(self, *records: bytes) -> bytes:
        """A file of these records in the transparent mode."""
        return placeable_file([*wmf_script("back_mode 1"), *records])

    def with_font(self, *records: bytes) -> bytes:
        """The same, with the font at the index 0."""
        return self.file(self.FONT, *wmf_script("select 0"), *records)

    def block(self, pen: int, window: tuple[int, int] = (100, 100), factor: int = 256) -> list[bytes]:
        """The block of a letter at (20, 30), in parts of a page unit, with the pen's index and the brush after it."""
        side = 10 * factor
        return [
            wmf_record(0x001E),
            wmf_record(0x020B, i16(-30 * factor, -20 * factor)),
            wmf_record(0x020C, i16(window[1] * factor, window[0] * factor)),
            wmf_record(0x0106, u16(2)),
            wmf_record(0x0104, u16(13)),
            wmf_record(0x02FA, u16(5) + bytes(8)),
            wmf_record(0x012D, u16(pen)),
            wmf_record(0x02FC, u16(0) + u32(0) + u16(0)),
            wmf_record(0x012D, u16(pen + 1)),
            wmf_record(0x0324, i16(4, 0, 0, side, 0, side, side, 0, side)),
            wmf_record(0x0127, i16(-1)),
            wmf_record(0x01F0, u16(pen)),
            wmf_record(0x01F0, u16(pen + 1)),
        ]

    def test_scaled_viewport(self) -> None:
        """The record stays, so the block's window is that of the file: whoever shows the file scales its viewport."""
        for scales in ((1, 2, 1, 2), (1, 3, 2, 1), (3, 1, 7, 2)):
            scaled = wmf_record(0x0412, i16(*scales))
            self.assertEqual(block_of(self.with_font(scaled, self.TEXT)), self.block(1))
            again = self.with_font(scaled, wmf_record(0x020C, i16(50, 80)), scaled, self.TEXT)
            self.assertEqual(block_of(again), self.block(1, (80, 50)))

    def test_scaled_window(self) -> None:
        """Half as wide and a quarter as high, after a viewport that is scaled: 50 by 25."""
        scales = [wmf_record(0x0412, i16(1, 2, 1, 2)), wmf_record(0x0410, i16(4, 1, 2, 1))]
        self.assertEqual(block_of(self.with_font(*scales, self.TEXT)), self.block(1, (50, 25)))

    def test_faulty_extents(self) -> None:
        """Extents of 0 change nothing, also not what is scaled later: half of 100 is 50."""
        wrong = [wmf_record(0x020C, i16(0, 7)), wmf_record(0x020E, i16(0, 7))]
        wrong += [wmf_record(0x0410, i16(1, 0, 1, 2)), wmf_record(0x0412, i16(0, 1, 1, 2))]
        half = wmf_record(0x0410, i16(2, 1, 2, 1))
        for record in wrong:
            self.assertEqual(block_of(self.with_font(record, self.TEXT)), self.block(1), record)
            self.assertEqual(block_of(self.with_font(record, half, self.TEXT)), self.block(1, (50, 50)), record)

    def test_large_extents(self) -> None:
        """A window of 40,000 units has no room in a block's record of 16 bits."""
        larger = wmf_record(0x0410, i16(1, 400, 1, 400))
        self.refuse(self.with_font(larger, self.TEXT), FaultName.OffPlane, 4)

    def test_objects_with_faults(self) -> None:
        """Whatever fault its record has, an object takes the lowest free index: 0, so the font has 1, the pen 2."""
        records = [
            wmf_record(0x02FA, u16(0) + i16(1, 0) + u32(NO_COLOUR)),
            wmf_record(0x02FC, u16(0) + u32(NO_COLOUR) + u16(0)),
            wmf_record(0x0142, u16(5, 0) + bytes(40)),
            wmf_record(0x06FF, bytes(20)),
            wmf_record(0x01F9, bytes(20)),
            wmf_record(0x00F7),
            wmf_record(0x02FA),
            wmf_record(0x02FB),
        ]
        for record in records:
            data = self.file(record, self.FONT, *wmf_script("select 1"), self.TEXT)
            self.assertEqual(block_of(data), self.block(2), record)

    def test_freed_index(self) -> None:
        """An object with a fault takes an index that was freed, and its own deletion frees it."""
        pen, faulty = wmf_record(0x02FA, u16(0) + i16(1, 0) + u32(0)), wmf_record(0x06FF, bytes(20))
        drop = wmf_record(0x01F0, u16(0))
        data = self.file(pen, self.FONT, *wmf_script("select 1"), drop, faulty, self.TEXT)
        self.assertEqual(block_of(data), self.block(2))
        data = self.file(faulty, self.FONT, *wmf_script("select 1"), pen, drop, faulty, self.TEXT)
        self.assertEqual(block_of(data), self.block(3))

    def test_many_objects(self) -> None:
        """All of 1,100 pens count. 300 are deleted: the font takes the index 0, and the block those after it."""
        pens = [wmf_record(0x02FA, u16(0) + i16(1, 0) + u32(0))] * 1100
        drops = [wmf_record(0x01F0, u16(index)) for index in range(300)]
        data = self.file(*pens, *drops, self.FONT, *wmf_script("select 0"), self.TEXT)
        self.assertEqual(block_of(data), self.block(1))
        fixed = convert(data, TEXT_ONLY, Squares()).data
        self.assertEqual(number(fixed, 32, 2), 1100)
        self.refuse(self.file(*pens, self.TEXT), FaultName.TableFull, 1101)

    def test_faulty_colour(self) -> None:
        """As in EMF."""
        wrong = wmf_record(0x0209, u32(NO_COLOUR))
        self.refuse(self.with_font(wrong, self.TEXT), FaultName.PaletteColour, 4)
        self.assertEqual(block_of(self.with_font(wrong, wmf_record(0x0209, u32(0)), self.TEXT)), self.block(1))

    def test_metric_modes(self) -> None:
        """A WMF doesn't say how large its device is; in the mode of text a unit is a unit again, which can't be finer
        than 256 parts.
        """
        metric, plain = wmf_record(0x0103, u16(3)), wmf_record(0x0103, u16(1))
        self.refuse(self.with_font(metric, self.TEXT), FaultName.MetricMode, 3)
        block = self.block(1, (1, 1))
        expected = [*block[:1], wmf_record(0x0103, u16(8)), *block[1:]]
        self.assertEqual(block_of(self.with_font(metric, plain, self.TEXT)), expected)


if __name__ == "__main__":
    unittest.main()
