"""Conversion of EMF, record by record, with values worked out by hand: what is kept, objects, worlds."""

import unittest

from metaplay_fixup.convert import Converted, chord_tolerance, convert
from metaplay_fixup.faults import Fault, FaultName
from metaplay_fixup.fixed import ONE
from metaplay_fixup.options import Options

from .emf_records import PARTS, block, contents, converted, modify, world
from .oracle import NO_BOUNDS, emf_file, emf_record, emf_script, i16, i32, parted_bitmap, u32
from .parts import number, records_of
from .squares import Squares
from .text_records import text


class Kept(unittest.TestCase):
    """What the checker plays stays."""

    def test_nothing_to_replace(self) -> None:
        """All the file's bytes come out, with those after its end."""
        script = (
            "save; map_mode 8; window_extent 7 9; polygon 1 1 5 1 5 5; move 1 2; line 3 4; restore -1; keep 1 1 9 9"
        )
        path = "begin_path; polygon 1 1 7 1 7 7; move 1 1; line 5 5; close_figure; end_path; fill_path"
        data = emf_file(emf_script(script) + emf_script(path)) + b"tail"
        self.assertEqual(convert(data, Options(), None), Converted(data, ()))

    def test_identity_worlds(self) -> None:
        """Worlds that set the identity stay."""
        records = [world(1, 0, 0, 1, 0, 0), modify(1, 5, 5, 5, 5, 5, 5), modify(2, 1, 0, 0, 1, 0, 0)]
        data = emf_file(records)
        self.assertEqual(convert(data, Options(), None).data, data)

    def test_tolerance(self) -> None:
        """An eighth of a pixel of 8,192 over 100 units."""
        self.assertEqual(chord_tolerance(emf_file([]), Options()), 100 * ONE // 65536)


class Comments(unittest.TestCase):
    """Comments stay, but those with EMF+ if the caller says so."""

    def test_emf_plus(self) -> None:
        """One with EMF+ and another one."""
        records = [emf_record(70, u32(8) + b"EMF+abcd"), emf_record(70, u32(4) + b"EMF-"), *emf_script("pixel 1 1")]
        data = emf_file(records)
        self.assertEqual(convert(data, Options(), None).data, data)
        (place,) = converted(records, Options(drop_emf_plus=True))
        self.assertEqual((place.first, place.count, place.records), (1, 1, []))


class Objects(unittest.TestCase):
    """Objects have the indexes that the header allows."""

    def test_indexes(self) -> None:
        """An index that only a block's own would make valid is a fault."""
        for index in (0, 4, 5, 0x80000000):
            with self.assertRaises(Fault) as raised:
                convert(emf_file([emf_record(39, u32(index, 0, 0, 0))]), Options(), None)
            self.assertEqual((raised.exception.name, raised.exception.record), (FaultName.NoSuchHandle, 1))

    def test_most_indexes(self) -> None:
        """The header counts at most 65,535 objects, of which a block may need one."""
        script = emf_script("styled_pen 0 0 3 0xff0000; select 0; polyline 0 0 1 1")
        records = [*script[:2], world(2, 0, 0, 8, 0, 0), script[2]]
        data = convert(emf_file(records, handles=0xFFFE), Options(), None).data
        self.assertEqual(number(data, 56, 2), 0xFFFF)
        with self.assertRaises(Fault) as raised:
            convert(emf_file(records, handles=0xFFFF), Options(), None)
        self.assertEqual(raised.exception.name, FaultName.TableFull)

    def test_fonts_of_the_stock(self) -> None:
        """[MS-EMF] 2.1.31: OEM_FIXED_FONT has the OEM charset, the others don't."""
        for stock in (10, 11, 12, 13, 14, 16, 17):
            squares = Squares()
            convert(emf_file([emf_record(37, u32(0x80000000 + stock)), text("a", 20, 30)]), Options(), squares)
            self.assertEqual([asked.charset for _, asked, _ in squares.asked], [255 if stock == 10 else 0])

    def test_thin_pens(self) -> None:
        """DC_PEN of the stock, and a cosmetic pen, whatever width it has, are as thin under a world of 2 by 8."""
        wide, line = emf_script("styled_pen 0 0 3 0xff0000; select 0"), emf_script("polyline 0 0 1 1")
        cosmetic = [emf_record(95, u32(2, 0, 0, 0, 0, 0, 5, 0, 0xFF, 0, 0)), emf_record(37, u32(2))]
        placed = emf_record(87, i32(0, 0, 2, 8) + u32(2) + i16(0, 0, 2048, 8192))
        for thin in ([emf_record(37, u32(0x80000013))], cosmetic):
            self.assertEqual(contents([*wide, *thin, world(2, 0, 0, 8, 0, 0), *line]), [block(0, 0, placed)])

    def test_pen_without_a_colour(self) -> None:
        """A pen with BS_NULL draws nothing, so it needs no colour that a palette has."""
        numbers = (1, 0, 0, 0, 0, 0x10000, 4, 1, 0x01000007, 0, 0)
        data = emf_file([emf_record(95, u32(*numbers)), emf_record(37, u32(1)), *emf_script("polyline 0 0 1 1")])
        self.assertEqual(convert(data, Options(), None), Converted(data, ()))

    def test_deletions_of_nothing(self) -> None:
        """A deletion of what isn't there, or of a stock object, is left out; that of an object stays."""
        make, drop = emf_record(39, u32(2, 0, 0xFF, 0)), emf_record(40, u32(2))
        for index in (0, 1, 99, 0x80000007):
            (place,) = converted([make, emf_record(40, u32(index)), drop])
            self.assertEqual((place.first, place.count, place.records), (2, 1, []))
        (place,) = converted([make, drop, drop])
        self.assertEqual((place.first, place.count, place.records), (3, 1, []))
        data = emf_file([emf_record(40, u32(1))])
        self.assertEqual(convert(data, Options(text_only=True), None), Converted(data, ()))


class Worlds(unittest.TestCase):
    """Drawings under a world are transformed."""

    def test_polygon(self) -> None:
        """Twice and (3, 4) further: (1, 1), (5, 1), (1, 3) land on (5, 6), (13, 6), (5, 10)."""
        records = [world(2, 0, 0, 2, 3, 4), *emf_script("polygon 1 1 5 1 1 3")]
        polygon = emf_record(86, i32(5, 6, 13, 10) + u32(3) + i16(0, 0, 8192, 0, 0, 4096))
        self.assertEqual(contents(records), [block(5, 6, polygon)])

    def test_marks(self) -> None:
        """A place begins at the first record that is gone, and counts them."""
        (place,) = converted([world(2, 0, 0, 2, 3, 4), *emf_script("polygon 1 1 5 1 1 3")])
        self.assertEqual((place.first, place.count), (1, 2))

    def test_long_coordinates(self) -> None:
        """Points more than 32,767 parts apart have 32 bits."""
        records = [world(2, 0, 0, 2, 0, 0), *emf_script("polyline 0 0 40 0")]
        line = emf_record(4, i32(0, 0, 80, 0) + u32(2) + i32(0, 0, 81920, 0))
        self.assertEqual(contents(records), [block(0, 0, line)])

    def test_products(self) -> None:
        """Mode 2 applies the new transform first, mode 3 last: twice, then 3 further, or the other way round."""
        for mode, x in ((2, 2 * (5 + 3)), (3, 2 * 5 + 3)):
            records = [world(2, 0, 0, 2, 0, 0), modify(mode, 1, 0, 0, 1, 3, 0), *emf_script("polyline 5 0 5 1")]
            (records_there,) = contents(records)
            self.assertEqual(records_there[4], emf_record(12, i32(x, 0)), mode)

    def test_saved(self) -> None:
        """Restoring a state takes the world back."""
        records = [emf_record(33), world(2, 0, 0, 2, 0, 0), emf_record(34, i32(-1)), *emf_script("polyline 5 0 5 1")]
        self.assertEqual(contents(records), [[]])

    def test_restored_by_number(self) -> None:
        """1 is the oldest saved state, where the world was the identity."""
        save, line = emf_record(33), emf_script("polyline 5 0 5 1")
        records = [save, world(2, 0, 0, 2, 0, 0), save, world(3, 0, 0, 3, 0, 0), emf_record(34, i32(1)), *line]
        self.assertEqual(contents(records), [[], []])

    def test_page_map_after_the_world(self) -> None:
        """x' = ((2 x + 1) - 5) * 3 / 2 + 7 for x = 4 is 13."""
        script = "map_mode 8; window_origin 5 0; window_extent 2 1; viewport_extent 3 1; viewport_origin 7 0"
        records = [*emf_script(script), world(2, 0, 0, 1, 1, 0), *emf_script("polyline 4 0 5 0")]
        (records_there,) = contents(records)
        line = emf_record(87, i32(13, 0, 16, 0) + u32(2) + i16(0, 0, 3 * PARTS, 0))
        self.assertEqual(records_there, block(13, 0, line))

    def test_rectangles(self) -> None:
        """A box stays one under a scale, and is a polygon under a turn: (x, y) goes to (50 - y, x)."""
        straight = contents([world(2, 0, 0, 1, 0, 0), *emf_script("rectangle 1 2 3 4")])
        self.assertEqual(straight, [block(2, 2, emf_record(43, i32(0, 0, 4 * PARTS, 2 * PARTS)))])
        turned = contents([world(0, 1, -1, 0, 50, 0), *emf_script("rectangle 1 2 3 4")])
        points = i16(0, 0, 0, 2048, -2048, 2048, -2048, 0)
        self.assertEqual(turned, [block(48, 1, emf_record(86, i32(46, 1, 48, 3) + u32(4) + points))])

    def test_position(self) -> None:
        """Lines from the position become lines of two points; the position moves before a line that stays."""
        script = emf_script("move 1 1; line 3 1")
        records = [world(2, 0, 0, 2, 0, 0), *script, modify(1, 0, 0, 0, 0, 0, 0), *emf_script("line 3 9")]
        line = emf_record(87, i32(2, 2, 6, 2) + u32(2) + i16(0, 0, 4096, 0))
        places = converted(records)
        self.assertEqual([place.records for place in places], [[], block(2, 2, line), [emf_record(27, i32(3, 1))]])
        self.assertEqual([(place.first, place.count) for place in places], [(1, 1), (3, 1), (5, 0)])

    def test_pixel(self) -> None:
        """A pixel lands where its point does."""
        records = [world(2, 0, 0, 2, 1, 0), *emf_script("pixel 3 4")]
        red = u32(0x0000FF)
        self.assertEqual(contents(records), [block(7, 8, emf_record(15, i32(0, 0) + red))])

    def test_wide_pen(self) -> None:
        """A pen of width 3 under a world of 2 by 8 is 4 * 3 units wide; it is made at the first index beyond the
        file's.
        """
        script = emf_script("styled_pen 0 0 3 0xff0000; select 0")
        records = [*script, world(2, 0, 0, 8, 0, 0), *emf_script("polyline 0 0 1 1")]
        line = emf_record(87, i32(0, 0, 2, 8) + u32(2) + i16(0, 0, 2048, 8192))
        pen = emf_record(38, u32(4, 0) + i32(12 * PARTS, 0) + u32(0x0000FF))
        expected = [*block(0, 0, pen, emf_record(37, u32(4)), line), emf_record(40, u32(4))]
        self.assertEqual(contents(records), [expected])

    def test_header(self) -> None:
        """An index more is counted in the header if a block needs one, with the records and the bytes."""
        script = emf_script("styled_pen 0 0 3 0xff0000; select 0")
        data = convert(
            emf_file([*script, world(2, 0, 0, 8, 0, 0), *emf_script("polyline 0 0 1 1")]), Options(), None
        ).data
        self.assertEqual(number(data, 48), len(data))
        self.assertEqual(number(data, 52), len(records_of(data)))
        self.assertEqual(number(data, 56, 2), 5)

    def test_faults(self) -> None:
        """Worlds without an inverse, or with numbers that aren't finite; clips and bitmaps that turn."""
        turn = world(0, 1, -1, 0, 50, 0)
        info, bits = parted_bitmap([[(255, 0, 0)]], 24)
        blit = (
            NO_BOUNDS + i32(0, 0, 0, 0, 1, 1) + u32(80, len(info), 80 + len(info), len(bits), 0, 0xCC0020) + i32(9, 9)
        )
        rows = [
            ([world(1, 1, 1, 1, 0, 0)], FaultName.BadValue, 1),
            ([world(float("nan"), 0, 0, 1, 0, 0)], FaultName.BadValue, 1),
            ([modify(5, 1, 0, 0, 1, 0, 0)], FaultName.BadValue, 1),
            ([turn, *emf_script("keep 1 1 5 5")], FaultName.Turned, 2),
            ([turn, emf_record(81, blit + info + bits)], FaultName.Turned, 2),
            ([world(1e9, 0, 0, 1e9, 0, 0), *emf_script("polyline 0 0 9 9")], FaultName.OffPlane, 2),
        ]
        for records, name, place in rows:
            with self.assertRaises(Fault) as raised:
                convert(emf_file(records), Options(), None)
            self.assertEqual((raised.exception.name, raised.exception.record), (name, place))


if __name__ == "__main__":
    unittest.main()
