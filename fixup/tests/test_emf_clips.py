"""Conversion of EMF, record by record, with values worked out by hand: clips and extents."""

import unittest

from metaplay_fixup.convert import convert
from metaplay_fixup.faults import Fault, FaultName
from metaplay_fixup.options import Options

from .emf_records import PARTS, contents, converted, map_to, world
from .oracle import emf_file, emf_record, emf_script, i32, u32
from .parts import places_of


class Clips(unittest.TestCase):
    """Clips become boxes under a map of parts, which is set back."""

    def test_region(self) -> None:
        """Two boxes beside each other: the clip is removed, their bounds are kept, and what is between them is cut
        out.
        """
        region = u32(32, 1, 2, 32) + i32(0, 0, 9, 9) + i32(0, 0, 2, 9) + i32(5, 0, 9, 9)
        record = emf_record(75, u32(len(region), 5) + region)
        expected = [
            emf_record(75, u32(0, 5)),
            *map_to(0, 0),
            emf_record(30, i32(0, 0, 9 * PARTS, 9 * PARTS)),
            emf_record(29, i32(2 * PARTS, 0, 5 * PARTS, 9 * PARTS)),
            emf_record(17, u32(1)),
            emf_record(10, i32(0, 0)),
            emf_record(12, i32(0, 0)),
        ]
        self.assertEqual(contents([record]), [expected])

    def test_box_under_a_world(self) -> None:
        """The box is placed, and the file's own map comes back."""
        script = emf_script("map_mode 8; window_extent 50 50; viewport_extent 100 100")
        records = [*script, world(1, 0, 0, 1, 1, 2), *emf_script("keep 1 1 5 5")]
        back = [
            emf_record(17, u32(8)),
            emf_record(10, i32(0, 0)),
            emf_record(9, i32(50, 50)),
            emf_record(12, i32(0, 0)),
            emf_record(11, i32(100, 100)),
        ]
        kept = emf_record(30, i32(4 * PARTS, 6 * PARTS, 12 * PARTS, 14 * PARTS))
        self.assertEqual(contents(records), [[*map_to(0, 0), kept, *back]])

    def test_path(self) -> None:
        """A path of one box clips; its records go."""
        records = [*emf_script("begin_path; polygon 1 1 5 1 5 4 1 4; end_path"), emf_record(67, u32(1))]
        (records_there,) = contents(records)
        self.assertEqual(records_there[5], emf_record(30, i32(PARTS, PARTS, 5 * PARTS, 4 * PARTS)))

    def test_meta_region(self) -> None:
        """What SETMETARGN kept is kept again when the clip is removed."""
        records = [*emf_script("keep 1 1 5 5"), emf_record(28), *emf_script("keep 2 2 9 9; unclip")]
        meta, removal = contents(records)
        self.assertEqual(meta, [])
        self.assertEqual(removal[0], emf_record(75, u32(0, 5)))
        self.assertEqual(removal[6], emf_record(30, i32(PARTS, PARTS, 5 * PARTS, 5 * PARTS)))

    def test_meta_region_with_a_cut(self) -> None:
        """What was cut out before SETMETARGN is cut out again."""
        meta, removal = contents([*emf_script("cut 1 1 5 5"), emf_record(28), *emf_script("pixel 1 1; unclip")])
        cut = emf_record(29, i32(PARTS, PARTS, 5 * PARTS, 5 * PARTS))
        back = [emf_record(17, u32(1)), emf_record(10, i32(0, 0)), emf_record(12, i32(0, 0))]
        self.assertEqual((meta, removal), ([], [emf_record(75, u32(0, 5)), *map_to(0, 0), cut, *back]))

    def test_empty_path(self) -> None:
        """Nothing is left of the clip."""
        (records_there,) = contents([*emf_script("begin_path; end_path"), emf_record(67, u32(5))])
        self.assertEqual(records_there[0], emf_record(75, u32(0, 5)))
        self.assertEqual(records_there[6], emf_record(30, i32(0, 0, 0, 0)))

    def test_region_that_is_left_out(self) -> None:
        """RGN_DIFF ([MS-EMF] 2.1.29) cuts the region's boxes out of the clip, which stays."""
        region = u32(32, 1, 2, 32) + i32(0, 0, 9, 9) + i32(0, 0, 2, 9) + i32(5, 0, 9, 9)
        cuts = [emf_record(29, i32(left * PARTS, 0, right * PARTS, 9 * PARTS)) for left, right in ((0, 2), (5, 9))]
        back = [emf_record(17, u32(1)), emf_record(10, i32(0, 0)), emf_record(12, i32(0, 0))]
        record = emf_record(75, u32(len(region), 4) + region)
        self.assertEqual(contents([record]), [[*map_to(0, 0), *cuts, *back]])

    def test_order_of_replacements(self) -> None:
        """A path's records are replaced when a clip uses it; the report has them before a deletion that was first."""
        records = [*emf_script("begin_path; polygon 1 1 5 1 5 4 1 4; end_path"), emf_record(40, u32(1))]
        result = convert(emf_file([*records, emf_record(67, u32(1))]), Options(), None)
        self.assertEqual([replacement.record for replacement in result.replacements], [1, 2, 3, 4, 5])

    def test_faults(self) -> None:
        """Paths that aren't a box, and modes that join regions."""
        triangle = [*emf_script("begin_path; polygon 1 1 5 1 5 4; end_path"), emf_record(67, u32(1))]
        joined = emf_record(75, u32(48, 2) + u32(32, 1, 1, 16) + i32(0, 0, 9, 9) + i32(0, 0, 2, 9))
        for records in (triangle, [joined], [emf_record(75, u32(0, 1))]):
            with self.assertRaises(Fault) as raised:
                convert(emf_file(records), Options(), None)
            self.assertEqual(raised.exception.name, FaultName.ClipShape)


class Extents(unittest.TestCase):
    """Scaled extents and metric modes become plain extents."""

    def test_scaled(self) -> None:
        """7 * 3 / 2 is 10, and 9 * -1 / 4 is -2: fractions are dropped."""
        records = [*emf_script("map_mode 8; window_extent 7 9"), emf_record(32, i32(3, 2, -1, 4))]
        self.assertEqual(contents(records), [[emf_record(9, i32(10, -2))]])
        records = [*emf_script("map_mode 8; viewport_extent 7 9"), emf_record(31, i32(3, 2, -1, 4))]
        self.assertEqual(contents(records), [[emf_record(11, i32(10, -2))]])

    def test_text_mode(self) -> None:
        """In text mode they do nothing."""
        self.assertEqual(contents([emf_record(32, i32(3, 0, 1, 0))]), [[]])

    def test_metric(self) -> None:
        """A header with 4 by 4 pixels on 1 by 1 mm: of 10 tenths of a millimetre, upwards; extents do nothing then."""
        records = [emf_record(17, u32(2)), *emf_script("window_extent 5 5")]
        (place,) = converted(records)
        expected = [emf_record(17, u32(8)), emf_record(9, i32(10, 10)), emf_record(11, i32(4, -4))]
        self.assertEqual((place.records, place.count), (expected, 2))

    def test_sides_of_the_device(self) -> None:
        """1,000 by 500 pixels on 200 by 100 mm: 2,000 by 1,000 tenths of a millimetre; the map comes back so too."""
        data = emf_file([emf_record(17, u32(2)), *emf_script("pixel 1 1"), world(1, 0, 0, 1, 1, 2)])
        (end, keep) = (data[-20:], emf_script("keep 1 1 5 5")[0])
        data = data[:72] + i32(1000, 500, 200, 100) + data[88:-20] + keep + end
        first, second = places_of(data, convert(data, Options(), None).data)
        extents = [emf_record(9, i32(2000, 1000)), emf_record(11, i32(1000, -500))]
        self.assertEqual(first.records, [emf_record(17, u32(8)), *extents])
        origins = [emf_record(10, i32(0, 0)), emf_record(12, i32(0, 0))]
        back = [emf_record(17, u32(8)), origins[0], extents[0], origins[1], extents[1]]
        self.assertEqual(second.records[-5:], back)

    def test_zero(self) -> None:
        """An extent of 0 is ZeroExtent."""
        for scales in (i32(1, 0, 1, 1), i32(1, 8, 1, 1)):
            with self.assertRaises(Fault) as raised:
                convert(
                    emf_file([*emf_script("map_mode 8; window_extent 7 9"), emf_record(32, scales)]), Options(), None
                )
            self.assertEqual(raised.exception.name, FaultName.ZeroExtent)


if __name__ == "__main__":
    unittest.main()
