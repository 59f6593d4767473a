"""Records of both formats are read and written by tables, and files are divided into them."""

import unittest
from unittest import mock

from metaplay_fixup.affine import Point
from metaplay_fixup.emf_kinds import EMF
from metaplay_fixup.faults import Fault, FaultName
from metaplay_fixup.output import Output, Source
from metaplay_fixup.reader import Form, read_metafile
from metaplay_fixup.wmf_kinds import WMF

from .oracle import (
    EMF_END,
    NO_BOUNDS,
    emf_file,
    emf_record,
    emf_script,
    i16,
    i32,
    placeable_file,
    u16,
    u32,
    wmf_record,
    wmf_script,
)


class Tables(unittest.TestCase):
    """Fields are where the standards have them."""

    def test_fields_of_emf(self) -> None:
        """Offsets in [MS-EMF]: the numbers stand for the places where they begin."""
        rows = [
            ("EMR_HEADER", {"bounds_left": 8, "frame_left": 24, "signature": 40, "bytes": 48, "records": 52}),
            ("EMR_HEADER", {"palette_entries": 68, "device_width": 72, "millimetres_height": 84}),
            ("EMR_BITBLT", {"x": 24, "width": 32, "operation": 40, "source_x": 44, "m11": 52, "usage": 80}),
            ("EMR_STRETCHBLT", {"header_at": 84, "bits_at": 92, "bits_size": 96, "source_width": 100}),
            ("EMR_STRETCHDIBITS", {"x": 24, "source_x": 32, "source_width": 40, "header_at": 48, "bits_size": 60}),
            ("EMR_STRETCHDIBITS", {"usage": 64, "operation": 68, "width": 72, "height": 76}),
            ("EMR_CREATEDIBPATTERNBRUSHPT", {"index": 8, "usage": 12, "header_at": 16, "bits_size": 28}),
            ("EMR_EXTCREATEPEN", {"header_at": 12, "style": 28, "width": 32, "brush_style": 36, "colour": 40}),
            (
                "EMR_EXTTEXTOUTW",
                {"graphics_mode": 24, "x": 36, "count": 44, "string_at": 48, "options": 52, "left": 56},
            ),
            ("EMR_EXTTEXTOUTA", {"distances_at": 72}),
            ("EMR_SMALLTEXTOUT", {"x": 8, "count": 16, "options": 20, "graphics_mode": 24}),
            ("EMR_ARC", {"left": 8, "start_x": 24, "end_y": 36}),
            ("EMR_ALPHABLEND", {"operation": 40, "usage": 80, "source_height": 104}),
        ]
        for name, places in rows:
            fields = EMF.named(name).read(bytes(range(120)))
            for field, at in places.items():
                self.assertEqual(fields[field], int.from_bytes(bytes(range(at, at + 4)), "little"), (name, field))

    def test_fields_of_wmf(self) -> None:
        """Offsets in [MS-WMF], of two bytes, which mostly have the last coordinate first."""
        rows = [
            ("META_RECTANGLE", {"bottom": 6, "right": 8, "top": 10, "left": 12}),
            ("META_ARC", {"end_y": 6, "end_x": 8, "start_y": 10, "start_x": 12, "bottom": 14, "left": 20}),
            ("META_ROUNDRECT", {"corner_height": 6, "corner_width": 8, "bottom": 10, "left": 16}),
            ("META_EXTTEXTOUT", {"y": 6, "x": 8, "count": 10, "options": 12}),
            ("META_STRETCHDIB", {"usage": 10, "source_height": 12, "source_x": 18, "height": 20, "x": 26}),
            ("META_DIBSTRETCHBLT", {"source_height": 10, "source_x": 16, "height": 18, "x": 24}),
            ("META_DIBBITBLT", {"source_y": 10, "source_x": 12, "height": 14, "x": 20}),
            ("META_SCALEVIEWPORTEXT", {"y_denominator": 6, "y_numerator": 8, "x_denominator": 10, "x_numerator": 12}),
            ("META_CREATEPENINDIRECT", {"style": 6, "width": 8, "width_y": 10}),
        ]
        for name, places in rows:
            fields = WMF.named(name).read(bytes(range(60)))
            for field, at in places.items():
                self.assertEqual(fields[field], at | (at + 1) << 8, (name, field))

    def test_written(self) -> None:
        """Records that are written are those of the repository's writers."""
        self.assertEqual(EMF.named("EMR_MOVETOEX").write(3, -4), emf_record(27, i32(3, -4)))
        self.assertEqual(WMF.named("META_SETWINDOWEXT").write(-4, 3), wmf_record(0x020C, i16(-4, 3)))
        self.assertEqual(EMF.named("EMR_SAVEDC").write(), emf_record(33))
        changed = EMF.named("EMR_RECTANGLE").changed(emf_record(43, i32(1, 2, 3, 4) + b"more"), top=9)
        self.assertEqual(changed, emf_record(43, i32(1, 9, 3, 4) + b"more"))

    def test_too_large(self) -> None:
        """A number that its field can't hold is OffPlane."""
        with self.assertRaises(Fault) as raised:
            WMF.named("META_MOVETO").write(0, 0x8000)
        self.assertEqual(raised.exception.name, FaultName.OffPlane)

    def test_points(self) -> None:
        """Lists of points with 16 and 32 bits, one or several, of both formats."""
        (record,) = emf_script("polygons 1 2 3 4 | 5 6")
        self.assertEqual(EMF.named("EMR_POLYPOLYGON").point_lists(record), [[Point(1, 2), Point(3, 4)], [Point(5, 6)]])
        (record,) = emf_script("short_polyline -1 2 -3 4")
        self.assertEqual(EMF.named("EMR_POLYLINE16").point_lists(record), [[Point(-1, 2), Point(-3, 4)]])
        (record,) = wmf_script("polygons 1 2 3 4 | 5 6")
        self.assertEqual(WMF.named("META_POLYPOLYGON").point_lists(record), [[Point(1, 2), Point(3, 4)], [Point(5, 6)]])

    def test_missing_points(self) -> None:
        """Counts that don't add up, or are larger than the record, are BadParams."""
        wrong = [
            ("EMR_POLYGON", emf_record(3, NO_BOUNDS + u32(2) + i32(1, 2, 3))),
            ("EMR_POLYGON", emf_record(3, NO_BOUNDS + u32(0xFFFFFFFF))),
            ("EMR_POLYPOLYGON", emf_record(8, NO_BOUNDS + u32(1, 2, 1) + i32(1, 2, 3, 4))),
            ("EMR_POLYGON", emf_record(3, NO_BOUNDS)),
        ]
        for name, record in wrong:
            with self.assertRaises(Fault) as raised:
                EMF.named(name).point_lists(record)
            self.assertEqual(raised.exception.name, FaultName.BadParams, record)
        with self.assertRaises(Fault):
            WMF.named("META_POLYGON").point_lists(wmf_record(0x0324, i16(-1)))


class Files(unittest.TestCase):
    """A file is its headers, its records and its tail."""

    def test_divided(self) -> None:
        """Nothing is lost."""
        for data, form in ((emf_file([]), Form.EMF), (placeable_file([]), Form.PLACEABLE)):
            metafile = read_metafile(data + b"tail")
            self.assertIs(metafile.form, form)
            self.assertEqual(metafile.head + b"".join(metafile.records) + metafile.tail, data + b"tail")
            self.assertEqual(metafile.tail, b"tail")

    def test_most_records(self) -> None:
        """A file may have as many records as the limit says, with its end."""
        records = [emf_record(33)] * 3
        with mock.patch("metaplay_fixup.reader.MOST_RECORDS", 5):
            self.assertEqual(len(read_metafile(emf_file(records)).records), 5)
            with self.assertRaises(Fault) as raised:
                read_metafile(emf_file([*records, emf_record(33)]))
        self.assertEqual((raised.exception.name, raised.exception.record), (FaultName.TooManyRecords, 5))

    def test_longest_output(self) -> None:
        """Records that are put into a place later count too."""
        with mock.patch("metaplay_fixup.output.LONGEST_FILE", 20):
            output = Output()
            entry = output.add(1, Source.REPLACED, [bytes(8)])
            output.put_in(entry, 0, [bytes(12)])
            with self.assertRaises(Fault) as raised:
                output.put_in(entry, 0, [b"x"])
        self.assertEqual(raised.exception.name, FaultName.TooLong)

    def test_faults(self) -> None:
        """Broken files have the checker's faults."""
        emf, wmf = emf_file([]), placeable_file([])
        rows = [
            (b"", FaultName.NotMetafile, None),
            (b"%PDF", FaultName.NotMetafile, None),
            (emf[:87], FaultName.ShortHeader, None),
            (wmf[:39], FaultName.ShortHeader, None),
            (emf[:4] + u32(84) + emf[8:], FaultName.BadHeader, None),
            (emf[:4] + u32(1000) + emf[8:], FaultName.ShortHeader, None),
            (wmf[:22] + u16(3) + wmf[24:], FaultName.BadHeader, None),
            (emf[:-1], FaultName.PastEnd, 1),
            (emf[: -len(EMF_END)], FaultName.NoEnd, 1),
            (emf[:88] + u32(33, 6) + EMF_END, FaultName.ShortRecord, 1),
            (emf[:88] + u32(33, 10) + EMF_END, FaultName.ShortRecord, 1),
            (wmf[:40] + u32(2) + u16(0x1E), FaultName.ShortRecord, 0),
        ]
        for data, name, record in rows:
            with self.assertRaises(Fault) as raised:
                read_metafile(data)
            self.assertEqual((raised.exception.name, raised.exception.record), (name, record), data[:60])


if __name__ == "__main__":
    unittest.main()
