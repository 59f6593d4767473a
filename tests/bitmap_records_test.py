"""The nine records that bring bitmaps ([MS-WMF] 2.3.1, 2.3.3.12 and 2.3.4.8, [MS-EMF] 2.3.1 and
2.3.7.4) in the built programs: each field of each at several values, usages, transforms, and every
length; where the parts of a bitmap lie in records of EMF, and which of several faults is told."""

import unittest

from bitmap_fields import (
    AT,
    BLACKENED,
    BOX,
    DRAWN,
    EMF_BARE,
    EMF_DRAWN,
    EMF_TILE,
    LARGEST,
    NINE,
    PACKED,
    PARTS,
    USAGES,
    WMF_BARE,
    WMF_DRAWN,
    WMF_TILE,
    BitmapRecords,
    boxes,
    operations,
    unread_sources,
    usages,
    written,
)
from built import for_each_program
from metafile.bitmaps import bitmap
from metafile.blits import BLACKNESS, LEAST, SRCCOPY, bit_blt, stretch_blt, stretch_dibits
from metafile.fields import BLACK, i16, i32, joined, u16, u32
from standards.emf import EMF, TRANSFORMS
from standards.kinds import ACCEPTED
from standards.wmf import WMF


class Fields(BitmapRecords):
    """Each field at several values."""

    @for_each_program
    def test_records_with_a_bitmap(self, program):
        for form, records in [(WMF, WMF_DRAWN), (EMF, EMF_DRAWN)]:
            for number, fields, cases in records:
                cases = [({}, DRAWN), *cases, *operations(DRAWN, None)]
                self.check_fields(program, form, number, fields, cases)

    @for_each_program
    def test_records_without_one(self, program):
        for form, records, number in [(WMF, WMF_BARE, i16), (EMF, EMF_BARE, i32)]:
            far = (-32768, 32767) if form is WMF else (-0x80000000, 0x7FFFFFFF)
            for kind, fields in records:
                cases = [({}, BLACKENED), *boxes(number, BLACK), *operations(None, "SourceMissing")]
                for changes in unread_sources(number, *far):
                    if changes.keys() <= fields.keys():
                        copied = changes | {"operation": u32(SRCCOPY)}
                        cases += [(changes, BLACKENED), (copied, "SourceMissing")]
                self.check_fields(program, form, kind, fields, cases)

    @for_each_program
    def test_fields_that_are_never_read(self, program):
        reserved = [({"reserved": u16(value)}, BLACKENED) for value in (0, 1, 40, 0x8000)]
        for number, fields in WMF_BARE[1:]:
            self.check_fields(program, WMF, number, fields, reserved)
        unread = [({"bounds": i32(0, 0, -1, -1)}, DRAWN), ({"bounds": i32(9, 9, 0, 0)}, DRAWN)]
        for number, fields, _ in EMF_DRAWN:
            cases = unread + [({"background": u32(1)}, DRAWN)] * (number != 81)
            self.check_fields(program, EMF, number, fields, cases)

    @for_each_program
    def test_brushes_of_a_wmf(self, program):
        number, fields = WMF_TILE
        cases = [({"usage": u16(usage)}, ACCEPTED) for usage in USAGES]
        for style in (0, 1, 2, 4, 5, 6, 7, 8, 0x103, 0xFFFF):
            told = {"style": u16(style)}
            cases += [(told | usage, outcome) for usage, outcome in usages(u16, ACCEPTED)]
        self.check_fields(program, WMF, number, fields, cases)

    @for_each_program
    def test_brushes_of_an_emf(self, program):
        number, fields = EMF_TILE
        cases = [({}, ACCEPTED), *usages(u32, ACCEPTED)]
        cases += [({"index": u32(index)}, "NoSuchHandle") for index in (0, 2, 257, LARGEST)]
        cases += [({"index": u32(0), "usage": u32(1)}, "PaletteColour")]
        self.check_fields(program, EMF, number, fields, cases)

    @for_each_program
    def test_transforms(self, program):
        # Each is refused but that which changes nothing, by its words; the third has none.
        for number, fields, _ in EMF_DRAWN[:2]:
            cases = [({"transform": turned}, f"Unsupported {number}") for turned in TRANSFORMS]
            self.check_fields(program, EMF, number, fields, cases)


class Lengths(BitmapRecords):
    """Records that end early, or late."""

    # How many bytes of parameters there are before a bitmap, and the length without one.
    BEFORE = {0x0142: (4, None), 0x0940: (16, 18), 0x0B41: (20, 22), 0x0F43: (22, None)}

    @for_each_program
    def test_every_length_of_a_wmf_with_a_bitmap(self, program):
        records = [(number, fields) for number, fields, _ in WMF_DRAWN]
        for number, fields in [*records, WMF_TILE]:
            whole, (before, bare) = joined(fields, {}), self.BEFORE[number]
            self.assertEqual(len(whole), before + len(PACKED))
            lengths = [length for length in range(0, len(whole), 2) if length != bare]
            cases = [
                (number, whole[:length], "BadParams" if length < before else "ShortDib")
                for length in lengths
            ]
            self.check(program, WMF, cases)

    @for_each_program
    def test_every_length_of_a_wmf_without_one(self, program):
        for number, fields in WMF_BARE:
            whole = joined(fields, {})
            before = self.BEFORE.get(number, (len(whole), None))[0]
            cases = [
                (number, whole[:length], "BadParams" if length < before else "ShortDib")
                for length in range(0, len(whole), 2)
            ]
            self.check(program, WMF, cases)

    @for_each_program
    def test_every_length_of_an_emf(self, program):
        # The parts of a bitmap end with the record.
        records = [(number, fields) for number, fields, _ in EMF_DRAWN]
        for number, fields in [*records, EMF_TILE, *EMF_BARE]:
            whole = joined(fields, {})
            cases = [(number, whole[:length], "BadParams") for length in range(0, len(whole), 4)]
            self.check(program, EMF, cases)
            self.assertIn(len(whole), (LEAST[number] - 8, LEAST[number] - 8 + len(PACKED)))

    @for_each_program
    def test_more_bytes_than_are_read(self, program):
        for more in (b"\xff" * 4, b"\0" * 64):
            for number, fields, _ in WMF_DRAWN:
                self.check(program, WMF, [(number, joined(fields, {}) + more, DRAWN)])
            for number, fields, _ in EMF_DRAWN:
                self.check(program, EMF, [(number, joined(fields, {}) + more, DRAWN)])
            for form, (number, fields) in [(WMF, WMF_TILE), (EMF, EMF_TILE)]:
                self.check(program, form, [(number, joined(fields, {}) + more, ACCEPTED)])
            for form, records in [(WMF, WMF_BARE[:1]), (EMF, EMF_BARE)]:
                for number, fields in records:
                    self.check(program, form, [(number, joined(fields, {}) + more, BLACKENED)])

    @for_each_program
    def test_sizes_that_tell_that_there_is_no_bitmap(self, program):
        # Of 12 words, or of 14, there is none. With one word less there is a bitmap of no bytes,
        # and with one more there is one of four, which begins with x.
        for number, fields in WMF_BARE[1:]:
            whole = joined(fields, {})
            self.assertEqual(6 + len(whole), {0x0940: 24, 0x0B41: 28}[number])
            forty = joined(fields, {"x": i16(40)})
            cases = [
                (number, whole, BLACKENED),
                (number, whole[:-2], "ShortDib"),
                (number, whole + u16(0), "BadDib"),
                (number, forty + u16(0), "ShortDib"),
                (number, forty + u16(1), "BadDib"),
                (number, forty + u16(0) + bytes(64), "BadDib"),
            ]
            self.check(program, WMF, cases)


def places(number, parts=PARTS):
    """Where the parts of a record end, and the record's end, in bytes from its start."""
    info_end = LEAST[number] + len(parts.info)
    return info_end, info_end + len(parts.bits)


class Parts(BitmapRecords):
    """Where the parts of a bitmap lie in an EMF."""

    RECORDS = [(number, fields, DRAWN) for number, fields, _ in EMF_DRAWN]
    RECORDS += [(*EMF_TILE, ACCEPTED)]

    def check_places(self, program, number, fields, cases):
        """Places and lengths, by the fields' names, lead to their outcomes."""
        self.check_fields(program, EMF, number, fields, written(u32, cases))

    @for_each_program
    def test_parts_that_go_past_the_end(self, program):
        for number, fields, _ in self.RECORDS:
            info_end, end = places(number)
            info, bits = len(PARTS.info), len(PARTS.bits)
            past = [
                {"info_at": end - info + 1},
                {"info_at": end + 1},
                {"info_size": end - LEAST[number] + 1},
                {"bits_at": info_end + 1},
                {"bits_size": bits + 1},
                {"bits_at": end + 1, "bits_size": 0},
                {"bits_at": LARGEST, "bits_size": 0},
                {"info_at": LARGEST},
                {"bits_at": LARGEST},
                {"info_size": LARGEST},
                {"bits_size": LARGEST},
                {"info_at": (1 << 31) - 1, "info_size": 1 << 31},
            ]
            # These sums wrap at 2^32: to none, or to what is within the record.
            past += [
                {"info_at": (1 << 32) - info},
                {"info_at": (1 << 32) - info + 8},
                {"bits_at": (1 << 32) - bits},
                {"bits_at": (1 << 32) - bits + 8},
                {"info_at": 1 << 31, "info_size": 1 << 31},
                {"bits_at": 1 << 31, "bits_size": 1 << 31},
                {"bits_size": (1 << 32) - info_end},
                {"info_size": (1 << 32) - LEAST[number] + 8},
                {"bits_at": 1, "bits_size": LARGEST},
            ]
            cases = [(changes, "BadParams") for changes in past]
            self.check_places(program, number, fields, cases)

    @for_each_program
    def test_parts_up_to_the_end(self, program):
        for number, fields, outcome in self.RECORDS:
            info_end, end = places(number)
            cases = [
                ({}, outcome),
                ({"info_size": end - LEAST[number]}, outcome),
                ({"bits_at": end, "bits_size": 0}, "ShortDib"),
                ({"bits_at": end - 1, "bits_size": 1}, "ShortDib"),
                ({"bits_size": len(PARTS.bits) - 1}, "ShortDib"),
                ({"info_size": len(PARTS.info) - 1}, "ShortDib"),
                ({"info_at": end - 1, "info_size": 1}, "ShortDib"),
                ({"info_size": 3}, "ShortDib"),
                ({"info_at": info_end, "info_size": 4}, "BadDib"),
            ]
            self.check_places(program, number, fields, cases)

    @for_each_program
    def test_parts_in_any_order_and_apart(self, program):
        for number, fields, outcome in self.RECORDS:
            head = {name: part for name, part in fields.items() if name not in ("info", "bits")}
            first, gap = LEAST[number], bytes([0xA5] * 8)
            swapped = {"bits_at": u32(first), "info_at": u32(first + len(PARTS.bits))}
            apart = {"info_at": u32(first + 8), "bits_at": u32(places(number)[0] + 16)}
            records = [
                (number, joined(head, swapped) + PARTS.bits + PARTS.info, outcome),
                (number, joined(head, apart) + gap + PARTS.info + gap + PARTS.bits, outcome),
            ]
            self.check(program, EMF, records)

    @for_each_program
    def test_a_head_s_own_bytes_as_rows(self, program):
        # The type is blue's byte, and the three behind it are 0.
        one = bitmap([[BLACK]], 24)
        for number, fields in [
            (76, bit_blt(SRCCOPY, *BOX, 0, 0, one)),
            (77, stretch_blt(SRCCOPY, *BOX, 0, 0, 1, 1, parts=one)),
            (81, stretch_dibits(SRCCOPY, *BOX, 0, 0, 1, 1, parts=one)),
        ]:
            self.check_places(program, number, fields, [({"bits_at": 0}, {AT: (0, 0, number)})])
            # As a header the head isn't one that is read.
            cases = [({"info_at": 0}, "BadDib"), ({"info_at": 0, "info_size": 3}, "ShortDib")]
            self.check_places(program, number, fields, cases)

    @for_each_program
    def test_a_record_s_own_fields_as_a_header(self, program):
        # From the bounds on: a header of one pixel in 24 bits, whose compression is x, and whose
        # count of colours is the source's width; the entry that is skipped is the header's place.
        fields = stretch_dibits(SRCCOPY, 0, 1, 1, 1, 0, 0, 1, 1, parts=bitmap([[BLACK]], 24))
        fields |= {"bounds": u32(40, 1, 1, 1 | 24 << 16)}
        cases = [({"info_at": 8, "info_size": 44, "bits_at": 0}, {(0, 1): (0, 0, 81)})]
        cases += [({"info_at": 8, "info_size": 43, "bits_at": 0}, "ShortDib")]
        self.check_places(program, 81, fields, cases)

    @for_each_program
    def test_a_brush_without_a_header(self, program):
        number, fields = EMF_TILE
        _, end = places(number)
        cases = [
            ({"info_size": 0}, "ShortDib"),
            ({"info_size": 0, "info_at": end}, "ShortDib"),
            ({"info_size": 0, "info_at": end + 1}, "BadParams"),
            ({"info_size": 0, "info_at": LARGEST}, "BadParams"),
            ({"info_size": 0, "bits_at": end + 1}, "BadParams"),
            ({"info_size": 0, "usage": 1}, "PaletteColour"),
        ]
        self.check_places(program, number, fields, cases)

    @for_each_program
    def test_blits_without_a_header(self, program):
        # Nothing else of a bitmap is looked at then, and the parts that are there aren't read.
        for number, fields, _ in EMF_DRAWN:
            none = {"info_size": u32(0), "operation": u32(BLACKNESS)}
            changes = [{"info_at": u32(LARGEST)}, {"bits_at": u32(LARGEST)}]
            changes += [{"bits_size": u32(LARGEST)}, {"usage": u32(1)}, {"info": bytes(40)}]
            changes += [{"transform": bytes(24)}] if number != 81 else []
            cases = [(none | change, BLACKENED) for change in [{}, *changes]]
            copied = none | {"operation": u32(SRCCOPY)}
            cases += [(copied | change, "SourceMissing") for change in [{}, *changes]]
            self.check_fields(program, EMF, number, fields, cases)


# A bitmap whose rows are compressed.
COMPRESSED = bitmap(NINE, 24, compression=u32(1))


class Orders(BitmapRecords):
    """Which of several faults is told."""

    @for_each_program
    def test_faults_of_a_wmf_in_order(self, program):
        usage = {"usage": u16(1)}
        bad = usage | {"bitmap": COMPRESSED.packed}
        outside = {"source_width": i16(0)}
        number, fields, _ = WMF_DRAWN[2]
        cases = [(bad, "PaletteColour"), (bad | {"usage": u16(0)}, "CompressedDib")]
        cases += [(usage | {"bitmap": b""}, "PaletteColour"), ({"bitmap": b""}, "ShortDib")]
        cases += [(usage | {"bitmap": u32(12)}, "PaletteColour"), ({"bitmap": u32(12)}, "BadDib")]
        cases += [(outside | {"bitmap": COMPRESSED.packed}, "CompressedDib")]
        cases += [(outside, "SourceOutside"), (outside | usage, "PaletteColour")]
        self.check_fields(program, WMF, number, fields, cases)
        short = joined(fields, usage)[:20]
        self.check(program, WMF, [(number, short, "BadParams")])
        number, fields = WMF_TILE
        plain = {"style": u16(5)}
        none = usage | {"bitmap": b""}
        cases = [(plain | bad, "PaletteColour"), (bad, "CompressedDib")]
        cases += [(plain | none, "PaletteColour"), (none, "ShortDib")]
        self.check_fields(program, WMF, number, fields, cases)

    @for_each_program
    def test_faults_of_an_emf_in_order(self, program):
        for number, fields, _ in [*EMF_DRAWN, (*EMF_TILE, None)]:
            has_transform = number in (76, 77)
            faults = [("BadParams", {"bits_at": u32(LARGEST)})]
            faults += [(f"Unsupported {number}", {"transform": bytes(24)})] * has_transform
            faults += [("PaletteColour", {"usage": u32(1)})]
            faults += [("CompressedDib", {"info": COMPRESSED.info})]
            faults += [("SourceOutside", {"source_x": i32(3)})] * (number != 94)
            cases = []
            for at, (fault, changes) in enumerate(faults):
                cases += [(changes, fault)]
                cases += [(changes | later, fault) for _, later in faults[at + 1 :]]
            everything = {}
            for fault, changes in reversed(faults):
                everything |= changes
                cases.append((everything.copy(), fault))
            self.check_fields(program, EMF, number, fields, cases)

    @for_each_program
    def test_a_record_that_ends_early_before_all_else(self, program):
        for number, fields, _ in EMF_DRAWN:
            wrong = {"usage": u32(1), "info": COMPRESSED.info}
            wrong |= {"transform": bytes(24)} if number != 81 else {}
            whole = joined(fields, wrong)
            lengths = (4, 40, 64, len(whole) - 4)
            self.check(program, EMF, [(number, whole[:length], "BadParams") for length in lengths])


if __name__ == "__main__":
    unittest.main()
