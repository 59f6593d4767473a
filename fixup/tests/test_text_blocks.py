"""Blocks that take the place of text of EMF, with a layer of squares whose points are worked out by hand."""

import hashlib
import unittest

from metaplay_fixup.convert import Converted, convert
from metaplay_fixup.faults import Fault, FaultName
from metaplay_fixup.marks import stamps
from metaplay_fixup.options import Options
from metaplay_fixup.output import Action, Replacement
from metaplay_fixup.records import Layout
from metaplay_fixup.text import Box, Choice, Note

from .emf_records import PARTS, map_to, modify, world
from .oracle import EMF_END, NO_BOUNDS, emf_file, emf_record, emf_script, i16, i32, refusal_of, u16, u32
from .parts import Place, number, places_of, records_of
from .squares import Squares
from .text_records import END, SETTINGS, TRANSPARENT, UPDATE_POSITION, brush, font, square, text


def converted(records: list[bytes]) -> list[Place]:
    """The replaced places of a file of these records, which plays, and converts to itself without a layer."""
    data = emf_file([*TRANSPARENT, *font(), *records])
    result = convert(data, Options(), Squares())
    assert refusal_of(result.data) is None, refusal_of(result.data)
    assert convert(result.data, Options(), None) == Converted(result.data, ())
    return places_of(data, result.data)


class Emf(unittest.TestCase):
    """Text of EMF."""

    def test_block(self) -> None:
        """Save, map, settings, null pen, brush, one polygon of all glyphs, restore, delete."""
        (place,) = converted([emf_record(24, u32(0x030201)), text("a", 20, 30)])
        expected = [emf_record(33), *map_to(20, 30), *SETTINGS, *brush(0x030201), square(20, 30, (20, 30)), *END]
        self.assertEqual(place.records, expected)

    def test_glyphs_together(self) -> None:
        """Two glyphs are one polypolygon."""
        (place,) = converted([text("ab", 20, 30)])
        polygons = place.records[11]
        self.assertEqual((number(polygons, 0), number(polygons, 24), number(polygons, 28)), (91, 2, 8))

    def test_shared_block(self) -> None:
        """Texts of one colour that follow each other share a block; blanks between them don't matter."""
        (place,) = converted([text("a", 20, 30), text(" ", 0, 0), text("b", 25, 30)])
        squares = [square(20, 30, (20, 30)), square(25, 30, (20, 30))]
        expected = [emf_record(33), *map_to(20, 30), *SETTINGS, *brush(0), *squares, *END]
        self.assertEqual((place.first, place.count, place.records), (4, 3, expected))

    def test_blocks_of_their_own(self) -> None:
        """Another colour between, another record between, and a text far away begin another block."""
        for between in ([emf_record(24, u32(0xFF))], emf_script("pixel 1 1")):
            places = converted([text("a", 20, 30), *between, text("b", 30, 30)])
            self.assertEqual([len(place.records) for place in places], [14, 14])
        (place,) = converted([text("a", 20, 30), text("b", 60, 30)])
        self.assertEqual(len(place.records), 28)

    def test_reach_of_a_block(self) -> None:
        """20,000 parts of 1,024 to a unit are 19.5 units, on each side of the block's origin; a square has 10."""
        for x, y, count in ((31, 50, 15), (30, 50, 28), (59, 50, 15), (60, 50, 28)):
            for point in ((x, y), (y, x)):
                (place,) = converted([text("a", 50, 50), text("b", *point)])
                self.assertEqual(len(place.records), count, point)

    def test_background(self) -> None:
        """In opaque mode the background is filled first, and its brush goes when the next one comes."""
        records = [*emf_script("back_mode 2; back_colour 0x00ff00"), text("a", 20, 30)]
        (place,) = converted(records)
        change = [emf_record(37, u32(0x80000005)), emf_record(40, u32(4))]
        shape = square(20, 30, (20, 30))
        expected = [emf_record(33), *map_to(20, 30), *SETTINGS, *brush(0xFF00), shape, *change, *brush(0), shape, *END]
        self.assertEqual(place.records, expected)

    def test_underline(self) -> None:
        """An underline is a polygon of its own: in one winding fill it could cut a hole."""
        (place,) = converted([*font(10, 1, 2), text("a", 20, 30)])
        self.assertEqual([number(record, 0) for record in place.records[11:13]], [86, 86])

    def test_opaque_box(self) -> None:
        """The record's box is filled with the background's colour, even without text."""
        (place,) = converted([*emf_script("back_colour 0x00ff00"), text("", 0, 0, 2, (40, 50, 44, 54))])
        expected = [emf_record(33), *map_to(40, 50), *SETTINGS, *brush(0xFF00), square(40, 50, (40, 50), 4), *END]
        self.assertEqual(place.records, expected)

    def test_clipped(self) -> None:
        """A text that isn't in its box is clipped by it; one that is needs no clip."""
        (place,) = converted([text("a", 20, 30, 4, (25, 30, 40, 40))])
        self.assertEqual(place.records[6], emf_record(30, i32(5 * PARTS, 0, 20 * PARTS, 10 * PARTS)))
        (place,) = converted([text("a", 20, 30, 4, (20, 30, 30, 40))])
        self.assertEqual(len(place.records), 14)

    def test_text_after_a_clipped_one(self) -> None:
        """It isn't clipped, so it has a block of its own."""
        (place,) = converted([text("a", 20, 30, 4, (22, 30, 40, 40)), text("b", 26, 30)])
        own = [emf_record(33), *map_to(26, 30), *SETTINGS, *brush(0), square(26, 30, (26, 30)), *END]
        self.assertEqual(place.records[-14:], own)

    def test_clipped_line_and_background(self) -> None:
        """The letter is in its box, but its underline isn't, or the background of the blank behind it."""
        clip = emf_record(30, i32(0, 0, 10 * PARTS, 10 * PARTS))
        for before, string in ((font(10, 1, 2), "a"), (emf_script("back_mode 2"), "a ")):
            (place,) = converted([*before, text(string, 20, 30, 4, (20, 30, 30, 40))])
            self.assertEqual(place.records[6], clip)

    def test_empty_clip(self) -> None:
        """A box without an area clips everything: text, background and the box itself."""
        opaque = emf_script("back_mode 2")
        for box in ((5, 5, 5, 5), (20, 30, 20, 40), (20, 30, 30, 30)):
            for options in (4, 6):
                (place,) = converted([*opaque, text("a", 20, 30, options, box)])
                self.assertEqual((place.count, place.records), (1, []))

    def test_position_after_an_empty_clip(self) -> None:
        """What a box hides moves the position all the same."""
        records = [UPDATE_POSITION, *emf_script("move 5 6"), text("ab", 90, 90, 4, (5, 5, 5, 5))]
        (place,) = converted([*records, *emf_script("line 9 9")])
        self.assertEqual(place.records, [emf_record(27, i32(25, 6))])

    def test_opaque_clip(self) -> None:
        """The box is filled, and then the text, both clipped by the box."""
        (place,) = converted([*emf_script("back_colour 0x00ff00"), text("a", 20, 30, 6, (25, 30, 40, 40))])
        origin = (25, 30)
        fill = emf_record(86, i32(25, 30, 40, 40) + u32(4) + i16(0, 0, 15360, 0, 15360, 10240, 0, 10240))
        change = [emf_record(37, u32(0x80000005)), emf_record(40, u32(4))]
        drawn = [*brush(0xFF00), fill, *change, *brush(0), square(20, 30, origin), *END]
        clip = emf_record(30, i32(0, 0, 15 * PARTS, 10 * PARTS))
        self.assertEqual(place.records, [emf_record(33), *map_to(25, 30), clip, *SETTINGS, *drawn])

    def test_turned_empty_clip(self) -> None:
        """A turned box without an area clips everything too."""
        places = converted([world(0, 1, -1, 0, 90, 0), text("a", 20, 30, 4, (20, 30, 20, 90))])
        self.assertEqual([place.records for place in places], [[]])

    def test_shrunk_clip(self) -> None:
        """A box that the world shrinks to a point clips everything."""
        places = converted([world(2**-30, 0, 0, 2**-30, 50, 50), text("a", 20, 30, 4, (0, 0, 100, 100))])
        self.assertEqual([place.records for place in places], [[]])

    def test_turned_clip(self) -> None:
        """A turned box can't clip."""
        data = emf_file([*TRANSPARENT, *font(), world(0, 1, -1, 0, 90, 0), text("a", 20, 30, 4, (25, 30, 40, 40))])
        with self.assertRaises(Fault) as raised:
            convert(data, Options(), Squares())
        self.assertEqual((raised.exception.name, raised.exception.record), (FaultName.ClipShape, 5))

    def test_turned_clip_within_bounds(self) -> None:
        """A box turned by 45 degrees: text that lies within its bounds, but not in the box, is rejected too.

        The world takes (x, y) to (x - y + 50, x + y). The box becomes a diamond with the corners (50, 0), (70, 20),
        (50, 40) and (30, 20), and the text's square one with the corners (35, 5), (39, 9), (35, 13) and (31, 9).
        """
        turned = [*font(4, index=2), world(1, 1, -1, 1, 50, 0)]
        with self.assertRaises(Fault) as raised:
            convert(emf_file([*TRANSPARENT, *turned, text("a", -5, 10, 4, (0, 0, 20, 20))]), Options(), Squares())
        self.assertEqual((raised.exception.name, raised.exception.record), (FaultName.ClipShape, 5))

    def test_turned_box_around_text(self) -> None:
        """Text within a turned box needs no clip."""
        (place,) = converted([world(1, 1, -1, 1, 50, 0), text("a", 5, 5, 4, (0, 0, 20, 20))])
        kinds = [number(record, 0) for record in place.records]
        self.assertEqual((kinds.count(86), kinds.count(30)), (1, 0))

    def test_position(self) -> None:
        """Text that moves the position begins there, and a line after it begins at its end."""
        places = converted([UPDATE_POSITION, *emf_script("move 5 6"), text("ab", 90, 90), *emf_script("line 9 9")])
        self.assertEqual(places[0].records[4], emf_record(12, i32(5, 6)))
        self.assertEqual(places[0].records[-1], emf_record(27, i32(25, 6)))

    def test_path(self) -> None:
        """Text in a path adds its squares, which the path then fills."""
        begin, end, fill = emf_script("begin_path; end_path; fill_path")
        (place,) = converted([begin, text("a", 20, 30), end, fill])
        self.assertEqual((place.first, place.count), (4, 4))
        self.assertEqual(place.records[-2], square(20, 30, (20, 30)))

    def test_underlined_path(self) -> None:
        """An underline is an outline too: two polygons of four points."""
        begin, end, fill = emf_script("begin_path; end_path; fill_path")
        (place,) = converted([*font(underline=1, index=2), begin, text("a", 20, 30), end, fill])
        polygons = place.records[-2]
        self.assertEqual((number(polygons, 0), number(polygons, 24), number(polygons, 28)), (91, 2, 8))

    def test_stroked_path(self) -> None:
        """The squares of text in a path are closed figures, so their outlines end where they begin."""
        begin, end, stroke = emf_script("begin_path; end_path; stroke_path")
        (place,) = converted([begin, text("a", 20, 30), end, stroke])
        points = i16(0, 0, 10240, 0, 10240, 10240, 0, 10240, 0, 0)
        self.assertEqual(place.records[-2], emf_record(87, i32(20, 30, 30, 40) + u32(5) + points))

    def test_small_text(self) -> None:
        """EMR_SMALLTEXTOUT with characters of one byte and without a box."""
        record = emf_record(108, i32(20, 30) + u32(1, 0x300, 1, 0, 0) + b"a\0\0\0")
        (place,) = converted([record])
        self.assertEqual(place.records[11], square(20, 30, (20, 30)))

    def test_small_text_without_a_box(self) -> None:
        """It can't be opaque or clip, so the text has its own background."""
        for options in (0x300, 0x302, 0x304, 0x306):
            record = emf_record(108, i32(20, 30) + u32(1, options, 1, 0, 0) + b"a\0\0\0")
            (place,) = converted([*emf_script("back_mode 2"), record])
            found = [kept for kept in place.records if number(kept, 0) in (30, 86)]
            self.assertEqual(found, [square(20, 30, (20, 30))] * 2, options)

    def test_what_is_asked(self) -> None:
        """The layer gets the string, the distances, the font and the settings as the records have them."""
        squares = Squares()
        numbers = u32(2, 0, 0) + i32(7, 8) + u32(2, 76, 0x2000) + i32(1, 2, 3, 4) + u32(80)
        record = emf_record(84, NO_BOUNDS + numbers + u16(0x61, 0x62) + i32(5, -1, 6, 2))
        settings = [emf_record(120, i32(3, 4)), emf_record(22, u32(24))]
        convert(emf_file([*font(-12), *settings, record]), Options(), squares)
        ((asked, asked_font, asked_settings),) = squares.asked
        self.assertEqual((asked.codes, asked.distances_x, asked.distances_y), ((0x61, 0x62), (5, 6), (-1, 2)))
        self.assertEqual((asked.box, asked.reference, asked.graphics_mode), (Box(1, 2, 3, 4), (7, 8), 2))
        self.assertEqual((asked_font.height, asked_font.face, asked_font.weight), (-12, "Squares", 400))
        self.assertEqual((asked_settings.break_extra, asked_settings.break_count, asked_settings.align), (3, 4, 24))

    def test_report(self) -> None:
        """The report says what became of each record, with its box in device units."""
        result = convert(emf_file([*TRANSPARENT, *font(), text("a", 20, 30), text(" ", 0, 0)]), Options(), Squares())
        actions = [(replacement.record, replacement.action, replacement.box) for replacement in result.replacements]
        self.assertEqual(actions, [(4, Action.OUTLINES, Box(20, 30, 30, 40)), (5, Action.BLANK, None)])

    def test_stamps(self) -> None:
        """Before the end stand the SHA-256 of the original, and the family and SHA-256 of each font."""
        data = emf_file([*TRANSPARENT, *font(), text("a", 20, 30), text("b", 90, 30)])
        *_, original, fonts, end = records_of(convert(data, Options(), Squares()).data)
        self.assertEqual(end, EMF_END)
        expected = '{"original":"%s"}' % hashlib.sha256(data).hexdigest()
        self.assertEqual(original[12:20], b"MPFX" + u32(3))
        self.assertEqual(original[20:].rstrip(b"\0").decode(), expected)
        self.assertEqual(fonts[20:].rstrip(b"\0").decode(), '{"family":"Squares","sha256":"%s"}' % ("ab" * 32))

    def test_stamps_of_several_fonts(self) -> None:
        """They stand in the order of their families, whatever the order of the texts."""
        families = ("B", "C", "A", "B")
        notes = [Note("", family, Choice.FAMILY, "a", sha256=family * 64) for family in families]
        found = stamps(Layout.EMF, b"", [Replacement(9, "", Action.OUTLINES, None, note) for note in notes])
        wanted = ['{"family":"%s","sha256":"%s"}' % (family, family * 64) for family in "ABC"]
        self.assertEqual([stamp[20:].rstrip(b"\0").decode() for stamp in found[1:]], wanted)

    def test_text_only(self) -> None:
        """Only text is replaced; the world stays, and is set aside in the block; the position is set at once."""
        records = [world(2, 0, 0, 2, 0, 0), UPDATE_POSITION, emf_record(42, i32(1, 1, 9, 9)), text("a", 20, 30)]
        data = emf_file([*TRANSPARENT, *font(), *records])
        result = convert(data, Options(text_only=True), Squares())
        (place,) = places_of(data, result.data)
        self.assertEqual((place.first, place.count), (7, 1))
        self.assertEqual(place.records[1], modify(1, 1, 0, 0, 1, 0, 0))
        self.assertEqual(place.records[-1], emf_record(27, i32(10, 0)))

    def test_text_only_after_a_path(self) -> None:
        """Curves and lines of a path stay, and move the position where text begins."""
        script = emf_script("begin_path; move 80 30; end_path; stroke_path")
        arc = emf_record(55, i32(0, 0, 80, 60, 80, 30, 40, 0))
        curve = emf_record(88, i32(0, 0, -1, -1, 3) + i16(1, 1, 2, 2, 40, 0))
        line = emf_record(89, i32(0, 0, -1, -1, 1) + i16(40, 0))
        for moves in ([arc], [curve], [line], [arc, *emf_script("line 40 0")]):
            records = [*script[:2], *moves, *script[2:], UPDATE_POSITION, text("a", 9, 9)]
            data = emf_file([*TRANSPARENT, *font(), *records])
            (place,) = places_of(data, convert(data, Options(text_only=True), Squares()).data)
            self.assertEqual((place.count, place.records[4]), (1, emf_record(12, i32(40, 0))))

    def test_cut_strings(self) -> None:
        """A string or distances beyond the record."""
        wrong = text("abc", 1, 1)[:80]
        for record in (wrong[:4] + u32(80) + wrong[8:], emf_record(83, text("a", 1, 1)[8:48] + u32(200) + bytes(24))):
            with self.assertRaises(Fault) as raised:
                convert(emf_file([record]), Options(), Squares())
            self.assertEqual(raised.exception.name, FaultName.BadParams)


if __name__ == "__main__":
    unittest.main()
