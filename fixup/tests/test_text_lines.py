"""Where glyphs stand along a line: distances, extras, alignment, escapement, the position after the text."""

from __future__ import annotations

from math import isqrt

from fontTools.ttLib import TTFont  # type: ignore[import]

from metaplay_fixup.affine import Point
from metaplay_fixup.fixed import ONE
from metaplay_fixup.text import ADVANCED, BASELINE, BOTTOM, CENTRE, RIGHT, UPDATE_POSITION

from .made_fonts import SPACE, A, MadeFont
from .made_folder import MadeFolder
from .texts import Case, box, boxes, lay, layer_of, page_of, units

TOP = 0


class Distances(MadeFolder):
    """From glyph to glyph."""

    def lefts(self, case: Case) -> list[float]:
        """The left sides of the letters."""
        return [float(left) for left, _, _, _ in boxes(lay(self.layer, case).glyphs)]

    def test_advances_of_the_font(self) -> None:
        """An advance of 600 units is 60; B begins 100 units right of its origin."""
        self.assertEqual(self.lefts(Case().of("AAB")), [100, 160, 230])
        self.assertTrue(lay(self.layer, Case()).note.own_widths)

    def test_distances_of_the_record(self) -> None:
        laid = lay(self.layer, Case().of("AAA").with_record(distances_x=(70, -20, 5)))
        self.assertEqual([left for left, _, _, _ in boxes(laid.glyphs)], [100, 170, 150])
        self.assertFalse(laid.note.own_widths)

    def test_distances_that_a_record_lacks_are_0(self) -> None:
        self.assertEqual(self.lefts(Case().of("AAA").with_record(distances_x=(70,))), [100, 170, 170])

    def test_distances_upwards(self) -> None:
        case = Case().of("AA").with_record(distances_x=(70, 0), distances_y=(10, 0))
        self.assertEqual(boxes(lay(self.layer, case).glyphs)[1], (170, 140, 220, 190))

    def test_extra_of_each_character(self) -> None:
        self.assertEqual(self.lefts(Case().of("AAA").with_settings(character_extra=5)), [100, 165, 230])

    def test_extra_of_spaces(self) -> None:
        """A space has an advance of 25, and half of the extra of 31."""
        case = Case().of("A A A").with_settings(break_extra=31, break_count=2)
        self.assertEqual(self.lefts(case), [100, 200.5, 301])

    def test_extra_of_spaces_in_a_font_of_signs(self) -> None:
        """Its space is F020, which byte 20 is in the Symbol charset."""
        self.write(MadeFont("Signs", characters={0xF041: A, 0xF020: SPACE}, is_symbol=True))
        case = Case().with_font(face="Signs", charset=2).with_record(codes=b"A A")
        lefts = [left for left, _, _, _ in boxes(lay(layer_of(self.folder), self.spaced(case)).glyphs)]
        self.assertEqual(lefts, [100, 100 + 60 + 25 + 31])

    def spaced(self, case: Case) -> Case:
        """The case with an extra of 31 for one space."""
        return case.with_settings(break_extra=31, break_count=1)

    def test_both_extras(self) -> None:
        case = Case().of("A A").with_settings(character_extra=5, break_extra=30, break_count=2)
        self.assertEqual(self.lefts(case), [100, 100 + 65 + 25 + 5 + 15])

    def test_extras_are_page_units(self) -> None:
        """A page unit is 2 device units; the letter's em keeps the height's 50, so its advance is 30."""
        page = page_of(Point(100, 100), Point(200, 50))
        self.assertEqual(self.lefts(Case().on(page).of("AA").with_settings(character_extra=5)), [200, 240])

    def test_distances_of_the_record_have_no_extras(self) -> None:
        case = Case().of("A A").with_record(distances_x=(70, 20, 0))
        case = case.with_settings(character_extra=5, break_extra=30, break_count=1)
        self.assertEqual(self.lefts(case), [100, 190])


class Alignment(MadeFolder):
    """The reference point is (100, 200). Two letters have a total of 120."""

    def first_box(self, align: int) -> tuple[float, ...]:
        """The box of the first letter."""
        case = Case().of("AA").with_settings(align=align)
        return tuple(map(float, box(lay(self.layer, case).glyphs[0])))

    def test_left_on_the_baseline(self) -> None:
        self.assertEqual(self.first_box(BASELINE), (100, 150, 150, 200))

    def test_right(self) -> None:
        self.assertEqual(self.first_box(BASELINE | RIGHT), (-20, 150, 30, 200))

    def test_centre(self) -> None:
        self.assertEqual(self.first_box(BASELINE | CENTRE), (40, 150, 90, 200))

    def test_top(self) -> None:
        """The baseline is 900 units, 90 device units, below the reference point."""
        self.assertEqual(self.first_box(TOP), (100, 240, 150, 290))

    def test_bottom(self) -> None:
        """The baseline is 300 units above the reference point."""
        self.assertEqual(self.first_box(BOTTOM), (100, 120, 150, 170))

    def test_top_and_right(self) -> None:
        self.assertEqual(self.first_box(TOP | RIGHT), (-20, 240, 30, 290))

    def test_bottom_and_centre(self) -> None:
        self.assertEqual(self.first_box(BOTTOM | CENTRE), (40, 120, 90, 170))

    def test_centre_of_a_turned_line(self) -> None:
        """It runs upwards over 120 units, so it begins 60 below; the letter's top is to its left."""
        case = Case().of("AA").with_font(escapement=900).with_settings(align=BASELINE | CENTRE)
        self.assertEqual(box(lay(self.layer, case).glyphs[0]), (50, 210, 100, 260))

    def test_right_by_distances(self) -> None:
        case = Case().of("AA").with_record(distances_x=(70, 80)).with_settings(align=BASELINE | RIGHT)
        self.assertEqual(boxes(lay(self.layer, case).glyphs)[0], (-50, 150, 0, 200))

    def test_top_of_a_turned_line(self) -> None:
        """The line runs up, so that its top is at its left: the baseline is 90 right of the reference point."""
        case = Case().with_settings(align=TOP).with_font(escapement=900)
        self.assertEqual(boxes(lay(self.layer, case).glyphs), [(140, 150, 190, 200)])


class Escapement(MadeFolder):
    """Turned lines."""

    def test_quarter_turns(self) -> None:
        expected = {
            900: (50, 150, 100, 200),
            1800: (50, 200, 100, 250),
            2700: (100, 200, 150, 250),
            -900: (100, 200, 150, 250),
        }
        for tenths, square in expected.items():
            laid = lay(self.layer, Case().with_font(escapement=tenths))
            self.assertEqual(boxes(laid.glyphs), [square], tenths)

    def test_thirty_degrees(self) -> None:
        """The second letter is 200 along: 100 times the root of 3 to the right, 100 up."""
        case = Case().of("AA").with_record(distances_x=(200, 0)).with_font(escapement=300)
        second = lay(self.layer, case).glyphs[1][0]
        root = isqrt(3 * (100 * ONE) ** 2)
        self.assertIn(second.x - 100 * ONE - root, (0, 1))
        self.assertEqual(second.y, 100 * ONE)

    def test_distances_on_a_stretched_page(self) -> None:
        """Up the page by 60 units is 30 device units; the em is 50, so the letter is 25 wide and as high."""
        page = page_of(Point(100, 100), Point(200, 50))
        case = Case().on(page).of("AA").with_record(distances_x=(60, 0)).with_font(escapement=900)
        self.assertEqual(boxes(lay(self.layer, case).glyphs), [(175, 75, 200, 100), (175, 45, 200, 70)])

    def test_orientation_counts_in_the_advanced_mode_alone(self) -> None:
        """Upright letters along a line that runs up; in the compatible mode they turn with the line."""
        case = Case().of("AA").with_font(escapement=900, orientation=0)
        turned = [(50, 150, 100, 200), (50, 90, 100, 140)]
        self.assertEqual(boxes(lay(self.layer, case).glyphs), turned)
        upright = lay(self.layer, case.with_record(graphics_mode=ADVANCED))
        self.assertEqual(boxes(upright.glyphs), [(100, 150, 150, 200), (100, 90, 150, 140)])


class Positions(MadeFolder):
    """The current position after a text, in page units."""

    def position(self, case: Case) -> Point | None:
        """The position after the text of a case that updates it."""
        align = case.settings.align | UPDATE_POSITION
        return lay(self.layer, case.with_settings(align=align)).position

    def test_not_asked_for(self) -> None:
        self.assertIsNone(lay(self.layer, Case()).position)

    def test_behind_the_text(self) -> None:
        self.assertEqual(self.position(Case().of("AA")), Point(220, 200))

    def test_before_text_that_is_aligned_to_the_right(self) -> None:
        self.assertEqual(self.position(Case().of("AA").with_settings(align=BASELINE | RIGHT)), Point(-20, 200))

    def test_centred_text_moves_nothing(self) -> None:
        self.assertIsNone(self.position(Case().of("AA").with_settings(align=BASELINE | CENTRE)))

    def test_by_distances(self) -> None:
        self.assertEqual(self.position(Case().of("AA").with_record(distances_x=(70, 80))), Point(250, 200))

    def test_by_distances_upwards(self) -> None:
        case = Case().of("AA").with_record(distances_x=(70, 80), distances_y=(10, 20))
        self.assertEqual(self.position(case), Point(250, 170))

    def test_by_distances_upwards_to_the_right(self) -> None:
        case = Case().of("AA").with_record(distances_x=(70, 80), distances_y=(10, 20))
        self.assertEqual(self.position(case.with_settings(align=BASELINE | RIGHT)), Point(-50, 230))

    def test_by_the_width_of_a_record(self) -> None:
        """An advance of 600 units is 30 where 500 units are 25."""
        self.assertEqual(self.position(Case().of("AA").with_font(width=25)), Point(160, 200))

    def test_turned(self) -> None:
        self.assertEqual(self.position(Case().of("AA").with_font(escapement=900)), Point(100, 80))

    def test_turned_where_the_page_points_up(self) -> None:
        page = page_of(Point(100, -100), Point(100, 100))
        case = Case().on(page).of("AA").with_record(reference=Point(100, -200)).with_font(escapement=900)
        self.assertEqual(self.position(case), Point(100, -80))

    def test_page_units_of_a_stretched_page(self) -> None:
        """The advance of 30 device units is 15 page units."""
        page = page_of(Point(100, 100), Point(200, 50))
        self.assertEqual(self.position(Case().on(page).of("AA")), Point(130, 200))

    def test_extras_count(self) -> None:
        """60 + 25 + 60, three times 5, and 30 for the space."""
        case = Case().of("A A").with_settings(character_extra=5, break_extra=60, break_count=2)
        self.assertEqual(self.position(case), Point(290, 200))

    def test_rounded_to_whole_units(self) -> None:
        """An em of 9 units: an advance of 5.4, so 10.8 for two, which is 11."""
        self.assertEqual(self.position(Case().of("AA").with_font(height=-9)), Point(111, 200))

    def test_a_blank_text_moves_it(self) -> None:
        laid = lay(self.layer, Case().of("  ").with_settings(align=BASELINE | UPDATE_POSITION))
        self.assertEqual((laid.glyphs, laid.position), ([], Point(150, 200)))


class Bands(MadeFolder):
    """Underline, strike-out and the cell."""

    def test_underline(self) -> None:
        """Its middle is 100 units below the baseline, it is 50 thick, and as long as the advances."""
        laid = lay(self.layer, Case().of("AA").with_font(underline=True))
        self.assertEqual(boxes(laid.lines), [(100, 207.5, 220, 212.5)])

    def test_strike_out(self) -> None:
        laid = lay(self.layer, Case().of("AA").with_font(strike_out=True))
        self.assertEqual(boxes(laid.lines), [(100, 167, 220, 173)])

    def test_table(self) -> None:
        """By the height of the em: the underline's middle is a tenth of it below the baseline at 200, and it is a
        twentieth thick; the strike-out's is three tenths above, and it is three fiftieths thick; both at least 1 unit.
        """
        rows = {
            1000: ((275, 325), (-130, -70)),
            100: ((207.5, 212.5), (167, 173)),
            40: ((203, 205), (186.8, 189.2)),
            20: ((201.5, 202.5), (193.4, 194.6)),
            10: ((200.5, 201.5), (196.5, 197.5)),
            5: ((200, 201), (198, 199)),
            1: ((199.6, 200.6), (199.2, 200.2)),
        }
        for em, expected in rows.items():
            laid = lay(self.layer, Case().with_font(height=-em, underline=True, strike_out=True))
            for (left, top, right, bottom), sides in zip(boxes(laid.lines), expected, strict=True):
                for found, wanted in zip((left, top, right, bottom), (100, sides[0], 100 + 0.6 * em, sides[1])):
                    self.assertAlmostEqual(float(found), wanted, 5, em)

    def test_thickness_below_0(self) -> None:
        """It counts like one above."""
        path = self.write(MadeFont("Below"))
        font = TTFont(path)
        font["post"].underlineThickness, font["OS/2"].yStrikeoutSize = -50, -60
        font.save(path)
        laid = lay(layer_of(self.folder), Case().with_font(face="Below", underline=True, strike_out=True))
        self.assertEqual(boxes(laid.lines), [(100, 207.5, 160, 212.5), (100, 167, 160, 173)])

    def test_stretched(self) -> None:
        """On a page that is twice as wide and half as high the thickness goes by the height: 2.5 units."""
        page = page_of(Point(100, 100), Point(200, 50))
        laid = lay(self.layer, Case().on(page).with_font(underline=True))
        self.assertEqual(boxes(laid.lines), [(200, 103.75, 230, 106.25)])

    def test_both_and_turned(self) -> None:
        laid = lay(self.layer, Case().with_font(underline=True, strike_out=True, escapement=900))
        self.assertEqual(boxes(laid.lines), [(107.5, 140, 112.5, 200), (67, 140, 73, 200)])

    def test_underlined_blanks_show(self) -> None:
        laid = lay(self.layer, Case().of(" ").with_font(underline=True))
        self.assertEqual((laid.glyphs, boxes(laid.lines)), ([], [(100, 207.5, 125, 212.5)]))

    def test_band_of_a_turned_line_is_a_turned_quadrangle(self) -> None:
        laid = lay(self.layer, Case().with_font(underline=True, escapement=900))
        self.assertEqual(units(laid.lines[0]), [(107.5, 200), (107.5, 140), (112.5, 140), (112.5, 200)])
