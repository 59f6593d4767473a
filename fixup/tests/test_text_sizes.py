"""Heights, widths and maps of the page, worked out by hand with squares of 500 font units."""

from __future__ import annotations

from fontTools.ttLib import TTFont  # type: ignore[import]

from metaplay_fixup.affine import Affine, Point
from metaplay_fixup.faults import Fault, FaultName
from metaplay_fixup.text import ADVANCED

from .made_folder import MadeFolder
from .made_fonts import MadeFont
from .texts import Case, boxes, lay, layer_of, page_of


class Sizes(MadeFolder):
    """The height and the width that a record asks for."""

    def assert_boxes(self, case: Case, *expected: tuple[float, float, float, float]) -> None:
        """The letters have these boxes: left, top, right, bottom in device units."""
        self.assertEqual(boxes(lay(self.layer, case).glyphs), list(expected))

    def test_height_below_0_is_the_em(self) -> None:
        """100 page units for 1,000 font units."""
        self.assert_boxes(Case(), (100, 150, 150, 200))

    def test_height_above_0_is_that_of_the_cell(self) -> None:
        """120 page units for 900 and 300 font units, so 100 for an em."""
        self.assert_boxes(Case().with_font(height=120), (100, 150, 150, 200))

    def test_height_0_is_12(self) -> None:
        self.assert_boxes(Case().with_font(height=0), (100, 195, 105, 200))

    def test_width_is_that_of_the_average_character(self) -> None:
        """25 page units for 500 font units, so half as wide as high; the advance of 600 becomes 30."""
        expected = (100, 150, 125, 200), (130, 150, 155, 200)
        self.assert_boxes(Case().of("AA").with_font(width=25), *expected)
        self.assert_boxes(Case().of("AA").with_font(width=-25), *expected)

    def test_the_contour_begins_where_the_font_has_it(self) -> None:
        glyph = lay(self.layer, Case()).glyphs[0]
        self.assertEqual([(p.x >> 20, p.y >> 20) for p in glyph], [(100, 200), (100, 150), (150, 150), (150, 200)])

    def test_descending_glyph(self) -> None:
        """B begins at (100, -200) and has a side of 300 units."""
        self.assert_boxes(Case().of("B"), (110, 190, 140, 220))

    def test_font_without_a_height(self) -> None:
        """A cell of no height can't be as high as a record asks."""
        path = self.write(MadeFont("Flat"))
        font = TTFont(path)
        font["OS/2"].usWinAscent = font["OS/2"].usWinDescent = 0
        font.save(path)
        with self.assertRaises(Fault) as caught:
            lay(layer_of(self.folder), Case().with_font(face="Flat", height=100))
        self.assertEqual(str(caught.exception), "BadFont (Flat.ttf: its em or its height is wrong)")

    def test_font_too_large(self) -> None:
        with self.assertRaises(Fault) as caught:
            lay(self.layer, Case().with_font(height=-(1 << 29)))
        self.assertIs(caught.exception.name, FaultName.OffPlane)


class Pages(MadeFolder):
    """Stretched and mirrored pages, and world transforms."""

    def assert_boxes(self, case: Case, *expected: tuple[float, float, float, float]) -> None:
        """The letters have these boxes."""
        self.assertEqual(boxes(lay(self.layer, case).glyphs), list(expected))

    def test_compatible_text_keeps_its_shape_on_a_stretched_page(self) -> None:
        """Twice as wide, half as high: the em is 50 device units in both directions, and the point is (200, 100)."""
        page = page_of(Point(100, 100), Point(200, 50))
        self.assert_boxes(Case().on(page).of("AA"), (200, 75, 225, 100), (230, 75, 255, 100))

    def test_compatible_distances_are_stretched(self) -> None:
        page = page_of(Point(100, 100), Point(200, 50))
        case = Case().on(page).of("AA").with_record(distances_x=(60, 0))
        self.assert_boxes(case, (200, 75, 225, 100), (320, 75, 345, 100))

    def test_compatible_width_is_stretched(self) -> None:
        """25 page units are 50 device units for 500 font units."""
        page = page_of(Point(100, 100), Point(200, 50))
        self.assert_boxes(Case().on(page).with_font(width=25), (200, 75, 250, 100))

    def test_advanced_text_is_stretched(self) -> None:
        page = page_of(Point(100, 100), Point(200, 50))
        case = Case().on(page).of("AA").with_record(graphics_mode=ADVANCED)
        self.assert_boxes(case, (200, 75, 300, 100), (320, 75, 420, 100))

    def test_text_is_upright_where_the_page_points_up(self) -> None:
        page = page_of(Point(100, -100), Point(100, 100))
        case = Case().on(page).with_record(reference=Point(100, -200))
        self.assert_boxes(case, (100, 150, 150, 200))
        self.assert_boxes(case.with_record(graphics_mode=ADVANCED), (100, 150, 150, 200))

    def test_text_runs_to_the_right_where_the_page_runs_to_the_left(self) -> None:
        page = page_of(Point(-100, 100), Point(100, 100))
        case = Case().on(page).of("AA").with_record(reference=Point(-100, 200), distances_x=(70, 0))
        self.assert_boxes(case, (100, 150, 150, 200), (170, 150, 220, 200))
        self.assert_boxes(case.with_record(graphics_mode=ADVANCED), (100, 150, 150, 200), (170, 150, 220, 200))

    def test_escapement_turns_against_the_clock_where_the_page_points_up(self) -> None:
        """A quarter turn: the letter stands left of the line, which runs up; the second is 60 higher."""
        page = page_of(Point(100, -100), Point(100, 100))
        case = (
            Case().on(page).of("AA").with_record(reference=Point(100, -200)).with_font(escapement=900, orientation=900)
        )
        expected = (50, 150, 100, 200), (50, 90, 100, 140)
        self.assert_boxes(case, *expected)
        self.assert_boxes(case.with_record(graphics_mode=ADVANCED), *expected)

    def test_escapement_turns_against_the_clock_where_the_page_runs_to_the_left(self) -> None:
        """A quarter turn as before; a distance of 60 and one of 10 upwards, which is to the left here."""
        page = page_of(Point(-100, 100), Point(100, 100))
        case = Case().on(page).of("AA").with_font(escapement=900, orientation=900)
        case = case.with_record(reference=Point(-100, 200), distances_x=(60, 0), distances_y=(10, 0))
        expected = (50, 150, 100, 200), (40, 90, 90, 140)
        self.assert_boxes(case, *expected)
        self.assert_boxes(case.with_record(graphics_mode=ADVANCED), *expected)

    def test_advanced_width(self) -> None:
        """25 page units for 500 font units, along the line."""
        case = Case().of("AA").with_font(width=25).with_record(graphics_mode=ADVANCED)
        self.assert_boxes(case, (100, 150, 125, 200), (130, 150, 155, 200))

    def test_a_world_turns_text(self) -> None:
        """(x, y) becomes (-y, x): along the line is down, up is to the right."""
        case = Case().on(page_of(world=Affine(0, 1, -1, 0, 0, 0))).of("AA").with_record(graphics_mode=ADVANCED)
        self.assert_boxes(case, (-200, 100, -150, 150), (-200, 160, -150, 210))

    def test_a_world_turns_text_in_the_compatible_mode_too(self) -> None:
        case = Case().on(page_of(world=Affine(0, 1, -1, 0, 0, 0)))
        self.assert_boxes(case, (-200, 100, -150, 150))

    def test_orientation_under_a_world_counts_in_the_advanced_mode_alone(self) -> None:
        """The world moves text by (1000, 0). The line runs up; its characters turn with it, or are upright."""
        case = Case().on(page_of(world=Affine(1, 0, 0, 1, 1000, 0))).with_font(escapement=900, orientation=0)
        self.assert_boxes(case, (1050, 150, 1100, 200))
        self.assert_boxes(case.with_record(graphics_mode=ADVANCED), (1100, 150, 1150, 200))

    def test_a_world_mirrors_text(self) -> None:
        case = Case().on(page_of(world=Affine(-1, 0, 0, 1, 300, 0))).with_record(graphics_mode=ADVANCED)
        self.assert_boxes(case, (150, 150, 200, 200))

    def test_a_world_of_thirds(self) -> None:
        """A third of (100, 200), and a side of 50 / 3, each rounded to 2^-20."""
        case = Case().on(page_of(world=Affine(1, 0, 0, 1, 0, 0, 3))).with_record(graphics_mode=ADVANCED)
        left, right = lay(self.layer, case).glyphs[0][0].x, lay(self.layer, case).glyphs[0][2].x
        self.assertEqual(left, 34952533)  # 100 * 2^20 / 3 = 34,952,533.3
        self.assertEqual(right - left, 17476267)  # 50 * 2^20 / 3 = 17,476,266.7
