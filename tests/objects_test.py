"""Objects in the built programs: which index each takes, which record selects it, and when it may
be deleted; and pens and brushes ([MS-WMF] 2.1.1.4 and 2.1.1.23, and EMF's stock objects, [MS-EMF]
2.1.31), shown by the colours that they draw in."""

import unittest

from answers import refused, shown
from built import for_each_program
from metafile.fields import BLACK, BLUE, RED
from metafile.scripts import EMF, FORMS, WMF
from script_answers import StateTest, pixels
from shape_pictures import ShapeTest

# Each kind of object, with the record that selects it.
KINDS = {"pen": "select", "brush": "select", "font": "select", "palette": "select_palette"}

# The records of EMF that make an object.
EMF_CREATES = ["pen", "brush", "font", "palette", "long_pen"]

# StockObject, [MS-EMF] 2.1.31: the kind of each stock object.
STOCK = {
    "brush": [0, 1, 2, 3, 4, 5, 0x12],
    "pen": [6, 7, 8, 0x13],
    "font": [0xA, 0xB, 0xC, 0xD, 0xE, 0x10, 0x11],
    "palette": [0xF],
}

# Numbers that no stock object has, some with those of one in their low bits.
NO_STOCK = [9, 0x14, 0x15, 0x1F, 0x20, 0xFF, 0x107, 0x10007, 0x40000007, 0x7FFFFFFF]


def stock_index(number):
    """A stock object's index."""
    return 0x80000000 + number


class WmfIndexes(StateTest):
    """A create of WMF takes the lowest free index, of 1,024."""

    def check_indexes(self, program, before, indexes):
        """Behind these records, which leave only pens, creates take these indexes one by one."""
        for nth, index in enumerate(indexes):
            creates = ["pen 0"] * len(indexes)
            creates[nth] = "palette 0"
            script = "; ".join([before, *creates, f"select_palette {index}"])
            self.check(program, WMF, script, pixels([]))

    @for_each_program
    def test_a_create_takes_the_lowest_free_index(self, program):
        for before, indexes in [
            ("", [0, 1, 2]),
            ("3x pen 0; delete 0; delete 1", [0, 1, 3]),
            ("3x pen 0; delete 1; delete 0", [0, 1, 3]),
            ("3x pen 0; delete 1", [1, 3, 4]),
            ("3x pen 0; delete 2", [2, 3]),
            ("3x pen 0; delete 0; delete 2", [0, 2, 3]),
            ("3x pen 0; delete 2; delete 1; delete 0", [0, 1, 2]),
            ("3x pen 0; delete 0; pen 0; delete 1", [1, 3]),
            ("3x pen 0; delete 2; delete 0; pen 0; delete 1", [1, 2, 3]),
            ("2x pen 0; delete 0", [0, 2]),
            ("130x pen 0; delete 64; delete 128; delete 63", [63, 64, 128, 130]),
            ("1024x pen 0; delete 1023; delete 0", [0, 1023]),
        ]:
            self.check_indexes(program, before, indexes)

    @for_each_program
    def test_each_kind_of_object_takes_an_index(self, program):
        creates = "pen 0; brush 1; font 2; palette 3; pen 4"
        selects = "select 0; select 1; select 2; select_palette 3; select 4"
        self.check(program, WMF, f"{creates}; {selects}", pixels([]))
        self.check_cases(program, WMF, [(f"{creates}; select 5", "NoSuchHandle")])

    @for_each_program
    def test_there_are_1024_indexes(self, program):
        self.check(program, WMF, "1024x pen 0; select 1023", pixels([]))
        self.check(program, WMF, "1025x pen 0", refused("TableFull", 1024))
        self.check_cases(program, WMF, [("1024x pen 0; select 1024", "NoSuchHandle")])
        for kind in KINDS:
            full = f"1024x {kind} 0"
            cases = [(full, None), (f"1024x pen 0; {kind} 0", "TableFull")]
            for index in (0, 511, 1023):
                cases.append((f"{full}; delete {index}; {kind} 0", None))
                cases.append((f"{full}; delete {index}; 2x {kind} 0", "TableFull"))
            self.check_cases(program, WMF, cases)


class EmfIndexes(StateTest):
    """A create of EMF takes the index that it tells, which is above 0, below the header's count of
    handles, and free."""

    @for_each_program
    def test_an_index_is_above_0_and_below_the_count_of_handles(self, program):
        large = [0x101, 0x10001, 0x80000001, 0xFFFFFFFF]
        for handles, good, bad in [
            (0, [], [0, 1, 0xFFFF, *large]),
            (1, [], [0, 1, *large]),
            (2, [1], [0, 2, 3, *large]),
            (16, [1, 14, 15], [0, 16, 17, *large]),
            (0x100, [1, 0xFF], [0, 0x100, *large]),
            (0xFFFF, [1, 0x101, 0xFFFE], [0, 0xFFFF, 0x10000, *large[1:]]),
        ]:
            for create in EMF_CREATES:
                cases = [(f"{create}_at {index}", None) for index in good]
                cases += [(f"{create}_at {index}", "NoSuchHandle") for index in bad]
                self.check_cases(program, EMF, cases, handles=handles)

    @for_each_program
    def test_a_taken_index_is_refused(self, program):
        self.check(program, EMF, "2x pen_at 1", refused("HandleTaken", 2), handles=2)
        for first in EMF_CREATES:
            for second in EMF_CREATES:
                taken, free = f"{first}_at 3; {second}_at 3", f"{first}_at 3; {second}_at 4"
                again = f"{first}_at 3; delete_at 3; {second}_at 3"
                cases = [(taken, "HandleTaken"), (free, None), (again, None)]
                self.check_cases(program, EMF, cases)
        selected = "pen_at 3; select_at 3"
        self.check_cases(program, EMF, [(f"{selected}; pen_at 3", "HandleTaken")])

    @for_each_program
    def test_an_index_may_be_any_that_is_free(self, program):
        # Every index, from the last to the first and from the first to the last.
        up = "; ".join(f"pen_at {index}" for index in range(1, 16))
        down = "; ".join(f"pen_at {index}" for index in reversed(range(1, 16)))
        for index in range(1, 16):
            for all_taken in (up, down):
                cases = [(f"{all_taken}; select_at {index}", None)]
                cases += [(f"{all_taken}; brush_at {index}", "HandleTaken")]
                self.check_cases(program, EMF, cases)

    @for_each_program
    def test_all_indexes_may_be_taken(self, program):
        taken = "; ".join(f"pen_at {index}" for index in range(1, 65535))
        cases = [(f"{taken}; select_at 65534", None), (f"{taken}; pen_at 65534", "HandleTaken")]
        self.check_cases(program, EMF, cases, handles=65535)

    @for_each_program
    def test_a_create_makes_no_object_at_another_index(self, program):
        for index in (0, 1, 4, 6, 15):
            for record in ("select_at", "select_palette_at", "delete_at"):
                cases = [(f"pen_at 5; {record} {index}", "NoSuchHandle")]
                self.check_cases(program, EMF, cases)


class Selecting(StateTest):
    """An index that is selected or deleted has an object, and each kind has its record."""

    @for_each_program
    def test_an_object_is_selected_by_the_record_of_its_kind(self, program):
        for form in FORMS:
            for kind, record in KINDS.items():
                other = "select_palette" if record == "select" else "select"
                cases = [(f"{kind} 0; {record} 0", None), (f"{kind} 0; {other} 0", "WrongKind")]
                self.check_cases(program, form, cases)
        cases = [("long_pen 0; select 0", None), ("long_pen 0; select_palette 0", "WrongKind")]
        self.check_cases(program, EMF, cases)

    @for_each_program
    def test_an_index_without_an_object_is_refused(self, program):
        for form in FORMS:
            for record in ("select", "select_palette", "delete"):
                for script in (
                    f"{record} 0",
                    f"pen 0; {record} 1",
                    f"pen 0; select 0; {record} 1",
                    f"pen 0; delete 0; {record} 0",
                    f"palette 0; delete 0; {record} 0",
                    f"2x pen 0; delete 0; {record} 0" if form is WMF else f"pen 1; {record} 0",
                ):
                    self.check_cases(program, form, [(script, "NoSuchHandle")])

    @for_each_program
    def test_an_index_is_told_by_all_its_bytes(self, program):
        for record in ("select", "select_palette", "delete"):
            for index in (1, 0x100, 1023, 1024, 0x8000, 0xFF00, 0xFFFF):
                cases = [(f"pen 0; {record} {index}", "NoSuchHandle")]
                self.check_cases(program, WMF, cases)
            for index in (0, 2, 0x101, 0x10001, 0x40000001, 0xFFFFFFFF):
                cases = [(f"pen_at 1; {record}_at {index}", "NoSuchHandle")]
                self.check_cases(program, EMF, cases)

    @for_each_program
    def test_an_index_that_is_used_again_has_the_new_object(self, program):
        for form in FORMS:
            cases = [
                ("pen 0; delete 0; palette 0; select_palette 0", None),
                ("pen 0; delete 0; palette 0; select 0", "WrongKind"),
                ("palette 0; delete 0; pen 0; select 0", None),
                ("palette 0; delete 0; pen 0; select_palette 0", "WrongKind"),
                ("pen 0; delete 0; palette 0; delete 0", None),
                ("pen 0; delete 0; palette 0; 2x delete 0", "NoSuchHandle"),
            ]
            self.check_cases(program, form, cases)


class Stock(StateTest):
    """The objects that stand in no table."""

    @for_each_program
    def test_a_stock_object_is_selected_by_the_record_of_its_kind(self, program):
        for kind, numbers in STOCK.items():
            other = "select" if kind == "palette" else "select_palette"
            for index in map(stock_index, numbers):
                cases = [(f"{KINDS[kind]}_at {index}", None), (f"{other}_at {index}", "WrongKind")]
                self.check_cases(program, EMF, cases)

    @for_each_program
    def test_no_other_index_is_that_of_a_stock_object(self, program):
        indexes = [*map(stock_index, NO_STOCK), 7, 0xF, 0x40000007, 0x7FFFFFFF]
        for index in indexes:
            for record in ("select_at", "select_palette_at", "delete_at"):
                self.check_cases(program, EMF, [(f"{record} {index}", "NoSuchHandle")])

    @for_each_program
    def test_no_stock_object_is_made_or_deleted(self, program):
        for kind, numbers in STOCK.items():
            for index in map(stock_index, numbers):
                cases = [
                    (f"delete_at {index}", "NoSuchHandle"),
                    (f"{KINDS[kind]}_at {index}; delete_at {index}", "NoSuchHandle"),
                    (f"{kind}_at {index}", "NoSuchHandle"),
                ]
                self.check_cases(program, EMF, cases)

    @for_each_program
    def test_a_stock_object_takes_the_place_of_one_of_its_kind_alone(self, program):
        for held, record in KINDS.items():
            for kind, numbers in STOCK.items():
                for index in map(stock_index, numbers):
                    selects = f"{held} 0; {record} 0; {KINDS[kind]}_at {index}"
                    fault = None if kind == held else "HeldObject"
                    self.check_cases(program, EMF, [(f"{selects}; delete 0", fault)])


class Holding(StateTest):
    """An object that is selected, in the state or in a saved one, isn't deleted."""

    @for_each_program
    def test_a_saved_state_holds_a_pen_and_then_the_state_does(self, program):
        front = "2x pen 0; select 0; save; select 1"
        self.check(program, WMF, f"{front}; delete 0", refused("HeldObject", 5))
        restored = f"{front}; restore -1"
        self.check(program, WMF, f"{restored}; delete 0", refused("HeldObject", 6))
        self.check(program, WMF, f"{restored}; select 1; delete 0", pixels([]))

    @for_each_program
    def test_the_state_holds_an_object_of_each_kind(self, program):
        for kind, select in KINDS.items():
            two = f"{kind} 0; {kind} 1"
            cases = [
                (f"{two}; delete 0", None),
                (f"{two}; {select} 0; delete 0", "HeldObject"),
                (f"{two}; {select} 0; delete 1", None),
                (f"{two}; {select} 0; {select} 1; delete 0", None),
                (f"{two}; {select} 0; {select} 1; delete 1", "HeldObject"),
                (f"{two}; 2x {select} 0; delete 0", "HeldObject"),
                (f"{two}; 2x {select} 0; {select} 1; delete 0", None),
                (f"{two}; {select} 0; {select} 1; {select} 0; delete 0", "HeldObject"),
                (f"{two}; {select} 0; {select} 1; delete 0; {kind} 0; delete 0", None),
            ]
            for form in FORMS:
                self.check_cases(program, form, cases)

    @for_each_program
    def test_both_records_of_emf_that_make_a_pen_make_one_kind(self, program):
        for first, second in [("pen", "long_pen"), ("long_pen", "pen")]:
            two = f"{first} 0; {second} 1; select 0"
            cases = [
                (f"{two}; delete 0", "HeldObject"),
                (f"{two}; select 1; delete 0", None),
                (f"{two}; select 1; delete 1", "HeldObject"),
            ]
            self.check_cases(program, EMF, cases)

    @for_each_program
    def test_an_object_of_another_kind_takes_no_place(self, program):
        for kind, select in KINDS.items():
            for other in KINDS.keys() - {kind}:
                both = f"{kind} 0; {other} 1; {select} 0; {KINDS[other]} 1"
                cases = [(f"{both}; delete 0", "HeldObject"), (f"{both}; delete 1", "HeldObject")]
                for form in FORMS:
                    self.check_cases(program, form, cases)

    @for_each_program
    def test_all_four_are_held_at_once(self, program):
        creates = "pen 0; brush 1; font 2; palette 3"
        selects = "select 0; select 1; select 2; select_palette 3"
        for form in FORMS:
            for index in range(4):
                for more in ("", "save; ", "save; restore -1; "):
                    script = f"{creates}; {selects}; {more}delete {index}"
                    self.check_cases(program, form, [(script, "HeldObject")])

    @for_each_program
    def test_a_saved_state_holds_an_object_of_each_kind(self, program):
        for kind, select in KINDS.items():
            front = f"{kind} 0; {kind} 1; {select} 0; save; {select} 1"
            cases = [
                (f"{front}; delete 0", "HeldObject"),
                (f"{front}; delete 1", "HeldObject"),
                (f"{front}; restore -1; delete 0", "HeldObject"),
                (f"{front}; restore -1; delete 1", None),
                (f"{front}; restore -1; {select} 1; delete 0", None),
                (f"{front}; restore -1; {select} 1; delete 1", "HeldObject"),
            ]
            for form in FORMS:
                self.check_cases(program, form, cases)

    @for_each_program
    def test_a_state_that_is_left_holds_nothing(self, program):
        cases = [
            ("pen 0; save; select 0; restore -1; delete 0", None),
            ("pen 0; save; select 0; save; restore -1; delete 0", "HeldObject"),
            ("pen 0; save; select 0; save; restore -2; delete 0", None),
            ("pen 0; save; select 0; save; save; restore 1; delete 0", None),
        ]
        for form in FORMS:
            self.check_cases(program, form, cases)

    @for_each_program
    def test_each_of_several_saved_states_holds_its_objects(self, program):
        front = "pen 0; pen 1; select 0; 3x save; select 1"
        cases = [
            (f"{front}; delete 0", "HeldObject"),
            (f"{front}; restore -1; select 1; delete 0", "HeldObject"),
            (f"{front}; restore -2; select 1; delete 0", "HeldObject"),
            (f"{front}; restore -3; select 1; delete 0", None),
            (f"{front}; restore 1; select 1; delete 0", None),
            (f"{front}; restore -1; restore -1; select 1; delete 0", "HeldObject"),
            (f"{front}; 3x restore -1; select 1; delete 0", None),
        ]
        for form in FORMS:
            self.check_cases(program, form, cases)

    def check_one_of_256(self, program, place, freeing, holding):
        """Of 256 saved states only the one at a place holds an object. Restoring one of some states
        leaves it free once another is selected, and restoring one of others doesn't."""
        before, behind = place - 1, 256 - place
        saves = f"{before}x save; select 0; save; select 1; {behind}x save"
        front = f"pen 0; pen 1; select 1; {saves}"
        cases = [(f"{front}; delete 0", "HeldObject")]
        cases += [(f"{front}; restore {n}; select 1; delete 0", None) for n in freeing]
        cases += [(f"{front}; restore {n}; select 1; delete 0", "HeldObject") for n in holding]
        for form in FORMS:
            self.check_cases(program, form, cases)

    @for_each_program
    def test_each_of_256_saved_states_holds_its_objects(self, program):
        # The oldest, one between, and the newest.
        self.check_one_of_256(program, 1, [1, -256], [2, 3, 256, -1, -254, -255])
        self.check_one_of_256(program, 128, [1, 127, 128, -129, -256], [129, 256, -1, -128])
        self.check_one_of_256(program, 256, [1, 255, 256, -1, -2, -256], [])

    @for_each_program
    def test_the_state_that_comes_back_holds_its_objects(self, program):
        saves = "127x save; select 0; save; select 1; 128x save"
        front = f"pen 0; pen 1; select 1; {saves}"
        cases = [
            (f"{front}; restore 128; delete 0", "HeldObject"),
            (f"{front}; restore 128; delete 1", "HeldObject"),
            (f"{front}; restore 127; delete 0", None),
            (f"{front}; restore 127; delete 1", "HeldObject"),
            ("pen 0; pen 1; select 0; save; select 1; restore -1; delete 1", None),
        ]
        for form in FORMS:
            self.check_cases(program, form, cases)


WHITE = (255, 255, 255)

# A square whose rim is its stroke: of its fill the four pixels in the middle are seen.
SIDE = 4
SQUARE = "polygon 0 0 3 0 3 3 0 3"
WITHIN = {(x, y) for x in (1, 2) for y in (1, 2)}

# What the square is drawn on, so that white is seen too.
BACK = "solid_brush 0 0x0000FF; null_pen 1; select 0; select 1; polygon 0 0 4 0 4 4 0 4"


class Objects(ShapeTest):
    """A square in the colours of its pen and its brush."""

    def check_colours(self, program, form, front, pen, brush):
        """Behind records, on blue, the square's rim has the pen's colour and its middle the
        brush's; nothing stands for blue."""
        drawn = {
            (x, y): (brush if (x, y) in WITHIN else pen) or BLUE
            for x in range(SIDE)
            for y in range(SIDE)
        }
        # The fill without a stroke has its first edges' pixels too.
        if pen is None and brush is not None:
            drawn |= {(x, y): brush for x in range(SIDE - 1) for y in range(SIDE - 1)}
        file = {"frame": SIDE, "surface": (SIDE, SIDE)}
        self.check(program, form, f"{BACK}; {front}; {SQUARE}", shown(drawn, SIDE, SIDE), **file)

    @for_each_program
    def test_stock_brushes(self, program):
        for stock, brush in {
            0x0: WHITE,
            0x1: (0xC0, 0xC0, 0xC0),
            0x2: (0x80, 0x80, 0x80),
            0x3: (0x40, 0x40, 0x40),
            0x4: BLACK,
            0x5: None,
            0x12: WHITE,
        }.items():
            front = f"solid_pen 2 0xFF0000; select 2; select_at {0x80000000 + stock}"
            self.check_colours(program, EMF, front, RED, brush)

    @for_each_program
    def test_stock_pens(self, program):
        for stock, pen in {0x6: WHITE, 0x7: BLACK, 0x8: None, 0x13: BLACK}.items():
            front = f"solid_brush 2 0xFF0000; select 2; select_at {0x80000000 + stock}"
            self.check_colours(program, EMF, front, pen, RED)

    @for_each_program
    def test_pens_of_any_style_are_solid(self, program):
        brush = "solid_brush 2 0x00FF00; select 2"
        for style in (0, 1, 2, 3, 4, 6, 7, 8):
            for width in (0, 1, -1):
                front = f"{brush}; styled_pen 3 {style} {width} 0xFF0000; select 3"
                for form in FORMS:
                    self.check_colours(program, form, front, RED, (0, 0xFF, 0))
            # A width is the page's where the style says so, and else there is none.
            for style_and_width in (f"{0x10000 + style} 1", f"{style} 7"):
                front = f"{brush}; styled_long_pen 3 {style_and_width} 0 0xFF0000; select 3"
                self.check_colours(program, EMF, front, RED, (0, 0xFF, 0))

    @for_each_program
    def test_null_pens_draw_nothing(self, program):
        brush = "solid_brush 2 0xFF0000; select 2"
        for style in (5, 0x15):
            front = f"{brush}; styled_pen 3 {style} 1 0; select 3"
            for form in FORMS:
                self.check_colours(program, form, front, None, RED)
        # By its own style, and by its brush's.
        for style, brush_style in [(5, 0), (0, 1), (5, 1)]:
            front = f"{brush}; styled_long_pen 3 {style} 1 {brush_style} 0; select 3"
            self.check_colours(program, EMF, front, None, RED)

    @for_each_program
    def test_null_brushes_draw_nothing(self, program):
        for form in FORMS:
            front = "solid_pen 2 0xFF0000; null_brush 3; select 2; select 3"
            self.check_colours(program, form, front, RED, None)

    @for_each_program
    def test_the_selected_objects_are_drawn_with(self, program):
        tools = "solid_pen 2 0xFF0000; solid_brush 3 0x00FF00; solid_pen 4 0; solid_brush 5 0"
        green = (0, 0xFF, 0)
        for front, pen, brush in [
            ("select 2; select 3", RED, green),
            ("select 3; select 2", RED, green),
            ("select 2; select 3; select 4", BLACK, green),
            ("select 2; select 3; select 5", RED, BLACK),
            ("select 2; select 3; save; select 4; select 5; restore -1", RED, green),
            # An index is free again once its object is deleted, and another one has it.
            ("select 4; select 5; delete 2; solid_pen 2 0x00FF00; select 2", green, BLACK),
        ]:
            for form in FORMS:
                self.check_colours(program, form, f"{tools}; {front}", pen, brush)

    @for_each_program
    def test_colours_have_their_bytes_in_order(self, program):
        front = "solid_pen 2 0x010203; solid_brush 3 0xFDFEFF; select 2; select 3"
        for form in FORMS:
            self.check_colours(program, form, front, (1, 2, 3), (0xFD, 0xFE, 0xFF))


if __name__ == "__main__":
    unittest.main()
