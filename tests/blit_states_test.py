"""What a blit takes of the state ([MS-WMF] 2.3.1, [MS-EMF] 2.3.1) in the built programs: the clip,
the page map and the brush, where the operation depends on the pattern; and no pen, no binary raster
operation, no position and no path."""

import unittest

from answers import refused
from bitmap_pictures import BitmapTest, told
from built import for_each_program
from metafile.blits import BLACKNESS, DSTINVERT, MASKED, PATCOPY, PATINVERT, SRCCOPY, WHITENESS
from metafile.scripts import EMF

SIXTEEN = told("rgby cmop ld#. .ygc")

# All of a surface of 4 by 4, and its middle.
COPY = f"stretch_blt {SRCCOPY} 0 0 4 4 0 0 4 4 {SIXTEEN}"
INVERT = f"pat_blt {DSTINVERT} 0 0 4 4"
BLACK_OUT = f"pat_blt {BLACKNESS} 0 0 4 4"
PAINT = f"pat_blt {PATCOPY} 0 0 4 4"


class Clips(BitmapTest):
    """Boxes that are kept and cut."""

    @for_each_program
    def test_kept_and_cut_boxes(self, program):
        images = {
            f"keep 1 1 3 3; {COPY}": ".... .mo. .d#. ....",
            f"cut 1 1 3 3; {COPY}": "rgby c..p l... .ygc",
            f"keep 0 0 3 4; keep 1 0 4 2; {COPY}": ".gb. .mo. .... ....",
            f"cut 0 0 1 4; cut 3 0 4 4; {COPY}": ".gb. .mo. .d#. .yg.",
            f"keep 0 0 4 2; cut 1 0 3 1; {COPY}": "r..y cmop .... ....",
            f"keep 2 2 2 2; {COPY}": ".... .... .... ....",
            f"keep 3 3 9 9; {COPY}": ".... .... .... ...c",
        }
        self.check_images(program, images)
        images = {
            f"keep 1 1 3 3; {INVERT}": ".... .##. .##. ....",
            f"cut 1 1 3 3; {INVERT}": "#### #..# #..# ####",
            f"keep 1 1 3 3; {INVERT}; cut 2 1 9 2; {INVERT}": ".... ..#. .... ....",
        }
        self.check_images(program, images)

    @for_each_program
    def test_the_clip_doesn_t_move_the_picture(self, program):
        # A box of 2 by 2 of the middle is kept, of a picture that is twice as large.
        script = f"keep 1 1 3 3; stretch_blt {SRCCOPY} -2 -2 8 8 0 0 4 4 {SIXTEEN}"
        self.check_images(program, {script: ".... .mo. .d#. ...."})
        script = f"cut 0 0 2 2; stretch_blt {SRCCOPY} 4 0 -4 4 0 0 4 4 {SIXTEEN}"
        self.check_images(program, {script: "..gr ..mc .#dl cgy."})

    @for_each_program
    def test_the_clip_of_the_moment(self, program):
        nested = "keep 0 0 2 2; save; keep 1 1 4 4"
        images = {
            f"save; keep 0 0 2 2; {BLACK_OUT}; restore -1; {INVERT}": "..## ..## #### ####",
            f"{nested}; {BLACK_OUT}; restore -1; {INVERT}": "##.. #... .... ....",
        }
        self.check_images(program, images)
        images = {f"keep 0 0 2 2; {BLACK_OUT}; unclip; {INVERT}": "..## ..## #### ####"}
        self.check_images(program, images, [EMF])


# A brush of each kind, all of them with no pen.
SOLID = "solid_brush 0 0xFF0000; select 0"
NULL = "null_brush 0; select 0"
HATCHED = "hatched_brush 0 4 0xFF0000; select 0; back_colour 0x0000FF"
TRANSPARENT, OPAQUE = "back_mode 1", "back_mode 2"

# The cross of hatch 4 on a surface of 9 by 9.
CROSS = "rrrrrrrrr " + "rbbbbbbbr " * 7 + "rrrrrrrrr"
GAPS = CROSS.replace("b", ".")

# Copies the pattern where the source is black, and keeps what is there where it is white.
UNDER_BLACK = 0x00B8074A

NINE = f"0 0 9 9 0 0 9 9 {told('####.#### ' * 9)}"


class Brushes(BitmapTest):
    """What a brush gives a blit's pattern."""

    @for_each_program
    def test_solid_and_null(self, program):
        images = {
            f"{SOLID}; {PAINT}": "rrrr " * 4,
            f"{NULL}; {PAINT}": ".... " * 4,
            f"{NULL}; pat_blt {PATINVERT} 0 0 4 4": ".... " * 4,
            f"{NULL}; {BLACK_OUT}": "#### " * 4,
            f"{NULL}; {INVERT}": "#### " * 4,
            f"{NULL}; {COPY}": "rgby cmop ld#. .ygc",
            # Red turns a part of white, and of what that leaves it gives white again.
            f"{SOLID}; pat_blt {PATINVERT} 0 0 4 4": "cccc " * 4,
            f"{SOLID}; {COPY}; pat_blt {PATINVERT} 0 0 4 1": "#ymg cmop ld#. .ygc",
        }
        self.check_images(program, images)
        # A source that is there doesn't make a null brush write.
        for operation in (MASKED, UNDER_BLACK):
            script = f"{NULL}; stretch_blt {operation} 0 0 4 4 0 0 4 4 {SIXTEEN}"
            self.check_images(program, {script: ".... " * 4})

    @for_each_program
    def test_the_first_brush_is_white(self, program):
        images = {f"{BLACK_OUT}; {PAINT}": ".... " * 4, PAINT: ".... " * 4}
        self.check_images(program, images)

    @for_each_program
    def test_hatches_where_the_operation_depends_on_the_pattern(self, program):
        # White that is turned by red is cyan, and by blue it is yellow.
        turned = CROSS.replace("r", "c").replace("b", "y")
        images = {
            f"{HATCHED}; {OPAQUE}; pat_blt {PATCOPY} 0 0 9 9": CROSS,
            f"{HATCHED}; {TRANSPARENT}; pat_blt {PATCOPY} 0 0 9 9": GAPS,
            f"{HATCHED}; {OPAQUE}; pat_blt {PATINVERT} 0 0 9 9": turned,
            f"{HATCHED}; {TRANSPARENT}; pat_blt {PATINVERT} 0 0 9 9": GAPS.replace("r", "c"),
        }
        self.check_images(program, images)

    @for_each_program
    def test_hatches_where_it_does_not(self, program):
        for mode in (TRANSPARENT, OPAQUE):
            images = {
                f"{HATCHED}; {mode}; pat_blt {DSTINVERT} 0 0 9 9": "######### " * 9,
                f"{HATCHED}; {mode}; pat_blt {BLACKNESS} 0 0 9 9": "######### " * 9,
                f"{HATCHED}; {mode}; stretch_blt {SRCCOPY} {NINE}": "####.#### " * 9,
            }
            self.check_images(program, images)

    @for_each_program
    def test_gaps_of_a_hatch_under_a_source(self, program):
        # Black is there. Where the source is white it stays, and in a gap too.
        rest = f"pat_blt {BLACKNESS} 0 0 9 9; stretch_blt {UNDER_BLACK} {NINE}"
        kept = " ".join(row[:4] + "#" + row[5:] for row in CROSS.split())
        images = {
            f"{HATCHED}; {OPAQUE}; {rest}": kept,
            f"{HATCHED}; {TRANSPARENT}; {rest}": kept.replace("b", "#"),
        }
        self.check_images(program, images)

    @for_each_program
    def test_cells_stand_on_the_surface(self, program):
        # Whatever the box, the page or the clip.
        rows = "......... " * 6 + ".....bbbr ......... ........."
        box = f"{HATCHED}; pat_blt {PATCOPY} 5 6 4 1"
        moved = f"{HATCHED}; viewport_origin 2 2; pat_blt {PATCOPY} 3 4 4 1"
        clipped = f"{HATCHED}; keep 5 6 9 7; pat_blt {PATCOPY} 0 0 9 9"
        self.check_images(program, dict.fromkeys([box, moved, clipped], rows))

    @for_each_program
    def test_the_brush_of_the_moment(self, program):
        first, last = f"pat_blt {PATCOPY} 0 0 2 2", f"pat_blt {PATCOPY} 1 1 1 1"
        null = "null_brush 1; select 1"
        images = {
            f"save; {SOLID}; {first}; restore -1; {last}": "rr.. r... .... ....",
            f"{SOLID}; save; {null}; {first}; restore -1; {last}": ".... .r.. .... ....",
        }
        self.check_images(program, images)


class Others(BitmapTest):
    """What blits don't take of the state, and don't change."""

    @for_each_program
    def test_no_binary_operation(self, program):
        for operation in range(1, 17):
            self.check_images(program, {f"raster {operation}; {COPY}": "rgby cmop ld#. .ygc"})

    @for_each_program
    def test_no_pen(self, program):
        for pen in ("solid_pen 1 0x00FF00; select 1", "null_pen 1; select 1"):
            script = f"{SOLID}; {pen}; pat_blt {PATCOPY} 1 1 2 2"
            self.check_images(program, {script: ".... .rr. .rr. ...."})

    @for_each_program
    def test_no_position(self, program):
        for blit in (COPY, f"pat_blt {PATCOPY} 3 3 1 1"):
            script = f"move 1 0; {blit}; pat_blt {WHITENESS} 0 0 4 4; line 1 3"
            self.check_images(program, {script: ".#.. .#.. .#.. ...."})

    @for_each_program
    def test_no_fill_mode_and_no_background_of_a_solid_brush(self, program):
        for mode in ("fill_mode 2", "back_mode 1", "back_colour 0x00FF00"):
            self.check_images(program, {f"{SOLID}; {mode}; pat_blt {PATCOPY} 0 0 2 1": "rr .."})

    @for_each_program
    def test_blits_in_an_open_path_are_drawn_at_once(self, program):
        # A triangle is gathered; a blit in the middle is drawn below it, with the brush and the
        # clip of its moment, and is no figure.
        blit = f"save; {SOLID}; keep 1 0 4 4; pat_blt {PATCOPY} 0 0 4 2; restore -1"
        gathered = f"begin_path; move 0 0; line 4 0; {blit}; line 0 4; close_figure; end_path"
        images = {
            gathered: ".rrr .rrr .... ....",
            f"{gathered}; abort_path": ".rrr .rrr .... ....",
            f"{gathered}; stroke_path": "#### #rr# #.#. ##..",
            f"{gathered}; stroke_and_fill_path": "#### #.r# #.#. ##..",
        }
        self.check_images(program, images, [EMF])

    @for_each_program
    def test_blits_in_an_open_path_count_no_piece(self, program):
        # A path of as many pieces as there may be, and two thousand blits in it.
        lines = (1 << 16) - 1
        full = f"begin_path; polyline 9 9; {lines}x line 9 9; 2000x pat_blt {DSTINVERT} 0 0 1 1"
        self.check_images(program, {f"{full}; end_path; abort_path": ".. .."}, [EMF])
        self.check(program, EMF, f"{full}; line 1 1", refused("TooManyPieces", lines + 2003))

    @for_each_program
    def test_a_fault_in_an_open_path(self, program):
        script = f"begin_path; line 3 3; bare_bit_blt {SRCCOPY} 0 0 4 4 0 0; end_path"
        self.check(program, EMF, script, refused("SourceMissing", 3))


if __name__ == "__main__":
    unittest.main()
