"""Fixed files that no converter wrote: blocks under a state that they don't fit."""

import hashlib
import time
import unittest
from itertools import product

from metaplay_verify import Verdict, verify
from metaplay_verify.files import read
from metaplay_verify.reading import Reader

from .oracle import EMF_END, emf_file, emf_record, emf_script, i16, i32, placeable_file, u16, u32, wmf_record
from .parts import places_of, records_of
from .planted import converted, emf_comment, joined, kind_of, mark
from .emf_records import modify, world
from .text_records import UPDATE_POSITION, font, text

TRANSPARENT = emf_script("back_mode 1")
FUNCTIONS = [0x001E, 0x00F7, 0x0102, 0x0103, 0x0108, 0x0127, 0x012D, 0x012E, 0x0142, 0x01F0, 0x01F9, 0x0201, 0x0209]
FUNCTIONS += [0x020A, 0x020B, 0x020C, 0x020D, 0x020E, 0x020F, 0x0211, 0x0213, 0x0214, 0x0234, 0x02FA, 0x02FB, 0x02FC]
FUNCTIONS += [0x0410, 0x0412, 0x06FF]
OUTSIDE = "a polygon lies outside of the text's box, or doesn't fit it, or has a wrong clip"


def block_of(*records: bytes) -> list[bytes]:
    """What stands for the texts of a file of these records, which make one place."""
    original = emf_file([*TRANSPARENT, *font(4), *records])
    (place,) = places_of(original, converted(original))
    return place.records


def verdict_of(before: list[bytes], texts: list[bytes], block: list[bytes]) -> Verdict:
    """The verdict on a file whose texts are replaced by a block, with marks and a stamp."""
    original = emf_file([*TRANSPARENT, *font(4), *before, *texts])
    *kept, _ = records_of(original)
    first, count = len(kept) - len(texts), len(texts)
    stamp = emf_comment(b"MPFX" + u32(3) + b'{"original":"%s"}' % hashlib.sha256(original).hexdigest().encode())
    begin, end = emf_comment(mark(1, first, count)), emf_comment(mark(2, first, count))
    records = [*kept[:first], begin, *block, end, stamp, EMF_END]
    records[0] = records[0][:56] + u16(5) + records[0][58:]
    return verify(original, joined(original, records), True)


class Made(unittest.TestCase):
    """A block of one or two texts under several states."""

    A, B = text("a", 20, 30), text("b", 26, 30)

    def refuse(self, reason: str, verdict: Verdict) -> None:
        """Checks a refusal."""
        self.assertFalse(verdict.holds)
        self.assertIn(reason, verdict.reason)

    def test_plain(self) -> None:
        """The block itself is right, under a plain state and others that it fits."""
        for before in (
            emf_script("pixel 1 1"),
            emf_script("begin_path; end_path"),
            emf_script("viewport_extent 9 9"),
            emf_script("map_mode 8; window_extent 2 2; viewport_extent 2 2"),
        ):
            self.assertEqual(verdict_of(before, [self.A], block_of(self.A)).places, 1)

    def test_open_path(self) -> None:
        """In an open path nothing is drawn."""
        self.refuse("in an open path", verdict_of(emf_script("begin_path"), [self.A], block_of(self.A)))

    def test_used_index(self) -> None:
        """The original has an object at the index beyond those that its header counts."""
        brush = emf_record(39, u32(4, 0, 0xFF, 0))
        self.refuse("itself uses the index", verdict_of([brush], [self.A], block_of(self.A)))

    def test_index_used_later(self) -> None:
        """The same behind the block, whose index the header then counts."""
        original = emf_file([*TRANSPARENT, *font(4), self.A, *emf_script("pixel 1 1"), emf_record(39, u32(7, 0, 0, 0))])
        fixed = converted(original)
        later = original.replace(emf_record(39, u32(7, 0, 0, 0)), emf_record(39, u32(4, 0, 0, 0)))
        changed = fixed.replace(emf_record(39, u32(7, 0, 0, 0)), emf_record(39, u32(4, 0, 0, 0)))
        digest, new = (hashlib.sha256(data).hexdigest().encode() for data in (original, later))
        self.assertTrue(verify(original, fixed, True).holds)
        self.refuse("itself uses the index", verify(later, changed.replace(digest, new), True))

    def test_unknown_states(self) -> None:
        """A colour that no palette has, units of an unknown device, and a curve that ends anywhere."""
        wrong = [emf_record(24, u32(0x01000007))]
        self.refuse("another colour than the text's", verdict_of(wrong, [self.A], block_of(self.A)))
        back = [*wrong, emf_record(24, u32(0))]
        self.assertTrue(verdict_of(back, [self.A], block_of(self.A)).holds)
        curve = emf_record(92, i32(0, 0, -1, -1, 1) + i16(20, 30) + b"\2\0\0\0")
        verdict = verdict_of([UPDATE_POSITION, curve], [self.A], block_of(self.A))
        self.refuse("where the text begins isn't known", verdict)
        state = Reader(read(placeable_file([])))
        for mode, is_mapped in ((2, False), (8, False), (1, True), (9, True)):
            state.see(wmf_record(0x0103, u16(mode)))
            self.assertEqual(state.state.is_mapped, is_mapped)

    def test_world(self) -> None:
        """A block must set a world aside."""
        turned = [world(0, 1, -1, 0, 50, 10)]
        self.refuse("doesn't set the world aside", verdict_of(turned, [self.A], block_of(self.A)))

    def test_reset_world(self) -> None:
        """The identity takes no numbers, so it doesn't matter which ones its record has."""
        infinite = float("inf")
        reset = modify(1, infinite, 0, 0, 1, 0, 0)
        self.assertTrue(verdict_of([world(2, 0, 0, 2, 0, 0), reset], [self.A], block_of(self.A)).holds)
        for mode in (2, 3, 4):
            unchanged = [reset, modify(mode, infinite, 0, 0, 1, 0, 0)]
            self.assertTrue(verdict_of(unchanged, [self.A], block_of(self.A)).holds)

    def test_maps(self) -> None:
        """Under another map the text lies elsewhere."""
        for script in ("map_mode 8; window_origin 0 90", "map_mode 8; viewport_extent 9 9", "viewport_origin 50 0"):
            self.refuse(OUTSIDE, verdict_of(emf_script(script), [self.A], block_of(self.A)))

    def test_colours(self) -> None:
        """The colour is the one that the state has, not one of before."""
        for before in ([emf_record(24, u32(9))], [emf_record(24, u32(0)), emf_record(33), emf_record(24, u32(9))]):
            self.refuse("another colour than the text's", verdict_of(before, [self.A], block_of(self.A)))
        restored = [emf_record(33), emf_record(24, u32(9)), emf_record(34, i32(-1))]
        self.assertTrue(verdict_of(restored, [self.A], block_of(self.A)).holds)

    def test_unknown_position(self) -> None:
        """After a text that was kept, and moves the position, only fonts tell where the next one begins."""
        before = [UPDATE_POSITION, self.A, *emf_script("pixel 1 1")]
        self.refuse("where the text begins isn't known", verdict_of(before, [self.B], block_of(self.B)))

    def test_position(self) -> None:
        """The position is where the last line, or curve, went."""
        curve = emf_record(88, i32(0, 0, -1, -1, 3) + i16(1, 1, 2, 2, 20, 30))
        arc = emf_record(55, i32(10, 20, 30, 40, 1, 1, 2, 2))
        for before in (emf_script("move 20 30"), emf_script("line 20 30"), [curve], [arc]):
            self.assertTrue(verdict_of([UPDATE_POSITION, *before], [self.B], block_of(self.A)).holds)
        for script in ("move 90 30", "line 20 90"):
            before = [UPDATE_POSITION, *emf_script(script)]
            self.refuse(OUTSIDE, verdict_of(before, [self.A], block_of(self.A)))

    def test_insertion(self) -> None:
        """With text alone nothing is only inserted."""
        self.refuse("other records than text", verdict_of([self.A], [], block_of(self.A)))

    def test_opaque_box(self) -> None:
        """The background of a record's box is all of it."""
        one, less = (text("", 0, 0, 2, (40, 50, right, 54)) for right in (44, 43))
        white = emf_script("back_colour 0xffffff")
        self.assertTrue(verdict_of(white, [one], block_of(*white, one)).holds)
        self.refuse(OUTSIDE, verdict_of(white, [one], block_of(*white, less)))

    def test_shape_of_a_background(self) -> None:
        """The background behind a text is a quadrangle, but its glyphs are any polygons."""
        opaque = emf_script("back_mode 2; back_colour 0x00ff00")
        block, box = block_of(*opaque, self.A), i32(20, 30, 24, 34)
        five = emf_record(86, box + u32(5) + i16(0, 0, 4096, 0, 4096, 4096, 2048, 2048, 0, 4096))
        (back, glyph) = (at for at, record in enumerate(block) if kind_of(record, True) == 86)
        self.assertTrue(verdict_of(opaque, [self.A], [*block[:glyph], five, *block[glyph + 1 :]]).holds)
        self.refuse(
            "draws more than its text has", verdict_of(opaque, [self.A], [*block[:back], five, *block[back + 1 :]])
        )

    def test_background_of_a_transparent_text(self) -> None:
        """It has none."""
        green = emf_script("back_colour 0x00ff00")
        opaque = block_of(*green, *emf_script("back_mode 2"), self.A)
        self.refuse("draws more than its text has", verdict_of(green, [self.A], opaque))

    def test_empty_clip(self) -> None:
        """Nothing shows of a text that a box without an area clips."""
        for box in ((20, 30, 20, 40), (20, 30, 30, 30), (0, 0, 0, 0)):
            for options in (4, 6):
                clipped = text("a", 20, 30, options, box)
                self.refuse("draws more than its text has", verdict_of([], [clipped], block_of(self.A)))
                self.assertTrue(verdict_of([], [clipped, self.B], block_of(self.B)).holds)

    def test_points_of_a_polygon(self) -> None:
        """There are two at least, in each list."""
        *head, _, restore, delete = block_of(self.A)
        box = i32(20, 30, 24, 34)
        one = emf_record(86, box + u32(1) + i16(0, 0))
        lists = emf_record(91, box + u32(2, 5, 1, 4) + i16(0, 0, 0, 0, 4096, 0, 4096, 4096, 0, 4096))
        for polygon in (one, lists):
            self.refuse("counts are wrong", verdict_of([], [self.A], [*head, polygon, restore, delete]))

    def test_longer_records(self) -> None:
        """No record of a block has more than its numbers."""
        block = block_of(self.A)
        for at in (3, 4, 9):
            longer = emf_record(kind_of(block[at], True), block[at][8:] + bytes(4))
            verdict = verdict_of([], [self.A], [*block[:at], longer, *block[at + 1 :]])
            self.refuse("a block has another record", verdict)

    def test_index_beyond(self) -> None:
        """A block's brush has the first index that the original's header doesn't count."""
        block = [record.replace(emf_record(39, u32(4))[8:], u32(9)) for record in block_of(self.A)]
        self.refuse("count of handles is wrong", verdict_of([], [self.A], block))

    def test_many_moving_texts(self) -> None:
        """Each begins where the one before ended: the last one 11 times 40 units from the first."""
        original = emf_file([*TRANSPARENT, *font(40), UPDATE_POSITION, *[text("a", 0, 0)] * 12])
        self.assertEqual(verify(original, converted(original), True).places, 1)

    def test_small_text_without_a_box(self) -> None:
        """Its options say nothing of a box, so it has a background."""
        for options in (0x300, 0x302, 0x304, 0x306):
            small = emf_record(108, i32(20, 30) + u32(1, options, 1, 0, 0) + b"a\0\0\0")
            opaque = emf_script("back_mode 2")
            self.assertTrue(verdict_of(opaque, [small], block_of(*opaque, small)).holds, options)

    def test_distances_to_the_left(self) -> None:
        """A text reaches as far to the left as its distances say."""
        numbers = u32(1, 0, 0) + i32(90, 30) + u32(2, 76, 0) + i32(0, 0, -1, -1) + u32(80)
        left = emf_record(84, i32(0, 0, -1, -1) + numbers + u16(0x61, 0x62) + i32(-70, 0))
        self.assertTrue(verdict_of([], [left], block_of(left)).holds)

    def test_order(self) -> None:
        """Texts that share a block stand in it in their order."""
        far = text("b", 90, 90)
        block = [*block_of(self.A), *block_of(far)]
        self.assertTrue(verdict_of([], [self.A, far], block).holds)
        self.refuse("draws more than its text has", verdict_of([], [far, self.A], block))

    def test_growing_numbers(self) -> None:
        """Extents that are scaled again and again don't grow without end."""
        scale = emf_record(32, i32(0x7FFFFFFF, 1, 0x7FFFFFFF, 1))
        start = time.process_time()
        verdict_of([*emf_script("map_mode 8"), *[scale] * 30000], [self.A], block_of(self.A))
        self.assertLess(time.process_time() - start, 5)

    def test_cut_records(self) -> None:
        """Records of each kind that are cut, or count more than they have, don't disturb the reader."""
        emf, wmf = Reader(read(emf_file([]))), Reader(read(placeable_file([])))
        patterns = (b"\1\0\0\0", b"\xff\xff\xff\xff", b"\0\0\0\0", b"\x09\0\0\1")
        for size, pattern in product(range(0, 104, 4), patterns):
            data = pattern * (size // 4)
            for kind in range(1, 123):
                emf.see(emf_record(kind, data))
            for function in FUNCTIONS:
                wmf.see(wmf_record(function, data))
        self.assertTrue(emf.beyond)

    def test_cut_lines(self) -> None:
        """Lines whose points aren't there don't move the position."""
        cut = emf_record(6, i32(0, 0, -1, -1, 2, 90, 90))
        none = emf_record(6, i32(0, 0, -1, -1, 0))
        before = [UPDATE_POSITION, *emf_script("move 20 30"), cut, none]
        self.assertTrue(verdict_of(before, [self.B], block_of(self.A)).holds)

    def test_metric_modes(self) -> None:
        """A device of 1,000 by 500 pixels and 200 by 100 millimetres: 20 tenths of a millimetre are 10 pixels."""
        data = emf_file([])
        reader = Reader(read(data[:72] + i32(1000, 500, 200, 100) + data[88:]))
        for mode, point in ((2, (20, 10)), (3, (200, 100)), (9, (200, 100))):
            reader.see(emf_record(17, u32(mode)))
            self.assertEqual(reader.state.device(point), (10, -5))
        reader.see(emf_record(9, i32(7, 7)))
        self.assertEqual(reader.state.device((200, 100)), (10, -5))
        reader.see(emf_record(17, u32(1)))
        self.assertEqual(reader.state.device((200, 100)), (200, 100))
        for broken in (data[:72] + i32(0, 500, 200, 100) + data[88:], placeable_file([])):
            reader = Reader(read(broken))
            reader.see(emf_record(17, u32(2)) if broken[:1] == b"\1" else wmf_record(0x0103, u16(2)))
            self.assertEqual(reader.state.device((20, 10)), (20, 10))

    def test_many_fills(self) -> None:
        """Very many fills for very many texts are refused soon."""
        *head, polygon, restore, delete = block_of(self.A)
        start = time.process_time()
        verdict = verdict_of([], [self.A] * 20000, [*head, *[polygon] * 20001, restore, delete])
        self.refuse("draws more than its text has", verdict)
        far = text("b", 90, 90)
        verdict = verdict_of([], [far] * 20000, [*head, *[polygon] * 20000, restore, delete])
        self.refuse(OUTSIDE, verdict)
        self.assertLess(time.process_time() - start, 5)


if __name__ == "__main__":
    unittest.main()
