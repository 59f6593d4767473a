"""Bitmaps of all kinds as 24 bits, and blits of pixels that aren't drawn."""

import io
import random
import struct
import unittest

from metaplay_fixup.bitmaps import plays_as_stored, read_picture, stored
from metaplay_fixup.blends import SRCAND, SRCCOPY, SRCPAINT, Layer, blended, keyed
from metaplay_fixup.channels import spread
from metaplay_fixup.faults import Fault, FaultName
from metaplay_fixup.palettes import STOCK_PALETTE, Palette
from metaplay_fixup.options import AlphaRule
from metaplay_fixup.pictures import Picture
from metaplay_fixup.sources import Side, cropped, depends_on_source, side
from PIL import Image

from .oracle import parted_bitmap, u32

RED, GREEN, BLUE, WHITE, BLACK = (255, 0, 0), (0, 255, 0), (0, 0, 255), (255, 255, 255), (0, 0, 0)
ROWS = [[RED, GREEN, BLUE], [WHITE, BLACK, RED]]

# The same from the top, as blue, green and red.
PIXELS = bytes.fromhex("0000ff 00ff00 ff0000 ffffff 000000 0000ff")


def header(width: int, height: int, depth: int, compression: int = 0, used: int = 0) -> bytes:
    """A header of 40 bytes ([MS-WMF] 2.2.2.3)."""
    return struct.pack("<IiiHHIIiiII", 40, width, height, 1, depth, compression, 0, 0, 0, used, 0)


def pixels(info: bytes, bits: bytes, usage: int = 0, palette: Palette = STOCK_PALETTE) -> bytes:
    """The pixels of a bitmap as 24 bits."""
    return read_picture(info, bits, usage, palette).pixels


class Depths(unittest.TestCase):
    """What isn't compressed."""

    def test_each_depth(self) -> None:
        """The repository's writer makes the same picture at each depth."""
        for depth in (4, 8, 16, 24, 32):
            for is_top_down in (False, True):
                info, bits = parted_bitmap(ROWS, depth)
                if is_top_down:
                    length = len(bits) // 2
                    info = info[:8] + struct.pack("<i", -2) + info[12:]
                    bits = bits[length:] + bits[:length]
                self.assertEqual(pixels(info, bits), PIXELS, depth)

    def test_one_bit(self) -> None:
        """The leftmost pixel has the highest bit: 1010 0000 1 over two colours."""
        info = header(9, 1, 1) + bytes.fromhex("00000000 ffffff00")
        self.assertEqual(pixels(info, bytes.fromhex("a0 80 0000")), b"\xff\xff\xff\0\0\0" * 2 + bytes(12) + b"\xff" * 3)

    def test_core_header(self) -> None:
        """The header of 12 bytes has a table of three bytes a colour."""
        info = struct.pack("<IHHHH", 12, 2, 1, 1, 1) + bytes.fromhex("102030 405060")
        self.assertEqual(pixels(info, bytes.fromhex("40000000")), bytes.fromhex("102030 405060"))

    def test_palette(self) -> None:
        """A table of indexes into the palette; one that the palette doesn't have is a fault."""
        palette = Palette(((1, 2, 3), (4, 5, 6)))
        info = header(2, 1, 8, used=2) + struct.pack("<HH", 1, 0)
        self.assertEqual(pixels(info, b"\0\1\0\0", 1, palette), bytes([6, 5, 4, 3, 2, 1]))
        with self.assertRaises(Fault) as raised:
            pixels(header(2, 1, 8, used=2) + struct.pack("<HH", 2, 0), bytes(4), 1, palette)
        self.assertEqual(raised.exception.name, FaultName.PaletteColour)
        # DIB_PAL_INDICES: there is no table at all.
        with self.assertRaises(Fault) as raised:
            pixels(header(2, 1, 8, used=2) + bytes(8), bytes(4), 2, palette)
        self.assertEqual(raised.exception.name, FaultName.PaletteColour)

    def test_masks(self) -> None:
        """Five, six and five bits: 31 becomes 255, 32 of 63 becomes 130, and 1 of 31 becomes 8."""
        info = header(2, 1, 16, 3) + struct.pack("<III", 0xF800, 0x07E0, 0x001F)
        bits = struct.pack("<HH", 31 << 11 | 32 << 5 | 1, 0)
        self.assertEqual(pixels(info, bits), bytes([8, 130, 255, 0, 0, 0]))
        # Masks of 32 bits in another order: red in the lowest byte.
        info = header(1, 1, 32, 3) + struct.pack("<III", 0xFF, 0xFF00, 0xFF0000)
        self.assertEqual(pixels(info, bytes([1, 2, 3, 4])), bytes([3, 2, 1]))

    def test_wide_masks(self) -> None:
        """Of masks of ten bits the highest eight count: 512 of 1,023 is 128."""
        info = header(1, 1, 32, 3) + struct.pack("<III", 0x3FF00000, 0xFFC00, 0x3FF)
        bits = struct.pack("<I", 512 << 20 | 1023 << 10 | 3)
        self.assertEqual(pixels(info, bits), bytes([0, 255, 128]))

    def test_core_rows(self) -> None:
        """With the header of 12 bytes the bottom row is stored first."""
        info = struct.pack("<IHHHH", 12, 1, 2, 1, 24)
        self.assertEqual(pixels(info, bytes([1, 2, 3, 0, 4, 5, 6, 0])), bytes([4, 5, 6, 1, 2, 3]))

    def test_spread(self) -> None:
        """Bits are repeated from the top: those of five bits as the checker spreads them."""
        self.assertEqual([spread(value, 5) for value in (0, 1, 15, 16, 31)], [0, 8, 123, 132, 255])
        self.assertEqual([spread(value, 1) for value in (0, 1)], [0, 255])
        self.assertEqual([spread(value, 3) for value in (1, 4, 7)], [0b00100100, 0b10010010, 255])

    def test_faults(self) -> None:
        """Each fault by its name."""
        rows = [
            (b"", b"", FaultName.ShortDib),
            (struct.pack("<I", 20) + bytes(36), b"", FaultName.BadDib),
            (header(1, 1, 24), b"\0\0\0", FaultName.ShortDib),
            (header(0, 1, 24), bytes(4), FaultName.BadDib),
            (header(32769, 1, 1), bytes(5000), FaultName.BadDib),
            (header(32768, 32768, 1), bytes(5000), FaultName.BadDib),
            (header(1, 1, 7), bytes(4), FaultName.BadDib),
            (header(1, 1, 24, 6), bytes(4), FaultName.CompressedDib),
            (header(1, 1, 8, used=257), bytes(4), FaultName.BadDib),
            (header(1, 1, 16, 3) + struct.pack("<III", 0xF00F, 0, 0), bytes(4), FaultName.BadDib),
            (header(1, 1, 16, 3) + struct.pack("<III", 0x1F0000, 0, 0), bytes(4), FaultName.BadDib),
            (header(1, 1, 16, 3) + struct.pack("<III", 0, 0x1F000, 0), bytes(4), FaultName.BadDib),
        ]
        for info, bits, name in rows:
            with self.assertRaises(Fault) as raised:
                pixels(info, bits)
            self.assertEqual(raised.exception.name, name, info)


class Compressed(unittest.TestCase):
    """Runs ([MS-WMF] 3.1.6), and files inside."""

    TABLE = b"".join(bytes([value, value, value, 0]) for value in range(16))

    def indexes(self, depth: int, compression: int, width: int, height: int, bits: str) -> list[int]:
        """The indexes of a picture whose colours are grey by their index, from the top."""
        info = header(width, height, depth, compression, 16) + self.TABLE
        return list(pixels(info, bytes.fromhex(bits))[::3])

    def test_bytes(self) -> None:
        """Three times 4; two literals 1 and 2; the next row; a delta of 1 and 0; five times 7, of which three fit."""
        bits = "03 04 00 03 01 02 0f 00 00 00 00 02 01 00 05 07 00 01"
        self.assertEqual(self.indexes(8, 1, 4, 2, bits), [0, 7, 7, 7, 4, 4, 4, 1])

    def test_half_bytes(self) -> None:
        """Five of 1 and 2 by turns; a literal of three in two bytes; the end."""
        bits = "05 12 00 00 00 03 34 50 00 01"
        self.assertEqual(self.indexes(4, 2, 5, 2, bits), [3, 4, 5, 0, 0, 1, 2, 1, 2, 1])

    def test_padding_of_half_bytes(self) -> None:
        """A literal fills whole words: one of three has two bytes and one of five four, and runs follow at once."""
        bits = "00 03 12 30 02 44 00 05 56 78 90 00 01 aa 00 01"
        self.assertEqual(self.indexes(4, 2, 11, 1, bits), [1, 2, 3, 4, 4, 5, 6, 7, 8, 9, 10])

    def test_cut(self) -> None:
        """Runs that end early leave the rest at 0."""
        self.assertEqual(self.indexes(8, 1, 2, 1, "01"), [0, 0])

    def test_png(self) -> None:
        """A PNG inside has its own size and alpha."""
        image = Image.new("RGBA", (2, 1), (10, 20, 30, 40))
        file = io.BytesIO()
        image.save(file, "PNG")
        picture = read_picture(header(2, 1, 0, 5), file.getvalue(), 0, STOCK_PALETTE)
        self.assertEqual((picture.pixels, picture.alpha), (bytes([30, 20, 10] * 2), bytes([40, 40])))

    def test_wrong_form(self) -> None:
        """What isn't a JPEG is BadDib, also if it is a PNG."""
        file = io.BytesIO()
        Image.new("RGB", (2, 1)).save(file, "PNG")
        for data in (file.getvalue(), b"", b"\xff\xd8\xff"):
            with self.assertRaises(Fault) as raised:
                read_picture(header(2, 1, 0, 4), data, 0, STOCK_PALETTE)
            self.assertEqual(raised.exception.name, FaultName.BadDib)

    def test_broken_images(self) -> None:
        """Files inside that were changed are read, or are BadDib."""
        source = random.Random(3)
        for form, compression in (("PNG", 5), ("JPEG", 4)):
            file = io.BytesIO()
            Image.linear_gradient("L").resize((40, 30)).convert("RGB").save(file, form)
            whole = file.getvalue()
            for _ in range(300):
                changed = bytearray(whole[: source.randrange(len(whole) // 2, len(whole) + 1)])
                changed[source.randrange(len(changed))] = source.randrange(256)
                try:
                    read_picture(header(40, 30, 0, compression), bytes(changed), 0, STOCK_PALETTE)
                except Fault as fault:
                    self.assertEqual(fault.name, FaultName.BadDib)

    def test_image_bomb(self) -> None:
        """A PNG of 20,000 by 20,000 pixels in few bytes isn't decoded."""
        file = io.BytesIO()
        Image.new("1", (20000, 20000)).save(file, "PNG")
        with self.assertRaises(Fault) as raised:
            read_picture(header(1, 1, 0, 5), file.getvalue(), 0, STOCK_PALETTE)
        self.assertEqual(raised.exception.name, FaultName.BadDib)


class Stored(unittest.TestCase):
    """Pictures as the checker reads them."""

    def test_stored(self) -> None:
        """24 bits, the bottom row first, rows of a multiple of four bytes."""
        info, bits = stored(Picture(3, 2, PIXELS, None))
        self.assertEqual(info[:20], struct.pack("<IiiHHI", 40, 3, 2, 1, 24, 0))
        self.assertEqual(bits, PIXELS[9:] + bytes(3) + PIXELS[:9] + bytes(3))
        self.assertTrue(plays_as_stored(info, 0))
        self.assertFalse(plays_as_stored(info, 1))

    def test_cut(self) -> None:
        """A part of a picture and of its alpha."""
        picture = Picture(3, 2, PIXELS, bytes(range(6))).cut(1, 1, 2, 1)
        self.assertEqual(picture, Picture(2, 1, PIXELS[12:], bytes([4, 5])))


class Sources(unittest.TestCase):
    """What a blit reads."""

    def test_mirrored(self) -> None:
        """A negative source is read from its other end into the box turned round."""
        self.assertEqual(side(100, 200, 8, -6), Side(200, 100, 2, 6))

    def test_cropped(self) -> None:
        """A source from -2 over 8 of a picture of 4: its third to sixth pixel, a half of the box."""
        self.assertEqual(cropped(Side(0, 80, -2, 8), 4), Side(20, 60, 0, 4))
        self.assertEqual(cropped(Side(80, 0, -2, 8), 4), Side(60, 20, 0, 4))
        self.assertIsNone(cropped(Side(0, 80, 4, 8), 4))

    def test_operations(self) -> None:
        """PATCOPY and PATINVERT don't read a source, SRCCOPY and SRCAND do."""
        operations = [0x00F00021, 0x005A0049, 0x00CC0020, 0x008800C6]
        self.assertEqual([depends_on_source(operation) for operation in operations], [False, False, True, True])


class Blends(unittest.TestCase):
    """Pixels with alpha, and one colour that isn't drawn."""

    def picture(self, *alpha: int) -> Picture:
        """Grey pixels of 100 with these alphas."""
        return Picture(len(alpha), 1, bytes([100] * 3 * len(alpha)), bytes(alpha))

    def test_full_and_none(self) -> None:
        """Fully drawn pixels are copied; without any nothing is left."""
        whole = self.picture(255, 255)
        self.assertEqual(blended(whole, 0x01FF0000, AlphaRule.REFUSE), [Layer(whole, SRCCOPY)])
        self.assertEqual(blended(self.picture(0, 0), 0x01FF0000, AlphaRule.REFUSE), [])
        self.assertEqual(blended(whole, 0x01000000, AlphaRule.REFUSE), [])
        self.assertEqual(blended(self.picture(7), 0x00FF0000, AlphaRule.REFUSE), [Layer(self.picture(7), SRCCOPY)])

    def test_no_alpha(self) -> None:
        """A picture that came with fewer than 32 bits has no byte for alpha."""
        with self.assertRaises(Fault) as raised:
            blended(Picture(1, 1, bytes(3), None), 0x01FF0000, AlphaRule.WHITE)
        self.assertEqual(raised.exception.name, FaultName.BadDib)

    def test_masked(self) -> None:
        """A mask that keeps what is below where nothing is drawn, and ink where something is."""
        mask, ink = blended(self.picture(0, 255), 0x01FF0000, AlphaRule.REFUSE)
        self.assertEqual((mask.operation, ink.operation), (SRCAND, SRCPAINT))
        self.assertEqual(mask.picture.pixels, bytes([255] * 3 + [0] * 3))
        self.assertEqual(ink.picture.pixels, bytes([0] * 3 + [100] * 3))

    def test_on_white(self) -> None:
        """Premultiplied 100 with alpha 155 on white is 200; with half of both, 50 and 77, it is 228."""
        for function, grey in ((0x01FF0000, 200), (0x01800000, 50 + 255 - 77)):
            with self.assertRaises(Fault) as raised:
                blended(self.picture(155), function, AlphaRule.REFUSE)
            self.assertEqual(raised.exception.name, FaultName.Alpha)
            (layer,) = blended(self.picture(155), function, AlphaRule.WHITE)
            self.assertEqual((layer.picture.pixels, layer.operation), (bytes([grey] * 3), SRCCOPY))

    def test_keyed(self) -> None:
        """Red isn't drawn: COLORREF 0x0000FF."""
        mask, ink = keyed(Picture(3, 1, PIXELS[:9], None), int.from_bytes(u32(0xFF), "little"))
        self.assertEqual(mask.picture.pixels, bytes([255] * 3 + [0] * 6))
        self.assertEqual(ink.picture.pixels, bytes(3) + PIXELS[3:9])


if __name__ == "__main__":
    unittest.main()
