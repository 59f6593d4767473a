"""Images in P6 (ppm(5)) as `over` reads them: gaps, comments, numbers, sizes and rasters."""

import unittest

from command_inputs import NOTHING
from metafile.fields import u32
from request_program import OVER, Command, CommandsTest, Ended, Output

# A certificate for surfaces of every size that allows nothing, and the file that draws nothing.
CERTIFICATE = b"MPC1" + u32(8192, 8192, 0, 0, 0, 0, 0, 0, 0)

BAD_IMAGE = Ended(1, b"", b"metaplay: BadImage\n")


def over(image):
    """The command that plays nothing over an image."""
    return Command(OVER, NOTHING, CERTIFICATE, image=image, out=Output(100_000))


def shown(width, height, raster):
    """How it ends where the image is read: its text is written with the shortest header."""
    return Ended(0, b"P6\n%d %d\n255\n" % (width, height) + raster)


class Images(CommandsTest):
    """What is an image, and which one it is."""

    def test_rows_follow_each_other(self):
        self.check(
            [
                (over(b"P6\n2 1\n255\n\x01\x02\x03\xff\x00\x80"), shown(2, 1, b"\x01\x02\x03\xff\x00\x80")),
                (over(b"P6 1 2 255 abcdef"), shown(1, 2, b"abcdef")),
            ]
        )

    def test_comments_stand_in_every_gap(self):
        texts = [
            b"P6 #x\n1 1 255\nabc",
            b"P6#x\n1#y\r1#z\n255\nabc",
            b"P6# 7 7 255\n#\n\t1#\n #\r 1 \r\n#1#\n255 abc",
            b"P6\t\r\n 0001 01 0255\tabc",
        ]
        self.check([(over(text), shown(1, 1, b"abc")) for text in texts])

    def test_one_white_byte_stands_after_the_greatest_value(self):
        cases = [(over(text), BAD_IMAGE) for text in [b"P6 1 1 255abc", b"P6 1 1 255#\nabc"]]
        self.check([(over(b"P6 1 1 255\n#\n "), shown(1, 1, b"#\n ")), *cases])

    def test_texts_without_an_image(self):
        texts = [
            b"",
            b"P6",
            b"P5 1 1 255 abc",
            b"p6 1 1 255 abc",
            b"P61 1 255 abc",
            b" P6 1 1 255 abc",
            b"P6 #1 1 255 abc",
            b"P6 -1 1 255 abc",
            b"P6 +1 1 255 abc",
            b"P6 1,1 255 abc",
            b"P6\x0c1 1 255 abc",
            b"P6 1 255 abc",
            b"P6 1 1 255",
            b"P6 1 1 254 abc",
            b"P6 1 1 256 abcdef",
            b"P6 1 1 65535 abcdef",
            b"P6 1 1 0 abc",
            b"P6 0 1 255 abc",
            b"P6 1 0 255 abc",
            b"P6 4294967297 1 255 abc",
            b"P6 1 18446744073709551617 255 abc",
            b"P6 1 1 255 ab",
            b"P6 2 1 255 abcde",
        ]
        self.check([(over(text), BAD_IMAGE) for text in texts])

    def test_bytes_after_the_raster_are_not_looked_at(self):
        texts = [b"P6 1 1 255 abcd", b"P6 1 1 255 abcP6 2 2 255 "]
        self.check([(over(text), shown(1, 1, b"abc")) for text in texts])

    def test_the_longest_sides(self):
        raster = bytes(24_576)
        self.check(
            [
                (over(b"P6 8192 1 255 " + raster), shown(8192, 1, raster)),
                (over(b"P6 1 8192 255 " + raster), shown(1, 8192, raster)),
                (over(b"P6 8192 1 255 " + raster[1:]), BAD_IMAGE),
                (over(b"P6 8193 1 255 " + raster + bytes(3)), BAD_IMAGE),
                (over(b"P6 1 8193 255 " + raster + bytes(3)), BAD_IMAGE),
            ]
        )


if __name__ == "__main__":
    unittest.main()
