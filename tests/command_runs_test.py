"""Commands that write an image or a certificate: what they write, why they reject, and what becomes of it if it can't be written."""

import unittest

from built import DOT
from command_inputs import NOTHING, NOTHING_CERT, TRIANGLE, TRIANGLE_CERT, changed
from commands_test import DOT_CERT
from request_program import OVER, PLAY_COMMAND, PREPARE_COMMAND, SHOW, Command, CommandsTest, Ended, Output

CANNOT_WRITE = b"metaplay: cannot write\n"

# An output with space for each text here, and one that can't be flushed.
ROOM, UNFLUSHED = Output(1000), Output(1000, False)

NOT_METAFILE, NO_END, PAST_END = b"metaplay: NotMetafile\n", b"metaplay: NoEnd at record 1\n", b"metaplay: PastEnd at record 0\n"


class Show(CommandsTest):
    """`show`."""

    def test_showing_a_dot_writes_its_image(self):
        image = b"P6\n2 2\n255\n\xff\xff\xff\xff\0\0\xff\xff\xff\xff\xff\xff"
        self.check([(Command(SHOW, DOT, sides=(2, 2), out=ROOM), Ended(0, image))])

    def test_a_file_that_draws_nothing_is_white(self):
        image = b"P6\n2 1\n255\n\xff\xff\xff\xff\xff\xff"
        self.check([(Command(SHOW, DOT[:40] + DOT[54:], sides=(2, 1), out=ROOM), Ended(0, image))])

    def test_a_rejected_file_is_reported_in_one_line(self):
        cases = []
        for given, text in [(b"", NOT_METAFILE), (DOT[:54], NO_END), (DOT[:50], PAST_END)]:
            command = Command(SHOW, given, sides=(4, 4), out=ROOM)
            cases.append((command, Ended(1, b"", text)))
            # A fault of standard error doesn't change the status, but is returned.
            cases.append((command._replace(err=Output(0, False)), Ended(1, b"", b"", printed=False)))
        self.check(cases)


    def test_an_image_that_cannot_be_written_has_status_3(self):
        image = b"P6\n4 1\n255\n" + b"\xff" * 6 + b"\xff\0\0" + b"\xff" * 3
        outputs = [Output(0), Output(10), Output(22), Output(23, False)]
        command = Command(SHOW, DOT, sides=(4, 1))
        self.check([(command._replace(out=out), Ended(3, image[: out.most], CANNOT_WRITE)) for out in outputs])


class Prepare(CommandsTest):
    """`prepare`."""

    def test_a_certificate_is_written_whole(self):
        cases = [(TRIANGLE, (4, 4), TRIANGLE_CERT), (DOT, (4, 4), DOT_CERT), (NOTHING, (2, 3), NOTHING_CERT)]
        self.check([(Command(PREPARE_COMMAND, given, sides=sides, out=ROOM), Ended(0, text)) for given, sides, text in cases])

    def test_no_certificate_is_written_of_a_rejected_file(self):
        cases = [(b"", NOT_METAFILE), (TRIANGLE[:60], NO_END), (DOT[:50], PAST_END)]
        self.check([(Command(PREPARE_COMMAND, given, sides=(4, 4), out=UNFLUSHED), Ended(1, b"", text)) for given, text in cases])

    def test_a_certificate_that_cannot_be_written_has_status_3(self):
        outputs = [Output(0), Output(59), Output(60, False)]
        command = Command(PREPARE_COMMAND, TRIANGLE, sides=(4, 4))
        self.check([(command._replace(out=out), Ended(3, TRIANGLE_CERT[: out.most], CANNOT_WRITE)) for out in outputs])


def image_of(header, rows):
    """The P6 text of a header and rows of black (`#`) and white pixels."""
    return header + b"".join(b"\0\0\0" if pixel == "#" else b"\xff\xff\xff" for pixel in rows)


class Play(CommandsTest):
    """`play`."""

    def test_a_file_is_played_at_the_bound_and_below(self):
        cases = [
            (TRIANGLE, TRIANGLE_CERT, (4, 4), image_of(b"P6\n4 4\n255\n", "#####..##.#.##..")),
            (TRIANGLE, TRIANGLE_CERT, (2, 2), image_of(b"P6\n2 2\n255\n", "####")),
            (NOTHING, NOTHING_CERT, (2, 3), image_of(b"P6\n2 3\n255\n", "......")),
            (NOTHING, NOTHING_CERT, (1, 2), image_of(b"P6\n1 2\n255\n", "..")),
        ]
        rows_of_bands = [0, 1, 2, 3, 8192]
        self.check([(Command(PLAY_COMMAND, *given, rows, out=ROOM), Ended(0, image)) for *given, image in cases for rows in rows_of_bands])

    def test_a_surface_above_the_bound_is_rejected_after_the_check(self):
        poor = changed(TRIANGLE_CERT, 12, b"\x1f")
        cases = [
            (TRIANGLE, TRIANGLE_CERT, (5, 4), b"metaplay: SurfaceTooLarge\n"),
            (TRIANGLE, TRIANGLE_CERT, (4, 5), b"metaplay: SurfaceTooLarge\n"),
            (TRIANGLE, TRIANGLE_CERT, (8192, 8192), b"metaplay: SurfaceTooLarge\n"),
            (TRIANGLE, poor, (5, 4), b"metaplay: BudgetTooSmall\n"),
            (TRIANGLE[:60], TRIANGLE_CERT, (5, 4), NO_END),
            (b"", b"", (5, 4), NOT_METAFILE),
        ]
        self.check([(Command(PLAY_COMMAND, *given, out=UNFLUSHED), Ended(1, b"", text)) for *given, text in cases])

    def test_an_image_that_cannot_be_written_has_status_3(self):
        image = image_of(b"P6\n2 2\n255\n", "####")
        command = Command(PLAY_COMMAND, TRIANGLE, TRIANGLE_CERT, (2, 2), 1)
        outputs = [Output(0), Output(22), Output(23, False)]
        self.check([(command._replace(out=out), Ended(3, image[: out.most], CANNOT_WRITE)) for out in outputs])


# An image of 4 by 4 pixels, with a comment in its header and a word after its raster.
PAGE = b"P6 # page\n4 4\t255\nabcdefghijklmnopqrstuvwxyzABCDEFGHIJKLMNOPQRSTUVmore"

# The same with a red pixel at (2,1).
PRINTED = b"P6\n4 4\n255\nabcdefghijklmnopqr\xff\0\0vwxyzABCDEFGHIJKLMNOPQRSTUV"


def over(given, certificate, image, out=ROOM):
    """The command that plays a file over an image."""
    return Command(OVER, given, certificate, image=image, out=out)


class Over(CommandsTest):
    """`over`."""

    def test_a_file_is_played_over_an_image_at_its_size(self):
        cases = [
            (DOT, DOT_CERT, PAGE, PRINTED),
            (DOT, DOT_CERT, b"P6\n2 2\n255\nabcdefghijkl", b"P6\n2 2\n255\nabc\xff\0\0ghijkl"),
            (DOT, DOT_CERT, b"P6\n1 1\n255\nabc", b"P6\n1 1\n255\n\xff\0\0"),
            (TRIANGLE, TRIANGLE_CERT, b"P6\n2 2\n255\nabcdefghijkl", b"P6\n2 2\n255\n\0\0\0\0\0\0\0\0\0\0\0\0"),
            (NOTHING, NOTHING_CERT, b"P6 2 1 255 abcdef", b"P6\n2 1\n255\nabcdef"),
        ]
        self.check([(over(*given), Ended(0, image)) for *given, image in cases])

    def test_the_check_rejects_before_the_image_and_that_before_its_size(self):
        cases = [
            (b"", b"", b"", NOT_METAFILE),
            (DOT[:54], DOT_CERT, b"", NO_END),
            (DOT, changed(DOT_CERT, 12, b"\0"), b"", b"metaplay: BudgetTooSmall\n"),
            (DOT, DOT_CERT, b"", b"metaplay: BadImage\n"),
            (DOT, DOT_CERT, b"P5\n1 1\n255\nabc", b"metaplay: BadImage\n"),
            (DOT, DOT_CERT, b"P6\n5 1\n255\nabcdefghijklmn", b"metaplay: BadImage\n"),
            (DOT, DOT_CERT, b"P6\n8193 1\n255\nabc", b"metaplay: BadImage\n"),
            (DOT, DOT_CERT, b"P6\n5 1\n255\nabcdefghijklmno", b"metaplay: SurfaceTooLarge\n"),
            (DOT, DOT_CERT, b"P6\n1 5\n255\nabcdefghijklmno", b"metaplay: SurfaceTooLarge\n"),
        ]
        self.check([(over(*given, UNFLUSHED), Ended(1, b"", text)) for *given, text in cases])

    def test_an_image_over_another_that_cannot_be_written_has_status_3(self):
        outputs = [Output(0), Output(58), Output(59, False)]
        self.check([(over(DOT, DOT_CERT, PAGE, out), Ended(3, PRINTED[: out.most], CANNOT_WRITE)) for out in outputs])


if __name__ == "__main__":
    unittest.main()
