"""Command lines of the built programs: what each command takes from its words, what is wrong usage, and help."""

import os
import unittest

from built import DOT, DOT_IMAGE, Answer, answer, for_each_program
from commands_test import DONE, DOT_CERT, DOT_REPORT, CommandTest

# Wrong command lines, and what is said of each.
WRONG = [
    ("", "requires a subcommand"),
    ("draw a.wmf 4 4", "unrecognized subcommand"),
    ("show", "were not provided"),
    ("show a.wmf 4", "were not provided"),
    ("show a.wmf 4 4 4", "unexpected argument"),
    ("show a.wmf 0 4", "0 is not in 1..=8192"),
    ("show a.wmf 4 8193", "8193 is not in 1..=8192"),
    ("show a.wmf x 4", "invalid value 'x'"),
    ("show a.wmf 4 -1", "unexpected argument"),
    ("show a.wmf 4 4294967296", "4294967296 is not in 1..=8192"),
    ("over a.wmf b.cert", "were not provided"),
    ("over a.wmf b.cert c.ppm 4", "unexpected argument"),
    ("--bands", "unexpected argument"),
    ("play a.wmf b.cert 4 4 --bands 0", "0 is not in 1..=8192"),
    ("play a.wmf b.cert 4 4 --bands=8193", "8193 is not in 1..=8192"),
    ("play a.wmf b.cert 4 4 --bands=1 --bands=1", "cannot be used multiple times"),
    ("show a.wmf 4 4 --bands 1", "unexpected argument"),
]

HELP = ["--help", "show --help", "prepare --help", "check --help", "play --help", "over --help", "help show"]

WHITE = b"P6\n4 4\n255\n" + b"\xff" * 48


class CommandLines(CommandTest):
    """Command lines in a folder with the dot's file, its certificate, and a white image."""

    def setUp(self):
        super().setUp()
        for name, given in [("a.wmf", DOT), ("b.cert", DOT_CERT), ("--help", DOT_CERT), ("c.ppm", WHITE)]:
            self.file(name, given)

    def told(self, program, words, given=b""):
        """What a program answers in the folder."""
        return answer(program, words, given, cwd=self.folder)

    @for_each_program
    def test_each_command_takes_its_words(self, program):
        image, report = Answer(0, DOT_IMAGE, b""), Answer(0, DOT_REPORT, b"")
        for words in ["show a.wmf 4 4", "play a.wmf b.cert 4 4", "play a.wmf b.cert 4 4 --bands 8192", "play --bands=1 a.wmf b.cert 4 4"]:
            self.assertEqual(self.told(program, words.split()), image, words)
        self.assertEqual(self.told(program, ["over", "a.wmf", "b.cert", "c.ppm"]), image)
        self.assertEqual(self.told(program, ["check", "a.wmf", "b.cert"]), report)
        self.assertEqual(self.told(program, ["check", "--", "stdin", "--help"], DOT), report)
        self.assertEqual(self.told(program, ["list", "a.wmf"]).out.count(b"\n"), 2)

    @for_each_program
    def test_sides_are_the_width_and_the_height_in_this_order(self, program):
        for width, height, wide, high in [("1", "8192", 1, 8192), ("400", "+3", 400, 3)]:
            head = b"P6\n%d %d\n255\n" % (wide, high)
            self.assertEqual(self.told(program, ["show", "a.wmf", width, height]).out[: len(head)], head)
        self.assertEqual(self.told(program, ["prepare", "a.wmf", "4", "5", "d.cert"]), DONE)
        self.assertEqual(self.kept(os.path.join(self.folder, "d.cert"))[4:12], b"\4\0\0\0\5\0\0\0")

    @for_each_program
    def test_each_wrong_command_line_has_status_2(self, program):
        for line, text in [*((line.split(), text) for line, text in WRONG), (["show", "a.wmf", "4", ""], "for '<H>'")]:
            told = self.told(program, line)
            self.assertEqual((told.status, told.out), (2, b""), line)
            self.assertIn(text, told.err.decode(), line)

    @for_each_program
    def test_help_that_is_asked_for_goes_to_standard_output(self, program):
        for line in HELP:
            told = self.told(program, line.split())
            self.assertEqual((told.status, told.err), (2, b""), line)
            self.assertIn("Usage: metaplay", told.out.decode(), line)


if __name__ == "__main__":
    unittest.main()
