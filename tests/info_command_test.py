"""The command `info`: one line a file, in order, and the status of the worst file."""

import json
import os
import subprocess
import unittest

from built import DOT, Answer, answer, for_each_program
from commands_test import CommandTest
from program_test import CANNOT_READ, CANNOT_WRITE
from reading.info import info


def unread(name, error="cannot read"):
    """The line of a file that wasn't read."""
    known = json.loads(info("", DOT)[0])
    members = {**dict.fromkeys(sorted(known)), "error": error, "file": name}
    return json.dumps(members, separators=(",", ":"), ensure_ascii=False).encode() + b"\n"


class InfoCommand(CommandTest):
    """`info` in a folder with files that play, and some that don't."""

    def setUp(self):
        super().setUp()
        self.files = {"dot.wmf": DOT, "empty.wmf": b"", "cut.wmf": DOT[:50], "Zoë \"1\".wmf": DOT}
        for name, given in self.files.items():
            self.file(name, given)

    def told(self, program, names, given=b""):
        """What a program answers in the folder about files with these names."""
        return answer(program, ["info", *names], given, cwd=self.folder)

    def lines(self, names):
        """The lines of files of the folder."""
        return b"".join(info(name, self.files[name])[0] for name in names)

    @for_each_program
    def test_each_file_has_its_line_in_order(self, program):
        self.assertEqual(self.told(program, ["dot.wmf"]), Answer(0, self.lines(["dot.wmf"]), b""))
        for names in [list(self.files), list(self.files)[::-1], ["dot.wmf"] * 200, ["empty.wmf", "dot.wmf"] * 100]:
            status = 1 if {"empty.wmf", "cut.wmf"} & set(names) else 0
            self.assertEqual(self.told(program, names), Answer(status, self.lines(names), b""))

    @for_each_program
    def test_standard_input_may_be_one_of_the_files(self, program):
        line = info("stdin", DOT)[0]
        self.assertEqual(self.told(program, ["stdin"], DOT), Answer(0, line, b""))
        wanted = self.lines(["empty.wmf"]) + line + self.lines(["dot.wmf"])
        self.assertEqual(self.told(program, ["empty.wmf", "stdin", "dot.wmf"], DOT), Answer(1, wanted, b""))

    @for_each_program
    def test_standard_input_twice_is_wrong_usage(self, program):
        for names in (["stdin", "stdin"], ["stdin", "dot.wmf", "stdin"]):
            told = self.told(program, names, DOT)
            self.assertEqual((told.status, told.out), (2, b""), names)
            self.assertIn(b"standard input was given more than once", told.err)

    @for_each_program
    def test_a_file_that_cannot_be_read_has_a_line_too(self, program):
        os.makedirs(os.path.join(self.folder, "folder"), exist_ok=True)
        for name in ("nothing.wmf", "folder"):
            names = ["empty.wmf", name, "dot.wmf"]
            wanted = self.lines(["empty.wmf"]) + unread(name) + self.lines(["dot.wmf"])
            self.assertEqual(self.told(program, names), Answer(3, wanted, CANNOT_READ.err), name)

    @for_each_program
    def test_a_name_that_is_not_text_has_a_line_too(self, program):
        """No file is opened by it, nor the one whose name it looks like."""
        self.file("\ufffd\ufffd.wmf", DOT)
        self.file(b"a\xff\xfe\xc3.wmf".decode(errors="surrogateescape"), DOT)
        for name, shown in [(b"\xff\xfe.wmf", "\ufffd\ufffd.wmf"), (b"a\xff\xfe\xc3.wmf", "a\ufffd\ufffd\ufffd.wmf"), (b"\xe2\x82", "\ufffd\ufffd")]:
            wanted = self.lines(["dot.wmf"]) + unread(shown, "the name is not UTF-8") + self.lines(["empty.wmf"])
            self.assertEqual(self.told(program, ["dot.wmf", name, "empty.wmf"]), Answer(3, wanted, CANNOT_READ.err), name)

    @for_each_program
    def test_words_that_are_not_text(self, program):
        """Only names of files may be so."""
        bad = b"\xff"
        for words in ([bad], ["show", bad, "4", "4"], ["show", "dot.wmf", bad, "4"], ["info", "--profile", bad, "dot.wmf"], ["info", bad, "--all"]):
            told = answer(program, words, cwd=self.folder)
            self.assertEqual(told, Answer(2, b"", b"metaplay: the command line is not UTF-8 text\n"), words)
        for words in (["certify", "--out-dir", bad, "4", "4", "dot.wmf"], ["check", "dot.wmf", bad], ["list", bad], ["info", "stdin", bad, "stdin"]):
            told = answer(program, words, cwd=self.folder)
            self.assertEqual(told, Answer(2, b"", b"metaplay: the command line is not UTF-8 text\n"), words)

    @for_each_program
    def test_names_that_are_no_file_names_of_ours(self, program):
        for words, text in [([], b"were not provided"), (["--all"], b"unexpected argument"), (["dot.wmf", "-x"], b"unexpected argument")]:
            told = self.told(program, words)
            self.assertEqual((told.status, told.out), (2, b""), words)
            self.assertIn(text, told.err)

    @for_each_program
    def test_an_output_that_is_full(self, program):
        with open("/dev/full", "wb") as full:
            ran = subprocess.run([program, "info", "dot.wmf"], cwd=self.folder, stdout=full, stderr=subprocess.PIPE)
        self.assertEqual(Answer(ran.returncode, b"", ran.stderr), CANNOT_WRITE)


if __name__ == "__main__":
    unittest.main()
