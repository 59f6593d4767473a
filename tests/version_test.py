"""The version of the program and that of the header in C are that of CHANGELOG.md, and the program's checksum is that of the sources."""

import pathlib
import re
import subprocess
import unittest

from built import PROGRAMS, ROOT, Answer, answer, for_each_program

VERSION = ROOT / "crates/meta_main/src/version.rt"


def newest():
    """The version of the changelog's newest entry."""
    return re.search(r"^## (\S+)$", (ROOT / "CHANGELOG.md").read_text("utf-8"), re.MULTILINE)[1]


def wanted():
    """The line, by the newest entry of the changelog and by the checksum that the launcher computes."""
    number = newest()
    sources = subprocess.run([ROOT / "launcher/record"], capture_output=True, text=True, check=True).stdout.strip()
    return f"metaplay {number} (sources {sources})\n"


class Source(unittest.TestCase):
    """The source of the version."""

    def test_it_is_fresh(self):
        line = wanted().replace("\n", "\\n")
        self.assertIn(f'\n    "{line}";\n', VERSION.read_text("utf-8"), "launcher/version writes it")
        self.assertRegex(line, r"^metaplay [0-9]+\.[0-9]+\.[0-9]+ \(sources [0-9a-f]{64}\)")


class Header(unittest.TestCase):
    """The header of the library for C."""

    def test_its_version_is_the_newest(self):
        header = (ROOT / "include/metaplay.h").read_text("ascii")
        found = [re.search(rf"(?m)^#define METAPLAY_VERSION_{part} (\d+)$", header)[1] for part in ("MAJOR", "MINOR", "PATCH")]
        self.assertEqual(".".join(found), newest())


class Version(unittest.TestCase):
    """The program."""

    @for_each_program
    def test_both_words_print_it(self, program):
        for word in ["--version", "-V"]:
            self.assertEqual(answer(program, [word]), Answer(0, wanted().encode(), b""))

    @for_each_program
    def test_no_other_words(self, program):
        for words in [["--version", "--version"], ["-V", "-V"], ["--version", "x"], ["-VV"], ["--Version"], ["--version="], ["version"], ["show", "-V"]]:
            told = answer(program, words)
            self.assertEqual((told.status, told.out), (2, b""), words)

    def test_a_full_device_is_reported(self):
        with pathlib.Path("/dev/full").open("wb") as full:
            told = subprocess.run([PROGRAMS[0], "--version"], stdout=full, stderr=subprocess.PIPE, check=False)
        self.assertEqual((told.returncode, told.stderr), (3, b"metaplay: cannot write\n"))


if __name__ == "__main__":
    unittest.main()
