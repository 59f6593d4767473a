"""Words of the command line as a value."""

import unittest
from pathlib import Path

from metaplay_fixup.choice import FontRules
from metaplay_fixup.command_line import (
    Check,
    CommandLine,
    Extra,
    Side,
    Verification,
    Work,
    WrongUsage,
    read_command_line,
)
from metaplay_fixup.options import AlphaRule, Options


class Words(unittest.TestCase):
    """What correct words ask for."""

    def read(self, line: str) -> CommandLine:
        """The value of a line that asks for a conversion."""
        asked = read_command_line(line.split())
        assert isinstance(asked, CommandLine)
        return asked

    def test_least(self) -> None:
        """FILE and OUT alone: everything else is as the documentation says."""
        asked = self.read("a.wmf b.wmf")
        works = (Work("a.wmf", Path("b.wmf")),)
        self.assertEqual(asked, CommandLine(works, False, (), FontRules({}, None, ()), "cp1252", Options(), None, None))

    def test_fonts(self) -> None:
        asked = self.read(
            "a b --fonts x y --fonts z --map Arial=Carlito --map Foo=Bar=Baz --instead I --fallback F --fallback G"
        )
        self.assertEqual(asked.folders, (Path("x"), Path("y"), Path("z")))
        self.assertEqual(asked.rules, FontRules({"arial": "Carlito", "foo": "Bar=Baz"}, "I", ("F", "G")))

    def test_rules(self) -> None:
        asked = self.read("--alpha white a --drop-emf-plus --bound 512 b --code-page 932 --report r")
        self.assertEqual(asked.works, (Work("a", Path("b")),))
        self.assertEqual(asked.options, Options(512, AlphaRule.WHITE, False, True))
        self.assertEqual(self.read("a --text-only b").options, Options(text_only=True))
        self.assertEqual((asked.code_page, asked.report), ("cp932", Path("r")))

    def test_check(self) -> None:
        asked = self.read("a b --check 8192 1 --allow emf-plus --allow held-deletion --allow emf-plus")
        self.assertEqual(asked.check, Check(Side(8192, 1), ("emf-plus", "held-deletion")))

    def test_out_dir(self) -> None:
        asked = self.read("--out-dir d x/a.wmf b.wmf --fonts f")
        self.assertEqual(asked.works, (Work("x/a.wmf", Path("d/a.wmf")), Work("b.wmf", Path("d/b.wmf"))))
        self.assertTrue(asked.is_folder)

    def test_report_of_a_folder(self) -> None:
        self.assertEqual(self.read("--out-dir d a b --report r").report, Path("r"))

    def test_strokes(self) -> None:
        """Off by default."""
        self.assertFalse(self.read("a b").options.strokes)
        self.assertEqual(self.read("a b --strokes").options, Options(strokes=True))

    def test_verify(self) -> None:
        for line in ("--verify a stdin", "--text-only --verify a stdin", "--verify a stdin --text-only"):
            asked = read_command_line(line.split())
            self.assertEqual(asked, Verification("a", "stdin", "--text-only" in line))
        self.assertEqual(self.read("-- --verify b").works, (Work("--verify", Path("b")),))

    def test_names_like_options(self) -> None:
        self.assertEqual(self.read("-- -a --b").works, (Work("-a", Path("--b")),))

    def test_extras(self) -> None:
        for line, extra in (
            ("--help", Extra.HELP),
            ("-h a", Extra.HELP),
            ("--version", Extra.VERSION),
            ("-V", Extra.VERSION),
            ("--verify a b --help", Extra.HELP),
            ("--version --verify a b", Extra.VERSION),
        ):
            self.assertIs(read_command_line(line.split()), extra)


class WrongWords(unittest.TestCase):
    """What is wrong usage."""

    def assert_wrong(self, line: str, text: str) -> None:
        """The line is wrong, and this is said."""
        with self.assertRaises(WrongUsage) as raised:
            read_command_line(line.split())
        self.assertIn(text, raised.exception.text)

    def test_names(self) -> None:
        for line in ("", "a", "a b c", "--fonts a b c"):
            self.assert_wrong(line, "FILE and OUT are needed")

    def test_sides(self) -> None:
        for side in ("0", "8193", "-1", "x", "1.5", "", "٣", "99999999999999999999", "1_0"):
            with self.assertRaises(WrongUsage):
                read_command_line(["a", "b", f"--bound={side}"])
            with self.assertRaises(WrongUsage):
                read_command_line(["a", "b", "--check", "1", side])

    def test_options(self) -> None:
        self.assert_wrong("a b --code-page 1", "isn't a code page")
        self.assert_wrong("a b --code-page 1200", "isn't a code page")
        self.assert_wrong("a b --code-page x", "isn't a code page")
        self.assert_wrong("a b --map Arial", "isn't FACE=FAMILY")
        self.assert_wrong("a b --map =Arial", "isn't FACE=FAMILY")
        self.assert_wrong("a b --map Arial=", "isn't FACE=FAMILY")
        self.assert_wrong("a b --map Arial=A --map arial=B", "two families for arial")
        self.assert_wrong("a b --alpha black", "invalid choice")
        self.assert_wrong("a b --allow emf-plus", "--allow needs --check")
        self.assert_wrong("a b --check 1 1 --allow all", "invalid choice")
        self.assert_wrong("a b --text", "--text")
        self.assert_wrong("a b --check 1", "expected 2 arguments")

    def test_out_dir(self) -> None:
        self.assert_wrong("--out-dir d", "needs a FILE")
        self.assert_wrong("--out-dir d x/a.wmf y/a.wmf", "two files have the name a.wmf")
        self.assert_wrong("--out-dir d stdin", "has no name")
        self.assert_wrong("--out-dir d /", "has no name")

    def test_text_only(self) -> None:
        """Options about anything but text don't go with it; the promise of --verify couldn't hold."""
        for option in ("--strokes", "--drop-emf-plus", "--alpha white"):
            for line in (f"a b {option} --text-only", f"--out-dir d --text-only {option} a"):
                self.assert_wrong(line, f"{option.split()[0]} doesn't go with --text-only")

    def test_verify(self) -> None:
        """--verify goes with --text-only alone."""
        for line in ("--verify", "--verify a", "--verify=a b", "a --verify b", "--verify --text-only a"):
            self.assert_wrong(line, "expected 2 arguments")
        others = [
            "c",
            "--strokes",
            "--fonts f",
            "--report r",
            "--check 1 1",
            "--out-dir d",
            "--bound 8192",
            "--instead I",
        ]
        others += [
            "--alpha white",
            "--drop-emf-plus",
            "--allow emf-plus",
            "--map A=B",
            "--fallback F",
            "--code-page 932",
        ]
        for other in [*others, "-- c"]:
            self.assert_wrong(f"--verify a b {other}", "--verify doesn't go with")
            if not other.startswith("-- "):
                self.assert_wrong(f"{other} --verify a b", "--verify doesn't go with")
        self.assert_wrong("--verify stdin stdin", "only one file can be stdin")


if __name__ == "__main__":
    unittest.main()
