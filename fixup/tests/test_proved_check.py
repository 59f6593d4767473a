"""--check: what the proved program says of a result."""

import os
import unittest
from unittest import mock

from metaplay_fixup.command import Command

from .command_case import OLD, PLAIN, CommandCase, Ran
from .oracle import ROOT

HELD = (ROOT / "samples/held.wmf").read_bytes()


class Checked(CommandCase):
    """--check, with a script in place of `metaplay`, and with the proved program if it is there."""

    PROVED = ROOT / "crates/meta_main/out/meta_main"

    def checker(self, script: str) -> Command:
        """A command whose checker is a script, which writes its words and its input down first."""
        path = self.fonts / "metaplay"
        path.write_text(f'#!/bin/sh\necho "$@" >"{self.fonts}/words"\ncat >"{self.fonts}/input"\n{script}\n')
        path.chmod(0o755)
        return Command(checker=str(path))

    def check(self, command: Command, data: bytes = PLAIN, *allowed: str) -> Ran:
        """A run with a check."""
        words = [word for name in allowed for word in ("--allow", name)]
        return self.run_command(self.file("a.wmf", data), self.out, "--check", "30", "40", *words, command=command)

    def test_accepted(self) -> None:
        """The checker gets the result, both sides, the profile and what is allowed."""
        ran = self.check(self.checker("exit 0"), PLAIN, "held-deletion", "emf-plus")
        self.assertEqual(ran, Ran(0, ""))
        self.assertEqual((self.fonts / "input").read_bytes(), PLAIN)
        prepare, stdin, width, height, certificate, *rest = (self.fonts / "words").read_text().split()
        self.assertEqual((prepare, stdin, width, height), ("prepare", "stdin", "30", "40"))
        self.assertEqual(rest, "--profile print --allow held-deletion --allow emf-plus".split())
        self.assertFalse(os.path.exists(os.path.dirname(certificate)))
        self.assertEqual(self.out.read_bytes(), PLAIN)

    def test_rejected(self) -> None:
        ran = self.check(self.checker("echo 'metaplay: HeldObject at record 5' >&2; exit 1"))
        self.assertEqual(ran, Ran(1, "metaplay-fixup: HeldObject at record 5 of the result\n"))
        self.assert_untouched("a.wmf")

    def test_report_of_a_rejected_result(self) -> None:
        """The report isn't touched either."""
        report = self.file("report", OLD)
        source, command = self.file("a.wmf", PLAIN), self.checker("exit 1")
        ran = self.run_command(source, self.out, "--report", report, "--check", "1", "1", command=command)
        self.assertEqual((ran.status, report.read_bytes()), (1, OLD))
        self.assert_untouched("a.wmf", "report")

    def test_failed(self) -> None:
        """A checker that runs out of memory, fails, ends by a signal, or isn't there."""
        for script, ran in (
            ("exit 4", Ran(4, "metaplay-fixup: OutOfMemory\n")),
            ("exit 3", Ran(3, "metaplay-fixup: cannot run metaplay\n")),
            ("exit 2", Ran(3, "metaplay-fixup: cannot run metaplay\n")),
            ("exit 127", Ran(3, "metaplay-fixup: cannot run metaplay\n")),
            ("kill -9 $$", Ran(3, "metaplay-fixup: cannot run metaplay\n")),
        ):
            self.assertEqual(self.check(self.checker(script)), ran)
            self.assert_untouched("a.wmf")
        ran = self.check(Command(checker=str(self.folder / "none")))
        self.assertEqual(ran, Ran(3, "metaplay-fixup: cannot run metaplay\n"))
        self.assert_untouched("a.wmf")

    def test_on_the_path(self) -> None:
        self.checker("exit 0")
        with mock.patch.dict(os.environ, PATH=f"{self.fonts}:{os.environ['PATH']}"):
            self.assertEqual(self.check(Command()), Ran(0, ""))
        self.assertEqual((self.fonts / "input").read_bytes(), PLAIN)

    def test_progress(self) -> None:
        """What is said before the last line goes on to standard error; that of a failure is the reason."""
        said = "echo 'metaplay: proving' >&2; echo 'metaplay: built' >&2"
        ran = self.check(self.checker(f"{said}; echo 'metaplay: HeldObject at record 5' >&2; exit 1"))
        lines = "metaplay-fixup: proving\nmetaplay-fixup: built\n"
        self.assertEqual(ran, Ran(1, f"{lines}metaplay-fixup: HeldObject at record 5 of the result\n"))
        ran = self.check(self.checker("echo 'metaplay: no rt on the PATH' >&2; exit 3"))
        self.assertEqual(ran, Ran(3, "metaplay-fixup: cannot run metaplay (no rt on the PATH)\n"))
        self.assertEqual(self.check(self.checker(said)).status, 0)

    @unittest.skipUnless(PROVED.exists(), "the proved program isn't built")
    def test_proved_program(self) -> None:
        command = Command(checker=str(self.PROVED))
        self.assertEqual(self.check(command, HELD), Ran(1, "metaplay-fixup: HeldObject at record 5 of the result\n"))
        self.assert_untouched("a.wmf")
        self.assertEqual(self.check(command, HELD, "held-deletion"), Ran(0, ""))
        self.assertEqual(self.out.read_bytes(), HELD)


if __name__ == "__main__":
    unittest.main()
