"""The script `metaplay-fixup`, as a program of its own."""

import os
import re
import shutil
import subprocess
import unittest
from pathlib import Path
from typing import Any

from metaplay_fixup.version import VERSION

from .command_case import OLD, PLAIN, CommandCase, text_file
from .oracle import ROOT

LAUNCHER = ROOT / "fixup/metaplay-fixup"


class Launcher(CommandCase):
    """Runs of the script."""

    def ran(self, *words: str | Path, program: str | Path = LAUNCHER, **settings: Any) -> tuple[int, bytes, bytes]:
        """The status, and what was written to standard output and standard error."""
        settings = {"stdout": subprocess.PIPE, "stderr": subprocess.PIPE, "cwd": self.folder, **settings}
        ended = subprocess.run([program, *words], check=False, **settings)
        return ended.returncode, ended.stdout, ended.stderr

    def test_statuses(self) -> None:
        """Each status that a test can bring about."""
        good, bad = self.file("a.emf", text_file("A")), self.file("b.emf", text_file("C"))
        fault = b"metaplay-fixup: MissingGlyph (U+0043 in Squares) at record 4\n"
        self.assertEqual(self.ran(bad, self.out, "--fonts", self.fonts), (1, b"", fault))
        self.assertEqual(self.ran(good, good), (2, b"", b"metaplay-fixup: OUT is FILE\n"))
        self.assertEqual(self.ran("none", self.out), (3, b"", b"metaplay-fixup: cannot read\n"))
        self.assertEqual(self.out.read_bytes(), OLD)
        self.assertEqual(self.ran(good, self.out, "--fonts", self.fonts), (0, b"", b""))

    def test_version(self) -> None:
        """It is that of the newest entry of CHANGELOG.md."""
        newest = re.search(r"^## ([0-9.]+)$", (ROOT / "CHANGELOG.md").read_text("utf-8"), re.MULTILINE)
        assert newest is not None
        self.assertEqual(VERSION, newest[1])
        self.assertEqual(self.ran("--version"), (0, f"metaplay-fixup {VERSION}\n".encode(), b""))

    def test_help(self) -> None:
        """Help goes to standard output, and has each option."""
        status, text, error = self.ran("--help")
        self.assertEqual((status, error), (2, b""))
        options = "--fonts --map --instead --fallback --code-page --text-only --alpha --drop-emf-plus --bound"
        for option in f"{options} --strokes --report --check --allow --out-dir --verify --version".split():
            self.assertIn(option.encode(), text)

    def test_full_output(self) -> None:
        """The version can't be written; for help that doesn't matter."""
        with open("/dev/full", "wb") as full:
            self.assertEqual(self.ran("-V", stdout=full), (3, None, b"metaplay-fixup: cannot write\n"))
            self.assertEqual(self.ran("-h", stdout=full), (2, None, b""))

    def test_standard_input(self) -> None:
        self.assertEqual(self.ran("stdin", self.out, input=PLAIN), (0, b"", b""))
        self.assertEqual(self.out.read_bytes(), PLAIN)

    def test_closed_streams(self) -> None:
        """Without any standard stream it can't read stdin, but a file."""
        source = self.file("a.wmf", PLAIN)
        words = ("-c", '"$0" "$@" <&- >&- 2>&-', LAUNCHER)
        self.assertEqual(self.ran(*words, "stdin", self.out, program="/bin/sh")[0], 3)
        self.assertEqual(self.ran(*words, "-V", program="/bin/sh")[0], 3)
        self.assertEqual(self.ran(*words, "-h", program="/bin/sh")[0], 2)
        self.assertEqual(self.out.read_bytes(), OLD)
        self.assertEqual(self.ran(*words, source, self.out, program="/bin/sh")[0], 0)
        self.assertEqual(self.out.read_bytes(), PLAIN)

    def test_standard_output(self) -> None:
        """OUT may be /dev/stdout, where that is a pipe."""
        self.assertEqual(self.ran(self.file("a.wmf", PLAIN), "/dev/stdout"), (0, PLAIN, b""))

    def test_own_package(self) -> None:
        """Neither the folder nor the environment can put another package in its place."""
        for name in ("metaplay_fixup", "freetype", "argparse"):
            (self.folder / f"{name}.py").write_text("raise SystemExit(77)\n")
        environment = {**os.environ, "PYTHONPATH": str(self.folder), "PYTHONSTARTUP": str(self.folder / "argparse.py")}
        self.assertEqual(self.ran("-V", env=environment)[0], 0)

    def test_through_a_link(self) -> None:
        link = self.folder / "link"
        os.symlink(LAUNCHER, link)
        self.assertEqual(self.ran("-V", program=link)[0], 0)

    def test_checker_beside(self) -> None:
        """The `metaplay` of the folder that it is called from goes before the one on the PATH."""
        beside, link = self.folder / "metaplay", self.folder / "link"
        os.symlink(LAUNCHER, link)
        words = (self.file("a.wmf", PLAIN), self.out, "--check", "4", "4")
        for status, line in ((0, b""), (1, b"metaplay-fixup: HeldObject at record 5 of the result\n")):
            beside.write_text(f"#!/bin/sh\necho 'metaplay: HeldObject at record 5' >&2\nexit {status}\n")
            beside.chmod(0o755)
            self.assertEqual(self.ran(*words, program=link), (status, b"", line))
        beside.chmod(0o644)
        self.assertEqual(self.ran(*words, program=link, env={"PATH": "/usr/bin:/bin"})[0], 3)

    def test_missing_module(self) -> None:
        """It names the module, and what has it."""
        root = self.folder / "fixup"
        shutil.copytree(LAUNCHER.parent, root, ignore=shutil.ignore_patterns("tests", "__pycache__"))
        (root / "freetype.py").write_text("import metaplay_without_freetype\n")
        line = b"metaplay-fixup: the Python module metaplay_without_freetype is missing; Debian's packages "
        said = (3, b"", line + b"python3-freetype and python3-pil have what is needed\n")
        self.assertEqual(self.ran("-V", program=root / "metaplay-fixup"), said)

    def test_plain_locale(self) -> None:
        """Names that aren't ASCII, and one that isn't UTF-8, under the locale C."""
        for name in ("é.wmf".encode(), b"\xff.wmf"):
            path = os.fsencode(self.folder) + b"/" + name
            with open(path, "wb") as file:
                file.write(PLAIN)
            out = path + b".out"
            environment = {"PATH": os.environ["PATH"], "LC_ALL": "C"}
            ended = subprocess.run([LAUNCHER, path, out], env=environment, capture_output=True, check=False)
            self.assertEqual((ended.returncode, ended.stderr), (0, b""))
            with open(out, "rb") as file:
                self.assertEqual(file.read(), PLAIN)
            missing = subprocess.run([LAUNCHER, b"\xff", out, "--fonts", b"\xff"], capture_output=True, check=False)
            line = b"metaplay-fixup: cannot read (the folder \\udcff)\n"
            self.assertEqual((missing.returncode, missing.stderr), (3, line))


if __name__ == "__main__":
    unittest.main()
