"""The Debian packages of the gate, with scripts in place of dpkg-query and apt-get: root has those installed that are missing, others are told how,
and nothing is proved without them."""

import contextlib
import io
import os
import pathlib
import sys
import tempfile
import unittest
from unittest import mock

import gate
import packages
import run
from packages import PACKAGES

# Prints a line for each package that it is asked for, if `there` names it.
DPKG_QUERY = """#!/bin/sh
for word do
    if grep -qx "$word" "$(dirname "$0")/there"; then echo "$word installed"; else echo "no packages found matching $word" >&2; fi
done
"""

# Writes down its words, and adds the packages that it is to install to `there`, unless it fails.
APT_GET = """#!/bin/sh
folder=$(dirname "$0")
echo "$DEBIAN_FRONTEND: $*" >>"$folder/calls"
if [ -e "$folder/fails" ]; then echo "no network"; exit 100; fi
for word do echo "$word"; done >>"$folder/there"
"""

QUIETLY = "-qq -y -o DPkg::Lock::Timeout=600"

MISSING = ["mypy", "fonts-liberation"]

LINE = "apt-get install --no-install-recommends mypy fonts-liberation"


class Packages(unittest.TestCase):
    """A machine on which two packages are missing."""

    def setUp(self):
        folder = tempfile.TemporaryDirectory()
        self.addCleanup(folder.cleanup)
        self.folder = pathlib.Path(folder.name)
        for name, text in (("dpkg-query", DPKG_QUERY), ("apt-get", APT_GET)):
            (self.folder / name).write_text(text)
            (self.folder / name).chmod(0o755)
        self.has_installed([it for it in PACKAGES if it not in MISSING])

    def has_installed(self, names):
        """The machine has these packages."""
        (self.folder / "there").write_text("".join(f"{it}\n" for it in names))

    def calls(self):
        """The words of each call of apt-get."""
        path = self.folder / "calls"
        return path.read_text().splitlines() if path.exists() else []

    def ended(self, user, wanted=packages.have_installed, path=None):
        """The status for a user with this number, and what was said."""
        said, path = io.StringIO(), path or f"{self.folder}:{os.environ['PATH']}"
        with mock.patch.object(os, "geteuid", lambda: user), mock.patch.dict(os.environ, PATH=path), contextlib.redirect_stdout(said):
            return wanted(), said.getvalue()

    def test_nothing_is_said_where_none_is_missing(self):
        self.has_installed(PACKAGES)
        for user in (0, 1000):
            self.assertEqual((self.ended(user), self.calls()), ((0, ""), []))

    def test_a_user_is_told_the_line(self):
        self.assertEqual((self.ended(1000), self.calls()), ((1, f"gate: packages are missing; as root: {LINE}\n"), []))

    def test_a_package_that_was_removed_is_missing(self):
        query = (self.folder / "dpkg-query").read_text().replace('"$word installed"', '"$word config-files"')
        (self.folder / "dpkg-query").write_text(query)
        self.assertEqual(self.ended(1000), (1, f"gate: packages are missing; as root: apt-get install --no-install-recommends {' '.join(PACKAGES)}\n"))

    def test_root_has_them_installed(self):
        self.assertEqual(self.ended(0), (0, "gate: installs mypy fonts-liberation\n"))
        install = f"noninteractive: install --no-install-recommends {QUIETLY} mypy fonts-liberation"
        self.assertEqual(self.calls(), [f"noninteractive: update {QUIETLY}", install])
        self.assertEqual(self.ended(0), (0, ""))

    def test_root_is_told_the_line_where_that_fails(self):
        (self.folder / "fails").touch()
        said = f"gate: installs mypy fonts-liberation\nno network\nno network\ngate: packages are missing; as root: {LINE}\n"
        self.assertEqual(self.ended(0), (1, said))

    def test_a_package_that_is_missing_after_all_is_reported(self):
        (self.folder / "apt-get").write_text("#!/bin/sh\n")
        self.assertEqual(self.ended(0), (1, f"gate: installs mypy fonts-liberation\ngate: packages are missing; as root: {LINE}\n"))

    def test_another_system_is_told_what_is_needed(self):
        with tempfile.TemporaryDirectory() as empty:
            status, said = self.ended(0, path=empty)
        self.assertEqual((status, said), (1, f"gate: this isn't Debian, whose packages the tests need: {' '.join(PACKAGES)}\n"))

    def test_the_gate_stops_before_the_proofs(self):
        begun = []
        with contextlib.ExitStack() as stack:
            stack.enter_context(mock.patch.object(sys, "argv", ["gate.py"]))
            stack.enter_context(contextlib.chdir(run.TESTS))
            for name in ("beside", "in_turn", "Clock"):
                stack.enter_context(mock.patch.object(gate, name, lambda *_, name=name: begun.append(name)))
            status, said = self.ended(1000, gate.main)
        self.assertEqual((status, said, begun), (1, f"gate: packages are missing; as root: {LINE}\n", []))


class Files(unittest.TestCase):
    """The tests of the fix-up are files of the gate."""

    def test_that_each_file_has_its_interpreter_and_folder(self):
        files = {it.name: it for it in run.files()}
        self.assertEqual(files["packages_test"][1:], (sys.executable, run.TESTS, "packages_test"))
        self.assertEqual(files["fixup/test_fixed"][1:], ("/usr/bin/python3", run.FIXUP, "tests.test_fixed"))
        self.assertEqual(sum(name.startswith("fixup/") for name in files), len(list(run.FIXUP.glob("tests/test_*.py"))))
        self.assertEqual(run.names(), set(files))

    def test_a_failing_file_of_the_fix_up_fails_the_run(self):
        with tempfile.TemporaryDirectory() as folder, contextlib.redirect_stdout(io.StringIO()) as said:
            fixup = pathlib.Path(folder)
            (fixup / "tests").mkdir()
            for name, wanted in (("good", 2), ("bad", 3)):
                text = f"import unittest\n\n\nclass Sums(unittest.TestCase):\n    def test_sum(self):\n        self.assertEqual(1 + 1, {wanted})\n"
                (fixup / f"tests/test_{name}.py").write_text(text)
            with mock.patch.object(run, "FIXUP", fixup):
                statuses = [run.run_all({"fixup/test_good"}), run.run_all({"fixup/test_good", "fixup/test_bad"})]
        self.assertEqual(statuses, [0, 1])
        self.assertIn("fixup/test_bad: NOT PASSED\n", said.getvalue())
        self.assertIn("\n2 tests ran, 1 of 2 files failed\n", said.getvalue())


if __name__ == "__main__":
    unittest.main()
