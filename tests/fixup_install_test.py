"""`metaplay install` and `uninstall`: metaplay-fixup runs where it is installed, by any name, writes nothing there, and leaves nothing."""

import os
import shutil
import subprocess
import unittest

from built import ROOT
from fixup_files import COMPILED, FIXUP_FILES, FOLDER, SAMPLE
from launcher_folder import InstallFolder, files_in
from packages import PYTHON

# Without a `metaplay`.
PATH = "/usr/bin:/bin"


class Installed(InstallFolder):
    """Installations of the fix-up, beside a program that a script builds."""

    def setUp(self):
        super().setUp()
        # A folder's name may have nearly any sign, but those that an installed file couldn't name.
        self.prefix = self.folder / "an *?[a-z] (é);#~ <folder>"
        self.program = self.prefix / "bin/metaplay-fixup"
        (self.folder / "source.wmf").write_bytes(SAMPLE)

    def install(self):
        """Installs all."""
        self.is_installed(["low", "meta_main", "low", "metaplay_c"])

    def ran(self, *words, program=None):
        """What a run answers: its status, its output, and its messages."""
        words = [program or self.program, *words]
        ended = subprocess.run(words, cwd=self.folder, env={"PATH": PATH}, stdin=subprocess.DEVNULL, capture_output=True, text=True, check=False)
        return ended.returncode, ended.stdout, ended.stderr

    def converts(self, source="source.wmf", target="target.wmf", *words, program=None):
        """Checks that the program converts a file."""
        self.assertEqual(self.ran(source, target, *words, program=program), (0, "", ""))
        self.assertEqual((self.folder / target).read_bytes(), SAMPLE)
        (self.folder / target).unlink()

    def test_each_file_is_installed_and_removed(self):
        self.install()
        found = files_in(self.prefix)
        self.assertEqual({name: found.get(name) for name in FIXUP_FILES | COMPILED}, FIXUP_FILES | COMPILED)
        own = {name for name in found if "fixup" in name and name != "share/doc/metaplay/fixup.png"}
        self.assertEqual(own, {name for name in FIXUP_FILES | COMPILED if "fixup" in name})
        self.assertEqual(os.readlink(self.program), f"../{FOLDER}/metaplay-fixup")
        self.converts()
        self.assertEqual(self.call("uninstall", str(self.prefix)), (0, "", ""))
        self.assertEqual((files_in(self.prefix), (self.prefix / "share/metaplay").exists()), ({}, False))

    def test_modules_are_compiled_once(self):
        self.install()
        words = [PYTHON, "-IBv", self.prefix / FOLDER / "metaplay-fixup", "--version"]
        said = subprocess.run(words, capture_output=True, text=True, check=True).stderr
        own = [line for line in said.splitlines() if line.startswith(f"# code object from '{self.prefix}")]
        self.assertGreater(len(own), 50)
        self.assertEqual([line for line in own if not line.endswith(".pyc'")], [])

    def test_a_run_writes_no_compiled_module(self):
        self.install()
        folders = list((self.prefix / FOLDER).rglob("__pycache__"))
        self.assertEqual(len(folders), 2)
        for folder in folders:
            shutil.rmtree(folder)
        before = files_in(self.prefix)
        self.converts()
        self.assertEqual(files_in(self.prefix), before)

    def test_files_that_others_compiled_go_too(self):
        self.install()
        for name in COMPILED:
            (self.prefix / name.replace(".cpython", ".older")).write_text("")
        self.assertEqual(self.call("uninstall", str(self.prefix)), (0, "", ""))
        self.assertEqual(files_in(self.prefix), {})

    def test_everybody_may_run_it_whatever_the_umask(self):
        before = os.umask(0o077)
        self.addCleanup(os.umask, before)
        self.install()
        inner = [it for it in [self.prefix, *self.prefix.rglob("*")] if not it.is_symlink()]
        self.assertEqual([str(it) for it in inner if it.stat().st_mode & 0o055 != (0o055 if it.is_dir() else it.stat().st_mode & 0o011 | 0o044)], [])

    def test_names_of_all_sorts(self):
        self.install()
        for name in ("a b", " c ", "*", "?[a-z]", "it's", '"q"', "$HOME", "`date`", "~", "#", "é", "a;b&c|d>e", "a\\b", "line\nfeed"):
            (self.folder / name).write_bytes(SAMPLE)
            self.converts(name, f"{name} out")
            link = self.folder / f"to {name}"
            link.symlink_to(self.program)
            self.converts(program=link)
        (self.folder / "-n").write_bytes(SAMPLE)
        self.assertEqual(self.ran("--", "-n", "--fonts"), (0, "", ""))
        self.assertEqual((self.folder / "--fonts").read_bytes(), SAMPLE)

    def test_a_check_is_by_the_program_beside_it(self):
        self.install()
        self.converts("source.wmf", "target.wmf", "--check", "4", "4")
        (self.prefix / "bin/metaplay").unlink()
        words = ("source.wmf", "target.wmf", "--check", "4", "4")
        self.assertEqual(self.ran(*words), (3, "", "metaplay-fixup: cannot run metaplay\n"))

    def test_without_debians_python_the_rest_is_installed(self):
        launcher = self.root / "launcher/fixup.sh"
        text = launcher.read_text()
        self.assertIn("\npython=/usr/bin/python3\n", text)
        launcher.write_text(text.replace("\npython=/usr/bin/python3\n", "\npython=/none\n"))
        status, out, err = self.call("install", str(self.prefix))
        self.assertEqual((status, out, err.splitlines()[-1]), (0, "", "metaplay: metaplay-fixup needs /none, version 3.11 or newer"))
        self.assertEqual(files_in(self.prefix)["bin/metaplay"], True)
        self.converts()

    def test_a_folder_in_place_of_the_command_is_status_3(self):
        (self.program / "inner").mkdir(parents=True)
        status, out, err = self.call("install", str(self.prefix))
        self.assertEqual((status, out, err.splitlines()[-1]), (3, "", f"metaplay: {self.program} is a folder"))
        self.assertEqual(files_in(self.prefix), {})

    def test_another_command_of_that_name_stays(self):
        self.install()
        self.program.unlink()
        self.program.write_text("another")
        self.assertEqual(self.call("uninstall", str(self.prefix)), (0, "", ""))
        self.assertEqual(files_in(self.prefix), {"bin/metaplay-fixup": False})

    def test_a_clone_has_it_beside_the_launcher(self):
        self.assertEqual(os.readlink(ROOT / "metaplay-fixup"), "fixup/metaplay-fixup")
        self.converts(program=self.root / "metaplay-fixup")
        odd = self.folder / "to *'\" it"
        odd.symlink_to(self.root / "metaplay-fixup")
        self.converts(program=odd)


if __name__ == "__main__":
    unittest.main()
