"""The launcher's `install` and `uninstall`: what they have built before, and when they install nothing."""

import shutil
import subprocess
import unittest

from launcher_folder import InstallFolder


class Installing(InstallFolder):
    """Installations, with a library for C that has one function."""

    def test_the_program_and_the_library_are_built_once(self):
        self.is_installed(["low", "meta_main", "low", "metaplay_c"])
        self.assertTrue((self.prefix / "lib/libmetaplay.so").exists())
        self.is_installed([])
        self.is_run("first", [])
        self.write("crates/metaplay_c/src/lib.rt", "changed\n")
        self.is_run("first", [])
        self.is_installed(["low", "metaplay_c"])

    def test_a_recorded_library_is_not_built(self):
        self.is_run("first", ["low", "meta_main"])
        (self.root / "crates/metaplay_c/out").mkdir()
        shutil.copy(self.kit / "archive", self.root / "crates/metaplay_c/out/libmetaplay_c.a")
        record = [self.root / "launcher/record", "--library"]
        sources = subprocess.run(record, capture_output=True, text=True, check=True, env=self.settings).stdout.strip()
        subprocess.run([*record, sources], check=True, env=self.settings)
        self.is_installed([])
        self.is_run("first", [])

    def test_nothing_is_installed_without_the_library(self):
        self.is_run("first", ["low", "meta_main"])
        (self.kit / "fails").touch()
        status, out, err = self.call("install", str(self.prefix))
        self.assertEqual((status, out), (3, ""))
        self.assertRegex(err, r"metaplay: low could not be built; see .*low\.log\n")
        self.assertFalse(self.prefix.exists())

    def stay(self, own):
        """Checks that these files, and no others, are left when an installation is removed."""
        for path in own:
            path.write_text(str(path))
            path.chmod(0o755 if path.suffix == ".sh" else 0o644)
        self.assertEqual(self.call("uninstall", str(self.prefix)), (0, "", ""))
        self.assertEqual(sorted(path for path in self.prefix.rglob("*") if not path.is_dir()), sorted(own))
        self.assertEqual([path.read_text() for path in own], [str(path) for path in own])

    def test_files_of_the_user_stay_in_each_folder(self):
        self.is_installed(["low", "meta_main", "low", "metaplay_c"])
        folders = [self.prefix, *(path for path in self.prefix.rglob("*") if path.is_dir())]
        for name in ("recipes", "fixup/metaplay_fixup/__pycache__"):
            self.assertIn(self.prefix / "share/metaplay" / name, folders)
        names = ("mine", ".mine", "mine.sh", "mine.md", "mine.py", "mine.pyc", "metaplay-mine", "libmetaplay.mine", "a *")
        self.stay([folder / name for folder in folders for name in names])

    def test_a_lone_file_of_the_user_stays(self):
        self.is_installed(["low", "meta_main", "low", "metaplay_c"])
        for folder in ("share/metaplay/recipes", "share/metaplay/fixup/metaplay_fixup/__pycache__", "share/metaplay", "share/doc/metaplay"):
            self.stay([self.prefix / folder / "mine"])
            (self.prefix / folder / "mine").unlink()
            self.is_installed([])

    def test_nothing_is_built_to_uninstall(self):
        told = f"metaplay: nothing was installed below {self.prefix}\n"
        self.assertEqual((self.call("uninstall", str(self.prefix)), self.calls()), ((0, "", told), []))


if __name__ == "__main__":
    unittest.main()
