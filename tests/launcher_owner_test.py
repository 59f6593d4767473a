"""The launcher in a clone of another user, which it can't write to: what is built runs, and what isn't is status 3."""

import os
import subprocess
import unittest

from launcher_folder import Folder


class Others(Folder):
    """A folder of somebody else, who lets others read it only."""

    def setUp(self):
        super().setUp()
        self.folder.chmod(0o755)
        self.kit.chmod(0o777)

    def lock(self, *names):
        """Has nobody write to these folders of the launcher's. Root could all the same, and so calls it as another user."""
        for folder in (self.root / name for name in names):
            for path in [folder, *folder.rglob("*")]:
                mode = path.stat().st_mode & 0o777
                path.chmod(mode & 0o555)
                self.addCleanup(path.chmod, mode)

    def call_as_other(self, *words):
        """The launcher's status, its output, and its messages."""
        who = {"user": 65534, "group": 65534, "extra_groups": []} if os.geteuid() == 0 else {}
        ran = subprocess.run([self.root / "metaplay", *words], stdin=subprocess.DEVNULL, capture_output=True, text=True, check=False, env=self.settings, **who)
        return ran.returncode, ran.stdout, ran.stderr

    def test_a_changed_folder_is_status_3(self):
        self.is_run("first", ["low", "meta_main"])
        self.write("crates/low/src/lib.rt", "changed")
        self.lock("crates")
        told = f"metaplay: cannot write to {self.root}/crates/meta_main/out, where it has to be built\n"
        for words in (["list", "x"], ["--help"], ["--version"], ["install", "/none"]):
            self.assertEqual((self.call_as_other(*words), self.calls()), ((3, "", told), []), words)
        self.assertEqual(self.call_as_other("try", "stdin", "4", "4")[:2], (0, "tried try -- show stdin 4 4\n"))

    def test_a_folder_in_which_nothing_is_built_is_status_3(self):
        self.lock("crates")
        told = f"metaplay: cannot write to {self.root}/crates/meta_main/out, where it has to be built\n"
        self.assertEqual((self.call_as_other("list", "x"), self.calls()), ((3, "", told), []))

    def test_a_program_that_is_built_runs(self):
        self.is_run("first", ["low", "meta_main"])
        for path in self.root.rglob("*"):
            os.utime(path, (2_000_000_000, 2_000_000_000))
        self.lock("crates")
        self.assertEqual((self.call_as_other("list", "x"), self.calls()), ((0, "first\n", ""), []))

    def test_a_version_that_cannot_be_written_is_status_3(self):
        (self.root / "crates/meta_main/out").mkdir()
        (self.root / "crates/meta_main/out").chmod(0o777)
        self.lock("crates/meta_main/src")
        told = f"metaplay: cannot write {self.root}/crates/meta_main/src/version.rt\n"
        self.assertEqual((self.call_as_other("list", "x"), self.calls()), ((3, "", told), []))

    def test_a_library_that_cannot_be_built_is_status_3(self):
        for name in ("out", "src"):
            (self.root / "crates/meta_main" / name).mkdir(exist_ok=True)
            (self.root / "crates/meta_main" / name).chmod(0o777)
        rt = self.folder / "bin/rt"
        rt.write_text(rt.read_text().replace("exit 0\n", "mkdir -p out && touch out/made\n"))
        self.lock("crates/low")
        status, out, err = self.call_as_other("list", "x")
        self.assertEqual((status, out, self.calls()), (3, "", ["low"]))
        self.assertRegex(err, r"metaplay: low could not be built; see .*/low\.log\n$")


if __name__ == "__main__":
    unittest.main()
