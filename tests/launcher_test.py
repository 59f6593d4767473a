"""The launcher: when it builds, when it doesn't, and what it does meanwhile."""

import os
import pathlib
import resource
import shutil
import signal
import subprocess
import tempfile
import time
import unittest

from built import DOT, DOT_IMAGE, ROOT, SAMPLES, Answer, answer
from launcher_folder import Folder

# At most so many seconds of processor for a call of a program that is built, those of the program included.
MOST_SECONDS = 0.05


class Launcher(Folder):
    """Calls that build the program, and calls that don't."""

    def test_it_builds_once(self):
        err = self.is_run("first", ["low", "meta_main"])
        self.assertRegex(err, r"metaplay: low proved and built in \d+ s \(1 of 2\); \d+ s so far(?:, about \d+ s to come)?\n")
        self.assertRegex(err, r"metaplay: meta_main proved and built in \d+ s \(2 of 2\); \d+ s so far\nmetaplay: built in \d+ s\n\Z")
        self.assertEqual(self.is_run("first", []), "")
        self.assertEqual(sorted(path.name for path in (self.root / "crates/meta_main/out").iterdir()), ["built.list", "built.sums", "lock", "meta_main"])

    def test_each_word_comes_to_the_program_as_it_is(self):
        # The program says its words, a line each.
        self.write("crates/meta_main/src/main.rt", 'words; for word do echo "[$word]"; done\n')
        words = ["show", "a b", " c ", "*", "?[a-z]", "it's", '"q"', "$HOME", "`date`", "~", "", "-n", "--", "#", "é", "a;b&c|d>e"]
        wanted = "".join(f"[{word}]\n" for word in words)
        status, out, err = self.call(*words)
        self.assertEqual((status, out), (0, f"words\n{wanted}"), err)
        self.assertEqual(self.call(*words), (0, f"words\n{wanted}", ""))
        self.assertEqual(self.call(), (0, "words\n", ""))
        odd = self.folder / "a  *'\"$x (b)"
        odd.mkdir()
        (odd / "to *'\" it").symlink_to(self.root / "metaplay")
        moved = shutil.copytree(self.root, odd / "root")
        for launcher in (odd / "to *'\" it", moved / "metaplay"):
            ran = subprocess.run([launcher, *words], capture_output=True, text=True, check=False, cwd=self.root, env=self.settings)
            self.assertEqual((ran.returncode, ran.stdout, ran.stderr), (0, f"words\n{wanted}", ""))

    def test_times_alone_change_nothing(self):
        self.is_run("first", ["low", "meta_main"])
        for path in self.root.rglob("*"):
            os.utime(path, (2_000_000_000, 2_000_000_000))
        self.is_run("first", [])
        shutil.copytree(self.root, self.folder / "copy")
        self.is_run("first", [], root=self.folder / "copy")

    def test_a_change_of_the_same_size_at_an_older_time_is_built(self):
        self.is_run("first", ["low", "meta_main"])
        self.write("crates/meta_main/src/main.rt", "other\n")
        os.utime(self.root / "crates/meta_main/src/main.rt", (1, 1))
        self.is_run("other", ["low", "meta_main"])

    def test_files_that_come_and_go_are_changes(self):
        self.is_run("first", ["low", "meta_main"])
        self.write("crates/low/proofs/New.antt", "")
        self.is_run("first", ["low", "meta_main"])
        (self.root / "crates/low/proofs/New.antt").rename(self.root / "crates/low/proofs/Other.antt")
        self.is_run("first", ["low", "meta_main"])
        (self.root / "crates/low/proofs/Other.antt").unlink()
        self.is_run("first", ["low", "meta_main"])

    def test_another_program_is_not_run(self):
        self.is_run("first", ["low", "meta_main"])
        self.write("crates/meta_main/out/meta_main", "#!/bin/sh\necho wrong\n")
        self.is_run("first", ["low", "meta_main"])

    def test_the_version_is_that_of_the_changelog(self):
        self.is_run("first", ["low", "meta_main"])
        version = self.root / "crates/meta_main/src/version.rt"
        record = subprocess.run([self.root / "launcher/record"], capture_output=True, text=True, check=True, env=self.settings).stdout.strip()
        self.assertIn(f'\n    "metaplay 2.3.4 (sources {record})\\n";\n', version.read_text())
        # Its source is no part of the checksum, but the program is built again if the version is another.
        self.write("CHANGELOG.md", "# Changelog\n\n## 2.4.0\n\n## 2.3.4\n")
        self.is_run("first", [])
        subprocess.run([self.root / "launcher/version"], check=True, env=self.settings)
        self.assertIn(f'"metaplay 2.4.0 (sources {record})', version.read_text())
        self.is_run("first", ["low", "meta_main"])

    def test_a_file_of_no_crate_is_no_change(self):
        self.is_run("first", ["low", "meta_main"])
        self.write("crates/test_of_low/src/lib.rt", "a test")
        self.write("README.md", "a page")
        self.is_run("first", [])

    def test_another_toolchain_builds_anew(self):
        self.is_run("first", ["low", "meta_main"])
        (self.kit / "version").write_text("second kit\n")
        os.utime(self.folder / "bin/rt")
        self.is_run("first", ["low", "meta_main"])

    def test_a_program_that_is_built_needs_no_toolchain(self):
        self.is_run("first", ["low", "meta_main"])
        self.is_run("first", [], settings=self.without)
        self.write("crates/low/src/lib.rt", "changed")
        missing = (3, "", "metaplay: the toolchain's command rt is not on the PATH\n")
        self.assertEqual(self.call("list", "x", settings=self.without), missing)
        self.assertEqual(self.call("try", "stdin", "4", "4", settings=self.without), missing)

    def test_one_builds_and_the_other_waits(self):
        (self.kit / "seconds").write_text("2")
        runs = [self.begin("list", "x") for _ in range(3)]
        ended = [(*run.communicate(timeout=60), run.returncode) for run in runs]
        self.assertEqual([(out, status) for out, _, status in ended], [("first\n", 0)] * 3)
        self.assertEqual(self.calls(), ["low", "meta_main"])
        waits = "metaplay: another build is running; waiting for it ...\n"
        self.assertEqual(sorted(err == waits for _, err, _ in ended), [False, True, True])

    def test_a_build_that_is_killed_leaves_no_lock(self):
        (self.kit / "seconds").write_text("40")
        run = self.begin("list", "x")
        self.addCleanup(self.kill_group, run.pid)
        self.wait_for(lambda: (self.kit / "calls").exists())
        run.kill()
        run.wait()
        run.stdout.close()
        run.stderr.close()
        (self.kit / "seconds").write_text("0")
        self.calls()
        start = time.monotonic()
        self.is_run("first", ["low", "meta_main"])
        self.assertLess(time.monotonic() - start, 20)

    def test_a_build_that_is_stopped_ends(self):
        (self.kit / "seconds").write_text("100")
        for number in (signal.SIGTERM, signal.SIGHUP, signal.SIGINT):
            # (a shell can't trap a signal that is ignored when it starts, as under nohup)
            self.addCleanup(signal.signal, number, signal.signal(number, signal.SIG_DFL))
            self.calls()
            run = self.begin("list", "x")
            self.wait_for(lambda: (self.kit / "calls").exists())
            self.assertTrue(self.is_building())
            run.send_signal(number)
            out, _ = run.communicate(timeout=60)
            self.assertEqual((run.returncode, out), (3, ""), number)
            self.wait_for(lambda: not self.is_building())
            self.assertEqual(sorted(path.name for path in (self.root / "crates/meta_main/out").iterdir()), ["lock"])

    def test_what_changes_meanwhile_is_not_proved(self):
        (self.kit / "changes").touch()
        status, out, err = self.call("list", "x")
        self.assertEqual((status, out), (3, ""))
        self.assertTrue(err.endswith("metaplay: the sources changed while they were being proved; call it again\n"), err)
        (self.kit / "changes").unlink()
        self.calls()
        self.is_run("first", ["low", "meta_main"])

    def test_a_crate_that_fails_is_named(self):
        (self.kit / "fails").touch()
        status, out, err = self.call("list", "x")
        self.assertEqual((status, out, self.calls()), (3, "", ["low"]))
        self.assertRegex(err, r"metaplay: low could not be built; see .*/low\.log\n$")

    def test_a_long_build_reports_where_it_is(self):
        self.report_often()
        (self.kit / "seconds").write_text("3")
        (self.kit / "says").write_text("so far: 7 of 9 functions\nso far: 8 of 9 functions\n")
        err = self.is_run("first", ["low", "meta_main"])
        self.assertRegex(err, r"metaplay: proving low: \d+ s, 8 of 9 functions; \d+ s so far\n")

    def test_without_a_list_of_crates_nothing_runs(self):
        self.is_run("first", ["low", "meta_main"])
        (self.root / "crates.txt").unlink()
        self.assertEqual(self.call("list", "x"), (3, "", "metaplay: crates.txt is missing\n"))


class Put(unittest.TestCase):
    """A file that the launcher writes changes as a whole."""

    def test_a_file_is_the_old_one_until_all_is_written(self):
        with tempfile.TemporaryDirectory() as folder:
            path = pathlib.Path(folder, "a file")
            for old in (None, "old"):
                path.write_text(old or "")
                words = ["sh", "-uc", 'root=$1; . "$1/launcher/program.sh"; put "$2"', "sh", ROOT, path]
                # Who has opened the old file reads all of it, also afterwards.
                with path.open() as opened, subprocess.Popen(words, stdin=subprocess.PIPE) as run:
                    if old is None:
                        path.unlink()
                    run.stdin.write(b"a beginning, ")
                    run.stdin.flush()
                    time.sleep(0.3)
                    self.assertEqual(path.read_text() if path.exists() else None, old)
                    run.stdin.write(b"and an end")
                    run.stdin.close()
                    self.assertEqual(run.wait(timeout=30), 0)
                    self.assertEqual(opened.read(), old or "")
                self.assertEqual((os.listdir(folder), path.read_text()), (["a file"], "a beginning, and an end"))

    def test_a_file_that_cannot_be_written_stays(self):
        with tempfile.TemporaryDirectory() as folder:
            path = pathlib.Path(folder, "file")
            path.write_text("old")
            # A folder can't be read.
            script = 'root=$1; . "$1/launcher/program.sh"; put "$2" <"$3"'
            ran = subprocess.run(["sh", "-uc", script, "sh", ROOT, path, folder], stderr=subprocess.DEVNULL, check=False)
            self.assertEqual((ran.returncode != 0, path.read_text()), (True, "old"))


class Table(unittest.TestCase):
    def test_the_crates_of_the_program_are_in_the_table(self):
        script = f'root={ROOT}; . "$root/launcher/program.sh"; crates'
        crates = subprocess.run(["sh", "-c", script], capture_output=True, text=True, check=True).stdout.splitlines()
        lines = [line.split() for line in (ROOT / "launcher/seconds").read_text("ascii").splitlines()]
        self.assertEqual(sorted(name for name, _ in lines), sorted(line.split()[0] for line in crates))
        self.assertTrue(all(int(seconds) > 0 for _, seconds in lines))


class Program(unittest.TestCase):
    """The launcher of this repository, and the program that is built."""

    launcher = ROOT / "metaplay"

    def test_it_works_from_any_folder(self):
        with tempfile.TemporaryDirectory() as folder:
            relative = os.path.relpath(SAMPLES / "dot.wmf", folder)
            answered = answer(self.launcher, ["show", relative, "4", "4"], cwd=folder)
        self.assertEqual(answered, Answer(0, DOT_IMAGE, b""))

    def test_it_works_through_links(self):
        with tempfile.TemporaryDirectory() as folder:
            os.symlink(self.launcher, f"{folder}/first")
            os.symlink("first", f"{folder}/second")
            answered = answer(f"{folder}/second", ["show", "stdin", "4", "4"], DOT)
            self.assertEqual(answered, Answer(0, DOT_IMAGE, b""))
            self.assertEqual(answer("./second", ["show", "stdin", "4", "4"], DOT, cwd=folder), answered)

    def test_it_has_the_program_s_status(self):
        refused = answer(self.launcher, ["show", "stdin", "4", "4"], DOT[:50])
        self.assertEqual(refused, Answer(1, b"", b"metaplay: PastEnd at record 0\n"))

    def seconds(self):
        """The seconds of processor that a call takes."""
        before = resource.getrusage(resource.RUSAGE_CHILDREN)
        answer(self.launcher, ["show", "stdin", "4", "4"], DOT)
        after = resource.getrusage(resource.RUSAGE_CHILDREN)
        return after.ru_utime + after.ru_stime - before.ru_utime - before.ru_stime

    def test_a_call_takes_no_time(self):
        # Where other programs run, some calls take twice as long.
        self.assertTrue(any(self.seconds() < MOST_SECONDS for _ in range(40)))


if __name__ == "__main__":
    unittest.main()
