"""`metaplay try`: which files and sides it takes, how long it says it has taken, and that it ends when it is stopped."""

import os
import re
import signal
import unittest

from launcher_folder import Folder


class Trial(Folder):
    """Trials, with a script in place of the toolchain."""

    def test_a_trial_takes_a_file_of_any_name(self):
        for name in ["a b", "*", "it's", '"q"', "$HOME", "-n", "a\\b", "stdin "]:
            (self.root / name).write_text("")
            self.assertEqual(self.call("try", self.root / name, "4", "4")[:2], (0, "tried try -- show stdin 4 4\n"), name)

    def test_a_trial_takes_the_sides_that_show_takes(self):
        sample = self.root / "samples/dot.wmf"
        for given, side in [("4", "4"), ("08", "8"), ("+9", "9"), ("000000000064", "64")]:
            status, out, _ = self.call("try", sample, given, given)
            self.assertEqual((status, out), (0, f"tried try -- show stdin {side} {side}\n"))
        for given in ["0", "00", "", "+", "-4", "++4", "4+", "8193", "0x8", "8 ", "4.0", "99999999999999999999"]:
            status, out, err = self.call("try", sample, given, "4")
            self.assertEqual((status, out, err[:15]), (2, "", "metaplay: usage"), given)
        self.assertEqual(self.call("try", sample, "8192", "8192")[0], 2)
        for missing in [self.root / "no file", self.root]:
            self.assertEqual(self.call("try", missing, "4", "4"), (3, "", "metaplay: cannot read\n"))

    def test_a_trial_reports_its_seconds(self):
        self.report_often()
        (self.kit / "seconds").write_text("3.5")
        status, out, err = self.call("try", "stdin", "4", "4")
        self.assertEqual((status, out), (0, "tried try -- show stdin 4 4\n"))
        first, *others = err.splitlines()
        self.assertTrue(first.startswith("metaplay: a trial, in which nothing is proved: "), err)
        seconds = [int(re.fullmatch(r"metaplay: a trial: (\d+) s so far", line)[1]) for line in others]
        self.assertTrue(seconds == sorted(seconds) and 2 <= len(seconds) <= 4 and 1 <= seconds[0] and seconds[-1] <= 5, err)

    def test_a_trial_that_is_stopped_reports_nothing_more(self):
        self.report_often()
        (self.kit / "seconds").write_text("50")
        run = self.begin("try", "stdin", "4", "4")
        self.addCleanup(self.kill_group, run.pid)
        self.wait_for(self.is_building)
        os.killpg(run.pid, signal.SIGTERM)
        # What reports would hold standard error open.
        out, _ = run.communicate(timeout=20)
        self.assertEqual((run.returncode, out), (-signal.SIGTERM, ""))


if __name__ == "__main__":
    unittest.main()
