"""The filter of CUPS in docs/recipes with a real server, which prints to a file: the size on paper of what is printed, and what is said of a rejected job."""

import pathlib
import subprocess
import tempfile
import unittest

from built import DOT, PROGRAMS, SAMPLES
from cups_server import MISSING, Server
from metafile.fields import i16, u16, u32
from metafile.files import WMF_END, placeable_file, window_extent, wmf_record
from recipes_test import waited

HELD = (SAMPLES / "held.wmf").read_bytes()

# What CUPS itself says of a job whose filter fails.
STOPPED = "Job stopped due to filter errors; please consult the {0}/log/error_log file for details."


def red_file(width, height):
    """A placeable WMF that is red everywhere, of so many tenths of a millimetre: META_CREATEBRUSHINDIRECT, META_SELECTOBJECT, META_RECTANGLE."""
    brush = wmf_record(0x02FC, u16(0) + u32(0x0000FF) + u16(0))
    records = [window_extent(width, height), brush, wmf_record(0x012D, u16(0)), wmf_record(0x041B, i16(height, width, 0, 0)), WMF_END]
    return placeable_file(records, right=i16(width), bottom=i16(height), inch=u16(254), objects=u16(1))


def box_of(path):
    """The sides of the sheet, and of the box of what isn't white on it, in tenths of a millimetre."""
    image = subprocess.run(["pdftoppm", "-r", "254", "-singlefile", path], capture_output=True, check=True).stdout
    _, sides, _, pixels = image.split(b"\n", 3)
    width, height = map(int, sides.split())
    rows = [pixels[3 * width * y : 3 * width * (y + 1)] for y in range(height)]
    marked = [row for row in rows if row.strip(b"\xff")]
    left = min((len(row) - len(row.lstrip(b"\xff"))) // 3 for row in marked)
    right = max((len(row.rstrip(b"\xff")) + 2) // 3 for row in marked)
    return (width, height), (right - left, len(marked))


@unittest.skipIf(MISSING, f"not on this machine: {', '.join(MISSING)}")
class RealServer(unittest.TestCase):
    """A server with one queue."""

    @classmethod
    def setUpClass(cls):
        folder = tempfile.TemporaryDirectory()
        cls.addClassCleanup(folder.cleanup)
        cls.folder = pathlib.Path(folder.name)
        cls.server = Server(cls.folder, PROGRAMS[0])
        cls.addClassCleanup(cls.server.stop)
        if not cls.server.has_started():
            raise unittest.SkipTest("this user can't start a server of CUPS")

    def assert_completed(self, job):
        """A job is completed."""
        self.assertTrue(waited(lambda: job in self.server.jobs("completed")), self.server.errors())

    def assert_printed(self, data, options, wanted):
        """The box of what is printed has these sides; to a tenth of a millimetre, since it needn't begin at a whole one."""
        job = self.server.send(data, *options)
        self.assert_completed(job)
        sheet, sides = box_of(self.server.printed(job))
        self.assertEqual(sheet, (2100, 2971))
        for got, side in zip(sides, wanted):
            self.assertLessEqual(abs(got - side), 1, sides)

    def test_a_drawing_is_printed_at_its_own_size(self):
        self.assert_printed(red_file(700, 500), [], (500, 700))
        self.assert_printed(red_file(500, 700), [], (500, 700))
        # It isn't larger than the sheet, since it is turned.
        self.assert_printed(red_file(2710, 1000), [], (1000, 2710))

    def test_a_drawing_fills_the_sheet(self):
        # The printer can print on 806 points, which are 284.3 mm.
        for size, options in [((700, 350), ["metaplay-size=page"]), ((4000, 2000), [])]:
            self.assert_printed(red_file(*size), options, (1422, 2843))

    def test_an_option_of_a_job_precedes_that_of_the_queue(self):
        self.assertTrue(self.server.call("lpadmin", "-p", "keep", "-o", "metaplay-size-default=page")[0])
        self.addCleanup(self.server.call, "lpadmin", "-p", "keep", "-R", "metaplay-size-default")
        self.assert_printed(red_file(700, 350), [], (1422, 2843))
        self.assert_printed(red_file(700, 350), ["metaplay-size=own"], (350, 700))

    def assert_stopped(self, job, said):
        """A job is stopped with this error, in the list and in the log, and no other program complains."""
        shown = [f"Status: {said}", "Alerts: job-completed-with-errors"]
        self.assertTrue(waited(lambda: self.server.jobs("not-completed")[job][:2] == shown), self.server.jobs("not-completed"))
        wanted = [said, STOPPED.format(self.folder)]
        self.assertTrue(waited(lambda: self.of_job(job)[-2:] == wanted), self.of_job(job))
        self.assertEqual(set(self.of_job(job)), set(wanted))
        self.assertEqual(self.server.printed(job).read_bytes(), b"")

    def of_job(self, job):
        """The errors of a job in the log."""
        return [text for number, text in self.server.errors() if f"keep-{number}" == job]

    def test_a_rejected_job_says_its_fault_until_it_is_cancelled(self):
        job = self.server.send(HELD)
        self.assert_stopped(job, "metaplay: HeldObject at record 5")
        self.assertTrue(self.server.call("cancel", job)[0])
        self.assertTrue(waited(lambda: job not in self.server.jobs("not-completed")))

    def test_a_stopped_job_is_printed_after_a_restart(self):
        fix = self.folder / "metaplay-fix"
        (self.folder / "dot.wmf").write_bytes(DOT)
        self.server.write("metaplay-fix", f'#!/bin/sh\ncp {self.folder}/dot.wmf "$2"\n', 0o755)
        self.addCleanup(fix.unlink)
        job = self.server.send(HELD)
        self.assert_stopped(job, "metaplay: HeldObject at record 5")
        self.assertTrue(self.server.call("lp", "-i", job, "-o", "metaplay-fix=yes")[0])
        self.assertTrue(self.server.call("lp", "-i", job, "-H", "restart")[0])
        self.assert_completed(job)
        self.assertEqual(self.server.printed(job).read_bytes()[:5], b"%PDF-")


if __name__ == "__main__":
    unittest.main()
