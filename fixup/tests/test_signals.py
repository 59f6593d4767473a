"""Signals that stop the program."""

import os
import signal
import subprocess
import sys
import unittest

from .oracle import ROOT

# Has a process wait under limits, which tells its number first. The program ends by the signal that stops it.
WAITS = """
import os, signal, sys
from metaplay_fixup.child import Limits, run_limited
from metaplay_fixup.signals import Stopped, end_by, raise_stopped

def waits():
    os.write(int(sys.argv[1]), b"x")
    signal.pause()

raise_stopped()
try:
    run_limited(waits, Limits())
except Stopped as stopped:
    end_by(stopped.number)
"""

# The same, but it is stopped at the fork, and a process that it leaves behind says so.
LEAVES = WAITS.replace("signal.pause()", "time.sleep(3)\n    os.write(int(sys.argv[1]), b'left')")
STOPPED_AT_THE_FORK = f"""
import os, signal, time
fork = os.fork

def stopped_fork():
    child = fork()
    if child:
        os.kill(os.getpid(), signal.SIGTERM)
    return child

os.fork = stopped_fork
{LEAVES}
"""


class Stops(unittest.TestCase):
    """A program that is stopped while another process of its reads a file."""

    def stop(self, number: int, ignored: bool = False) -> int:
        """Its status. It is over only when no process holds the pipe any more."""
        reading, writing = os.pipe()
        words = [sys.executable, "-c", WAITS, str(writing)]
        before = signal.signal(number, signal.SIG_IGN if ignored else signal.SIG_DFL)
        try:
            program = subprocess.Popen(words, cwd=ROOT / "fixup", pass_fds=[writing])
        finally:
            signal.signal(number, before)
        os.close(writing)
        with program, os.fdopen(reading, "rb", buffering=0) as pipe:
            self.assertEqual(pipe.read(1), b"x")
            program.send_signal(number)
            if ignored:
                self.assertRaises(subprocess.TimeoutExpired, program.wait, 0.2)
                program.terminate()
            self.assertEqual(pipe.read(1), b"")
            return program.wait(10)

    def test_both_processes_end(self) -> None:
        """By the signal."""
        for number in (signal.SIGTERM, signal.SIGHUP):
            with self.subTest(signal=number.name):
                self.assertEqual(self.stop(number), -number)

    def test_an_ignored_signal_stays_ignored(self) -> None:
        """As `nohup` has it."""
        self.assertEqual(self.stop(signal.SIGHUP, ignored=True), -signal.SIGTERM)

    def test_a_signal_right_after_the_fork(self) -> None:
        """It waits until the program knows the other process, which ends too."""
        reading, writing = os.pipe()
        words = [sys.executable, "-c", STOPPED_AT_THE_FORK, str(writing)]
        with subprocess.Popen(words, cwd=ROOT / "fixup", pass_fds=[writing]) as program, os.fdopen(
            reading, "rb"
        ) as pipe:
            os.close(writing)
            self.assertNotIn(b"left", pipe.read())
            self.assertEqual(program.wait(10), -signal.SIGTERM)


if __name__ == "__main__":
    unittest.main()
