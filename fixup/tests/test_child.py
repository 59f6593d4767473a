"""A process under limits."""

import ctypes
import os
import resource
import signal
import tempfile
import unittest
from collections.abc import Callable
from unittest import mock

from metaplay_fixup.child import Limits, run_limited
from metaplay_fixup.statuses import Ending, Status


class Child(unittest.TestCase):
    """How work ends."""

    def assert_ends(self, work: Callable[[], None], status: Status, line: str, limits: Limits = Limits()) -> None:
        """The work ends with this status and line."""
        with self.assertRaises(Ending) as raised:
            run_limited(work, limits)
        self.assertEqual((raised.exception.status, raised.exception.line), (status, line))

    def test_done(self) -> None:
        """The work has open files in common with its caller, and nothing else."""
        values: list[int] = []
        with tempfile.TemporaryFile() as file:

            def work() -> None:
                values.append(os.write(file.fileno(), b"done"))

            run_limited(work, Limits())
            self.assertEqual(os.pread(file.fileno(), 10, 0), b"done")
        self.assertEqual(values, [])

    def test_ending(self) -> None:
        def work() -> None:
            raise Ending(Status.FAILED, "cannot read é\ud800")

        self.assert_ends(work, Status.FAILED, "cannot read é?")

    def test_time(self) -> None:
        def work() -> None:
            while True:
                pass

        self.assert_ends(work, Status.REJECTED, "TimeLimit", Limits(seconds=1))

    def test_time_where_the_signal_is_ignored(self) -> None:
        """A caller may have done that."""
        before = signal.signal(signal.SIGXCPU, signal.SIG_IGN)
        self.addCleanup(signal.signal, signal.SIGXCPU, before)
        self.test_time()

    def test_memory(self) -> None:
        def work() -> None:
            bytes(1 << 30)

        self.assert_ends(work, Status.OUT_OF_MEMORY, "OutOfMemory", Limits(memory=1 << 30))

    def test_killed(self) -> None:
        """The system kills a process if it has no memory."""
        self.assert_ends(lambda: os.kill(os.getpid(), signal.SIGKILL), Status.OUT_OF_MEMORY, "OutOfMemory")

    def test_crash(self) -> None:
        def work() -> None:
            ctypes.string_at(0)

        self.assert_ends(work, Status.REJECTED, f"Crashed (signal {int(signal.SIGSEGV)})")

    def test_mistake(self) -> None:
        """Any exception, even one that would end a program."""
        for error in (RecursionError, KeyError, SystemExit):
            with self.subTest(error):
                work = mock.Mock(side_effect=error)
                self.assert_ends(work, Status.REJECTED, f"InternalError ({error.__name__})")

    def test_file(self) -> None:
        """A file of more bytes than the limit can't be written."""

        def work() -> None:
            with tempfile.TemporaryFile() as file:
                os.write(file.fileno(), bytes(100))
                try:
                    os.write(file.fileno(), b"1")
                except OSError as error:
                    raise Ending(Status.REJECTED, os.strerror(error.errno or 0)) from error

        self.assert_ends(work, Status.REJECTED, "File too large", Limits(file=100))

    def test_limits(self) -> None:
        """The limits of the process, none of which is above one that it already has."""
        kinds = (resource.RLIMIT_CPU, resource.RLIMIT_AS, resource.RLIMIT_FSIZE, resource.RLIMIT_CORE)

        def work() -> None:
            raise Ending(Status.REJECTED, str([resource.getrlimit(kind)[0] for kind in kinds]))

        self.assert_ends(work, Status.REJECTED, f"[60, {2 << 30}, {64 << 20}, 0]")

        def outer() -> None:
            resource.setrlimit(resource.RLIMIT_CPU, (7, 9))
            run_limited(work, Limits())

        self.assert_ends(outer, Status.REJECTED, f"[7, {2 << 30}, {64 << 20}, 0]")

    def test_no_process_is_left(self) -> None:
        """If the caller is interrupted, the process ends too."""
        with mock.patch("metaplay_fixup.child.os.waitpid", side_effect=KeyboardInterrupt):
            self.assertRaises(KeyboardInterrupt, run_limited, lambda: signal.pause(), Limits())
        _, ended = os.wait()
        self.assertEqual(os.waitstatus_to_exitcode(ended), -signal.SIGKILL)


if __name__ == "__main__":
    unittest.main()
