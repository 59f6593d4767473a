"""A process of its own for work on a file that may be hostile, under limits."""

from __future__ import annotations

import os
import resource
import signal
from collections.abc import Callable
from contextlib import suppress
from dataclasses import dataclass
from typing import NoReturn

from .signals import end_at_once, held
from .statuses import Ending, Status, out_of_memory

_LONGEST_LINE = 4096


@dataclass(frozen=True, slots=True)
class Limits:
    """What a process may take: seconds of a processor, bytes of addresses, and bytes of each file that it writes."""

    seconds: int = 60
    memory: int = 2 << 30
    file: int = 64 << 20


def run_limited(work: Callable[[], None], limits: Limits) -> None:
    """Does work in a process of its own, which shares open files with this one but nothing else.

    Raises Ending if the work does, or if a limit or an error ends the process: with the line TimeLimit, OutOfMemory,
    InternalError or Crashed.
    """
    line = os.memfd_create("line", os.MFD_CLOEXEC)
    try:
        # A signal between the fork and the wait would leave the process behind, or run this program's code in it.
        with held() as let_in:
            child = os.fork()
            if child == 0:
                _work_and_exit(work, limits, line, let_in)
            code = _code_of(child, let_in)
        _raise_ending(code, line)
    finally:
        os.close(line)


def _code_of(child: int, let_in: Callable[[], None]) -> int:
    """Lets signals in, and waits for a process. It goes too if this one is interrupted."""
    try:
        let_in()
        return os.waitstatus_to_exitcode(os.waitpid(child, 0)[1])
    except BaseException:
        # It may be over already.
        with suppress(ProcessLookupError):
            os.kill(child, signal.SIGKILL)
        raise


def _raise_ending(code: int, line: int) -> None:
    """Raises Ending unless the code is that of work that is done. A code below 0 is that of a signal."""
    if code == Status.DONE:
        return
    if code > 0:
        raise Ending(Status(code), os.pread(line, _LONGEST_LINE, 0).decode("utf-8", "replace"))
    if -code == signal.SIGXCPU:
        raise Ending(Status.REJECTED, "TimeLimit")
    if -code == signal.SIGKILL:
        # The system does that if it has no memory left.
        raise out_of_memory()
    raise Ending(Status.REJECTED, f"Crashed (signal {-code})")


def _work_and_exit(work: Callable[[], None], limits: Limits, line: int, let_in: Callable[[], None]) -> NoReturn:
    """Does the work and ends the process, whatever happens."""
    ending = Ending(Status.DONE, "")
    try:
        _set_limits(limits)
        let_in()
        work()
    except Ending as raised:
        ending = raised
    except MemoryError:
        ending = out_of_memory()
    except BaseException as error:
        # A mistake in this program. No other part of it may go on in this process.
        ending = Ending(Status.REJECTED, f"InternalError ({type(error).__name__})")
    finally:
        try:
            os.pwrite(line, ending.line.encode("utf-8", "replace")[:_LONGEST_LINE], 0)
        finally:
            os._exit(ending.status)


def _set_limits(limits: Limits) -> None:
    # These end the process, whatever the caller has set.
    for ends in (signal.SIGXCPU, signal.SIGINT):
        signal.signal(ends, signal.SIG_DFL)
    end_at_once()
    # A second more for the kernel's own end, which comes if the signal of the first is held up.
    _limit(resource.RLIMIT_CPU, limits.seconds, limits.seconds + 1)
    _limit(resource.RLIMIT_AS, limits.memory, limits.memory)
    _limit(resource.RLIMIT_FSIZE, limits.file, limits.file)
    _limit(resource.RLIMIT_CORE, 0, 0)


def _limit(kind: int, soft: int, hard: int) -> None:
    """Sets a limit, or leaves a lower one that the caller has set."""
    now = [limit for limit in resource.getrlimit(kind) if limit != resource.RLIM_INFINITY]
    most = resource.getrlimit(kind)[1]
    resource.setrlimit(kind, (min(soft, *now, hard), hard if most == resource.RLIM_INFINITY else min(hard, most)))
