"""Runs the fix-up as its command does, and prints the processor seconds of each file.

    /usr/bin/python3 bench/fixup_times.py --out-dir DIR FILE.. [OPTIONS]
"""

import resource
import sys
from pathlib import Path

sys.path.insert(0, str(Path(__file__).resolve().parent.parent / "fixup"))

from metaplay_fixup.catalogue import Catalogue  # noqa: E402
from metaplay_fixup.command import Command  # noqa: E402
from metaplay_fixup.command_line import CommandLine, Work  # noqa: E402
from metaplay_fixup.statuses import Status  # noqa: E402


def seconds() -> float:
    """The processor seconds, user and system, of this process and of those that it waited for."""
    taken = [resource.getrusage(who) for who in (resource.RUSAGE_SELF, resource.RUSAGE_CHILDREN)]
    return sum(usage.ru_utime + usage.ru_stime for usage in taken)


class TimedCommand(Command):
    """The command. Each file goes through one call, which is timed."""

    def _run_one(self, work: Work, asked: CommandLine, catalogue: Catalogue, reports: int) -> Status:
        start = seconds()
        status = super()._run_one(work, asked, catalogue, reports)
        print(f"{seconds() - start:.6f} {work.source}")
        return status


if __name__ == "__main__":
    sys.exit(TimedCommand().run(sys.argv[1:]))
