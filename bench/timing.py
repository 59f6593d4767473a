"""Times commands: the least processor seconds of several runs, which take turns, and the most memory of one."""

import os
import pathlib
import shutil
import subprocess
import sys
import time
from typing import NamedTuple

RUNS = 5

MIB = 1 << 20


class Row(NamedTuple):
    """A line of the table: what was measured, ours and a peer's or a limit's number in the same unit, what that is, and
    the goals, in that unit or as a ratio, where there are any; and memory beside its limit, in bytes."""

    subject: str
    unit: str
    ours: float
    beside: float
    beside_name: str
    goal: float | None = None
    most_ratio: float | None = None
    memory: tuple[float, float] | None = None


def seconds_of(words, output=os.devnull, by_the_clock=False):
    """The processor seconds, user and system, of one run of a command, or those of the clock."""
    with open(output, "wb") as out:
        start = time.perf_counter()
        child = subprocess.Popen(words, stdout=out)
        _, ended, usage = os.wait4(child.pid, 0)
        elapsed = time.perf_counter() - start
    child.returncode = os.waitstatus_to_exitcode(ended)
    if child.returncode != 0:
        sys.exit(f"{' '.join(map(str, words))} ended with status {child.returncode}")
    return elapsed if by_the_clock else usage.ru_utime + usage.ru_stime


def least_seconds(commands, runs=RUNS, **more):
    """The least seconds of each command, by the names that they go by."""
    taken = {name: [] for name in commands}
    for _ in range(runs):
        for name, words in commands.items():
            taken[name].append(seconds_of(words, **more))
    return {name: min(seconds) for name, seconds in taken.items()}


def memory_of(words):
    """The most memory of one run, in bytes, as `time` tells it: what this process holds would count as its child's."""
    tool = shutil.which("time")
    if tool is None:
        sys.exit("the command time is not there: it tells how much memory a program takes (apt-get install time)")
    ended = subprocess.run([tool, "-f", "%M", *words], stdout=subprocess.DEVNULL, stderr=subprocess.PIPE, text=True)
    return 1024 * int(ended.stderr.split()[-1])


class Bench:
    """A program to time, and the folder of the files that it is shown."""

    def __init__(self, program, folder):
        self.program, self.folder, self.count = str(program), pathlib.Path(folder), 0

    def write(self, pieces):
        """Writes a new file piece by piece, by a process of its own, whose memory is gone with it: where it is. What is
        given is called there, and answers the pieces."""
        self.count += 1
        path = self.folder / f"{self.count}"
        child = os.fork()
        if child == 0:
            with open(path, "wb") as file:
                file.writelines(pieces())
            os._exit(0)
        if os.waitpid(child, 0)[1] != 0:
            sys.exit(f"{path} could not be written")
        return path

    def show(self, path, width, height=None):
        """The command that shows a file."""
        return [self.program, "show", str(path), str(width), str(width if height is None else height)]
