"""Runs a program from a small process, and tells how much memory it kept at most, and its seconds of processor: a process has at least as much
memory told as the one that it was forked from, and that of the tests is large."""

import subprocess
import sys
from typing import NamedTuple

SCRIPT = """
import os, resource, sys
output, limit, *words = sys.argv[1:]
child = os.fork()
if child == 0:
    os.dup2(os.open(output, os.O_WRONLY | os.O_CREAT | os.O_TRUNC, 0o600), 1)
    resource.setrlimit(resource.RLIMIT_AS, (int(limit), int(limit)))
    os.execv(words[0], words)
_, status, used = os.wait4(child, 0)
print(os.waitstatus_to_exitcode(status), 1024 * used.ru_maxrss, used.ru_utime + used.ru_stime)
"""

# As many addresses as one likes.
ANY = 1 << 46


class Measured(NamedTuple):
    """What a run ended with, what it told on standard error, how many bytes it kept at most, and its seconds of processor."""

    status: int
    err: bytes
    kept: int
    seconds: float


def measured(program, words, output, limit=ANY):
    """Runs a program within a limit of addresses, its standard output in a file."""
    line = [sys.executable, "-I", "-S", "-c", SCRIPT, output, limit, program, *words]
    ran = subprocess.run(list(map(str, line)), capture_output=True, stdin=subprocess.DEVNULL, timeout=120, check=True)
    status, kept, seconds = ran.stdout.split()
    return Measured(int(status), ran.stderr, int(kept), float(seconds))
