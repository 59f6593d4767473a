#!/usr/bin/env python3
"""Runs the tests over the built programs and those of the fix-up: each file tests/*_test.py and fixup/tests/test_*.py in a process of its own, as many
side by side as there are processors."""

import os
import pathlib
import re
import subprocess
import sys
import time
from concurrent.futures import ThreadPoolExecutor
from typing import NamedTuple

from packages import PYTHON

TESTS = pathlib.Path(__file__).resolve().parent

FIXUP = TESTS.parent / "fixup"

# Those that need the programs of the crates' tests, which `rt ci` builds last.
LAST = {"crate_tests_growth_test"}

RAN = re.compile(r"^Ran (\d+) tests? in", re.MULTILINE)


class File(NamedTuple):
    """A file of tests: its name, the interpreter that runs it, the folder where that runs, and the file as a module."""

    name: str
    python: str
    folder: pathlib.Path
    module: str


class Ran(NamedTuple):
    """What came of a file of tests: its name, how many tests it ran, whether all of them passed, what it said, and its seconds."""

    name: str
    count: int
    is_well: bool
    said: str
    seconds: float


def judged(name, status, said, seconds):
    """What came of a file of tests that ended with this status and said this. One that ran no test is not well."""
    count = sum(int(number) for number in RAN.findall(said))
    return Ran(name, count, status == 0 and count > 0, said, seconds)


def files():
    """All files."""
    own = [File(it.stem, sys.executable, TESTS, it.stem) for it in sorted(TESTS.glob("*_test.py"))]
    return own + [File(f"fixup/{it.stem}", PYTHON, FIXUP, f"tests.{it.stem}") for it in sorted(FIXUP.glob("tests/test_*.py"))]


def run(file):
    """Runs the tests of a file."""
    start = time.monotonic()
    words = [file.python, "-B", "-m", "unittest", file.module]
    ran = subprocess.run(words, cwd=file.folder, stdin=subprocess.DEVNULL, stdout=subprocess.PIPE, stderr=subprocess.STDOUT, text=True, errors="replace")
    return judged(file.name, ran.returncode, ran.stdout, time.monotonic() - start)


def run_all(names=None):
    """Runs these files, or all, says what came of each, and answers the status."""
    chosen = [it for it in files() if names is None or it.name in names]
    with ThreadPoolExecutor(len(os.sched_getaffinity(0))) as pool:
        ended = list(pool.map(run, chosen))
    for it in ended:
        print(f"{it.name}: {it.count} tests in {it.seconds:.0f} s" if it.is_well else f"{it.said}\n{it.name}: NOT PASSED", flush=True)
    failed = sum(not it.is_well for it in ended)
    print(f"{sum(it.count for it in ended)} tests ran, {failed} of {len(ended)} files failed", flush=True)
    return 1 if failed else 0


def names():
    """The names of all files."""
    return {it.name for it in files()}


if __name__ == "__main__":
    sys.exit(run_all())
