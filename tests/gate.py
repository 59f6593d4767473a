#!/usr/bin/env python3
"""The gate.

    gate.py           proves what earlier runs on this machine didn't, and tries the edits that edits/judged.json leaves to try (judged.py)
    gate.py --anew    proves everything, and tries every edit
    gate.py --record  the same, and if all passed, puts every crate on record (edits/judged.json)

First it has the Debian packages installed that are missing (packages.py), or stops. Then it runs `rt ci`. Beside it, it tries the edits of each
crate as soon as the libraries below the crate are proved, and begins the tests over the built programs as soon as those are there.

`rt ci` proves crates in a chain, and leaves processors idle: the edits take those. They are the less urgent work, and give way to it.
Where something was built before, `rt ci` has its old libraries back in the end; the edits then wait for that, and have them built anew.
"""

import argparse
import os
import pathlib
import re
import subprocess
import sys
import threading
import time
from concurrent.futures import ThreadPoolExecutor
from typing import NamedTuple

import edits
import packages
import run

# A crate is proved by this run, or an earlier one proved the same files on this machine.
PROVED = re.compile(r"rt: (\w+) (?:proved|is kept: .*)")

# What most tests run, by the names of crates: `rt ci` builds a program when it has proved it. The library for C is built by a test.
PROGRAMS = {"meta_main", "test_requests", "example_calls", "metaplay_c"}

# The memory that `rt ci` may take, in bytes.
CI_MEMORY = 10_000_000_000

# By how much the edits give way.
NICENESS = 19

# What records for the launcher which sources the program was built from.
RECORD = edits.ROOT / "launcher/record"


def is_built():
    """Whether libraries of an earlier run are there."""
    return any((edits.ROOT / "crates").glob("*/out/rlib"))


class Beside:
    """Parts of crates that are tried as the crates below them get proved: of those that may begin, one of the crate with most below it
    goes first, since the last ones become ready last."""

    def __init__(self, parts, pool, trying=edits.try_part):
        """Begins with those that stand on nothing."""
        self.waiting, self.ready, self.begun, self.proved = list(parts), [], [], set()
        self.pool, self.trying, self.taking = pool, trying, threading.Lock()
        self.begin()

    def begin(self):
        """Has the pool try what waits for nothing more."""
        ready = [part for part in self.waiting if {it.name for it in part.crate.below()} <= self.proved]
        self.waiting = [part for part in self.waiting if part not in ready]
        with self.taking:
            self.ready += ready
        self.begun += [self.pool.submit(self.try_next) for _ in ready]

    def try_next(self):
        """Tries one of the parts that are ready, if there is one still."""
        with self.taking:
            if not self.ready:
                return []
            part = max(self.ready, key=lambda it: len(it.crate.below()))
            self.ready.remove(part)
        return self.trying(part)

    def share(self, pool):
        """Has another pool try what is ready too."""
        self.begun += [pool.submit(self.try_next) for _ in self.ready]

    def prove(self, name):
        """Begins what may begin now that this crate is proved."""
        self.proved.add(name)
        self.begin()


class Tests:
    """The tests over the built programs. Most begin as soon as the programs are there, the others (run.LAST) when all is built."""

    def __init__(self, sources, pool):
        """Waits for the programs."""
        self.sources, self.pool, self.lacking, self.most = sources, pool, set(PROGRAMS), None

    def prove(self, name):
        """Begins most of them if this crate was the last that they need."""
        self.lacking.discard(name)
        if not self.lacking and not self.most:
            self.most = self.pool.submit(self.try_most)

    def try_most(self):
        """Records for the launcher what the program was built from, runs them, and answers the status."""
        return recorded(0, self.sources) or run.run_all(run.names() - run.LAST)

    def status(self):
        """The status of all of them, when all is built."""
        last = run.run_all(run.LAST)
        return (self.most.result() if self.most else 1) or last


def proved_in(lines):
    """Passes on lines of `rt ci`, and gives the name of each crate that one says is proved."""
    for line in lines:
        print(line, end="", flush=True)
        found = PROVED.fullmatch(line.strip())
        if found:
            yield found[1]


class Processors(NamedTuple):
    """What the processors of this machine did since it started, in seconds: their work, and what its host kept of them for others."""

    worked: float
    kept: float

    @classmethod
    def now(cls):
        """What they did until now (proc(5), the first line of /proc/stat)."""
        times = [int(it) / os.sysconf("SC_CLK_TCK") for it in pathlib.Path("/proc/stat").read_text("ascii").split("\n")[0].split()[1:]]
        user, nice, system, _, _, interrupts, soft, stolen = times[:8]
        return cls(user + nice + system + interrupts + soft, stolen)

    def since(self, before):
        """What they did since then, in words."""
        worked, kept = self.worked - before.worked, self.kept - before.kept
        share = 100 * kept / ((worked + kept) or 1)
        return f"{worked / 60:.0f} min of processor, and the host kept {share:.0f} % of what was asked for"


class Clock:
    """Says how long each step took."""

    def __init__(self):
        """Begins now."""
        self.start, self.processors = time.monotonic(), Processors.now()

    def say(self, what):
        """Says how long it is since the beginning."""
        print(f"gate: {what}: {time.monotonic() - self.start:.0f} s, {Processors.now().since(self.processors)}", flush=True)


def sources_sum():
    """The checksum of the program's sources, as the launcher computes it."""
    return subprocess.run([RECORD], capture_output=True, text=True, check=True).stdout.strip()


def recorded(status, sources):
    """The status of `rt ci`. If it passed, records for the launcher that the program was built from these sources."""
    return status or subprocess.call([RECORD, sources])


def say_status(clock, what, status):
    """Says when a step ended, and answers its status."""
    clock.say(f"{what} {'FAILED' if status else 'passed'}")
    return status


def in_turn(clock, words, parts):
    """Runs the steps one after the other, and answers the status of the first that fails, else 0."""
    sources = sources_sum()
    steps = {"rt ci": lambda: recorded(subprocess.call(words), sources), "edits": lambda: edits.try_parts(parts, []), "tests": run.run_all}
    return next((status for name, step in steps.items() if (status := say_status(clock, name, step()))), 0)


def lanes(number):
    """What tries so many parts side by side, and gives way to other work."""
    return ThreadPoolExecutor(number, initializer=lambda: os.setpriority(os.PRIO_PROCESS, threading.get_native_id(), NICENESS))


def beside(clock, words, parts):
    """Runs `rt ci` with the tests and these parts beside it, and answers the status. Parts get the memory of `rt ci` when that has ended."""
    how = {"stdout": subprocess.PIPE, "text": True, "errors": "replace", "env": {**os.environ, "PYTHONUNBUFFERED": "1"}}
    number, alone = edits.lanes(CI_MEMORY), ThreadPoolExecutor(1)
    trying_tests = Tests(sources_sum(), alone)
    with subprocess.Popen(words, **how) as ci, alone, lanes(number) as pool, lanes(max(1, edits.rt.processors() - number)) as more:
        trying = Beside(parts, pool)
        for name in proved_in(ci.stdout):
            trying.prove(name)
            trying_tests.prove(name)
        status = say_status(clock, "rt ci", ci.wait())
        if not status and number < edits.lanes():
            trying.share(more)
        status = status or say_status(clock, "tests", trying_tests.status())
        if status:
            more.shutdown(wait=False, cancel_futures=True)
            pool.shutdown(cancel_futures=True)
            return status
        wrong = [f"{part.name} was not tried" for part in trying.waiting]
        return say_status(clock, "edits", edits.ended(parts, [*wrong, *(said for it in trying.begun for said in it.result())]))


def main():
    """Answers the status. Packages that are missing, and what is wrong with the edits or their record, are said before anything runs."""
    words = argparse.ArgumentParser(description=__doc__, formatter_class=argparse.RawDescriptionHelpFormatter)
    words.add_argument("--anew", action="store_true")
    words.add_argument("--record", action="store_true")
    asked = words.parse_args()
    is_anew = asked.anew or asked.record
    os.chdir(edits.ROOT)
    if packages.have_installed():
        return 1
    clock = Clock()
    parts, wrong = edits.parts_of_crates([]) if is_anew else edits.parts_on_record()
    if wrong:
        return edits.ended([], wrong)
    edits.rt.rtlib.guarded()
    ci, tried = ["rt", "ci", *["--anew"] * is_anew], edits.entries_now() if asked.record else []
    status = in_turn(clock, ci, parts) if is_built() else beside(clock, ci, parts)
    for bodies, entry in [] if status else tried:
        edits.put_on_record(bodies, entry)
    return status


if __name__ == "__main__":
    sys.exit(main())
