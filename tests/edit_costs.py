#!/usr/bin/env python3
"""Prints how much processor time the mutants of a crate take, those first that take most.

    edit_costs.py CRATE..

It tries them in rounds, as edits.py does, and asks the prover to say when it ends with each function. A mutant that takes more than some 20 s wants
another mutant for the same clause, or an answer of its function by hand, as `search rules`, which ends sooner where it finds nothing.
"""

import argparse
import os
import pathlib
import re
import subprocess
import sys
import tempfile
from typing import NamedTuple

import edits
from edit_functions import unproved
from edit_rounds import beside, rounds_of
from edit_trials import copy_of, rt

CHECKED = re.compile(r"checked (\S+), \d+ of \d+\n")

TICKS = os.sysconf("SC_CLK_TCK")

# At least so many seconds are printed.
LEAST = 5


class Cost(NamedTuple):
    """What the proof of a function took, in seconds of processor, and its mutant, if it has one."""

    seconds: float
    function: str
    edit: str


def children(process):
    """A process and all that it started, by their numbers."""
    found = [process]
    for it in found:
        for file in pathlib.Path(f"/proc/{it}/task").glob("*/children"):
            found += [int(number) for number in file.read_text().split()]
    return found


def seconds(process):
    """The processor time that a process and its children have taken (proc(5): user and system, its own and of children that ended)."""
    total = 0
    for it in children(process):
        try:
            total += sum(int(word) for word in pathlib.Path(f"/proc/{it}/stat").read_text().rsplit(")", 1)[1].split()[11:15])
        except OSError:
            pass
    return total / TICKS


def costs(crate, asked, texts, kept):
    """What the proof of each function took that the edits of a round change. The others are left unproved, as edits.py leaves them."""
    names = {name: edit.name for edit in asked for name in edit.functions}
    words = [word for name in names for word in ("--only", name)]
    texts, others = unproved(crate.name, texts, names)
    with copy_of(crate, texts, others) as room:
        whole = ["check", *crate.words(["--jobs", "1", "--progress", *words], keeps=False), "--incremental", kept]
        how = {"cwd": room, "stdin": subprocess.DEVNULL, "stdout": subprocess.PIPE, "stderr": subprocess.STDOUT, "text": True, "errors": "replace"}
        with subprocess.Popen([*rt.rtlib.guarded(), rt.rtlib.RATTLE, *whole], **how) as ran:
            before = 0
            for line in ran.stdout:
                found = CHECKED.fullmatch(line)
                if found:
                    now = seconds(ran.pid)
                    yield Cost(now - before, found[1], names.get(found[1], ""))
                    before = now


def costs_of(bodies):
    """What each proof took in the rounds of a crate's edits, but those that are tried alone."""
    whole = None
    with tempfile.TemporaryDirectory(prefix="edits-") as kept:
        for this in rounds_of([edit for edit in bodies.edits if not edit.is_alone], bodies.sources):
            whole = beside(this, whole.edits if whole else [], bodies.sources)
            yield from costs(bodies.crate, this.edits, whole.texts, kept)


def main():
    """Prints what each takes, and answers the status."""
    words = argparse.ArgumentParser(description=__doc__, formatter_class=argparse.RawDescriptionHelpFormatter)
    words.add_argument("crates", nargs="+", metavar="CRATE")
    asked = words.parse_args()
    os.chdir(edits.ROOT)
    for bodies in edits.bodies_of(asked.crates):
        if not edits.can_try([bodies.crate]):
            return 1
        found = list(costs_of(bodies))
        wrong = sum(it.seconds for it in found if it.edit)
        print(f"{bodies.crate.name}: {sum(it.seconds for it in found):.0f} s, of which mutants took {wrong:.0f}")
        for it in sorted(found, reverse=True):
            if it.seconds >= LEAST:
                print(f"{it.seconds:7.1f} {it.function} {it.edit}", flush=True)
    return 0


if __name__ == "__main__":
    sys.exit(main())
