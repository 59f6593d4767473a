#!/usr/bin/env python3
"""Proves some functions of a crate and nothing else, over the libraries that `rt ci` left in another clone. That takes seconds instead of
minutes: the other functions lose their bodies, and count by their contracts.

    prove_only.py BUILT CRATE FUNCTION..   prove_only.py /tmp/built span_fill walk::raised walk::Walk::advanced

The libraries below the crate have to be those of this clone's sources. What the prover says of other functions isn't printed.
"""

import os
import pathlib
import sys
import tempfile

import edit_trials

ROOT = pathlib.Path(__file__).resolve().parent.parent

# Lines that say nothing of the functions.
OTHERS = ("statements ", "struct ", "enum ", "impl ", "logic ", "axioms ", "note: finished ")


class Here:
    """A crate of this clone, over the libraries of another."""

    def __init__(self, built):
        """That crate in the other clone."""
        self.name, self.folder, self.words = built.name, str(ROOT / "crates" / built.name), built.words


def main():
    """Answers the prover's status."""
    if len(sys.argv) < 4:
        sys.exit(__doc__)
    built, name, *functions = sys.argv[1:]
    os.chdir(built)
    crate = Here(next(it for it in edit_trials.rt.rtlib.crates_below(os.getcwd()) if it.name == name))
    names = [it if it.startswith(f"{name}::") else f"{name}::{it}" for it in functions]
    edit_trials.rt.rtlib.guarded()
    with tempfile.TemporaryDirectory(prefix="prove-only-") as kept:
        sources = edit_trials.sources_of(crate)
        ran = edit_trials.check(edit_trials.Trying(crate, sources, kept), sources, names)
    print("\n".join(line for line in ran.said.split("\n") if not line.startswith(OTHERS) and ": unproved" not in line))
    return ran.status


if __name__ == "__main__":
    sys.exit(main())
