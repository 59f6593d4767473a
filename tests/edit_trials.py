"""Tries wrong bodies of a crate with the prover, and says of each whether it was refused.

Since a body is proved from the contracts of what it calls, and never from their bodies, one copy of a crate holds a wrong body for each of many
functions, and each function is judged by itself: it has to have a goal of its own that isn't proved. That it calls another function that is wrong
too doesn't count.
"""

import contextlib
import importlib.machinery
import importlib.util
import os
import pathlib
import shutil
import subprocess
import sys
import tempfile
from typing import NamedTuple

import edit_verdicts
from edit_functions import changed_functions, named_functions, pairs, unproved
from edit_rounds import Edit, beside, placed_in, rounds_of

# An edit that changes nothing and one that is right: the judge has to say that neither was refused.
RIGHT_CRATE = "mapping"
RIGHT = {
    "nothing_is_changed": "file: src/mix.rt\nold: keep & old ^ flip\nnew: keep & old ^ flip\n",
    "another_right_body": "file: src/geometry.rt\nold: 1 <= side\nnew: 0 < side\n",
}


def kit():
    """The toolchain's command `rt` as a module: how it calls the prover, and reads and judges an edit."""
    loader = importlib.machinery.SourceFileLoader("rt", os.path.realpath(shutil.which("rt")))
    module = importlib.util.module_from_spec(importlib.util.spec_from_loader("rt", loader))
    sys.modules["rt"] = module
    loader.exec_module(module)
    return module


rt = kit()


class Trial(NamedTuple):
    """What came of an edit: whether it was refused, as it must be, and what to say."""

    is_refused: bool
    said: str


def read_edit(name, text, crate, sources):
    """An edit of a crate, or what is wrong with it. The crate's files are given by their paths."""
    why = rt.edited(text, crate.folder)[1]
    if why:
        return None, f"{crate.name}/{name}: BAD EDIT: {why}"
    names, outside = changed_functions(crate.name, text, sources)
    named = tuple(named_functions(text))
    return Edit(name, text, named if outside or named else tuple(names), outside or bool(named)), None


def sources_of(crate):
    """The texts of a crate's files by their paths in it."""
    folder = pathlib.Path(crate.folder)
    return {str(path.relative_to(folder)): path.read_text(encoding="utf-8") for path in folder.glob("src/**/*.rt")}


@contextlib.contextmanager
def copy_of(crate, texts, unanswered=()):
    """A copy of a crate with these texts of its sources, in a folder of its own, without the answers to the goals of some functions."""
    with tempfile.TemporaryDirectory(prefix="edit-") as room:
        for part in rt.rtlib.PARTS:
            if os.path.isdir(f"{crate.folder}/{part}"):
                shutil.copytree(f"{crate.folder}/{part}", f"{room}/{part}")
        for path, text in texts.items():
            pathlib.Path(room, path).write_text(text, encoding="utf-8")
        for name in unanswered:
            for file in ("Answers.antt", "Invariants.antt"):
                pathlib.Path(room, "proofs", *name.split("::")[1:], file).unlink(missing_ok=True)
        yield room


class Answer(NamedTuple):
    """What the prover said, the status with which it ended, and the functions that it was told to leave unproved."""

    status: int
    said: str
    unproved: set


def check(trying, texts, functions):
    """What the prover says of these functions of a crate, or of all where none is named, with these texts in place of its own. What the named ones
    call is left unproved, since it counts by its contract alone."""
    words = [word for name in functions for word in ("--only", name)]
    texts, others = unproved(trying.crate.name, texts, functions) if functions else (texts, set())
    with copy_of(trying.crate, texts, others) as room, tempfile.TemporaryFile("w+", errors="replace") as said:
        words = ["check", *trying.crate.words(["--jobs", "1", *words], keeps=False), "--incremental", trying.kept]
        how = {"cwd": room, "stdin": subprocess.DEVNULL, "stdout": said, "stderr": subprocess.STDOUT}
        ran = subprocess.Popen([*rt.rtlib.guarded(), rt.rtlib.RATTLE, *words], **how)
        _, status, used = os.wait4(ran.pid, 0)
        ran.returncode = os.waitstatus_to_exitcode(status)
        trying.used.append(used)
        said.seek(0)
        return Answer(ran.returncode, said.read(), others)


def files_of(edits):
    """The files that edits change."""
    return {path for edit in edits for path, _, _ in pairs(edit.text)}


def refused_by(ran, last, edits):
    """The functions that a check refuses for a reason of their own: none where it ends otherwise than by this last line, or
    can't read what an edit wrote."""
    lines = ran.said.rstrip("\n").split("\n")
    changed = files_of(edits)
    if ran.status != 1 or not lines[-1].startswith(last) or any(rt.unread(line, changed) for line in lines):
        return None
    return {name for name in edit_verdicts.refused(ran.said) if edit_verdicts.function_of(name) not in ran.unproved}


class Trying:
    """Tries edits of a crate, over what its own checks keep in a folder."""

    def __init__(self, crate, sources, kept):
        """Begins with nothing kept."""
        self.crate, self.sources, self.kept = crate, sources, kept
        self.used = []

    def alone(self, edit):
        """Judges an edit in a copy of the crate that has no other: by its functions, or by all of the crate where it has none."""
        ran = check(self, placed_in(self.sources, edit), edit.functions)
        refused = refused_by(ran, "only=" if edit.functions else "logic=not-proved", [edit])
        if refused is None or not set(edit.functions) <= refused:
            last = ran.said.rstrip("\n").split("\n")[-1]
            return Trial(False, f"{self.crate.name}/{edit.name}: NOT REFUSED: {last[:200]}")
        return Trial(True, f"{self.crate.name}/{edit.name}: refused alone, by {', '.join(edit.functions) or 'the crate'}")

    def together(self, edits, whole):
        """Judges some edits of a round in a copy of the crate that has the whole round's, each by its own function. Those that
        aren't refused so are tried alone."""
        ran = check(self, whole.texts, [name for edit in edits for name in edit.functions])
        refused = refused_by(ran, "only=", whole.edits) or set()
        for name in sorted(refused - {name for edit in whole.edits for name in edit.functions}):
            yield Trial(False, f"{self.crate.name}: {name}, which no edit changes, isn't proved beside {len(whole.edits)} edits")
        for edit in edits:
            if set(edit.functions) <= refused:
                yield Trial(True, f"{self.crate.name}/{edit.name}: refused by {', '.join(edit.functions)}")
            else:
                yield self.alone(edit)

    def each(self, edits):
        """Judges these edits, those of functions in rounds, and gives what came of each and what else was wrong."""
        whole = None
        for this in rounds_of([edit for edit in edits if not edit.is_alone], self.sources):
            whole = beside(this, whole.edits if whole else [], self.sources)
            yield from self.together(this.edits, whole)
        for edit in edits:
            if edit.is_alone:
                yield self.alone(edit)

    def cost(self):
        """What the checks took: seconds of processor, and memory at most."""
        seconds = sum(it.ru_utime + it.ru_stime for it in self.used)
        memory = max((it.ru_maxrss for it in self.used), default=0) / 1_000_000
        return f"{seconds:.0f} s of processor, at most {memory:.1f} GB"


def judge(crate, edits, sources):
    """What came of each of these edits of a crate, what else was wrong, and what it took."""
    with tempfile.TemporaryDirectory(prefix="edits-") as kept:
        trying = Trying(crate, sources, kept)
        return list(trying.each(edits)), trying.cost()


def judge_itself(crate, sources):
    """Whether an edit that changes nothing is told as one, or isn't refused, and whether the judge says of a right one that it isn't refused."""
    read = [read_edit(name, text, crate, sources) for name, text in RIGHT.items()]
    trials, _ = judge(crate, [edit for edit, _ in read if edit], sources)
    is_well = all(edit or "changes nothing" in why for edit, why in read) and not any(trial.is_refused for trial in trials)
    return Trial(is_well, f"{crate.name}: the judge {'lets' if is_well else 'DOES NOT LET'} two right bodies through")
