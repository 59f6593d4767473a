#!/usr/bin/env python3
"""Tries the wrong bodies in edits/: the prover has to refuse each, in the function that it changes.

    edits.py                    tries what the gate tries: a share of the edits of each crate whose entry in edits/judged.json is believed,
                                all edits of every other crate, and the judge itself
    edits.py CRATE..            tries all edits of these crates, whatever is on record, and the judge itself if mapping is one of them
    edits.py --all              tries all edits of all crates, whatever is on record, and the judge itself
    edits.py --record [CRATE..] the same, of all crates or of these; then puts each crate on record whose edits were all refused, and takes
                                every other crate that was tried off it. Beside gate.py --record nothing else writes edits/judged.json
    edits.py --each CRATE       has the toolchain's own judge try a crate's edits, one by one
    edits.py --alone FILE..     tries the edits of these files, .../CRATE/NAME.edit, each alone, by the function that it changes

An edit is a file edits/CRATE/NAME.edit in the toolchain's form: a line 'file: src/lib.rt' and then pairs of lines 'old: TEXT'
and 'new: TEXT', each TEXT standing once in that file. Edits of different functions are judged together, in rounds (edit_rounds.py). In each
further round the functions that have one more edit get that, and the others stay as they are, so that nothing right is proved again. An edit
of what stands in no function, as a constant, is tried alone, and names a function that has to be refused ('function: NAME').

It runs over the libraries that `rt ci` makes, which proves the crates as they are: after it, or beside it (gate.py).
"""

import argparse
import functools
import os
import pathlib
import subprocess
import sys
import tempfile
import time
from concurrent.futures import ThreadPoolExecutor
from typing import NamedTuple

import judged
from edit_count import COUNT
from edit_rounds import parts_of
from edit_trials import RIGHT_CRATE, Trial, Trying, judge, judge_itself, read_edit, rt, sources_of

ROOT = pathlib.Path(__file__).resolve().parent.parent

EDITS = ROOT / "edits"

# How many functions are edited in one part of a crate at most, and how much memory a check of so many may take, in bytes. Each part proves what
# its functions call once more, so few large ones are less work than many small ones.
MOST_FUNCTIONS = 100
MEMORY = 3_000_000_000


class Bodies(NamedTuple):
    """The wrong bodies of a crate: the crate, the texts of its files, its edits in order of their names, and what is wrong with others."""

    crate: object
    sources: dict
    edits: list
    wrong: list

    @classmethod
    def of(cls, crate):
        """Reads a crate's edits."""
        sources = sources_of(crate)
        found = [(path.stem, path.read_text(encoding="utf-8")) for path in sorted((EDITS / crate.name).glob("*.edit"))]
        read = [read_edit(name, text, crate, sources) for name, text in found]
        return cls(crate, sources, [edit for edit, _ in read if edit], [why for _, why in read if why])

    def names(self):
        """The names of its edits, each with the crate's."""
        return [f"{self.crate.name}/{it.name}" for it in self.edits]

    def entry(self):
        """What would be on record of the crate now."""
        below = [it.name for it in self.crate.below()]
        return judged.Entry(judged.checksum(ROOT, self.crate.name, below, version()), len(self.edits))


class Part(NamedTuple):
    """Edits of a crate that are judged over what their own checks keep: its name, the crate, the texts of its files, and the edits."""

    name: str
    crate: object
    sources: dict
    edits: list

    def work(self):
        """About how much work it is: the number of edits by the lines that a check reads."""
        return len(self.edits) * sum(it.count(rb"\n") for it in [self.crate, *self.crate.below()])


@functools.lru_cache(maxsize=None)
def version():
    """The toolchain's version, as it prints it."""
    return subprocess.run(["rt", "version"], capture_output=True, text=True, check=True).stdout


def folders():
    """The names of the crates that have edits."""
    return sorted(it.name for it in EDITS.iterdir() if it.is_dir())


def bodies_of(names):
    """The wrong bodies of these crates, or of all where none is named."""
    return [Bodies.of(it) for it in rt.rtlib.crates_below(str(ROOT)) if it.name in (names or folders())]


def lost(found):
    """What is wrong with the number of all crates' edits."""
    count = sum(len(it.edits) for it in found)
    is_well = count == COUNT and {it.crate.name for it in found} == set(folders())
    return [] if is_well else [f"there are {count} edits of crates, and not {COUNT}"]


def parts_of_crate(bodies, names):
    """The parts of those edits of a crate that have these names."""
    edits = [edit for edit, name in zip(bodies.edits, bodies.names()) if name in names]
    parts = parts_of(edits, MOST_FUNCTIONS)
    return [Part(f"{bodies.crate.name} {at} of {len(parts)}", bodies.crate, bodies.sources, part) for at, part in enumerate(parts, 1)]


def parts_of_all(found):
    """The parts of all edits of crates, those with most work first, and what is wrong with other edits."""
    parts = [part for it in found for part in parts_of_crate(it, it.names())]
    return sorted(parts, key=lambda part: -part.work()), [why for it in found for why in it.wrong]


def parts_of_crates(names):
    """The same of these crates, or of all, and then also what is wrong with the number of edits."""
    found = bodies_of(names)
    parts, wrong = parts_of_all(found)
    return parts, [*wrong, *([] if names else lost(found))]


def parts_on_record():
    """The parts of the edits that the gate tries, those with most work first, and what is wrong with the edits, their number or the record. Says of
    each crate which of its edits these are."""
    found = bodies_of([])
    path = ROOT / judged.RECORD
    record, wrong = judged.read_or_wrong(path.read_text(encoding="utf-8") if path.exists() else "{}")
    now, commit = {it.crate.name: it.entry() for it in found}, judged.commit_of(ROOT)
    sure, parts = judged.believed(record, judged.records_of_parents(ROOT)), []
    for it in found:
        name = it.crate.name
        chosen = judged.choice(it.names(), now[name], record.get(name), sure.get(name), commit)
        print(f"edits of {name}: {chosen.said}", flush=True)
        parts += parts_of_crate(it, chosen.names)
    wrong += [*judged.mismatches(record, now), *lost(found), *(why for it in found for why in it.wrong)]
    return sorted(parts, key=lambda part: -part.work()), wrong


def has_fresh_libraries(crate):
    """Whether the libraries below a crate stand as `rt ci` leaves them: of the sources as they are."""
    for it in crate.below():
        sources = [os.path.getmtime(file) for lower in [it, *it.below()] for file in rt.rtlib.files_of(lower.folder)]
        made = pathlib.Path(it.rlib, "format")
        if os.path.exists(f"{it.folder}/out/rlib/stamp") or not made.exists() or made.stat().st_mtime < max(sources):
            return False
    return True


def build_libraries(crate):
    """Has the libraries below a crate built, where they aren't, and answers whether they are."""
    if has_fresh_libraries(crate):
        return True
    return not any(it.build_rlib(["--jobs", "2"], anew=False) for it in crate.below())


def can_try(crates):
    """Makes ready for checks of these crates, and answers whether the libraries below them are built."""
    rt.rtlib.guarded()
    return all(build_libraries(it) for it in crates)


def try_part(part):
    """Tries the edits of a part, says what came of each, and answers what went wrong."""
    start = time.monotonic()
    trials, cost = judge(part.crate, part.edits, part.sources)
    if part.name.startswith(f"{RIGHT_CRATE} 1 "):
        trials.append(judge_itself(part.crate, part.sources))
    said = [trial.said for trial in trials if trial.is_refused]
    print("\n".join([*said, f"{part.name}: {len(part.edits)} edits in {time.monotonic() - start:.0f} s, {cost}"]), flush=True)
    return [trial.said for trial in trials if not trial.is_refused]


def ended(parts, wrong):
    """Says what went wrong with these parts, and answers the status."""
    print("\n".join([*wrong, f"{sum(len(part.edits) for part in parts)} edits tried, {len(wrong)} things wrong"]), flush=True)
    return 1 if wrong else 0


def lanes(taken=0):
    """How many parts to try side by side: as processors and memory allow, so much of which something else may take."""
    return max(1, min(rt.processors(), int((rt.free() - taken) / MEMORY)))


def try_parts(parts, wrong):
    """Tries parts side by side, and answers the status."""
    if not can_try({part.crate.name: part.crate for part in parts}.values()):
        return 1
    with ThreadPoolExecutor(lanes()) as pool:
        tried = list(pool.map(try_part, parts))
    return ended(parts, [*wrong, *(said for its in tried for said in its)])


def entries_now():
    """The wrong bodies of each crate, with what would be on record of it now."""
    return [(it, it.entry()) for it in bodies_of([])]


def put_on_record(bodies, entry):
    """Writes a crate's entry, where every edit was refused of what was read, and what is read now is still that; else takes it off the record."""
    path = ROOT / judged.RECORD
    record = judged.read(path.read_text(encoding="utf-8")) if path.exists() else {}
    is_on_record = entry and Bodies.of(bodies.crate).entry() == entry
    path.write_text(judged.written(judged.changed(record, folders(), bodies.crate.name, entry if is_on_record else None)), encoding="utf-8")
    print(f"{judged.RECORD}: {bodies.crate.name} is {'on' if is_on_record else 'NOT ON'} record", flush=True)


def record(names):
    """Tries all edits of these crates, or of all, and puts on record those crates whose edits were all refused. Answers the status."""
    found = bodies_of(names)
    entries = {it.crate.name: it.entry() for it in found}
    if not can_try([it.crate for it in found]):
        return 1
    (parts, wrong), its = parts_of_all(found), []
    with ThreadPoolExecutor(lanes()) as pool:
        trying = [(part.crate.name, pool.submit(try_part, part)) for part in parts]
        for it in found:
            failed = [*it.wrong, *(said for name, said_later in trying if name == it.crate.name for said in said_later.result())]
            put_on_record(it, None if failed else entries[it.crate.name])
            its += failed
    return ended(parts, [*its, *([] if names else lost(found))])


def try_each(name):
    """Has the toolchain's own judge try a crate's edits, one by one, and answers the status."""
    crate = next(it for it in rt.rtlib.crates_below(str(ROOT)) if it.name == name)
    if not can_try([crate]):
        return 1
    with tempfile.TemporaryDirectory(prefix="edits-") as kept:
        trials = [rt.must_fail(crate, str(it), ["--jobs", "1"], kept) for it in sorted((EDITS / name).glob("*.edit"))]
    print("\n".join(said for _, said in trials), flush=True)
    return 0 if all(kind in (rt.REFUSED, rt.AT_LIMIT) for kind, _ in trials) else 1


def try_alone(files):
    """Tries the edits of these files, each by itself, and answers the status."""
    crates = {it.name: it for it in rt.rtlib.crates_below(str(ROOT))}
    are_refused = []
    for file in files:
        crate = crates[file.parent.name]
        edit, why = read_edit(file.stem, file.read_text(encoding="utf-8"), crate, sources_of(crate))
        with tempfile.TemporaryDirectory(prefix="edits-") as kept:
            is_tried = edit and can_try([crate])
            trial = Trying(crate, sources_of(crate), kept).alone(edit) if is_tried else Trial(False, why or "the libraries can't be built")
        are_refused.append(trial.is_refused)
        print(trial.said, flush=True)
    return 0 if all(are_refused) else 1


def read_words():
    """The command line."""
    words = argparse.ArgumentParser(description=__doc__, formatter_class=argparse.RawDescriptionHelpFormatter)
    words.add_argument("crates", nargs="*", metavar="CRATE")
    how = words.add_mutually_exclusive_group()
    how.add_argument("--all", action="store_true")
    how.add_argument("--record", action="store_true")
    how.add_argument("--each", metavar="CRATE")
    how.add_argument("--alone", metavar="FILE", nargs="+", type=pathlib.Path, default=[])
    asked = words.parse_args()
    if asked.crates and (asked.all or asked.each or asked.alone):
        words.error("crates are named alone, or after --record")
    for name in [*asked.crates, *([asked.each] if asked.each else [])]:
        if not (EDITS / name).is_dir():
            words.error(f"there are no edits of {name}")
    return asked


def main():
    """Answers the status."""
    asked = read_words()
    alone = [it.resolve() for it in asked.alone]
    os.chdir(ROOT)
    if alone:
        return try_alone(alone)
    if asked.each:
        return try_each(asked.each)
    if asked.record:
        return record(asked.crates)
    return try_parts(*(parts_of_crates(asked.crates) if asked.all or asked.crates else parts_on_record()))


if __name__ == "__main__":
    sys.exit(main())
