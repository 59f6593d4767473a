"""Which mutants of a crate are tried: all, or a share of them where the record `edits/judged.json` says that each was refused.

The record has an entry for a crate: how many mutants it had, and a checksum of all that their judgement read. An entry holds while the checksum
is that of the files as they are, and is believed once every parent of the commit has it, so that the commit that brings it tries the crate whole.
"""

import hashlib
import json
import subprocess
from typing import NamedTuple

# The record, by its path in the repository.
RECORD = "edits/judged.json"

# The scripts that decide what is tried and what counts as refused.
SCRIPTS = ["edits.py", "edit_trials.py", "edit_rounds.py", "edit_verdicts.py", "edit_functions.py", "judged.py"]

# The parts of a crate that a proof reads.
PARTS = ("src", "specs", "proofs")

# Of a crate whose entry is believed, one mutant of so many is tried, and at least one.
SHARE = 8


class Entry(NamedTuple):
    """What is on record of a crate: a checksum of all that was read, and the number of its mutants, each of which was refused."""

    checksum: str
    edits: int


class Choice(NamedTuple):
    """The mutants of a crate that are tried, by their names, and which these are, in words."""

    names: list
    said: str


def files_in(folder, parts):
    """The files in these parts of a folder, by their paths in it, in order."""
    found = [path for part in parts for path in (folder / part).rglob("*") if path.is_file()]
    return sorted((path.relative_to(folder).as_posix(), path) for path in found)


def checksum(root, name, below, version):
    """The SHA-256 of all that judging a crate's mutants reads: its files and its edits, the files of the crates below it, the list of crates, the
    scripts, and the toolchain's version."""
    total = hashlib.sha256(repr((name, sorted(below), version)).encode())
    files = [(path, root / path) for path in ("crates.txt", *(f"tests/{script}" for script in SCRIPTS))]
    files += files_in(root, [f"edits/{name}", *(f"crates/{it}/{part}" for it in sorted([name, *below]) for part in PARTS)])
    for path, file in files:
        total.update(repr((path, file.read_bytes())).encode())
    return total.hexdigest()


def read(text):
    """The entries of a record by the crates' names, from its text."""
    return {name: Entry(it["checksum"], it["edits"]) for name, it in json.loads(text).items()}


def read_or_wrong(text):
    """The entries of a record from its text, and what is wrong with it: no entries where it can't be read."""
    try:
        return read(text), []
    except (ValueError, KeyError, TypeError, AttributeError):
        return {}, [f"{RECORD} can't be read"]


def written(record):
    """The text of a record: a line for each crate, in order of their names."""
    lines = [f"  {json.dumps(name)}: {json.dumps(record[name]._asdict(), sort_keys=True)}" for name in sorted(record)]
    return "\n".join(["{", *([",\n".join(lines)] if lines else []), "}", ""])


def changed(record, folders, name, entry):
    """A record with this entry of a crate, or without one where there is none, and of no crate but those that have mutants."""
    kept = {it: entry for it, entry in record.items() if it in folders and it != name}
    return {**kept, name: entry} if entry else kept


def git(root, *words):
    """What git prints, or none where it fails."""
    try:
        ran = subprocess.run(["git", "-C", str(root), *words], capture_output=True, text=True)
    except OSError:
        return None
    return ran.stdout.strip() if ran.returncode == 0 else None


def commit_of(root):
    """The id of the commit that is checked out, or none."""
    return git(root, "rev-parse", "--verify", "HEAD")


def records_of_parents(root):
    """The records of the commit's parents, one for each: an empty one where git doesn't show it."""
    parents = (git(root, "rev-parse", "HEAD^@") or "").split()
    return [read_or_wrong(git(root, "show", f"{parent}:{RECORD}") or "{}")[0] for parent in parents]


def believed(record, records):
    """The entries of a record that every parent's record has too: none where there is no parent."""
    return {name: entry for name, entry in record.items() if records and all(it.get(name) == entry for it in records)}


def place(name, commit):
    """Where a mutant stands among all, as its name and the commit give it."""
    return int(hashlib.sha256(f"{name} {commit}".encode()).hexdigest(), 16)


def share_of(names, commit):
    """The mutants that are tried of these for a commit: one of `SHARE` on average, and at least one."""
    return [name for name in names if place(name, commit) % SHARE == 0] or [min(names, key=lambda name: place(name, commit))]


def choice(names, now, entry, believed_entry, commit):
    """Which of a crate's mutants are tried, by their names: the crate's entry as it would be now, as it is on record, and as it is believed."""
    if entry is None:
        return Choice(names, f"all {len(names)}, since {RECORD} has no entry of it")
    if entry != now:
        return Choice(names, f"all {len(names)}, since what they are judged by has changed since its entry")
    if entry != believed_entry or not commit:
        return Choice(names, f"all {len(names)}, since its entry isn't in every parent of this commit")
    some = share_of(names, commit)
    return Choice(some, f"{len(some)} of {len(names)}, since each was refused before, by its entry")


def mismatches(record, now):
    """What is wrong with a record, where the entries of all crates that have mutants would be these now."""
    wrong = [f"{RECORD} has an entry of {name}, which has no mutants" for name in sorted(record.keys() - now.keys())]
    for name in sorted(record.keys() & now.keys()):
        if record[name].checksum == now[name].checksum and record[name].edits != now[name].edits:
            wrong.append(f"{RECORD} has {record[name].edits} mutants of {name}, and there are {now[name].edits}")
    return wrong
