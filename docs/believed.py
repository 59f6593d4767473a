#!/usr/bin/env python3
"""Counts what must be believed: for a run, its writes and its P6 text; for the answer of `check`, with soundness; and for all promises of README.
Each definition counts that these name, and that those name, and so on.

    docs/believed.py [FOLDER]   prints how many there are and their lines, of this repository or of the one in FOLDER, all of them crate by crate

A definition stands in a crate's specs/, in a block of its own, under a comment. Types that the code declares are counted beside it, by their
names, and what the toolchain brings isn't counted.
"""

import pathlib
import re
import sys
from typing import NamedTuple

# What says which image there is, by file and name.
IMAGE = [("Run", "Run"), ("Run", "RunWrites"), ("Ppm", "ppm_text")]

# The calls of which README promises something, by crate.
CALLS = {
    "preflight_cert": ["check", "prepare", "prepared_law", "preparation_law"],
    "player": ["play", "play_bands", "play_rows"],
    "commands": [
        *("show_command_by", "prepare_command_by", "check_command", "play_command", "over_command", "list_command", "list_command_by"),
        *("batch_command", "run_words"),
    ],
    "metaplay_c": [
        *("metaplay_check", "metaplay_prepare", "metaplay_prepare_print", "metaplay_play", "metaplay_fitted_sides"),
        *("metaplay_play_rows", "metaplay_over"),
        *("metaplay_certificate_terms", "metaplay_fault_name"),
    ],
}

# The call whose answer soundness belongs to.
CHECK = {"preflight_cert": ["check"]}

USE = re.compile(r"^ *(?:ghost )?(?:pub )?use Rattle\.(\w+)\.specs\.([\w.]+)\.\{([^}]*)\}", re.M)
HEAD = re.compile(r"^(?:abbrev |unfoldable )?(?:pub )?(?:record |data )?([^\s:(]+)")
DATA = re.compile(r"^(?:pub )?data ")
# A public function of the code: its name, and what stands between that and its body.
FUNCTION = re.compile(r"^ *pub (?:extern \"C\" )?fn (?P<name>\w+)\b(?P<contract>.*?)(?:\{\}|^ *\{) *$", re.MULTILINE | re.DOTALL)
WORD = re.compile(r"[A-Za-z_][\w']*(?:-[A-Za-z]\w*)*")


class Definition(NamedTuple):
    """A definition: where it stands, the words of its text, and how many lines that has."""

    crate: str
    file: str
    name: str
    words: frozenset
    lines: int


def blocks(text):
    """The blocks of a file, each without its comments."""
    for block in re.split(r"\n\s*\n", text):
        lines = [line for line in block.splitlines() if line.strip() and not line.lstrip().startswith(("--", "module _"))]
        if lines and not lines[0].startswith(("use ", "pub mod ")):
            yield lines


def made_in(lines):
    """The names that a block makes: its own, and those of the cases of its type."""
    name = HEAD.match(lines[0].strip())[1]
    return [name, *(line.split(":")[0].strip() for line in lines[1:] if " : " in line)] if DATA.match(lines[0].strip()) else [name]


def read(crate, path):
    """The definitions of a file by the names that each makes, and from where its other names are."""
    text = path.read_text(encoding="utf-8")
    uses, made = uses_of(text), {}
    for lines in blocks(text):
        words = frozenset(WORD.findall("\n".join(lines)))
        names = made_in(lines)
        for name in names:
            made[name] = Definition(crate, path.stem, names[0], words, len(lines))
    return made, uses


def uses_of(text):
    """From where the names of a file are that it imports: crate and file."""
    return {name: (crate, module) for crate, module, names in USE.findall(text) for name in re.split(r"[,\s]+", names) if name}


def named_ones(files):
    """The definitions that say which image there is."""
    found = [made[name] for file, name in IMAGE for (_, stem), (made, _) in files.items() if stem == file and name in made]
    assert len(found) == len(IMAGE), "a definition is called otherwise, or there are two of it"
    return found


def of_contracts(root, files, calls):
    """The definitions that the contracts of calls name."""
    found, missing = [], {(crate, name) for crate, names in calls.items() for name in names}
    for crate, names in calls.items():
        for path in sorted(root.glob(f"crates/{crate}/src/**/*.rt")):
            text = path.read_text(encoding="utf-8")
            uses = uses_of(text)
            for function in FUNCTION.finditer(text):
                if function["name"] not in names or "ensures" not in function["contract"]:
                    continue
                missing.discard((crate, function["name"]))
                words = set(WORD.findall(function["contract"].partition("ensures")[2])) & uses.keys()
                found += [files[uses[word]][0][word] for word in sorted(words) if uses[word] in files and word in files[uses[word]][0]]
    assert not missing, f"these calls have no contract: {sorted(missing)}"
    return found


def believed(files, roots):
    """The definitions that these lead to, and the types of the code among what they name."""
    left = list(roots)
    found, types = set(left), set()
    while left:
        one = left.pop()
        made, uses = files[one.crate, one.file]
        for word in one.words:
            crate, module = uses.get(word, (one.crate, one.file))
            if module.startswith("declared."):
                types.add((crate, module.split(".")[2]))
            other = made.get(word) if word not in uses else files.get((crate, module), ({}, {}))[0].get(word)
            if other and other not in found:
                found.add(other)
                left.append(other)
    return found, types


class Count(NamedTuple):
    """How much must be believed for something: definitions, their lines, and types of the code."""

    definitions: int
    lines: int
    types: int


def counted(found, types):
    """How much that is."""
    return Count(len(found), sum(it.lines for it in found), len(types))


def all_counts(root):
    """What must be believed for the image, for the answer of `check`, and for all promises, and the definitions of the last."""
    paths = sorted(root.glob("crates/*/specs/**/*.antt"))
    files = {(path.relative_to(root).parts[1], path.stem): read(path.relative_to(root).parts[1], path) for path in paths}
    image = named_ones(files)
    found = {
        "the image, its writes and its P6 text": believed(files, image),
        "soundness and the answer of check": believed(files, of_contracts(root, files, CHECK)),
        "all promises": believed(files, image + of_contracts(root, files, CALLS)),
    }
    return {name: counted(*it) for name, it in found.items()}, found["all promises"][0]


def main():
    """Prints the counts."""
    counts, found = all_counts(pathlib.Path(sys.argv[1] if len(sys.argv) > 1 else pathlib.Path(__file__).resolve().parent.parent))
    for crate in sorted({it.crate for it in found}):
        its = [it for it in found if it.crate == crate]
        print(f"{crate}: {len(its)} definitions, {sum(it.lines for it in its)} lines")
    for name, count in counts.items():
        print(f"{name}: {count.definitions} definitions, {count.lines} lines, and {count.types} types of the code")


if __name__ == "__main__":
    main()
