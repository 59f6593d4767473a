#!/usr/bin/env python3
"""Measures the code of crates: how long clauses, functions and files are, and how many parameters functions have.

    clause_lengths.py            prints, by crate, how many clauses are longer than 120, 140 and 200 characters, how many functions have more than
                                 five parameters or more than 40 lines, and how many files have more than 300 lines
    clause_lengths.py --list N   lists the clauses that are longer than N characters, the longest first, each with its file and line
    clause_lengths.py --others   lists the functions and files that are counted

A clause runs from `requires` or `ensures` to its closing brace. Its lines are joined by one space each; the indentation of the first counts. The
lines of a function include its contract, and `self` is none of its parameters. Crates of tests and examples are left out. The sources are in the
formatter's layout.
"""

import argparse
import collections
import pathlib
import re
import sys
from typing import NamedTuple

ROOT = pathlib.Path(__file__).resolve().parent.parent

OF_TESTS = re.compile(r"\w+_tests|test_\w+|example_\w+")

LENGTHS = (120, 140, 200)

MOST_PARAMETERS, MOST_LINES_OF_A_FUNCTION, MOST_LINES_OF_A_FILE = 5, 40, 300

COMMENT = re.compile(r"//[^\n]*")

CLAUSE = re.compile(r"(?m)^ *(?:requires|ensures)\*?(?: \w+)? \{")

FUNCTION = re.compile(r"(?m)^(?P<indent> *)(?:pub(?:\([^)]*\))? )?(?:const |unsafe |extern \S+ )*fn (?P<name>\w+)")

# What the lines in front of a function's body end with: its brace, an empty body, or the end of what has none.
HEAD = re.compile(r"(?m)(\{\}|;|\{) *$")

RECEIVER = re.compile(r"&?(?:'\w+ )?(?:mut )?self\b(?!\w)")


class Measured(NamedTuple):
    """A clause, a function or a file: its crate, its file below crates/ with the line, its name or text, and its measure."""

    crate: str
    place: str
    name: str
    measure: int


class Function(NamedTuple):
    """A function: where it stands, its name, how many parameters it has, and how many lines."""

    place: int
    name: str
    parameters: int
    lines: int


def without_comments(text):
    """A text with spaces in place of its comments, so that all else stands where it did."""
    return COMMENT.sub(lambda found: " " * len(found[0]), text)


def end_of_braces(text, start):
    """Where the brace closes that opens at a place."""
    depth = 0
    for at in range(start, len(text)):
        depth += (text[at] == "{") - (text[at] == "}")
        if not depth:
            return at + 1
    return len(text)


def clauses_in(text):
    """The clauses of a file, each with its place, its lines joined."""
    code = without_comments(text)
    for found in CLAUSE.finditer(code):
        clause = code[found.start() : end_of_braces(code, found.end() - 1)]
        yield found.start(), re.sub(r"\s*\n\s*", " ", clause)


def start_of_parameters(text, start):
    """Where the parenthesis of a function's parameters stands, behind its name and type parameters."""
    depth = 0
    for at in range(start, len(text)):
        depth += (text[at] == "<") - (text[at] == ">" and text[at - 1] not in "-=")
        if text[at] == "(" and not depth:
            return at
    return len(text)


def words_between_commas(text, start):
    """What stands between a parenthesis and the one that closes it, parted at commas outside of brackets."""
    depth, words = 0, [""]
    for at in range(start, len(text)):
        is_end = text[at] in ")]}" or text[at] == ">" and text[at - 1] not in "-="
        depth += (text[at] in "([{<") - is_end
        if not depth:
            break
        if text[at] == "," and depth == 1:
            words.append("")
        elif at > start:
            words[-1] += text[at]
    return [word.strip() for word in words if word.strip()]


def end_of_function(code, start, indent):
    """Where a function ends whose first line has this indent: with its body, with an empty one, or with its contract where it has none."""
    head = HEAD.search(code, start)
    end = re.compile(rf"(?m)^{indent}\}}").search(code, head.end()) if head and head[1] == "{" else head
    return end.start() if end else len(code)


def functions_in(text):
    """The functions of a file, those of traits too."""
    code = without_comments(text)
    for found in FUNCTION.finditer(code):
        start = start_of_parameters(code, found.end())
        parameters = [it for it in words_between_commas(code, start) if not RECEIVER.fullmatch(it)]
        lines = code.count("\n", found.start(), end_of_function(code, start, found["indent"])) + 1
        yield Function(found.start(), found["name"], len(parameters), lines)


def sources():
    """The files of crates' sources, each with its crate and its path below crates/."""
    for path in sorted((ROOT / "crates").glob("*/src/**/*.rt")):
        short = path.relative_to(ROOT / "crates")
        if not OF_TESTS.fullmatch(short.parts[0]):
            yield short.parts[0], short.as_posix(), path.read_text(encoding="utf-8")


def line_of(text, place):
    """The line in which a place of a text stands."""
    return text.count("\n", 0, place) + 1


def clauses():
    """All clauses, measured in characters."""
    return [Measured(crate, f"{path}:{line_of(text, at)}", it, len(it)) for crate, path, text in sources() for at, it in clauses_in(text)]


def functions():
    """All functions: those with more parameters than few, measured in these, and those that are long, in lines."""
    found = [(crate, f"{path}:{line_of(text, it.place)}", it) for crate, path, text in sources() for it in functions_in(text)]
    wide = [Measured(crate, place, it.name, it.parameters) for crate, place, it in found if it.parameters > MOST_PARAMETERS]
    return wide, [Measured(crate, place, it.name, it.lines) for crate, place, it in found if it.lines > MOST_LINES_OF_A_FUNCTION]


def long_files():
    """The files that are long, in lines."""
    counts = [Measured(crate, path, pathlib.PurePosixPath(path).name, text.count("\n")) for crate, path, text in sources()]
    return [it for it in counts if it.measure > MOST_LINES_OF_A_FILE]


def table(found):
    """How many clauses, functions and files are counted of each crate and in all, as rows of a table."""
    wide, long = functions()
    columns = {f"over {length}": [it for it in found if it.measure > length] for length in LENGTHS}
    columns |= {"parameters": wide, "lines": long, "file": long_files()}
    counts = [collections.Counter(it.crate for it in its) for its in columns.values()]
    names = [name for name in sorted({it.crate for it in found}) if any(count[name] for count in counts)]
    rows = [f"{name:16}" + "".join(f"{count[name]:12}" for count in counts) for name in names]
    total = f"{'all':16}" + "".join(f"{len(its):12}" for its in columns.values())
    return "\n".join([f"{f'{len(found)} clauses':16}" + "".join(f"{name:>12}" for name in columns), *rows, total])


def listed(found):
    """The lines that list what is measured, the greatest first."""
    return [f"{it.measure:5} {it.place}: {it.name.strip()}" for it in sorted(found, key=lambda it: (-it.measure, it.place))]


def main():
    """Prints what is asked for, and answers the status."""
    words = argparse.ArgumentParser(description=__doc__, formatter_class=argparse.RawDescriptionHelpFormatter)
    words.add_argument("--list", metavar="N", type=int)
    words.add_argument("--others", action="store_true")
    asked = words.parse_args()
    found = clauses()
    lines = listed([it for it in found if it.measure > asked.list]) if asked.list is not None else []
    if asked.others:
        wide, long = functions()
        lines += ["parameters:", *listed(wide), "lines of a function:", *listed(long), "lines of a file:", *listed(long_files())]
    print("\n".join([*lines, table(found)]))
    return 0


if __name__ == "__main__":
    sys.exit(main())
