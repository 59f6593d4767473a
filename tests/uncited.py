#!/usr/bin/env python3
"""Finds definitions that nothing needs: no contract names them and no proof, nor does a definition that is needed itself.

    uncited.py [FOLDER]   lists them in this repository or in the one in FOLDER, each with its file and line

A definition stands in a block of a file of specs/, with empty lines around it. Another file names it only if it imports it. What a record or the
type of the block makes, its fields and cases, counts as the block. A contract stands in a file of src/.
"""

import pathlib
import re
import sys
from typing import NamedTuple

ROOT = pathlib.Path(__file__).resolve().parent.parent

USE = re.compile(r"^ *(?:ghost )?(?:pub )?use Rattle\.(\w+)\.specs\.(\w+)\.(?:\{([^}]*)\}|(\w+);? *$)", re.MULTILINE)

HEAD = re.compile(r"^(?P<words>(?:(?:abbrev|unfoldable|pub|record|data|instance) )*)(?P<name>[^\s:({]+)")

MEMBER = re.compile(r"^\s+(?:pub )?([^\s:(){}]+)\s*:\s")

WORD = re.compile(r"[^\s(){}\[\],.;:λ\\→∀]+")

NO_DEFINITION = ("use ", "pub use ", "pub mod ", "mod ", "module ", "infix", "syntax", "#")


# A file of specs/: its crate and its name.
Place = tuple[str, str]


class Block(NamedTuple):
    """A block of a file: the file's crate and name, its first line's number and word, the names that it makes, and the words that it has."""

    crate: str
    module: str
    line: int
    name: str
    makes: frozenset[str]
    words: frozenset[str]


def without_comments(text: str) -> str:
    """A text of definitions whose comments are empty lines, and whose other lines stand where they did."""
    return "\n".join("" if line.lstrip().startswith("--") else line for line in text.split("\n"))


def blocks(crate: str, module: str, text: str) -> list[Block]:
    """The definitions of a file."""
    made, lines = [], without_comments(text).split("\n")
    before = ["", *(line.strip() for line in lines)]
    for number, line in enumerate(map(str.strip, lines)):
        if not line or line.startswith(NO_DEFINITION) or (before[number] and not before[number].startswith("module ")):
            continue
        head = HEAD.match(line)
        end = next((at for at in range(number, len(lines)) if not lines[at].strip()), len(lines))
        rest = lines[number:end]
        members = [MEMBER.match(later) for later in rest[1:]] if re.search(r"\b(?:record|data) ", head["words"]) else []
        makes = frozenset([head["name"], *(member[1] for member in members if member)])
        made.append(Block(crate, module, number + 1, head["name"], makes, frozenset(WORD.findall("\n".join(rest)))))
    return made


def imports(text: str) -> dict[Place, set[str]]:
    """The names that a file imports, by crate and file of specs/."""
    named = {}
    for crate, module, several, one in USE.findall(text):
        names = [word.split(" as ")[0].strip() for word in (several or one).split(",")]
        named.setdefault((crate, module), set()).update(names)
    return named


def uncited(root: pathlib.Path) -> list[Block]:
    """The definitions of a repository that nothing needs, in order of their places."""
    kinds = ("specs/**/*.antt", "proofs/**/*.antt", "src/**/*.rt")
    texts = {path: path.read_text(encoding="utf-8") for kind in kinds for path in root.glob(f"crates/*/{kind}")}
    defined, named_by = {}, {}
    for path, text in texts.items():
        crate, folder, *_ = path.relative_to(root / "crates").parts
        if folder == "specs":
            defined[crate, path.stem] = blocks(crate, path.stem, text)
        else:
            for place, names in imports(text).items():
                named_by.setdefault(place, set()).update(names)
    of_files = {(path.relative_to(root / "crates").parts[0], path.stem): imports(text) for path, text in texts.items() if "specs" in path.parts}
    return unneeded(defined, named_by, of_files)


def unneeded(defined: dict[Place, list[Block]], named_by: dict[Place, set[str]], of_files: dict[Place, dict[Place, set[str]]]) -> list[Block]:
    """Those of the definitions of files that neither a name of code and proofs leads to, nor a definition that is needed. The files of specs/ have
    imports too."""
    makers = {(place, name): block for place, its in defined.items() for block in its for name in block.makes}
    left = [makers[place, name] for place, names in named_by.items() for name in names if (place, name) in makers]
    needed = set()
    while left:
        block = left.pop()
        if block in needed:
            continue
        needed.add(block)
        here = block.crate, block.module
        places = [(here, block.words), *((place, block.words & names) for place, names in of_files[here].items())]
        left += [makers[place, word] for place, words in places for word in words if (place, word) in makers]
    return sorted({block for its in defined.values() for block in its} - needed)


def main() -> None:
    """Lists them."""
    for block in uncited(pathlib.Path(sys.argv[1]) if len(sys.argv) > 1 else ROOT):
        print(f"crates/{block.crate}/specs/{block.module}.antt:{block.line}: {block.name}")


if __name__ == "__main__":
    main()
