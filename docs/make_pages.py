#!/usr/bin/env python3
"""Makes docs/PROMISES.md from the `//!` lists of each crate's lib.rt, and docs/DEFINITIONS.md from the comments in its specs/.

    docs/make_pages.py           writes both pages
    docs/make_pages.py --check   tells which page isn't what it would write, and then ends with 1
"""

import pathlib
import re
import sys
import textwrap

ROOT = pathlib.Path(__file__).resolve().parent.parent
sys.path.insert(0, str(ROOT / "tests"))

from page_names import HEAD, crates, libraries  # noqa: E402

WIDTH = 110

MADE = "<!-- Made by docs/make_pages.py: change the sources, not this page. -->"

PROMISES = f"""{MADE}
# What is proved, crate by crate

Each list is the one in the documentation of the crate's root, `src/lib.rt`. In parentheses stand the calls
whose contracts say it. Every function is also proved safe and total: no arithmetic wraps, no index is out of
bounds, no divisor is 0, and each call returns.
"""

DEFINITIONS = f"""{MADE}
# Definitions

The definitions that contracts of public functions cite, by crate and file, each with the comment above it.
Numbers in them are whole numbers without bounds.
"""


def wrapped(text):
    """Paragraphs and items of a list, each wrapped."""
    for block in re.split(r"\n\s*\n|\n(?=- )", text):
        item = block.startswith("- ")
        yield textwrap.fill(" ".join(block.split()), WIDTH, subsequent_indent="  " if item else "", break_long_words=False, break_on_hyphens=False)


def joined(text):
    """A text whose paragraphs are wrapped, with an empty line between paragraphs and none between the items of a list."""
    blocks = list(wrapped(text))
    gaps = ["\n" if one.startswith("- ") and other.startswith("- ") else "\n\n" for one, other in zip(blocks, blocks[1:])]
    return "".join(part for pair in zip(blocks, [*gaps, ""]) for part in pair)


def documentation(name):
    """The documentation of a crate's root: its first paragraph, and what stands under 'What is promised'."""
    lines = re.findall(r"(?m)^//! ?(.*)$", (ROOT / "crates" / name / "src" / "lib.rt").read_text(encoding="utf-8"))
    head, _, promises = "\n".join(lines).partition("# What is promised")
    return head.strip(), promises.strip()


def promises_page():
    """The page of promises: a section for each crate that has a list, lowest first."""
    sections = [PROMISES]
    for name in libraries():
        if (ROOT / "crates" / name / "src" / "lib.rt").exists():
            head, promises = documentation(name)
            if promises:
                sections.append(f"## `{name}`\n\n{joined(head)}\n\n{joined(promises)}\n")
    return "\n".join(sections)


def comments(path):
    """What each definition of a file is, by its name: the comment above its block, or above the last block that has one, or at the file's top."""
    found, above = {}, ""
    for block in re.split(r"\n\s*\n", path.read_text(encoding="utf-8")):
        lines = block.strip().splitlines()
        said = " ".join(line.strip().removeprefix("--").strip() for line in lines if line.strip().startswith("--"))
        code = "\n".join(line for line in lines if not line.strip().startswith(("--", "module _"))).strip()
        above = said or above
        head = HEAD.match(code)
        if head and not code.startswith(("use ", "pub use ", "pub mod ")):
            found[head[1]] = above
    return found


def cited(known):
    """The definitions that contracts of public functions cite, by crate and file."""
    found = {}
    for it in known.values():
        for crate, file, name in it.cited():
            while crate in known and name in known[crate].imports.get(file, {}):
                crate, file = known[crate].imports[file][name]
            if crate in known and not file.startswith("declared."):
                found.setdefault(crate, {}).setdefault(file, set()).add(known[crate].files[file].get(name, name))
    return found


def sentence(text):
    """A comment as a sentence."""
    return f"{text[:1].upper()}{text[1:]}{'' if text.endswith('.') else '.'}" if text else ""


def rows(crate, file, names):
    """The rows of a file's definitions, in its order; those of one comment stand in one row."""
    said = comments(ROOT / "crates" / crate / "specs" / f"{file}.antt")
    by_comment = {}
    for name, comment in said.items():
        if name in names:
            by_comment.setdefault(comment, []).append(name)
    for comment, together in by_comment.items():
        yield f"| {', '.join(f'`{name}`' for name in together)} | {sentence(comment)} | `{file}` |".replace("||", "\\|\\|")


def definitions_page():
    """The page of definitions: a table for each crate, lowest first."""
    known = crates()
    by_crate = cited(known)
    sections = [DEFINITIONS]
    for crate in libraries():
        if crate in by_crate:
            table = [row for file in known[crate].files if file in by_crate[crate] for row in rows(crate, file, by_crate[crate][file])]
            sections.append("\n".join([f"## `{crate}`\n", "| definition | what it says | file in `specs/` |", "|---|---|---|", *table, ""]))
    return "\n".join(sections)


PAGES = {"docs/PROMISES.md": promises_page, "docs/DEFINITIONS.md": definitions_page}


def stale():
    """The pages that aren't what their sources make."""
    return [page for page, make in PAGES.items() if (ROOT / page).read_text(encoding="utf-8") != make()]


def main():
    """Does what the command line asks for."""
    if sys.argv[1:] == ["--check"]:
        for page in stale():
            print(f"{page} isn't fresh: docs/make_pages.py writes it")
        return 1 if stale() else 0
    for page, make in PAGES.items():
        (ROOT / page).write_text(make(), encoding="utf-8")
    return 0


if __name__ == "__main__":
    sys.exit(main())
