#!/usr/bin/env python3
"""Makes the manual page and the completions of metaplay-fixup from its own help, and from the meanings of its faults.

    packaging/make_fixup_manual.py           writes metaplay-fixup.1, metaplay-fixup.bash, _metaplay-fixup and
                                             metaplay-fixup.fish in this folder
    packaging/make_fixup_manual.py --check   names each of them that isn't what it would write, and then returns 1
"""

from __future__ import annotations

import ast
import os
import re
import subprocess
import sys
from collections.abc import Iterator
from typing import NamedTuple

from manual_texts import FOLDER, ROOT, date_of, paragraph, quoted, roff, section, term, title, wrapped, write

NAME = "metaplay-fixup"

# The options that may be given more than once.
REPEATED = {"fonts", "map", "fallback", "allow"}

# Where an option's help begins in a line.
COLUMN = 24


class Option(NamedTuple):
    """An option: its long name, its short one or "", the names of its values, what they are if few, and its help."""

    name: str
    short: str
    values: list[str]
    choices: list[str]
    about: str

    @property
    def title(self) -> str:
        """The option as the manual shows it."""
        names = f"--{self.name}, {self.short}" if self.short else f"--{self.name}"
        return " ".join([names, *(["|".join(self.choices)] if self.choices else self.values)])


def help_text() -> str:
    """The help that the program prints, in lines as long as they are."""
    settings = {**os.environ, "COLUMNS": "1000"}
    return subprocess.run([ROOT / NAME, "--help"], capture_output=True, text=True, check=False, env=settings).stdout


def lines_below(text: str, head: str) -> str:
    """The lines below a head of a help text, up to the next empty line."""
    found = re.search(rf"^{head}:\n((?:  .*\n)+)", text, re.MULTILINE)
    assert found is not None, head
    return found[1]


def rows(lines: str) -> Iterator[tuple[str, str]]:
    """The rows of a section: a term, and what it is, which may be in the next line."""
    found = re.findall(rf"(?m)^  (\S.*?)(?: {{2,}}|\n {{{COLUMN}}})(\S.*)$", lines)
    yield from ((name, about) for name, about in found)


def option_of(name: str, about: str) -> Option:
    """An option by its row."""
    found = re.fullmatch(r"--([a-z-]+)(?:, (-\w))?(?: (.*))?", name)
    assert found is not None, name
    values = (found[3] or "").replace("DIR [DIR ...]", "DIR...")
    choices = values.strip("{}").split(",") if values.startswith("{") else []
    return Option(found[1], found[2] or "", values.split(), choices, about)


def options() -> list[Option]:
    """The program's options, in the order of its help."""
    return [option_of(*row) for row in rows(lines_below(help_text(), "options"))]


def faults() -> Iterator[tuple[str, str]]:
    """The program's own faults, each with what it means and what to do about it."""
    tree = ast.parse((ROOT / "fixup/metaplay_fixup/faults.py").read_text(encoding="utf-8"))
    body = next(it.body for it in tree.body if isinstance(it, ast.ClassDef) and it.name == "FaultName")
    for fault, said in zip(body, body[1:]):
        if isinstance(fault, ast.Assign) and isinstance(said, ast.Expr):
            yield ast.unparse(fault.targets[0]), " ".join(ast.literal_eval(said.value).replace("`", "").split())


def usages(text: str) -> list[str]:
    """The forms of a command line, each without the program's name."""
    return [line.split(f"{NAME} ", 1)[1] for line in text.split("\n\n", 1)[0].splitlines()]


def manual() -> str:
    """The manual page, in section 1."""
    text = help_text()
    _, summary, purpose, _ = text.split("\n\n", 3)
    examples, words, _ = text.split("\nExamples:\n", 1)[1].split("\n\n", 2)
    statuses = re.findall(r"(?m)^  (\d)  (.*)$", lines_below(text, "Exit status"))
    about = wrapped(f"{NAME} - {summary[:1].lower()}{summary[1:]}")
    parts = [title(NAME, date_of(FOLDER / f"{NAME}.1")), section("NAME"), f"{about}\n", section("SYNOPSIS")]
    parts.append(".br\n".join(f".B {roff(NAME)}\n{roff(it)}\n" for it in usages(text)))
    parts.append(section("DESCRIPTION", " ".join(purpose.split())))
    parts += [term(name, about) for name, about in rows(lines_below(text, "positional arguments"))]
    parts += [section("OPTIONS"), *(term(it.title, it.about) for it in options()), paragraph(words)]
    parts += [section("EXAMPLES"), f".nf\n{roff(examples)}\n.fi\n"]
    parts += [section("EXIT STATUS"), *(term(number, said) for number, said in statuses)]
    parts += [paragraph(text.rstrip().rsplit("\n\n", 1)[1])]
    parts += [section("FAULTS"), *(term(name, said) for name, said in faults())]
    parts += [paragraph("The others are those of metaplay(1)."), section("SEE ALSO"), ".BR metaplay (1)\n"]
    return "".join(parts)


def bash() -> str:
    """The completions for bash."""
    known = options()
    folders = "|".join(f"--{it.name}" for it in known if it.values[:1] in (["DIR"], ["DIR..."]))
    cases = "".join(
        f'        --{it.name}) mapfile -t COMPREPLY < <(compgen -W "{" ".join(it.choices)}" -- "$word"); return ;;\n'
        for it in known
        if it.choices
    )
    return f"""# Completions of {NAME} for bash. Made by packaging/make_fixup_manual.py.
_metaplay_fixup() {{
    local word=${{COMP_WORDS[COMP_CWORD]}}
    COMPREPLY=()
    case ${{COMP_WORDS[COMP_CWORD - 1]}} in
{cases}        {folders}) mapfile -t COMPREPLY < <(compgen -d -- "$word"); compopt -o filenames; return ;;
    esac
    case $word in
        -*) mapfile -t COMPREPLY < <(compgen -W "{" ".join(f"--{it.name}" for it in known)}" -- "$word") ;;
        *) compopt -o default ;;
    esac
}}
complete -F _metaplay_fixup {NAME}
"""


def zsh_value(name: str, choices: list[str]) -> str:
    """A value of an option as zsh's _arguments has it."""
    if choices:
        return f":value:({' '.join(choices)})"
    action = {"DIR": "_files -/", "DIR...": "_files -/", "FILE": "_files", "ORIGINAL": "_files"}.get(name, " ")
    return f":{name.rstrip('.')}:{action}"


def zsh() -> str:
    """The completions for zsh."""
    described = []
    for it in options():
        values = "".join(zsh_value(name, it.choices) for name in it.values)
        about = it.about.replace("[", "\\[").replace("]", "\\]")
        described.append(quoted("*" * (it.name in REPEATED) + f"--{it.name}[{about}]{values}"))
    lines = " \\\n".join(f"    {it}" for it in [*described, "'*:file:_files'"])
    return f"""#compdef {NAME}
# Completions of {NAME} for zsh. Made by packaging/make_fixup_manual.py.
_arguments \\
{lines}
"""


def fish_value(option: Option) -> str:
    """What fish completes after an option."""
    if option.choices:
        return f" -x -a '{' '.join(option.choices)}'"
    if option.values[:1] in (["DIR"], ["DIR..."]):
        return " -x -a '(__fish_complete_directories)'"
    return " -r" if option.values and option.values[0] in ("FILE", "ORIGINAL") else " -x" * bool(option.values)


def fish() -> str:
    """The completions for fish."""
    lines = [f"# Completions of {NAME} for fish. Made by packaging/make_fixup_manual.py.\n"]
    for it in options():
        short = f" -s {it.short[1:]}" if it.short else ""
        lines.append(f"complete -c {NAME}{short} -l {it.name}{fish_value(it)} -d {it.about!r}\n")
    return "".join(lines)


MADE = {f"{NAME}.1": manual, f"{NAME}.bash": bash, f"_{NAME}": zsh, f"{NAME}.fish": fish}


def stale() -> list[str]:
    """The files that aren't what the program's help makes."""
    texts = {name: (FOLDER / name).read_text(encoding="utf-8") for name in MADE if (FOLDER / name).exists()}
    return [name for name, make in MADE.items() if texts.get(name) != make()]


def main() -> int:
    """Does what the command line asks for."""
    if sys.argv[1:] == ["--check"]:
        wrong = stale()
        for name in wrong:
            print(f"packaging/{name} isn't fresh: packaging/make_fixup_manual.py writes it")
        return 1 if wrong else 0
    for name, make in MADE.items():
        write(FOLDER / name, make())
    return 0


if __name__ == "__main__":
    sys.exit(main())
