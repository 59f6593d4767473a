#!/usr/bin/env python3
"""Makes the manual page and the completions from the program's own help, and from the page of faults.

    packaging/make_manual.py PROGRAM           writes packaging/metaplay.1, metaplay.bash, _metaplay and metaplay.fish
    packaging/make_manual.py PROGRAM --check   names each of them that isn't what it would write, and then returns 1
"""

import re
import subprocess
import sys
from typing import NamedTuple

from manual_texts import FOLDER, ROOT, date_of, paragraph, quoted, roff, section, term, title, wrapped, write

# The values of options that have only some; the value of any other option is a number.
VALUES = {"profile": ["core", "print"], "allow": ["held-deletion", "emf-plus"]}

# The options whose value is a folder.
FOLDERS = {"out-dir"}

# The options that may be given more than once.
REPEATED = {"allow"}


class Command(NamedTuple):
    """A command of the program: its name, what it does, its usage without the program's name, and its help line by line."""

    name: str
    about: str
    usage: str
    arguments: list
    options: list


def help_of(program, *words):
    """The help that the program prints."""
    return subprocess.run([program, *words, "--help"], capture_output=True, text=True, check=False).stdout


def lines_below(text, head):
    """The lines below a head of a help text, up to the next empty line."""
    found = re.search(rf"^{head}:\n((?:  .*\n)+)", text, re.MULTILINE)
    return found[1].splitlines() if found else []


def rows(lines):
    """The rows of a section: a term, and what it is."""
    return [re.split(r"\s{2,}", line.strip(), maxsplit=1) for line in lines]


def commands(program):
    """The program's commands, in the order of its help."""
    for name, about in rows(lines_below(help_of(program), "Commands")):
        if name != "help":
            text = help_of(program, name)
            usage = re.search(r"^Usage: metaplay (.*)$", text, re.MULTILINE)[1]
            yield Command(name, about, usage, rows(lines_below(text, "Arguments")), rows(lines_below(text, "Options")))


def manual(program):
    """The manual page, in section 1."""
    text = help_of(program)
    about, guide = text.split("\n\nUsage:", 1)
    guide = guide.split("\nExamples:\n", 1)[1]
    summary, purpose = about.split("\n\n", 1)
    known = list(commands(program))
    parts = [title("metaplay", date_of(FOLDER / "metaplay.1"))]
    parts += [section("NAME"), wrapped(f'metaplay - {summary[:1].lower()}{summary[1:].rstrip(".")}'), "\n", section("SYNOPSIS")]
    parts.append(".br\n".join(f".B metaplay {roff(it.name)}\n{roff(it.usage.removeprefix(it.name).strip())}\n" for it in known))
    parts += [section("DESCRIPTION", " ".join(purpose.split())), section("COMMANDS")]
    for it in known:
        parts.append(f".SS {roff(it.usage)}\n{wrapped(it.about)}.\n")
        parts += [term(name.strip("<>[].") if name.startswith(("<", "[")) else name, about) for name, about in it.arguments + it.options]
    examples, rest = guide.split("\n\n", 1)
    parts += [section("EXAMPLES"), f".nf\n{roff(examples)}\n.fi\n"]
    words, statuses = rest.split("Exit status:\n", 1)
    parts.append(paragraph(" ".join(words.split())))
    table, _, more = statuses.partition("\n\n")
    parts.append(section("EXIT STATUS"))
    parts += [term(number, " ".join(said.split())) for number, said in re.findall(r"(?ms)^  (\d)  (.*?)(?=^  \d|\Z)", table)]
    parts += [paragraph(" ".join(more.split("FAULTS.md")[0].split())), section("FAULTS")]
    parts += [term(name, f"{code}. {said}") for code, name, said in faults()]
    parts += [section("SEE ALSO"), ".BR metaplay\\-fixup (1),\n.BR ppm (5)\n"]
    return "".join(parts)


def faults():
    """The faults with their codes and meanings, as the page of faults has them."""
    page = (ROOT / "docs/FAULTS.md").read_text(encoding="utf-8")
    for code, name, said in re.findall(r"(?m)^\| (\d+) \| `(\w+)` \| ([^|]*) \|", page):
        yield code, name, re.sub(r"\[([^]]*)\]\([^)]*\)", r"\1", said).replace("`", "").strip()


def long_options(command):
    """The long options of a command, each with what it is and whether it takes a value."""
    for name, about in command.options:
        found = re.search(r"--([a-z-]+)( <)?", name)
        if found:
            yield found[1], about, bool(found[2])


def bash(program):
    """The completions for bash."""
    known = list(commands(program))
    cases = "".join(f'        {it.name}) options="{" ".join(f"--{name}" for name, _, _ in long_options(it))}" ;;\n' for it in known)
    values = "".join(f'        --{name}) mapfile -t COMPREPLY < <(compgen -W "{" ".join(words)}" -- "$word"); return ;;\n' for name, words in VALUES.items())
    values += "".join(f"        --{name}) compopt -o dirnames; return ;;\n" for name in FOLDERS)
    return f"""# Completions of metaplay for bash. Made by packaging/make_manual.py.
_metaplay() {{
    local word=${{COMP_WORDS[COMP_CWORD]}} options=""
    COMPREPLY=()
    if [ "$COMP_CWORD" -eq 1 ]; then
        mapfile -t COMPREPLY < <(compgen -W "{" ".join(it.name for it in known)} help --help --version -V" -- "$word")
        return
    fi
    case ${{COMP_WORDS[COMP_CWORD - 1]}} in
{values}    esac
    case ${{COMP_WORDS[1]}} in
{cases}    esac
    case $word in
        -*) mapfile -t COMPREPLY < <(compgen -W "$options" -- "$word") ;;
        *) compopt -o default ;;
    esac
}}
complete -F _metaplay metaplay
"""


def described_option(name, about, takes):
    """An option as zsh's _arguments has it."""
    value = f":value:({' '.join(VALUES[name])})" if name in VALUES else ":number" * takes
    value = ":folder:_files -/" if name in FOLDERS else value
    return quoted("*" * (name in REPEATED) + f"--{name}[{about}]{value}")


def zsh(program):
    """The completions for zsh."""
    known = list(commands(program))
    described = "".join(f"        {quoted(f'{it.name}:{it.about}')}\n" for it in known)
    cases = []
    for it in known:
        options = "".join(f" {described_option(*option)}" for option in long_options(it))
        cases.append(f"    {it.name}) _arguments{options} '*:file:_files' ;;\n")
    return f"""#compdef metaplay
# Completions of metaplay for zsh. Made by packaging/make_manual.py.
if (( CURRENT == 2 )); then
    local -a commands
    commands=(
{described}    )
    _describe command commands
    compadd -- help --help --version -V
    return
fi
(( CURRENT-- ))
shift words
case $words[1] in
{"".join(cases)}esac
"""


def fish(program):
    """The completions for fish."""
    lines = ["# Completions of metaplay for fish. Made by packaging/make_manual.py.\n"]
    lines += [f"complete -c metaplay -n __fish_use_subcommand -f -a '{word}'\n" for word in ("help", "--help", "--version", "-V")]
    for it in commands(program):
        lines.append(f"complete -c metaplay -n __fish_use_subcommand -f -a {it.name} -d {it.about!r}\n")
        for name, about, takes in long_options(it):
            value = f" -x -a '{' '.join(VALUES[name])}'" if name in VALUES else " -x" * takes
            value = " -x -a '(__fish_complete_directories)'" if name in FOLDERS else value
            lines.append(f"complete -c metaplay -n '__fish_seen_subcommand_from {it.name}' -l {name}{value} -d {about!r}\n")
    return "".join(lines)


MADE = {"metaplay.1": manual, "metaplay.bash": bash, "_metaplay": zsh, "metaplay.fish": fish}


def stale(program):
    """The files that aren't what the program's help makes."""
    return [name for name, make in MADE.items() if not (FOLDER / name).exists() or (FOLDER / name).read_text(encoding="utf-8") != make(program)]


def main():
    """Does what the command line asks for."""
    program, *words = sys.argv[1:]
    if words == ["--check"]:
        for name in stale(program):
            print(f"packaging/{name} isn't fresh: packaging/make_manual.py writes it")
        return 1 if stale(program) else 0
    for name, make in MADE.items():
        write(FOLDER / name, make(program))
    return 0


if __name__ == "__main__":
    sys.exit(main())
