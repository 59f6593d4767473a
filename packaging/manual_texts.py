"""Texts as roff(7) and shells have them, for manual pages and completions."""

import datetime
import pathlib
import re
import textwrap

FOLDER = pathlib.Path(__file__).resolve().parent

ROOT = FOLDER.parent

# The length of a line of text in a manual page: mandoc(1) allows 80 characters, and two may come before the first.
LENGTH = 78

# The first line of a manual page, with its date.
TITLE = re.compile(r"\A\.TH (\S+) 1 (\d{4}-\d\d-\d\d)\n")


def escaped(text: str) -> str:
    """A text without signs that mean something else within a line."""
    return text.replace("\\", "\\e").replace("-", "\\-")


def guarded(text: str) -> str:
    """A text without signs that mean something else where a line begins."""
    return re.sub(r"(?m)^([.'])", r"\\&\1", text)


def roff(text: str) -> str:
    """A text as roff(7) has it, in its own lines."""
    return guarded(escaped(text))


def wrapped(text: str) -> str:
    """A text as roff(7) has it, in lines that aren't too long."""
    lines = textwrap.wrap(escaped(text), LENGTH, break_long_words=False, break_on_hyphens=False)
    return guarded("\n".join(lines))


def title(name: str, date: str) -> str:
    """The first line of a manual page in section 1."""
    return f".TH {roff(name.upper())} 1 {date}\n"


def section(head: str, text: str = "") -> str:
    """The head of a section, with a first paragraph if there is one."""
    return f".SH {head}\n{wrapped(text)}\n" if text else f".SH {head}\n"


def paragraph(text: str) -> str:
    """A paragraph."""
    return f".PP\n{wrapped(text)}\n"


def term(name: str, text: str) -> str:
    """A term, and what it is."""
    return f".TP\n.B {roff(name)}\n{wrapped(text)}\n"


def quoted(text: str) -> str:
    """A text as one word of a shell."""
    return "'" + text.replace("'", "'\\''") + "'"


def today() -> str:
    """The date of today."""
    return datetime.date.today().isoformat()


def date_of(path: pathlib.Path) -> str:
    """The date of a manual page that is there, or today's."""
    found = TITLE.match(path.read_text(encoding="utf-8")) if path.exists() else None
    return found[2] if found else today()


def write(path: pathlib.Path, text: str) -> None:
    """Writes a file, if it isn't this text already. A manual page then has the date of today."""
    if not path.exists() or path.read_text(encoding="utf-8") != text:
        path.write_text(TITLE.sub(rf".TH \1 1 {today()}\n", text), encoding="utf-8")
