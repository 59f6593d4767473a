"""The command line as a value."""

from __future__ import annotations

import argparse
from collections.abc import Sequence
from dataclasses import dataclass
from enum import Enum
from pathlib import Path
from typing import NamedTuple, NoReturn

from .charsets import code_page_named
from .choice import FontRules
from .help_texts import ABOUT, GUIDE, USAGE
from .options import LARGEST_BOUND, AlphaRule, Options
from .statuses import PROGRAM

STANDARD_INPUT = "stdin"
"""The name of FILE that means standard input."""

_VERIFY = "--verify"


class WrongUsage(Exception):
    """The command line is wrong. `text` says how in a line, and `shows_usage` whether the usage would help."""

    def __init__(self, text: str, shows_usage: bool = False) -> None:
        super().__init__(text)
        self.text = text
        self.shows_usage = shows_usage


class Extra(Enum):
    """What the command line may ask for in place of a conversion."""

    HELP = "help"
    VERSION = "version"


class Side(NamedTuple):
    """The largest surface of a check, in pixels."""

    width: int
    height: int


@dataclass(frozen=True, slots=True)
class Check:
    """What `metaplay prepare --profile print` is asked for the result."""

    side: Side
    allowed: tuple[str, ...]


class Work(NamedTuple):
    """A file to convert, whose name may be STANDARD_INPUT, and what to write."""

    source: str
    target: Path


@dataclass(frozen=True, slots=True)
class CommandLine:
    """What the caller asks for. `code_page` is a name of Python's; `report` and `check` are None if not asked for.

    `is_folder` tells whether `works` come from --out-dir.
    """

    works: tuple[Work, ...]
    is_folder: bool
    folders: tuple[Path, ...]
    rules: FontRules
    code_page: str
    options: Options
    report: Path | None
    check: Check | None


@dataclass(frozen=True, slots=True)
class Verification:
    """What the second reader is asked: about a fixed file and its original, one of which may be STANDARD_INPUT."""

    original: str
    fixed: str
    text_only: bool


def read_command_line(words: Sequence[str]) -> CommandLine | Verification | Extra:
    """What the words after the program's name ask for. Raises WrongUsage."""
    # What follows "--" is a name, even if it looks like an option.
    end = words.index("--") if "--" in words else len(words)
    if _VERIFY in words[:end]:
        return _verification(words)
    parser = _parser()
    given = parser.parse_intermixed_args(list(words[:end]))
    given.names += words[end + 1 :]
    if given.help or given.version:
        return Extra.HELP if given.help else Extra.VERSION
    works = _folder_works(given) if given.out_dir is not None else _single_work(given)
    if given.allow and given.check is None:
        raise WrongUsage("--allow needs --check")
    _check_text_only(given)
    return CommandLine(
        works=works,
        is_folder=given.out_dir is not None,
        folders=tuple(given.fonts),
        rules=FontRules(_maps(given.map), given.instead, tuple(given.fallback)),
        code_page=given.code_page,
        options=Options(
            given.bound,
            AlphaRule(given.alpha or AlphaRule.REFUSE.value),
            given.text_only,
            given.drop_emf_plus,
            given.strokes,
        ),
        report=given.report,
        check=None if given.check is None else Check(Side(*given.check), tuple(dict.fromkeys(given.allow))),
    )


def _check_text_only(given: argparse.Namespace) -> None:
    """Raises WrongUsage for options that would do nothing where only text is replaced."""
    others = {"--strokes": given.strokes, "--drop-emf-plus": given.drop_emf_plus, "--alpha": given.alpha}
    for option, is_given in others.items():
        if given.text_only and is_given:
            raise WrongUsage(f"{option} doesn't go with --text-only, which leaves all but text as it is")


def _verification(words: Sequence[str]) -> Verification | Extra:
    """What words with --verify ask for, which no other option but --text-only goes with. Raises WrongUsage."""
    parser = _Parser(prog=PROGRAM, usage=USAGE, add_help=False, allow_abbrev=False)
    _add_verify(parser)
    _add_text_only(parser)
    _add_extras(parser)
    given, others = parser.parse_known_args(list(words))
    if given.help or given.version:
        return Extra.HELP if given.help else Extra.VERSION
    if others:
        raise WrongUsage(f"--verify doesn't go with {others[0]}", shows_usage=True)
    original, fixed = given.verify
    if original == fixed == STANDARD_INPUT:
        raise WrongUsage("only one file can be stdin")
    return Verification(original, fixed, given.text_only)


def help_text() -> str:
    """What --help writes."""
    return _parser().format_help()


def usage_text() -> str:
    """What follows a line about wrong usage."""
    return _parser().format_usage()


class _Parser(argparse.ArgumentParser):
    """A parser that raises WrongUsage in place of ending the program."""

    def error(self, message: str) -> NoReturn:
        raise WrongUsage(message, shows_usage=True)


def _parser() -> argparse.ArgumentParser:
    parser = _Parser(
        prog=PROGRAM,
        usage=USAGE,
        description=ABOUT,
        epilog=GUIDE,
        formatter_class=argparse.RawDescriptionHelpFormatter,
        add_help=False,
        allow_abbrev=False,
    )
    add = parser.add_argument
    add("names", nargs="*", metavar="FILE", help="the metafile, or the word stdin; then OUT, the file to write")
    add("--out-dir", type=Path, metavar="DIR", help="convert each FILE into a file of the same name in this folder")
    add("--report", type=Path, metavar="FILE", help="write a line of JSON for each replaced record and each file")
    _add_fonts(parser)
    _add_rules(parser)
    add(
        "--check",
        nargs=2,
        type=_side,
        metavar=("W", "H"),
        help="reject a result that metaplay won't certify at this size",
    )
    add(
        "--allow",
        action="append",
        default=[],
        choices=["held-deletion", "emf-plus"],
        help="with --check: also accept this",
    )
    _add_verify(parser)
    _add_extras(parser)
    return parser


def _add_verify(parser: argparse.ArgumentParser) -> None:
    about = (
        "print whether all but the marked places of FILE is the original's, and with --text-only these only draw text"
    )
    parser.add_argument(_VERIFY, nargs=2, metavar=("ORIGINAL", "FILE"), help=about)


def _add_text_only(parser: argparse.ArgumentParser) -> None:
    parser.add_argument("--text-only", action="store_true", help="replace text alone")


def _add_extras(parser: argparse.ArgumentParser) -> None:
    parser.add_argument("--version", "-V", action="store_true", help="print the version")
    parser.add_argument("--help", "-h", action="store_true", help="print help")


def _add_fonts(parser: argparse.ArgumentParser) -> None:
    add = parser.add_argument
    add(
        "--fonts",
        nargs="+",
        action="extend",
        type=Path,
        default=[],
        metavar="DIR",
        help="folders of fonts, with all below",
    )
    add("--map", action="append", type=_map, default=[], metavar="FACE=FAMILY", help="the family for a face")
    add("--instead", metavar="FAMILY", help="the family for each face that has none")
    add("--fallback", action="append", default=[], metavar="FAMILY", help="a family for glyphs that a font hasn't")
    add("--code-page", type=_code_page, default="1252", metavar="N", help="the code page of text in charset 1 (1252)")


def _add_rules(parser: argparse.ArgumentParser) -> None:
    add = parser.add_argument
    _add_text_only(parser)
    add("--strokes", action="store_true", help="replace strokes whose dashes, caps or joins metaplay leaves out (off)")
    add("--alpha", choices=[AlphaRule.WHITE.value], help="lay bitmaps that let light through on white")
    add("--drop-emf-plus", action="store_true", help="leave out comments that hold EMF+")
    add("--bound", type=_side, default=LARGEST_BOUND, metavar="SIDE", help="the largest surface's side (8192)")


def _side(word: str) -> int:
    number = int(word) if word.isascii() and word.isdigit() and len(word) < 6 else 0
    if not 1 <= number <= LARGEST_BOUND:
        raise argparse.ArgumentTypeError(f"{word!r} isn't a number from 1 to {LARGEST_BOUND}")
    return number


def _code_page(word: str) -> str:
    try:
        return code_page_named(int(word))
    except ValueError as error:
        raise argparse.ArgumentTypeError(f"{word!r} isn't a code page that this program knows") from error


def _map(word: str) -> tuple[str, str]:
    face, _, family = word.partition("=")
    if not face or not family:
        raise argparse.ArgumentTypeError(f"{word!r} isn't FACE=FAMILY")
    return face, family


def _maps(pairs: Sequence[tuple[str, str]]) -> dict[str, str]:
    """The family of each face in small letters. Raises WrongUsage if a face has two."""
    maps: dict[str, str] = {}
    for face, family in pairs:
        if maps.setdefault(face.lower(), family) != family:
            raise WrongUsage(f"--map names two families for {face}")
    return maps


def _single_work(given: argparse.Namespace) -> tuple[Work, ...]:
    if len(given.names) != 2:
        raise WrongUsage("FILE and OUT are needed", shows_usage=True)
    source, target = given.names
    return (Work(source, Path(target)),)


def _folder_works(given: argparse.Namespace) -> tuple[Work, ...]:
    """A work for each file. Raises WrongUsage for what --out-dir can't do."""
    if not given.names:
        raise WrongUsage("--out-dir needs a FILE")
    works = tuple(Work(name, given.out_dir / Path(name).name) for name in given.names)
    seen: set[Path] = set()
    for work in works:
        if work.source == STANDARD_INPUT or not Path(work.source).name:
            raise WrongUsage(f"{work.source!r} has no name for the file in --out-dir")
        if work.target in seen:
            raise WrongUsage(f"two files have the name {work.target.name}")
        seen.add(work.target)
    return works
