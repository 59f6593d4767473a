"""The command: python3 -m metaplay_verify ORIGINAL FILE [--text-only]."""

from __future__ import annotations

import sys
from collections.abc import Sequence

from .files import LONGEST_FILE, Unreadable
from .lines import lines_of
from .verdict import verify

USAGE = "usage: python3 -m metaplay_verify ORIGINAL FILE [--text-only]"


def main(words: Sequence[str]) -> int:
    """Runs the command. The status is 0 if it holds, 1 if it doesn't, 2 for wrong usage, 3 if a file can't be read."""
    text_only = "--text-only" in words
    paths = [word for word in words if word != "--text-only"]
    if len(paths) != 2 or len(words) - len(paths) > 1 or any(path.startswith("-") for path in paths):
        print(USAGE, file=sys.stderr)
        return 2
    try:
        verdict = verify(_read(paths[0]), _read(paths[1]), text_only)
    except (OSError, ValueError, Unreadable) as error:
        print(f"can't read: {error}", file=sys.stderr)
        return 3
    for line in lines_of(verdict, text_only):
        print(line)
    return 0 if verdict.holds else 1


def _read(path: str) -> bytes:
    with open(path, "rb") as file:
        return file.read(LONGEST_FILE + 1)


if __name__ == "__main__":
    sys.exit(main(sys.argv[1:]))
