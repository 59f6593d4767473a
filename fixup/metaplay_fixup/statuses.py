"""How the program ends: its statuses, and the lines on standard error."""

from __future__ import annotations

import sys
from enum import IntEnum

PROGRAM = "metaplay-fixup"


class Status(IntEnum):
    """What the program ends with, as `metaplay` does."""

    DONE = 0
    REJECTED = 1
    WRONG_USAGE = 2
    FAILED = 3
    OUT_OF_MEMORY = 4


class Ending(Exception):
    """The conversion of a file ends here, without an output, for a reason that goes to standard error."""

    def __init__(self, status: Status, line: str) -> None:
        super().__init__(status, line)
        self.status = status
        self.line = line


CANNOT_READ = "cannot read"
CANNOT_WRITE = "cannot write"


def out_of_memory() -> Ending:
    """The ending of a file that needs more memory than there is."""
    return Ending(Status.OUT_OF_MEMORY, "OutOfMemory")


def say(line: str, more: str = "") -> None:
    """Writes a line to standard error, if that can be written at all, and perhaps more lines as they are.

    The names in the line may come from a hostile file, so what a terminal might take for a command is escaped.
    """
    try:
        sys.stderr.write(f"{PROGRAM}: {printable(line)}\n{more}")
        sys.stderr.flush()
    except (OSError, AttributeError):
        # There is no other place to say it; the status tells.
        pass


def printable(text: str) -> str:
    """The text, with what isn't printable, and half surrogates, as escapes of Python."""
    return "".join(char if char.isprintable() else ascii(char)[1:-1] for char in text)
