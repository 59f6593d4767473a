"""`--verify`: what the second reader says of a fixed file."""

from __future__ import annotations

import os
import sys

from metaplay_verify import Unreadable, verify
from metaplay_verify.lines import lines_of

from .child import Limits, run_limited
from .command_line import Verification
from .one_file import empty_file, read_file, write_file
from .statuses import CANNOT_READ, CANNOT_WRITE, Ending, Status, out_of_memory


def verify_file(asked: Verification, limits: Limits) -> None:
    """Prints what the second reader says of a file, which it reads in a process of its own.

    Raises Ending with status 1 if it rejects the file, with status 3 if it can't read it, and else as `run_limited`
    does. The line of a rejected file is empty, since it is printed with the others.
    """
    said = empty_file("said")
    try:
        try:
            run_limited(lambda: _verify(asked, said), limits)
        except Ending as ending:
            if ending.line:
                raise
            _print(said)
            raise
        except (OSError, MemoryError) as error:
            # The system has no process or no memory left.
            raise out_of_memory() from error
        _print(said)
    finally:
        os.close(said)


def _verify(asked: Verification, said: int) -> None:
    """Writes what the second reader says to an open file. Raises Ending if the file is rejected or can't be read."""
    try:
        original, fixed = _read(asked.original, "the original"), _read(asked.fixed, "the fixed file")
        verdict = verify(original, fixed, asked.text_only)
    except Unreadable as error:
        raise Ending(Status.FAILED, f"{CANNOT_READ} ({error})") from error
    text = "".join(f"{line}\n" for line in lines_of(verdict, asked.text_only))
    write_file(said, (text.encode("ascii", "backslashreplace"),))
    if not verdict.holds:
        raise Ending(Status.REJECTED, "")


def _read(source: str, role: str) -> bytes:
    """All bytes of a file. Raises Ending, which says what the file is, if it can't be read."""
    try:
        return read_file(source)
    except Ending as ending:
        raise Ending(ending.status, f"{ending.line} ({role})") from ending


def _print(said: int) -> None:
    """Prints all of an open file. Raises Ending if that can't be done."""
    text = os.pread(said, os.fstat(said).st_size, 0).decode("ascii")
    try:
        sys.stdout.write(text)
        sys.stdout.flush()
    except (OSError, AttributeError) as error:
        # There is no sys.stdout if standard output is closed.
        raise Ending(Status.FAILED, CANNOT_WRITE) from error
