"""The check of a result by the proved program."""

from __future__ import annotations

import os
import subprocess
import tempfile
from collections.abc import Sequence

from .command_line import Check
from .statuses import Ending, Status, out_of_memory, say

_PREFIX = "metaplay: "


def check_result(program: str, file: int, check: Check) -> None:
    """Asks `metaplay prepare --profile print` for a certificate of an open file, which is thrown away.

    `program` is a path, or a name that is looked for on the PATH. Raises Ending with its fault and the number of the
    result's record if it rejects the file, and otherwise if it can't be run.
    """
    allowed = [word for name in check.allowed for word in ("--allow", name)]
    os.lseek(file, 0, os.SEEK_SET)
    with tempfile.TemporaryDirectory(prefix="metaplay-fixup.") as folder:
        sides = [str(check.side.width), str(check.side.height)]
        words = [program, "prepare", "stdin", *sides, os.path.join(folder, "certificate"), "--profile", "print"]
        try:
            status, line = _ended([*words, *allowed], file)
        except OSError as error:
            raise Ending(Status.FAILED, "cannot run metaplay") from error
    if status == Status.REJECTED:
        raise Ending(Status.REJECTED, f"{line} of the result")
    if status == Status.OUT_OF_MEMORY:
        raise out_of_memory()
    if status != Status.DONE:
        raise Ending(Status.FAILED, f"cannot run metaplay ({line})" if line else "cannot run metaplay")


def _ended(words: Sequence[str], file: int) -> tuple[int, str]:
    """The status of a program, and its last line on standard error. Lines before that go on to standard error.

    In a clone, the program may be proved and built first, which takes long and says so.
    """
    last = ""
    out = subprocess.DEVNULL
    with subprocess.Popen(words, stdin=file, stdout=out, stderr=subprocess.PIPE, text=True, errors="replace") as run:
        assert run.stderr is not None
        for line in run.stderr:
            if last:
                say(last)
            last = line.strip().removeprefix(_PREFIX)
    return run.returncode, last
