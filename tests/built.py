"""The built programs of this repository, and what one answers.

`rt ci` leaves them in the `out/` folders of their crates; these tests run behind it.
"""

import functools
import pathlib
import subprocess
from typing import NamedTuple

ROOT = pathlib.Path(__file__).resolve().parent.parent

CRATES = ROOT / "crates"

SAMPLES = ROOT / "samples"

# The program as both compilers of the toolchain build it.
PROGRAMS = [CRATES / "meta_main/out/meta_main", CRATES / "meta_main/out/meta_main.by-rattle"]

# A placeable metafile with the box (0,0,4,4), a red pixel at (2,1), and an end.
DOT = (SAMPLES / "dot.wmf").read_bytes()

# Its image at 4 by 4: all white, but green and blue of the pixel in column 2 of row 1 are 0.
DOT_IMAGE = b"P6\n4 4\n255\n" + b"\xff" * 19 + b"\0\0" + b"\xff" * 27


class Answer(NamedTuple):
    """What a program answers: its status and what it wrote."""

    status: int
    out: bytes
    err: bytes


class Run(subprocess.Popen):
    """A running program. There is a limit to the time in which it writes, and none to that of its
    end behind: for one, Python would ask again and again whether it has ended, and sleep between
    for longer than most programs run."""

    def wait(self, timeout=None):
        """Waits for the program's end."""
        return super().wait()


def answer(program, words, given=b"", **more):
    """Runs a program on the bytes of its standard input."""
    streams = dict.fromkeys(("stdin", "stdout", "stderr"), subprocess.PIPE)
    with Run([program, *words], **streams, **more) as run:
        try:
            out, err = run.communicate(given, timeout=60)
        finally:
            run.kill()
    return Answer(run.returncode, out, err)


def for_each_program(test):
    """Has a test tried on the program of either compiler."""

    @functools.wraps(test)
    def tried(self):
        for program in PROGRAMS:
            with self.subTest(program=program.name):
                test(self, program)

    return tried
