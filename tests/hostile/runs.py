"""Runs built programs on many cases, within limits of memory and time: a shell starts them one after another, which costs a thousandth of a
second each."""

import pathlib
import subprocess
import tempfile
from typing import NamedTuple

from built import Answer
from hostile.cases import PIXELS, case
from memory_test import answer_within, bare

# The seconds of processor that one run may take.
SECONDS = 10

# How many seconds a batch may take.
BATCH_SECONDS = 600

# What a run may take beside what is told below: a listing makes room for any file with the handles of its header.
ROOM = 16 << 20

# How many bytes a player asks for at most for a point, for a piece of a path, and for a saved state or an object: a certificate that tells more
# than its file needs is accepted, and as much is asked for.
POINT, PIECE, OTHER = 400, 96, 256

# A run has its limit of addresses first, in KiB. Behind it its status stands on both streams.
SCRIPT = f"""
ulimit -t {SECONDS}
r() {{
    ulimit -S -v "$1"
    shift
    "$0" "$@"
    s=$?
    echo "=$s"
    echo "=$s" >&2
}}
"""


class Wrong(NamedTuple):
    """A case that isn't answered as it should be: its number, the program, the words, what it answers and what it should."""

    number: int
    program: str
    words: tuple
    found: Answer
    wanted: Answer

    def __str__(self):
        return f"case {self.number}, {self.program} {self.words}: {str(self.found)[:300]} in place of {str(self.wanted)[:300]}"


def limit_of(program, one):
    """How many KiB of addresses a run of a program on a case may take: the program, its files, the surface, a room, and what the certificate
    asks for."""
    depth, slots, edges, pieces = one.needs
    room = ROOM + POINT * edges + PIECE * pieces + OTHER * (depth + slots)
    return (bare(program) + sum(len(data) for _, data in one.files()) + 3 * PIXELS + room) // 1024 + 1


def named(words, number):
    """The words of a command on the files of a case in its folder."""
    return [f"{number}.{word}" if word in ("f", "c", "i") else str(word) for word in words]


def marked(streams, answers):
    """What both streams show where commands have these answers."""
    return tuple(b"".join(getattr(it, stream) + b"=%d\n" % it.status for it in answers) for stream in streams)


def first_wrong(found, answers):
    """The place of the first answer that isn't found on both streams."""
    out, err = found
    for nth, it in enumerate(answers):
        mark = b"=%d\n" % it.status
        if not (out.startswith(it.out + mark) and err.startswith(it.err + mark)):
            return nth
        out, err = out[len(it.out + mark) :], err[len(it.err + mark) :]
    return len(answers) - 1


def line(program, one, number, words):
    """The line of the script that gives a case to a program by a command."""
    return f"r {limit_of(program, one)} {' '.join(named(words, number))}\n"


def run(program, folder, asked):
    """Runs a program on commands, and tells the first that isn't answered as it should be."""
    script = SCRIPT + "".join(line(program, one, number, words) for one, number, words, _ in asked)
    ran = subprocess.run(["sh", "-c", script, program], cwd=folder, capture_output=True, stdin=subprocess.DEVNULL, timeout=BATCH_SECONDS, check=False)
    wanted = marked(("out", "err"), [told for *_, told in asked])
    if (ran.stdout, ran.stderr) == wanted:
        return []
    one, number, words, told = asked[first_wrong((ran.stdout, ran.stderr), [it for *_, it in asked])]
    limit = 1024 * limit_of(program, one)
    found = answer_within(limit, program, named(words, number), cwd=folder)
    return [Wrong(number, str(program), words, found, told)]


def tried(programs, seed, numbers):
    """Gives cases of these numbers to programs: how many are accepted at their certificates, and what is wrong of each program."""
    with tempfile.TemporaryDirectory() as room:
        asked, accepted = [], 0
        for number in numbers:
            one = case(seed, number)
            for name, data in one.files():
                pathlib.Path(room, f"{number}.{name}").write_bytes(data)
            commands = one.commands()
            asked += [(one, number, words, told) for words, told in commands]
            accepted += commands[1][1].status == 0
        return accepted, [wrong for program in programs for wrong in run(program, room, asked)]
