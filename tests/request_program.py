"""A program that answers requests to prepare, check and play, and requests for commands (crates/test_requests), as both compilers of the
toolchain build it."""

import itertools
import os
import struct
import subprocess
import unittest
from typing import NamedTuple

from built import CRATES
from reading.rules import CORE, Rules

PROGRAMS = [CRATES / "test_requests/out/test_requests", CRATES / "test_requests/out/test_requests.by-rattle"]

# Kinds of requests: prepare a file's certificate, check one, play the file by one over an image, or play it on white, which is answered by
# how many pixels were written; each command; and the information about a file, whose name is in place of the certificate.
PREPARE, CHECK, PLAY, COUNT, SHOW, PREPARE_COMMAND, CHECK_COMMAND, PLAY_COMMAND, OVER, LIST, INFO = range(11)


def asked(kind, sides, given, certificate=b"", image=b"", rules=CORE):
    """A request, by rules."""
    return struct.pack("<5I", kind | rules.number() << 16, *sides, len(given), len(certificate)) + given + certificate + image


class Output(NamedTuple):
    """What a command writes to: how many bytes it takes, and whether it can be flushed."""

    most: int = 0xFFFFFFFF
    can_flush: bool = True


WORKING = Output()


class Command(NamedTuple):
    """A command and what it is given. Of no rows, the command chooses the height of its bands."""

    kind: int
    given: bytes
    certificate: bytes = b""
    sides: tuple = (1, 1)
    rows: int = 0
    image: bytes = b""
    out: Output = WORKING
    err: Output = WORKING
    rules: Rules = CORE

    def numbers(self):
        """The numbers of the request."""
        lengths = len(self.given), len(self.certificate), len(self.image)
        return (self.kind | self.rules.number() << 16, *self.sides, *lengths, self.rows, *self.out, *self.err)

    def asked(self):
        """The request."""
        return struct.pack("<11I", *self.numbers()) + self.given + self.certificate + self.image


class Ended(NamedTuple):
    """How a command ended: its status, what its outputs got, and whether its line was printed, if it had one."""

    status: int
    out: bytes = b""
    err: bytes = b""
    printed: bool = True


def length_behind(words, told, place):
    """How many bytes lie behind a line of these words."""
    if words[0] in ("prepared", "informed"):
        return int(words[1])
    if words[0] == "played":
        _, sides, _, _ = told[place : place + 20].split(b"\n", 3)
        width, height = map(int, sides.split())
        return len(b"P6\n%d %d\n255\n" % (width, height)) + 3 * width * height
    return int(words[3]) + int(words[4]) if words[0] == "ended" else 0


def replies(program, requests):
    """What a program answers, request by request: a line, and the bytes that it made."""
    with subprocess.Popen([program], stdin=subprocess.PIPE, stdout=subprocess.PIPE) as run:
        told, _ = run.communicate(b"".join(requests), timeout=600)
    found, place = [], 0
    while place < len(told):
        end = told.index(b"\n", place)
        line = told[place:end].decode()
        place = end + 1
        behind = place + length_behind(line.split(), told, place)
        found.append((line, told[place:behind]))
        place = behind
    return found


def ended(program, commands):
    """How commands ended."""
    found = []
    for line, made in replies(program, (command.asked() for command in commands)):
        _, status, printed, of_out, _ = line.split()
        found.append(Ended(int(status), made[: int(of_out)], made[int(of_out) :], printed == "1"))
    return found


# How many commands are asked at a time.
MANY = 2000


class CommandsTest(unittest.TestCase):
    """Tests of commands."""

    def check(self, cases, programs=PROGRAMS):
        """Of pairs of a command and its end, each command ends so."""
        cases = cases if len(programs) == 1 else list(cases)
        for program in programs:
            rest = iter(cases)
            while some := list(itertools.islice(rest, MANY)):
                found = ended(program, [command for command, _ in some])
                self.assertEqual(len(found), len(some))
                pairs = zip(some, found, strict=True)
                wrong = [(command, end, wanted) for (command, wanted), end in pairs if end != wanted]
                if wrong:
                    self.fail(f"{program.name}: {len(wrong)} of {len(some)} commands end otherwise; {compared(*wrong[0])}")


def compared(command, end, wanted):
    """How a command ended and how it should, with lengths of the outputs, and some of their bytes from where they differ."""
    place = len(os.path.commonprefix([end.out, wanted.out]))
    told, sought = (it._replace(out=(len(it.out), place, it.out[place : place + 30])) for it in (end, wanted))
    return f"{command.numbers()}: {told}, wanted {sought}"
