"""Whole runs of files: each is prepared at the size of its surface, checked, played on white, and once more in bands. They go through the program
that answers requests, many in one call."""

import unittest
from typing import NamedTuple

from request_program import COUNT, OVER, PLAY_COMMAND, PREPARE, PROGRAMS, Command, Ended, asked, ended, replies

# A call has about so many bytes of files and images, and at most so many requests.
CALL, MOST = 1 << 22, 2000

# The program that long loops use.
FIRST = PROGRAMS[:1]


class Run(NamedTuple):
    """A file, the sides of its surface, how many rows a band has, how many pixels the file writes, the colours of some of them by column and row, and
    its certificate, if the test knows it."""

    given: bytes
    sides: tuple
    rows: int
    writes: int
    colours: dict = {}
    certificate: bytes | None = None

    @property
    def area(self):
        """How many pixels the surface has."""
        return self.sides[0] * self.sides[1]

    @property
    def header(self):
        """The header of its image."""
        return b"P6\n%d %d\n255\n" % self.sides

    def commands(self, certificate):
        """The commands that play it by a certificate: over a white image, and in bands."""
        white = self.header + b"\xff" * (3 * self.area)
        return Command(OVER, self.given, certificate, image=white), Command(PLAY_COMMAND, self.given, certificate, self.sides, self.rows)

    def has_colours(self, image):
        """Whether an image has its colours. Samples are the last part of an image."""
        for (x, y), colour in self.colours.items():
            place = len(image) - 3 * (self.area - y * self.sides[0] - x)
            if image[place : place + 3] != bytes(colour):
                return False
        return True

    def fault(self, prepared, counted, whole, banded):
        """What is wrong with the answers to its requests, if anything is."""
        if self.certificate not in (None, prepared[1]):
            return "certificate", *prepared
        if counted[0] != f"wrote {self.writes}":
            return prepared[0], counted[0], self.writes
        if whole != Ended(0, whole.out) or len(whole.out) != len(self.header) + 3 * self.area or not whole.out.startswith(self.header):
            return "no image", whole.status, len(whole.out), whole.err
        if banded != whole:
            return "bands differ", banded.status, len(banded.out), banded.err
        return None if self.has_colours(whole.out) else ("colours", self.colours)


def in_calls(items, size_of):
    """Items in order, divided into calls."""
    held, size = [], 0
    for item in items:
        held.append(item)
        size += size_of(item)
        if size > CALL or len(held) == MOST:
            yield held
            held, size = [], 0
    if held:
        yield held


def all_replies(program, requests):
    """What a program answers to requests, in as many calls as they need."""
    for held in in_calls(requests, len):
        yield from replies(program, held)


def faults(program, runs):
    """The runs with a fault, by their numbers and sides, and what is wrong."""
    number = 0
    for held in in_calls(runs, lambda run: len(run.given) + 3 * run.area):
        prepared = replies(program, [asked(PREPARE, run.sides, run.given) for run in held])
        texts = [text for _, text in prepared]
        counted = replies(program, [asked(COUNT, run.sides, run.given, text) for run, text in zip(held, texts, strict=True)])
        played = ended(program, [command for run, text in zip(held, texts, strict=True) for command in run.commands(text)])
        for run, *answers in zip(held, prepared, counted, played[::2], played[1::2], strict=True):
            fault = run.fault(*answers)
            if fault is not None:
                yield number, run.sides, fault
            number += 1


class RunsTest(unittest.TestCase):
    """Runs with their expected writes and colours."""

    def check_runs(self, runs, programs=FIRST):
        """Each run has its certificate, its writes and its colours, and the same image in bands."""
        runs = runs if programs is FIRST else list(runs)
        for program in programs:
            self.assertEqual(list(faults(program, runs))[:3], [])
