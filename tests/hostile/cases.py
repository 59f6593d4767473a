"""Hostile cases: each a file, a certificate, the sides at which it is asked for, and the answer of each command."""

import random
from functools import cache
from typing import NamedTuple

from built import PROGRAMS, answer
from hostile.changes import certificate_changed, changed, image_changed
from hostile.corpus import corpus
from reading.certificates import read_certificate
from reading.commands import Asked
from reading.rules import CORE, Rules
from reference.certificates import Certificate
from reference.pixels import Refused

# No file is longer.
LONGEST = 16_384

# No surface has more pixels, and so few where a file has many records.
PIXELS, FEW_PIXELS, MANY_RECORDS = 120, 24, 40


class Case(NamedTuple):
    """A file, the rules that are given for it, a certificate, the bound for which one is prepared, the sides at which it is shown and played, and the text of an image, if it is
    played over one."""

    file: bytes
    rules: Rules
    certificate: bytes
    bound: tuple
    shown: tuple
    played: tuple
    image: bytes | None

    @property
    def needs(self):
        """How many saved states, slots, points and pieces its certificate tells, if it can be read."""
        try:
            return read_certificate(self.certificate)[3:7]
        except Refused:
            return (0, 0, 0, 0)

    def files(self):
        """Its files, by the letters that stand for them in the words of commands."""
        return [("f", self.file), ("c", self.certificate), *([] if self.image is None else [("i", self.image)])]

    def commands(self):
        """The commands that are given, each by the words behind its name, and its answer. Files are told by the letters `f`,
        `c` and `i`."""
        asked, words = Asked(self.file, self.rules), self.rules.words()
        made = [
            (("prepare", "f", *self.bound, "/dev/stdout", *words), asked.prepare(self.bound)),
            (("check", "f", "c"), asked.check(self.certificate)),
            (("show", "f", *self.shown, *words), asked.show(self.shown)),
        ]
        if self.image is None:
            made.append((("play", "f", "c", *self.played), asked.play(self.certificate, self.played)))
        else:
            made.append((("over", "f", "c", "i"), asked.over(self.certificate, self.image)))
        return [*made, (("list", "f", *words), asked.list())] if has_list() else made


@cache
def has_list():
    """Whether the program lists records."""
    return b"\n  metaplay list " in answer(PROGRAMS[0], ["--help"]).out


def sides(chance, pixels):
    """The sides of a small surface: at times a row or a column."""
    if chance.random() < 0.1:
        long = chance.randint(1, pixels)
        return chance.choice([(long, 1), (1, long)])
    width = chance.randint(1, min(pixels, 12))
    return width, chance.randint(1, max(1, min(pixels // width, 12)))


def file_of(chance):
    """A file after some changes, or at times after none."""
    base = chance.choice(corpus())
    made = base
    for _ in range(chance.choices([0, 1, 2, 3, 5], [1, 12, 5, 2, 1])[0]):
        made = changed(chance, made)
    return base, made[:LONGEST]


def certificate_of(chance, asked, base, bound):
    """A certificate for a file, or where it has none for the file that it was made from: mostly changed."""
    prepared = asked.prepared(bound) or Asked(base, asked.rules).prepared(bound)
    data = asked.text(prepared or Certificate(*bound, 0, 0, 0, 0, 0, ()))
    for _ in range(chance.choices([0, 1, 2], [10, 9, 1])[0]):
        data = certificate_changed(chance, data)
    return data


def image_of(chance, sides):
    """The text of an image, at times none: mostly that of any pixels on a surface, in half of the cases changed."""
    if chance.random() < 0.6:
        return None
    data = b"P6\n%d %d\n255\n" % sides + chance.randbytes(3 * sides[0] * sides[1])
    for _ in range(chance.choices([0, 1, 2], [5, 4, 1])[0]):
        data = image_changed(chance, data)
    return data


def rules_of(seed, number):
    """The rules of a case: in half of the cases those of core, and otherwise of the print profile, which allows anything."""
    chance = random.Random(f"rules {seed} {number}")
    return chance.choice([CORE, Rules(True, chance.random() < 0.5, chance.random() < 0.5)])


def case(seed, number):
    """A case, by a seed and its number."""
    chance = random.Random(f"{seed} {number}")
    base, file = file_of(chance)
    rules = rules_of(seed, number)
    asked = Asked(file, rules)
    pixels = FEW_PIXELS if asked.steps and len(asked.steps.read) > MANY_RECORDS else PIXELS
    small = sides(chance, pixels)
    bound = chance.choice([small, small, small, sides(chance, pixels), (chance.randint(1, 8192), 8192)])
    within = tuple(min(side, most) for side, most in zip(small, bound, strict=True))
    played = chance.choice([within, within, within, (1, 1), small, sides(chance, pixels)])
    return Case(file, rules, certificate_of(chance, asked, base, bound), bound, small, played, image_of(chance, played))
