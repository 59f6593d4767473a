"""Certificates of small files made at random from a fixed seed: what the built crates prepare, accept, refuse by name and play, beside the
rules of the reference for each drawing and pixel alone."""

import os
import random
import re
import subprocess
import unittest
from functools import cache
from typing import NamedTuple

from metafile.scripts import EMF, FORMS, WMF
from reading.rules import CORE, PRINT, Rules
from reference.certificates import Certificate, Certifier, Entry, PlaneAxis
from reference.pixels import LONGEST_NIB
from reference.player import Reference
from reference_test import Maker
from request_program import CHECK, PLAY, PREPARE, PROGRAMS, asked, replies

# How many files there are of each format under each profile, and how many of each hundred are played.
FILES, PLAYED = {CORE: 1500, PRINT: 500}, 8

SEED = 23

LARGEST_SIDE = 8192


def line_of(refusal):
    """The line that tells a fault and its record, if it lies in one."""
    fault, number = refusal
    return fault if number is None else f"{fault} at record {number}"


class Counted(dict):
    """An image that counts the pixels that are written."""

    writes = 0

    def __setitem__(self, pixel, colour):
        self.writes += 1
        super().__setitem__(pixel, colour)


class Case(NamedTuple):
    """A file's steps and bytes, its rules, its page map, the bound of its certificate, and what is known of it there."""

    form: object
    rules: Rules
    steps: list
    given: bytes
    axes: tuple
    bound: tuple
    certifier: Certifier
    refusal: tuple | None

    def axes_at(self, sides, kind):
        """The page map on a surface."""
        return tuple(kind(*axis._replace(surface=side)) for axis, side in zip(self.axes, sides, strict=True))


    def text(self, certificate=None, version=None):
        """The bytes of its certificate, or of another one."""
        return (certificate or self.certifier.certificate()).text(version, self.rules.allowed)


def case(form, rules, nth):
    """A file and its certificate."""
    maker = Maker(form, f"{form.name} certificate {SEED * 10_000 + nth}")
    steps = maker.steps()
    axes, given = maker.axes_and_file("; ".join(" ".join(map(str, [name, *words])) for name, words in steps))
    parts = rules.parts([axis.frame for axis in axes])
    axes = tuple(axis._replace(parts=parts) for axis in axes)
    chance = maker.random
    bound = chance.choice([maker.surface, (chance.randint(1, 40), chance.randint(1, 40)), (LARGEST_SIDE, chance.randint(1, LARGEST_SIDE))])
    plane = tuple(PlaneAxis(*axis._replace(surface=side)) for axis, side in zip(axes, bound, strict=True))
    certifier = Certifier(plane, form is EMF, form.first)
    return Case(form, rules, steps, given, axes, bound, certifier, certifier.certify(steps))


@cache
def cases():
    """All files, alike in each run."""
    return [case(form, rules, nth) for form in FORMS for rules, count in FILES.items() for nth in range(count)]


def with_entry(certificate, place, part, change):
    """A certificate with another number in one of its entries."""
    entries = [list(entry) for entry in certificate.entries]
    entries[place][part] += change
    return certificate._replace(entries=tuple(Entry(*entry) for entry in entries))


def with_nibs(certificate, place):
    """A certificate with the nib of one of its entries a column or a row smaller, or larger, where a nib may be so."""
    entry = certificate.entries[place]
    sides = [(part, side) for part, side in zip((5, 6), entry.nib, strict=True)]
    others = [(part, change) for part, side in sides for change in (-1, 1) if 1 <= side + change <= LONGEST_NIB]
    return [with_entry(certificate, place, part, change) for part, change in others]


def altered(certificate, chance):
    """The certificate, and others, each with one of its numbers a little less, with one side of a box a step further in, or with a smaller or a
    larger nib."""
    others = [certificate]
    for part in ("writes", "depth", "slots", "edges", "pieces"):
        number = getattr(certificate, part)
        others += [certificate._replace(**{part: other}) for other in (number - 1, number + 1) if other >= 0]
    places = range(len(certificate.entries))
    for place in chance.sample(places, min(3, len(places))):
        others += [with_entry(certificate, place, part, 1) for part in (0, 1, 2)]
        others += [with_entry(certificate, place, part, -1) for part in (1, 2, 3, 4)]
        others += with_nibs(certificate, place)
    if len(places) > 1:
        first, second, *rest = certificate.entries
        others += [certificate._replace(entries=(second, first, *rest)), certificate._replace(entries=(second, *rest))]
    return others


class Certificates(unittest.TestCase):
    """Files of both formats."""

    def compare(self, program, requests, wanted):
        """Each request is answered as it should be."""
        found = replies(program, requests)
        self.assertEqual(len(found), len(wanted))
        wrong = [(nth, got, want) for nth, (got, want) in enumerate(zip(found, wanted, strict=True)) if got != want]
        self.assertEqual(wrong[:3], [], f"{len(wrong)} of {len(wanted)}")

    def test_many_files_are_prepared_with_nibs_and_some_have_too_wide_ones(self):
        accepted = [it.certifier.certificate().version() for it in cases() if it.refusal is None and it.rules == CORE]
        for version in (b"MPC1", b"MPC2"):
            self.assertGreater(4 * accepted.count(version), len(accepted), version)
        too_wide = sum(it.refusal is not None and it.refusal[0] == "NibTooWide" for it in cases())
        self.assertIn(too_wide, range(20, len(cases()) // 4))

    def test_many_files_are_accepted_and_some_refused(self):
        refused = sum(it.refusal is not None for it in cases())
        self.assertIn(refused, range(len(cases()) // 20, len(cases()) // 2))

    def test_what_is_prepared_is_the_least(self):
        requests = [asked(PREPARE, it.bound, it.given, rules=it.rules) for it in cases()]
        wanted = []
        for it in cases():
            text = it.text()
            wanted.append((line_of(it.refusal), b"") if it.refusal else (f"prepared {len(text)}", text))
        for program in PROGRAMS:
            self.compare(program, requests, wanted)

    def test_what_is_altered_is_refused_by_name_or_accepted(self):
        chance, requests, wanted = random.Random(SEED), [], []
        for it in cases():
            if it.refusal is None:
                for certificate in altered(it.certifier.certificate(), chance):
                    # The version with nibs may tell nibs of one pixel, too.
                    version = None if it.rules.is_print else chance.choice([None, None, b"MPC2"])
                    requests.append(asked(CHECK, (0, 0), it.given, it.text(certificate, version)))
                    told = it.certifier.checked(certificate)
                    records = it.form.first + len(it.steps) + 1
                    wanted.append((f"accepted {records}" if told[0] == "accepted" else line_of(told), b""))
        self.assertGreater(len(wanted), 30_000)
        self.compare(PROGRAMS[0], requests, wanted)

    def test_one_certificate_plays_at_each_size_over_any_image(self):
        chance, requests, wanted = random.Random(SEED + 1), [], []
        for it in cases()[:: 100 // PLAYED]:
            if it.refusal is not None:
                continue
            certificate = it.certifier.certificate()
            most = [min(side, 24) for side in it.bound]
            for sides in [(1, 1), tuple(most), tuple(chance.randint(1, side) for side in most)]:
                reference = Reference(it.axes_at(sides, type(it.axes[0])), it.form is EMF)
                before = {pixel: tuple(chance.randbytes(3)) for pixel in reference.image}
                reference.image = Counted(before)
                image, refusal = reference.play(it.steps)
                self.assertIsNone(refusal)
                self.assertLessEqual(image.writes, certificate.writes)
                pixels = [(x, y) for y in range(sides[1]) for x in range(sides[0])]
                over = b"".join(bytes(before[pixel]) for pixel in pixels)
                requests.append(asked(PLAY, sides, it.given, it.text(), over))
                shown = b"P6\n%d %d\n255\n" % sides + b"".join(bytes(image[pixel]) for pixel in pixels)
                wanted.append((f"played {image.writes}", shown))
            larger = it.bound[0] + 1, it.bound[1]
            if max(larger) <= 40:
                requests.append(asked(PLAY, larger, it.given, it.text(), bytes(3 * larger[0] * larger[1])))
                wanted.append(("SurfaceTooLarge", b""))
        for program in PROGRAMS:
            self.compare(program, requests, wanted)


# How many instructions a record takes of a file of many: to prepare, to check, and to check and play; and how many times that it may take at
# most. That the count goes by the records, and isn't that of their square, is a part of it.
INSTRUCTIONS = {
    "pixels and short lines": {PREPARE: 992, CHECK: 954, PLAY: 1972},
    "selects of the highest index, and polygons": {PREPARE: 1021, CHECK: 964, PLAY: 7034},
}
MOST = 1.15


def instructions(request):
    """The instructions of one request."""
    words = ["valgrind", "--tool=callgrind", "--callgrind-out-file=/dev/null", PROGRAMS[0]]
    told = subprocess.run(words, input=request, capture_output=True, check=True, env={"PATH": os.environ["PATH"]}).stderr
    return int(re.search(rb"Collected : (\d+)", told)[1])


def many_records(what, count):
    """A file of so many records, and the sides at which it is prepared."""
    if what == "pixels and short lines":
        return WMF.file(WMF.records("pixel 1 1; line 3 2") * (count // 2), 4, 0), (8, 8)
    records = EMF.records("pen_at 65534") + EMF.records("select_at 65534; polygon 0 0 3 1 1 3") * (count // 2)
    return EMF.file(records, 4, 65535), (100, 200)


def request_of(kind, what, count):
    """A request of a file of so many records."""
    given, sides = many_records(what, count)
    if kind == PREPARE:
        return asked(PREPARE, sides, given)
    ((_, text),) = replies(PROGRAMS[0], [asked(PREPARE, sides, given)])
    return asked(kind, (8, 8), given, text, bytes(192) if kind == PLAY else b"")


class Instructions(unittest.TestCase):
    """The instructions of files of many records."""

    def test_a_record_takes_as_many_as_on_record(self):
        for what, kinds in INSTRUCTIONS.items():
            for kind, recorded in kinds.items():
                with self.subTest(what=what, kind=kind):
                    few, many = (instructions(request_of(kind, what, count)) for count in (4_000, 12_000))
                    self.assertLess(many - few, MOST * recorded * 8_000)
                    self.assertGreater(many - few, recorded * 8_000 / 2)


if __name__ == "__main__":
    unittest.main()
