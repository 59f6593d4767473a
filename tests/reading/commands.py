"""What the commands answer to a file and a certificate, by the reference player."""

import json
import re
from functools import cache

from answers import refused, shown
from built import ROOT, Answer
from reading.certificates import read_certificate, refusal_of, rules_in
from reading.fields import text_of
from reading.images import read_image
from reading.listing import listing
from reading.playing import Steps
from reading.rules import CORE
from reference.pixels import Refused

# The longest side of a surface.
LARGEST_SIDE = 8192


@cache
def codes():
    """The codes of faults by their names, as the page of faults has them."""
    rows = re.findall(r"^\| (\d+) \| `(\w+)` \|", (ROOT / "docs/FAULTS.md").read_text(), re.MULTILINE)
    return {name: int(code) for code, name in rows}


def report(status, members):
    """A report on standard output, and a status."""
    return Answer(status, json.dumps(members, sort_keys=True, separators=(",", ":")).encode() + b"\n", b"")


def refused_report(text, record):
    """The report of a refusal."""
    name, _, number = text.partition(" ")
    told = {"code": codes()[name], "fault": name, "number": int(number) if number else None, "record": record}
    return report(1, {"accepted": False, **told})


class Asked:
    """A file, of which each command is answered by rules: what is found out is kept for the next."""

    def __init__(self, file, rules=CORE):
        self.file = file
        self.rules = rules
        self.others = {}
        self.certified_at = {}
        self.images = {}
        self.steps, self.refusal = None, None
        try:
            self.steps = Steps(file, rules)
        except Refused as refusal:
            self.refusal = text_of(refusal), None

    def by_rules_of(self, data):
        """The same file by the rules of a certificate."""
        rules = rules_in(data)
        if rules == self.rules:
            return self
        if rules not in self.others:
            self.others[rules] = Asked(self.file, rules)
        return self.others[rules]

    def certified(self, sides):
        """The certifier at a bound, and the refusal there, if there is one."""
        if self.refusal:
            return None, self.refusal
        if sides not in self.certified_at:
            self.certified_at[sides] = self.steps.certified(sides)
        return self.certified_at[sides]

    def prepared(self, sides):
        """The certificate for surfaces of at most these sides, or none."""
        certifier, refusal = self.certified(sides)
        return None if refusal else certifier.certificate()

    def text(self, certificate):
        """The bytes of a certificate."""
        return certificate.text(allowed=self.rules.allowed)

    def prepare(self, sides):
        """The answer of `prepare` to standard output."""
        refusal = self.certified(sides)[1]
        return refused(*refusal) if refusal else Answer(0, self.text(self.prepared(sides)), b"")

    def image(self, sides):
        """The image on a surface, and how many pixels were written."""
        if sides not in self.images:
            image = self.steps.image(sides)
            self.images[sides] = shown(image, *sides), image.writes
        return self.images[sides]

    def show(self, sides):
        """The answer of `show`."""
        refusal = self.certified(sides)[1]
        return refused(*refusal) if refusal else self.image(sides)[0]

    def list(self):
        """The answer of `list`, which tells each record that is refused on some surface, up to the first that each refuses: of headers no fault is told."""
        stops = [] if self.refusal else self.steps.faults(1, LARGEST_SIDE)
        text, has_ended = listing(self.file, stops)
        return Answer(0 if has_ended else 1, text, b"")

    def checked(self, data):
        """What a certificate says, or none, and the first refusal, if there is one."""
        if self.refusal:
            return None, self.refusal
        try:
            certificate = read_certificate(data)
        except Refused as refusal:
            return None, (text_of(refusal), None)
        certifier, stop = self.certified(certificate[:2])
        return certificate, refusal_of(certificate, certifier, stop, len(self.steps.read))

    def check(self, data):
        """The answer of `check`."""
        return self.by_rules_of(data).own_check(data)

    def own_check(self, data):
        """The same for a certificate by these rules."""
        certificate, refusal = self.checked(data)
        if refusal:
            return refused_report(*refusal)
        names = ["depth", "slots", "edges", "pieces"]
        members = {"needs": dict(zip(names, certificate[3:7], strict=True)), "writes": certificate.writes, "accepted": True}
        members |= {"max": certificate[:2], "drawings": len(certificate.entries), "records": len(self.steps.read)}
        noted = self.steps.notes
        members |= {"format": self.steps.form.name, "frame": self.steps.opened.frame, "notes": {note: noted.count(note) for note in noted}}
        if self.rules.is_print:
            members |= {"profile": "print", "allowed": self.steps.uses(self.certified(certificate[:2])[0])}
        return report(0, members)

    def over(self, data, text):
        """The answer of `over`."""
        return self.by_rules_of(data).own_over(data, text)

    def own_over(self, data, text):
        """The same for a certificate by these rules."""
        certificate, refusal = self.checked(data)
        if refusal:
            return refused(*refusal)
        found = read_image(text)
        if found is None:
            return refused("BadImage")
        sides, before = found
        if any(side > most for side, most in zip(sides, certificate[:2], strict=True)):
            return refused("SurfaceTooLarge")
        image = self.steps.image(sides, before)
        assert image.writes <= certificate.writes
        return shown(image, *sides)

    def play(self, data, sides):
        """The answer of `play`."""
        return self.by_rules_of(data).own_play(data, sides)

    def own_play(self, data, sides):
        """The same for a certificate by these rules."""
        certificate, refusal = self.checked(data)
        if refusal:
            return refused(*refusal)
        if any(side > most for side, most in zip(sides, certificate[:2], strict=True)):
            return refused("SurfaceTooLarge")
        answered, writes = self.image(sides)
        assert writes <= certificate.writes
        return answered
