"""Files that differ from a good one in a few bytes, played on from the record in which they do, up to one behind which nothing differs: so each
of many such files takes the player in Python as long as a record, and not as long as a file."""

import bisect
import copy

from reading.commands import Asked
from reading.fields import text_of
from reading.opening import PLAIN
from reference.pixels import Refused

# What a certifier has beside the drawings and the needs that it counts.
STATE = ("state", "saved", "objects", "kinds", "moment", "moments")

# Needs that are the greatest of all records'.
GREATEST = ("depth", "slots", "pieces")


def path_of(certifier):
    """The path, as a value that can be compared."""
    path = certifier.path
    return path and (path.is_open, path.pieces, [(figure.state, figure.places) for figure in path.figures])


class Base:
    """A good file at a bound, with the certifier's state in front of each of its records."""

    def __init__(self, file, sides):
        self.file, self.sides = file, sides
        self.asked = Asked(file)
        self.steps = self.asked.steps
        self.whole, self.stop = self.asked.certified(sides)
        self.before, self.needed = [], []
        self.certifier = certifier = self.steps.certifier(sides)
        for number, step in enumerate(self.steps.read):
            self.before.append(self.copied(certifier))
            certifier.depth = certifier.slots = certifier.pieces = 0
            certifier.first = number
            if certifier.certify([step]):
                break
            self.needed.append([getattr(certifier, need) for need in GREATEST])

    def copied(self, certifier):
        """A certifier in the same state, that goes on by itself."""
        copied = copy.copy(certifier)
        for part in STATE:
            setattr(copied, part, copy.copy(getattr(certifier, part)))
        copied.path = copy.deepcopy(certifier.path)
        copied.drawings = list(certifier.drawings)
        return copied

    def resumed(self, number):
        """A certifier in front of a record, with the needs of those before it."""
        certifier = self.copied(self.before[number])
        certifier.depth = certifier.slots = certifier.pieces = 0
        self.raise_needs(certifier, self.needed[:number])
        return certifier

    def raise_needs(self, certifier, needed):
        """Needs that are at least those of some records."""
        for nth, need in enumerate(GREATEST):
            setattr(certifier, need, max([getattr(certifier, need), *(one[nth] for one in needed)]))

    def is_alike(self, certifier, number):
        """Whether a certifier is as this file's in front of a record."""
        other = self.before[number]
        return all(getattr(certifier, part) == getattr(other, part) for part in STATE) and path_of(certifier) == path_of(other)

    def finish(self, certifier, number):
        """Goes on as this file does from a record on."""
        certifier.drawings += self.whole.drawings[len(self.before[number].drawings) :]
        self.raise_needs(certifier, self.needed[number:])
        return certifier, self.stop, len(self.steps.read)

    def certified(self, file, number):
        """The certifier of a file that is this one up to a record, where it stops, if it does, and how many records it has."""
        certifier, place = self.resumed(number), self.steps.places[number]
        while True:
            try:
                kind, data, step, _ = self.steps.record(file, place, number)
            except Refused as refused:
                return certifier, (text_of(refused), number), number
            certifier.first = number
            stop = certifier.certify([step])
            place, number = place + len(data), number + 1
            if stop or kind == self.steps.form.framing.end:
                return certifier, stop, number
            if number < len(self.before) and place == self.steps.places[number] and self.is_alike(certifier, number):
                return self.finish(certifier, number)

    def answered(self, file, at):
        """The same of a file that is this one up to a byte, or the refusal of one that does not open. A header that is changed, and any byte of a
        plain file, which tells its frame among its records, may change all that follows."""
        number = bisect.bisect_right(self.steps.places, at) - 1
        if number < 0 or self.steps.form is PLAIN or (number == 0 and self.steps.form.is_emf):
            asked = Asked(file)
            certifier, stop = asked.certified(self.sides)
            return certifier, stop, len(asked.steps.read) if asked.steps else 0
        if number >= len(self.before):
            return self.whole, self.stop, len(self.steps.read)
        return self.certified(file, number)
