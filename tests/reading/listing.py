"""Listings of files (docs/FORMATS.md): a line for each record, with what its step asks for or its fault."""

from typing import NamedTuple

from reading.fields import Record, text_of
from reading.opening import form_of
from reading.texts import step_text
from reference.pixels import Refused
from standards.emf import EMF
from standards.wmf import WMF

# With one of these notes a record is without effect.
WITHOUT_EFFECT = {"EmfPlus", "Skipped"}


class Kinds(NamedTuple):
    """The kinds of a format's records: their names in its standard, by their numbers, and how a number is shown."""

    names: dict[int, str]
    shown: str


def kinds_of(standard, shown):
    """The kinds of all records that a standard has."""
    names = {kind.number: kind.name for kind in standard.kinds}
    return Kinds(names | standard.skipped | standard.refused | standard.bitmaps, shown)


WMF_KINDS, EMF_KINDS = kinds_of(WMF, "0x{:04x}"), kinds_of(EMF, "{}")


class Line(NamedTuple):
    """The seven fields of a line, of which those that a file doesn't have are hyphens."""

    number: int | str = "-"
    place: int | str = "-"
    size: int | str = "-"
    kind: str = "-"
    name: str = "-"
    result: str = "refused"
    text: str = ""

    def __str__(self):
        return "\t".join(map(str, self)) + "\n"


class Lines:
    """The lines of a file of a form. A record without a fault of its own has the fault of a run that stops in it, if one does."""

    def __init__(self, file, form, stops):
        self.file = file
        self.form = form
        self.stops = dict(stops)

    def all(self):
        """The lines up to that of the end record or of the first fault of framing."""
        number, place, kind = 0, self.form.records, None
        while kind != self.form.framing.end:
            try:
                kind, data = self.form.framing.front(self.file, place, number)
            except Refused as refused:
                yield Line(number, place, text=text_of(refused))
                return
            yield self.line(number, place, kind, data)
            number, place = number + 1, place + len(data)

    def line(self, number, place, kind, data):
        """The line of a record."""
        kinds = EMF_KINDS if self.form.is_emf else WMF_KINDS
        ends_early = kind == self.form.framing.end and place + len(data) < len(self.file)
        result = self.result(number, kind, data, ["AfterEnd"] * ends_early)
        return Line(number, place, len(data), kinds.shown.format(kind), kinds.names.get(kind, "-"), *result)

    def result(self, number, kind, data, more_notes):
        """The last two fields of a record's line. The name of a fault stands there without the kind of its record."""
        try:
            step = self.form.step_of(kind, Record(data), number)
        except Refused as refused:
            return "refused", text_of(refused).partition(" ")[0]
        if number in self.stops:
            return "refused", self.stops[number]
        notes = [*step.notes, *more_notes]
        return "played" if WITHOUT_EFFECT.isdisjoint(notes) else "noted", "; ".join([step_text(step), *notes])


def listing(file, stops=()):
    """The listing of a file as bytes, and whether its records end with an end record. `stops` are the records in which runs of the file stop, each by
    its number and the fault."""
    form = form_of(file)
    lines = list(Lines(file, form, stops).all()) if form else [Line(text="NotMetafile")]
    return "".join(map(str, lines)).encode(), lines[-1].kind != "-"
