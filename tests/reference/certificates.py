"""The certificate of a script of records by the rules for each drawing alone: the least box of its points on the plane, its layers, its nib at the
bound, and how many pixels these let a run write at most; and what the records need room for."""

import struct
from typing import NamedTuple

from reference.bitmaps import SourceMissing, depends_on_source
from reference.pixels import ONE_PIXEL, Axis, Refused
from reference.player import Reference, lists_of, pairs_of

# The box of a drawing without a point.
NO_BOX = (0, 0, -1, -1)

# How many bytes stand in front of the entries, and how many one takes, by the certificate's first bytes: the later version has nibs.
HEAD = 40
ENTRY_SIZES = {b"MPC1": 20, b"MPC2": 24}


class PlaneAxis(Axis):
    """An axis whose places are those of the plane, where they land within the limits."""

    def placed(self, number):
        """The coordinate on the plane."""
        return self.plane(number)

    def cells(self, low, high):
        """How many columns or rows of the surface the plane from one coordinate to another meets at most."""
        if high < low or high < 0 or self.fine <= low:
            return 0
        span = min(high, self.fine) - max(low, 0)
        return min(self.surface, -(-span * self.surface // self.fine) + 1)

    def wide_cells(self, low, high, count):
        """How many a nib of so many columns or rows covers at most that is led from one coordinate to another: also of a line that passes the
        surface by."""
        return 0 if high < low else min(self.surface, self.cells(low, high) + count - 1)


class Drawing(NamedTuple):
    """The number of a record that draws, the points of its drawing, how many count as such, the layers of its fill, those of its stroke, and the
    nib of that."""

    number: int
    points: list
    edges: int
    fills: int
    strokes: int
    nib: tuple

    def box(self):
        """The least box around its points."""
        if not self.points:
            return NO_BOX
        across, down = zip(*self.points, strict=True)
        return min(across), min(down), max(across), max(down)


class Entry(NamedTuple):
    """An entry of a certificate: the number of a record, a box, and a nib, which is one pixel where none is told."""

    number: int
    left: int
    top: int
    right: int
    bottom: int
    columns: int = 1
    rows: int = 1

    @property
    def box(self):
        """Its box."""
        return self[1:5]

    @property
    def nib(self):
        """Its nib."""
        return self[5:7]

    def has(self, points):
        """Whether its box has each of some points."""
        return all(self.left <= x <= self.right and self.top <= y <= self.bottom for x, y in points)

    def refusal(self, drawing):
        """The fault that it has as a drawing's entry, if it has one."""
        if self.number != drawing.number:
            return "WrongEntry"
        if not self.has(drawing.points):
            return "BoxTooSmall"
        return "NibTooSmall" if any(told < needed for told, needed in zip(self.nib, drawing.nib, strict=True)) else None

    def text(self, with_nib):
        """Its bytes, at times with its nib."""
        return struct.pack("<I4i", self.number & 0xFFFFFFFF, *self.box) + (struct.pack("<2H", *self.nib) if with_nib else b"")


# What stands for the entry of a drawing that has none.
NO_ENTRY = Entry(None, *NO_BOX)


class Certificate(NamedTuple):
    """A certificate: its numbers in order, and its entries."""

    width: int
    height: int
    writes: int
    depth: int
    slots: int
    edges: int
    pieces: int
    entries: tuple

    def version(self):
        """The first bytes that it is prepared with: those of the version without nibs exactly where each nib is one pixel."""
        return b"MPC2" if any(entry.nib != ONE_PIXEL for entry in self.entries) else b"MPC1"

    def text(self, version=None, allowed=None):
        """Its bytes, of the version that it is prepared with or of another one; or of the print profile, with the number of what is allowed."""
        version = version or (self.version() if allowed is None else b"MPC3")
        mark = version if allowed is None else struct.pack("<4sI", version, allowed)
        head = struct.pack("<2IQ5I", self.width, self.height, self.writes, *self[3:7], len(self.entries))
        return mark + head + b"".join(entry.text(version != b"MPC1") for entry in self.entries)


def entry_refusal(drawings, entries):
    """The fault of the first drawing whose entry doesn't cover it, with its record."""
    for nth, drawing in enumerate(drawings):
        refusal = (entries[nth] if nth < len(entries) else NO_ENTRY).refusal(drawing)
        if refusal:
            return refusal, drawing.number
    return None


class Certifier(Reference):
    """Plays steps on the plane and draws nothing. The first step has this record's number."""

    def __init__(self, axes, inclusive, first):
        super().__init__([axis._replace(surface=0) for axis in axes], inclusive)
        self.change(axes=axes)
        self.number = self.first = first
        self.drawings = []
        self.depth = self.slots = self.pieces = 0

    def certify(self, steps):
        """The drawings of steps, and the fault and the record of the step that is refused, if one is."""
        for number, (name, words) in enumerate(steps):
            self.number = self.first + number
            try:
                getattr(self, f"play_{name.removeprefix('short_')}")(*words)
            except Refused as refused:
                return type(refused).__name__, self.number
            path = self.open_path()
            self.pieces = max(self.pieces, path.pieces if path else 0)
        return None

    def certificate(self):
        """The certificate of what was played, at the surface of its axes."""
        entries = tuple(Entry(it.number, *it.box(), *it.nib) for it in self.drawings)
        sides = [axis.surface for axis in self.state.axes]
        edges = max((it.edges for it in self.drawings), default=0)
        return Certificate(*sides, self.budget(entries), self.depth, self.slots, edges, self.pieces, entries)

    def budget(self, entries):
        """How many pixels the drawings write at most by entries."""
        return sum(self.layers_budget(drawing, entry) for drawing, entry in zip(self.drawings, entries, strict=False))

    def layers_budget(self, drawing, entry):
        """The same of the layers of one drawing: a stroke has what the entry's nib covers, and a fill what its box meets."""
        across, down = self.state.axes
        left, top, right, bottom = entry.box
        fill = across.cells(left, right) * down.cells(top, bottom)
        stroke = across.wide_cells(left, right, entry.columns) * down.wide_cells(top, bottom, entry.rows)
        return drawing.fills * fill + drawing.strokes * stroke

    def checked(self, given):
        """The answer to a certificate of the same bound: `accepted`, or a fault with its record."""
        refusal = entry_refusal(self.drawings, given.entries)
        if refusal:
            return refusal
        needs = self.certificate()
        if any(told < needed for told, needed in zip(given[3:7], needs[3:7], strict=True)):
            return "NeedTooSmall", None
        return ("BudgetTooSmall", None) if given.writes < self.budget(given.entries) else ("accepted", None)

    # Drawings.

    def has_pen(self):
        """The layers of a stroke."""
        return int(self.state.pen is not None)

    def has_brush(self):
        """The layers of a fill."""
        return int(self.state.brush is not None or self.state.tile is not None)

    def draw(self, points, fills, strokes, edges=None):
        """A drawing by its points, each of which counts, unless it is said how many do. Its nib, which may be too wide, comes last."""
        nib = self.nib() if strokes else ONE_PIXEL
        self.drawings.append(Drawing(self.number, points, len(points) if edges is None else edges, fills, strokes, nib))

    def play_pixel(self, x, y, *rgb):
        self.draw([self.state.place((x, y))], 1, 0, 0)

    def play_polyline_to(self, *numbers):
        points = pairs_of(numbers)
        if self.open_path():
            super().play_polyline_to(*numbers)
            return
        self.draw(self.places([self.state.position, *points]) if points else [], 0, self.has_pen())
        self.change(position=points[-1] if points else self.state.position)

    def lists(self, words):
        """The places of all points of some lists."""
        return [place for numbers in lists_of(words) for place in self.places(pairs_of(numbers))]

    def play_polylines(self, *words):
        if self.open_path():
            super().play_polylines(*words)
        else:
            self.draw(self.lists(words), 0, self.has_pen())

    def play_polygons(self, *words):
        if self.open_path():
            super().play_polygons(*words)
        else:
            self.draw(self.lists(words), self.has_brush(), self.has_pen())

    def play_rectangle(self, left, top, right, bottom):
        if self.open_path():
            self.gather_box((left, top, right, bottom))
        else:
            self.draw(self.places([(left, top), (right, bottom)]), self.has_brush(), self.has_pen(), 4)

    def blit(self, operation, box, source):
        if depends_on_source(operation):
            if source is None:
                raise SourceMissing
            source.check()
        x, y, width, height = box
        self.draw(self.places([(x, y), (x + width, y + height)]), 1, 0, 0)

    def paint(self, fills, strokes):
        """The painting of a path."""
        self.draw([place for figure in self.painted_figures() for place in figure.places], fills, strokes)

    def play_fill_path(self):
        self.paint(self.has_brush(), 0)

    def play_stroke_path(self):
        self.paint(0, self.has_pen())

    def play_stroke_and_fill_path(self):
        self.paint(self.has_brush(), self.has_pen())

    # What needs room.

    def play_save(self):
        super().play_save()
        self.depth = max(self.depth, len(self.saved))

    def play_select(self, index):
        super().play_select(index)
        # A WMF has its objects from index 0 on, an EMF from 1.
        self.slots = max(self.slots, len(self.objects) + self.inclusive)
