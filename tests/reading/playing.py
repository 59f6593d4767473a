"""Plays the records of a file by the reference player, on the plane or on a surface: what no script of its own needs stands here, which is
the objects with their indexes, what is held, the limits of states and clips, and map modes."""

from typing import NamedTuple

from reading.fields import Record, fault, text_of
from reading.opening import opened
from reading.rules import CORE
from reference.certificates import Certifier, PlaneAxis
from reference.pixels import LONGEST_NIB, PLACED_END, Axis, NibTooWide, OffPlane, Refused
from reference.player import Reference

MOST_SAVED, MOST_CUTS, MOST_OBJECTS = 256, 16, 1024
FIRST_STOCK = 0x80000000

# Stock objects by their indexes from the first on: their kinds, and what each draws with. The pens have no width.
STOCK = {
    **{nth: ("brush", "solid_brush", grey) for nth, grey in enumerate([0xFFFFFF, 0xC0C0C0, 0x808080, 0x404040, 0x000000])},
    5: ("brush", "null_brush"),
    6: ("pen", "solid_pen", 0xFFFFFF, 0),
    7: ("pen", "solid_pen", 0x000000, 0),
    8: ("pen", "null_pen"),
    **dict.fromkeys([10, 11, 12, 13, 14, 16, 17], ("font",)),
    15: ("palette",),
    18: ("brush", "solid_brush", 0xFFFFFF),
    19: ("pen", "solid_pen", 0x000000, 0),
}


class Moment(NamedTuple):
    """What a state has beside the reference's: whether its map mode is that of text, and the indexes of the objects in use."""

    is_text: bool
    held: dict

    def without(self, index):
        """The same, where an index that is deleted isn't in use."""
        return self._replace(held={kind: None if own == index else own for kind, own in self.held.items()})


class Records:
    """What records of files do that those of scripts don't."""

    def begin(self, file):
        """Begins with the state that an opened file has, before its first record."""
        self.handles = file.handles
        self.rules = file.rules
        self.held_deletions = 0
        self.kinds = {}
        self.slots = 0
        self.moment = Moment(file.form.is_emf, {})
        self.moments = []

    def play_nothing(self):
        """A record without effect."""

    # Objects.

    def new_index(self, at):
        """The index of a new object: the lowest free one, or the one that its record tells."""
        if self.handles is None:
            if len(self.kinds) >= MOST_OBJECTS:
                raise fault("TableFull")
            return next(index for index in range(MOST_OBJECTS) if index not in self.kinds)
        if not 1 <= at < self.handles:
            raise fault("NoSuchHandle")
        if at in self.kinds:
            raise fault("HandleTaken")
        return at

    def play_make(self, at, kind, name=None, *words):
        index = self.new_index(at)
        self.put(index, name, *words)
        self.kinds[index] = kind
        self.slots = max(self.slots, index + 1)

    def put(self, index, name=None, *words):
        """Puts what an object draws with at an index: of a font or a palette nothing."""
        self.objects[index] = {}
        if name:
            getattr(self, f"play_{name}")(index, *words)

    def select(self, index, allowed):
        """Selects an object of some kinds."""
        kind, *stock = STOCK.get(index - FIRST_STOCK, (self.kinds.get(index),))
        if kind is None:
            raise fault("NoSuchHandle")
        if kind not in allowed:
            raise fault("WrongKind")
        if index >= FIRST_STOCK:
            self.put(index, *stock)
        self.change(**self.objects[index])
        own = index if index < FIRST_STOCK else None
        self.moment = self.moment._replace(held=self.moment.held | {kind: own})

    def play_select(self, index):
        self.select(index, ("pen", "brush", "font"))

    def play_select_palette(self, index):
        self.select(index, ("palette",))

    def play_delete(self, index):
        if index not in self.kinds:
            raise fault("NoSuchHandle")
        if any(index in moment.held.values() for moment in [self.moment, *self.moments]):
            if not self.rules.allows_held_deletion:
                raise fault("HeldObject")
            self.moment, *self.moments = [moment.without(index) for moment in [self.moment, *self.moments]]
            self.held_deletions += 1
        del self.kinds[index], self.objects[index]

    # Saved states, the clip, the map.

    def play_save(self):
        if len(self.moments) >= MOST_SAVED:
            raise fault("DepthLimit")
        super().play_save()
        self.moments.append(self.moment)

    def play_restore(self, place):
        count = len(self.moments)
        nth = place - 1 if place > 0 else count + place
        if place == 0 or not 0 <= nth < count:
            raise fault("NoSavedState")
        del self.saved[nth + 1 :], self.moments[nth + 1 :]
        super().play_restore(-1)
        self.moment = self.moments.pop()

    def play_cut(self, *numbers):
        if len(self.state.cut) >= MOST_CUTS:
            raise fault("TooManyCuts")
        super().play_cut(*numbers)

    def play_map_mode(self, mode):
        self.moment = self.moment._replace(is_text=mode == 1)
        if mode == 1:
            for part in ("window_extent", "viewport_extent"):
                self.set_axes(part, (1, 1))

    def set_extent(self, part, numbers):
        """Sets an extent, but in the mode of text."""
        if self.moment.is_text:
            return
        if 0 in numbers:
            raise fault("ZeroExtent")
        self.set_axes(part, numbers)

    def play_window_extent(self, *numbers):
        self.set_extent("window_extent", numbers)

    def play_viewport_extent(self, *numbers):
        self.set_extent("viewport_extent", numbers)

    def offset(self, part, numbers):
        """Moves an origin, within the numbers of 32 bits."""
        moved = [getattr(axis, part) + number for axis, number in zip(self.state.axes, numbers, strict=True)]
        if any(not -(1 << 31) <= number < 1 << 31 for number in moved):
            raise OffPlane
        self.set_axes(part, moved)

    def play_offset_window(self, *numbers):
        self.offset("window", numbers)

    def play_offset_viewport(self, *numbers):
        self.offset("viewport", numbers)


class FileCertifier(Records, Certifier):
    """Records on the plane."""


class FileReference(Records, Reference):
    """Records on a surface."""


class FileJudge(FileCertifier):
    """Records on the plane of a small surface, and whether they are off the plane of a larger one, or have too wide a nib there."""

    def __init__(self, axes, inclusive, limits):
        super().__init__(axes, inclusive, 0)
        self.limits = limits
        self.is_wide = False

    def draw(self, points, fills, strokes, edges=None):
        """A drawing whose nib is looked at on the larger surface before it is on the small one. Its points were where they were placed."""
        axes = [axis._replace(surface=limit.side) for axis, limit in zip(self.state.axes, self.limits, strict=True)]
        self.is_wide = strokes > 0 and max(axis.nib_side(self.state.width) for axis in axes) > LONGEST_NIB
        super().draw(points, fills, strokes, edges)

    def judge(self, number, step):
        """The fault of a record that has one on some surface, which is that of the larger one, and whether each surface has one: where the small
        one has too wide a nib, the larger one may be off the plane."""
        self.first, self.is_wide = number, False
        for limit in self.limits:
            limit.is_passed = False
        refusal = self.certify([step])
        if refusal and refusal[0] != NibTooWide.__name__:
            return refusal[0], True
        if any(limit.is_passed for limit in self.limits):
            return OffPlane.__name__, refusal is not None
        return NibTooWide.__name__ if self.is_wide else None, refusal is not None


class Limit:
    """How far coordinates of the plane go on a side of a surface, and whether one was farther."""

    def __init__(self, frame, side):
        self.frame = frame
        self.side = side
        self.is_passed = False

    def has(self, number):
        """Whether a coordinate lands within the limits."""
        return abs(number * self.side // self.frame) <= PLACED_END

    def axis(self, *numbers):
        """An axis of the plane that tells the limit of each coordinate."""
        limit = self

        class LimitedAxis(PlaneAxis):
            """An axis of the plane."""

            def placed(self, number):
                """The coordinate on the plane."""
                plane = super().placed(number)
                limit.is_passed |= not limit.has(plane)
                return plane

        return LimitedAxis(*numbers)


class Counted(dict):
    """An image that counts the pixels that are written."""

    writes = 0

    def __setitem__(self, pixel, colour):
        self.writes += 1
        super().__setitem__(pixel, colour)


class Steps:
    """The records of a file as steps, each read once."""

    def __init__(self, file, rules=CORE):
        self.file = file
        self.opened = opened(file)._replace(rules=rules)
        self.form = self.opened.form
        self.read = []
        self.places = []
        self.refusal = None
        self.notes = list(self.opened.notes)
        self.read_all()

    def record(self, file, place, number):
        """The kind of the record at a place of a file of this format, its bytes, its step, and what is noted of it."""
        kind, data = self.form.framing.front(file, place, number)
        step = self.form.step_of(kind, Record(data), number)
        return kind, data, (step.name, step.words), step.notes

    def read_all(self):
        """Reads records up to the end or to the first that can't be read."""
        place, kind = self.form.records, None
        while kind != self.form.framing.end:
            self.places.append(place)
            try:
                kind, data, step, notes = self.record(self.file, place, len(self.read))
            except Refused as refused:
                self.refusal = text_of(refused), len(self.read)
                return
            self.read.append(step)
            self.notes += notes
            place += len(data)
        self.notes += ["AfterEnd"] * (place < len(self.file))

    def axes(self, sides, axis):
        """The page map on a surface."""
        parts = self.opened.parts()
        return tuple(axis(*numbers, frame, side, parts) for numbers, frame, side in zip(self.opened.axes, self.opened.frame, sides, strict=True))

    def certifier(self, sides):
        """A certifier at a bound, before the first record."""
        certifier = FileCertifier(self.axes(sides, PlaneAxis), self.form.is_emf, 0)
        certifier.begin(self.opened)
        return certifier

    def certified(self, sides):
        """The certifier of these records at a bound, and the first fault with its record, if there is one."""
        certifier = self.certifier(sides)
        return certifier, certifier.certify(self.read) or self.refusal or self.alone(certifier)

    def has_emf_plus_alone(self, certifier):
        """Whether there is EMF+ beside which the records draw nothing. The core profile doesn't look at that."""
        return self.opened.rules.is_print and "EmfPlus" in self.notes and not certifier.drawings

    def alone(self, certifier):
        """The fault of that, where the rules don't allow it, with the last record."""
        is_fault = self.has_emf_plus_alone(certifier) and not self.opened.rules.emf_plus
        return ("EmfPlusAlone", len(self.read) - 1) if is_fault else None

    def uses(self, certifier):
        """What records without a fault use of what rules allow, by name, and how often."""
        counts = {"emf-plus": int(self.has_emf_plus_alone(certifier)), "held-deletion": certifier.held_deletions}
        return {name: count for name, count in counts.items() if count}

    def faults(self, smallest, largest):
        """The records that are refused on a surface of these sides at most, each with its fault, up to the first that each surface refuses."""
        parts = self.opened.parts()
        limits = [Limit(frame * parts, largest) for frame in self.opened.frame]
        axes = [limit.axis(*told, side, smallest, parts) for limit, told, side in zip(limits, self.opened.axes, self.opened.frame, strict=True)]
        judge = FileJudge(axes, self.form.is_emf, limits)
        judge.begin(self.opened)
        found = []
        for number, step in enumerate(self.read):
            fault, is_last = judge.judge(number, step)
            if fault:
                found.append((number, fault))
            if is_last:
                return found
        alone = None if self.refusal else self.alone(judge)
        return [*found, alone[::-1]] if alone else found

    def image(self, sides, before=None):
        """The image of these records, which have no fault at these sides, over white or over what was there before."""
        reference = FileReference(self.axes(sides, Axis), self.form.is_emf)
        reference.begin(self.opened)
        reference.image = Counted(before or reference.image)
        image, refusal = reference.play(self.read)
        assert refusal is None, refusal
        return image
