"""What converting EMF and WMF has in common: the state, the output, and the record at hand."""

from __future__ import annotations

from abc import ABC, abstractmethod
from collections.abc import Callable, Sequence
from contextlib import suppress

from .bitmaps import read_dib, read_picture
from .budgets import Budget
from .faults import Fault, FaultName
from .options import Options
from .output import Action, Entry, Output, Source
from .palettes import PaletteUse, colour_use, colour_word, plays_as_written, read_colour
from .pictures import Picture
from .reader import Metafile
from .records import Fields, Kind, Table
from .state import SavedStates, State
from .text import Box, Note, TextLayer


class Session(ABC):
    """A conversion that goes on from record to record.

    `kind` is the kind of the record at hand, whose bytes are `data`.
    """

    def __init__(
        self, metafile: Metafile, options: Options, texts: TextLayer | None, table: Table, budget: Budget
    ) -> None:
        self.metafile = metafile
        self.options = options
        self.texts = texts
        self.table = table
        self.budget = budget
        self.state = State()
        self.saved = SavedStates()
        self.output = Output()
        self.number = 0
        self.data = b""
        self.kind: Kind | None = None

    def begin(self, number: int, data: bytes) -> None:
        """Takes a record in hand."""
        self.number = number
        self.data = data
        self.kind = self.table.find(self.table.layout.number(data))

    @property
    def kind_at_hand(self) -> Kind:
        """The kind of the record at hand. Raises Fault UnknownRecord if the standard has none."""
        if self.kind is None:
            raise Fault(FaultName.UnknownRecord)
        return self.kind

    @property
    def fields(self) -> Fields:
        """The fixed fields of the record at hand. Raises Fault BadParams if they aren't all there."""
        return self.kind_at_hand.read(self.data)

    def write(self, name: str, *numbers: int, rest: bytes = b"") -> bytes:
        """A record of a kind by its name."""
        return self.table.named(name).write(*numbers, rest=rest)

    def keep(self) -> Entry:
        """Takes the record at hand over as it is."""
        return self.output.add(self.number, Source.KEPT, (self.data,))

    def replace(self, action: Action, records: Sequence[bytes] = ()) -> Entry:
        """Puts records, perhaps none, in the place of the one at hand, and reports it."""
        self.output.report(self.number, self.kind_at_hand.name, action)
        return self.output.add(self.number, Source.REPLACED, records)

    def replace_text(self, action: Action, records: Sequence[bytes], box: Box | None, note: Note) -> Entry:
        """The same for text, with what it covers in device units and what the report says of it."""
        self.output.report(self.number, self.kind_at_hand.name, action, box, note)
        return self.output.add(self.number, Source.REPLACED, records)

    def keep_with_colour(self) -> PaletteUse:
        """Keeps a record with a colour, or replaces a colour of the palette by its red, green and blue.

        Gives what was taken from the palette. Raises Fault PaletteColour as `read_colour` does.
        """
        reference = self.fields["colour"]
        use = colour_use(reference, self.state.palette)
        if plays_as_written(reference):
            self.keep()
        else:
            colour = colour_word(read_colour(reference, self.state.palette))
            self.replace(Action.COLOUR, [self.kind_at_hand.changed(self.data, colour=colour)])
        return use

    def keep_palette_change(self, change: Callable[[Fields], None]) -> None:
        """Keeps a record that changes a palette. One that is cut changes nothing, and the player doesn't read it."""
        with suppress(Fault):
            change(self.fields)
        self.keep()

    def picture(self, header: bytes, bits: bytes, usage: int) -> Picture:
        """A bitmap as 24 bits. Raises Fault as `read_picture` does, and TooLong if the file's have too many pixels."""
        dib = read_dib(header)
        if not dib.is_file:
            self.budget.take_pixels(dib.width * dib.height)
        picture = read_picture(header, bits, usage, self.state.palette)
        if dib.is_file:
            self.budget.take_pixels(picture.width * picture.height)
        return picture

    def insert(self, *records: bytes) -> None:
        """Puts records before the one at hand."""
        self.output.add(self.number, Source.INSERTED, records)

    @property
    def has_strokes(self) -> bool:
        """Whether strokes that the player doesn't draw as their pens say are replaced."""
        return self.options.strokes and not self.options.text_only

    @property
    def is_at_header(self) -> bool:
        """Whether the record at hand is a header."""
        return False

    @property
    def is_in_path(self) -> bool:
        """Whether drawings are added to a path."""
        return False

    @abstractmethod
    def overlook(self) -> None:
        """Goes on after a fault of the record at hand, as other programs do, where only text is replaced."""

    @abstractmethod
    def move_record(self) -> bytes:
        """The record that moves the position to where it is."""

    @abstractmethod
    def file(self, records: list[bytes]) -> bytes:
        """The file of these records, with counts and sizes in its headers."""

    def save(self) -> None:
        """Saves the state, and keeps the record."""
        self.saved.save(self.state)
        self.keep()

    def restore(self) -> None:
        """Restores a state, and keeps the record."""
        self.state = self.saved.restore(self.fields["saved"])
        self.keep()
