"""The conversion of an EMF file: what its handlers of records share."""

from __future__ import annotations

from collections.abc import Callable, Sequence

from .affine import Point
from .budgets import Budget
from .emf_blocks import Grid, Lines, lines_record, origin_near
from .emf_kinds import EMF
from .faults import Fault, FaultName
from .objects import NULL_PEN, Object, Pen
from .options import Options
from .output import Action, Entry, Source
from .paths import Path
from .reader import Metafile
from .records import Fields
from .session import Session
from .shapes import Figure
from .state import ANISOTROPIC, ISOTROPIC, MOST_SAVED, TEXT_MODE, scaled_width
from .text import TextLayer
from .text_blocks import TextBlock

_INDEX_AT = 8
# The types that make an object ([MS-EMF] 2.3.7).
_MAKERS = {38, 39, 49, 82, 93, 94, 95, 99, 122}

Drawn = Callable[[Point], list[bytes]]
"""Gives the records of a drawing in a block whose origin is given in device units."""


class EmfSession(Session):
    """A conversion of an EMF file. `extra` is the index of an object that the file itself can't use.

    `extra_in_file` is the number of the first record that makes an object there all the same, or None.
    """

    def __init__(self, metafile: Metafile, options: Options, texts: TextLayer | None) -> None:
        self.header: Fields = EMF.named("EMR_HEADER").read(metafile.records[0])
        self.grid = Grid.of_header(self.header, options.bound)
        super().__init__(metafile, options, texts, EMF, Budget(self.grid.tolerance))
        self.extra = max(1, self.header["handles"])
        self.uses_extra = False
        self.extra_in_file: int | None = None
        self.objects: dict[int, Object] = {}
        self.path: Path | None = None
        self.shared_text: TextBlock | None = None

    @property
    def open_path(self) -> Path | None:
        """The path, if it is open."""
        return self.path if self.path is not None and self.path.is_open else None

    @property
    def is_at_header(self) -> bool:
        """Whether the record at hand is the first."""
        return self.number == 0

    @property
    def is_in_path(self) -> bool:
        """Whether drawings are added to a path."""
        return self.open_path is not None

    def move_record(self) -> bytes:
        """The record that moves the position to where it is."""
        return self.write("EMR_MOVETOEX", *self.state.position)

    def file(self, records: list[bytes]) -> bytes:
        """The file of these records, with counts and sizes in its header ([MS-EMF] 2.3.4.2)."""
        handles = self.header["handles"]
        header = EMF.named("EMR_HEADER").changed(
            records[0],
            bytes=sum(map(len, records)),
            records=len(records),
            handles=max(handles, self.extra + 1) if self.uses_extra else handles,
        )
        return header + b"".join(records[1:])

    def make(self, index: int, new: Object) -> None:
        """Takes an object that the file makes. Raises Fault NoSuchHandle for an index that the file can't use.

        A block would make that index a valid one, since it adds one to the header's count.
        """
        if not 0 < index < self.header["handles"]:
            raise Fault(FaultName.NoSuchHandle)
        self.objects[index] = new

    def overlook(self) -> None:
        """Goes on after a fault: a record that makes an object leaves none that is of interest at its index."""
        if EMF.layout.number(self.data) in _MAKERS:
            index = int.from_bytes(self.data[_INDEX_AT : _INDEX_AT + 4], "little")
            self.objects.pop(index, None)
            if index == self.extra and self.extra_in_file is None:
                self.extra_in_file = self.number

    def check_extra(self) -> None:
        """Raises Fault NoSuchHandle if both blocks and the file use an index that only blocks can use.

        Since the header counts one more, the file's object would no longer be overlooked.
        """
        if self.uses_extra and self.extra_in_file is not None:
            raise Fault(FaultName.NoSuchHandle, "blocks need the index", self.extra_in_file)

    def keep_in_path(self) -> None:
        """Takes over a record that belongs to the path, as long as the path is plain; otherwise the record is left
        out.
        """
        path = self.path
        if path is None or path.is_plain:
            entry = self.keep()
            if path is not None:
                path.entries.append(entry)
        else:
            self.replace(Action.PATH)

    def finished_path(self) -> Path:
        """The path for a record that uses it up. Raises Fault PathState if none is finished; an open one stays open."""
        path = self.path
        if path is None or path.is_open:
            raise Fault(FaultName.PathState)
        self.path = None
        return path

    def give_up_path(self) -> None:
        """Gives up the path, if there is one."""
        if self.path is not None:
            self.give_up(self.path)

    def give_up(self, path: Path) -> None:
        """Takes the records of a plain path out of the output: its figures will be drawn as lines.

        Then no position is known any more, since the lines that moved it are gone.
        """
        if not path.is_plain:
            return
        path.is_plain = False
        for entry in path.entries:
            self._take_out(entry)
        self.state.output_position = None
        self.saved.forget_positions()

    def _take_out(self, entry: Entry) -> None:
        kind = EMF.find(EMF.layout.number(entry.records[0]))
        self.output.report(entry.number, "" if kind is None else kind.name, Action.PATH)
        entry.source = Source.REPLACED
        entry.records = []

    def sync_position(self) -> None:
        """Moves the position of the converted file's player to the file's, for a record that draws from it."""
        if self.state.output_position != self.state.position:
            self.insert(self.move_record())
            self.state.output_position = self.state.position

    def use_extra(self) -> int:
        """The index for an object of a block. Raises Fault TableFull if a file can't have one index more."""
        if self.extra > 0xFFFE:
            raise Fault(FaultName.TableFull, "no index is left for an object")
        self.uses_extra = True
        return self.extra

    def check_depth(self) -> None:
        """Raises Fault DepthLimit if a block can't save the state."""
        if len(self.saved) >= MOST_SAVED:
            raise Fault(FaultName.DepthLimit)

    def map_records(self, origin: Point) -> list[bytes]:
        """Records that set a block's page map.

        Where only text is replaced, the file's world stays and must be set aside too.
        """
        records = self.grid.map_records(origin)
        if self.options.text_only and not self.state.is_plain:
            one = 0x3F800000
            records.insert(0, self.write("EMR_MODIFYWORLDTRANSFORM", one, 0, 0, one, 0, 0, 1))
        return records

    def block(self, first: Point, drawn: Drawn) -> list[bytes]:
        """A block around a drawing whose first point is given."""
        self.check_depth()
        origin = origin_near(first)
        inner = drawn(origin)
        if not inner:
            return []
        save, restore = self.write("EMR_SAVEDC"), self.write("EMR_RESTOREDC", -1)
        return [save, *self.map_records(origin), *inner, restore]

    def stroked_block(self, first: Point, drawn: Drawn) -> list[bytes]:
        """A block whose drawing uses the file's pen. A pen with a width is made again with its width in parts."""
        pen = self.state.pen
        if pen.is_null or pen.width == 0 or pen.data is None:
            return self.block(first, drawn)
        make = self._pen_record(pen, pen.data)
        select, delete = self.write("EMR_SELECTOBJECT", self.extra), self.write("EMR_DELETEOBJECT", self.extra)

        def with_pen(origin: Point) -> list[bytes]:
            records = drawn(origin)
            return [make, select, *records] if records else []

        block = self.block(first, with_pen)
        return [*block, delete] if block else []

    def _pen_record(self, pen: Pen, data: bytes) -> bytes:
        index = self.use_extra()
        width = scaled_width(pen.width, self.grid.parts, self.state.device)
        name = "EMR_CREATEPEN" if EMF.layout.number(data) == 38 else "EMR_EXTCREATEPEN"
        kind = EMF.named(name)
        if name == "EMR_CREATEPEN":
            return kind.changed(data, index=index, width=width)
        return kind.changed(data, index=index, width=width, header_at=0, header_size=0, bits_at=0, bits_size=0)

    def draw(self, figures: Sequence[Figure], action: Action) -> None:
        """Replaces the record by a block that fills and strokes figures if they are closed, or strokes them if they
        aren't.

        All figures are closed, or none is.
        """
        lists = [figure.points for figure in figures if figure.points]
        if not lists:
            self.replace(action)
            return
        lines = Lines.CLOSED if figures[0].is_closed else Lines.OPEN
        self.replace(
            action,
            self.stroked_block(lists[0][0], lambda origin: lines_record(self.grid, lines, lists, origin)),
        )

    def fill_only(self, lists: Sequence[Sequence[Point]]) -> list[bytes]:
        """A block that fills closed lists together, without a pen."""
        null_pen = self.write("EMR_SELECTOBJECT", NULL_PEN)

        def drawn(origin: Point) -> list[bytes]:
            polygons = lines_record(self.grid, Lines.CLOSED, lists, origin)
            return [null_pen, *polygons] if polygons else []

        return self.block(lists[0][0], drawn)

    def map_back(self) -> list[bytes]:
        """Records that set the file's own page map again."""
        page = self.state.page
        origins = (
            self.write("EMR_SETWINDOWORGEX", *page.window_origin),
            self.write("EMR_SETVIEWPORTORGEX", *page.viewport_origin),
        )
        mode = self.write("EMR_SETMAPMODE", page.mode if page.mode in (TEXT_MODE, ISOTROPIC) else ANISOTROPIC)
        if page.mode == TEXT_MODE:
            return [mode, *origins]
        window = self.write("EMR_SETWINDOWEXTEX", *page.window_extent)
        viewport = self.write("EMR_SETVIEWPORTEXTEX", *page.viewport_extent)
        return [mode, origins[0], window, origins[1], viewport]
