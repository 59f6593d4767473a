"""The conversion of a WMF file: what its handlers of records share."""

from __future__ import annotations

from collections.abc import Sequence

from .affine import Point
from .budgets import Budget
from .faults import Fault, FaultName
from .fixed import ONE
from .objects import Pen
from .options import Options
from .output import Action
from .reader import Form, Metafile
from .records import numbers_at
from .session import Session
from .shapes import Figure
from .slots import Slots
from .state import ANISOTROPIC, ISOTROPIC, MOST_SAVED, PageMap
from .text import TextLayer
from .wmf_blocks import FineWindow, lines, polygons
from .wmf_kinds import WMF

_HEADER_SIZE = 18
_BOX_AT, _INCH_AT = 6, 14
# GDI shows a placeable file on a screen of so many pixels to the inch.
_PIXELS_OF_INCH = 96
# A plain file, which says nothing of its size, counts as so many pixels long.
_PIXELS_OF_SIDE = 1024
_PARTS_OF_PIXEL = 8
_WIDEST = 0x7FFF
_MOST_SLOTS = 0xFFFF
# The functions that make an object ([MS-WMF] 2.3.4).
_MAKERS = {0x00F7, 0x0142, 0x01F9, 0x02FA, 0x02FB, 0x02FC, 0x06FF}


class WmfSession(Session):
    """A conversion of a WMF file. `pixel` is what counts as a pixel of its device, in fixed device units."""

    def __init__(self, metafile: Metafile, options: Options, texts: TextLayer | None) -> None:
        page = _first_map(metafile)
        tolerance = max(page.viewport_extent) * ONE // (_PARTS_OF_PIXEL * options.bound)
        super().__init__(metafile, options, texts, WMF, Budget(max(1, tolerance)))
        self.state.asked_window = page.window_extent
        self.state.set_page(page)
        self.slots = Slots()
        self.pixel = _pixel(metafile, page)

    @property
    def is_scaled(self) -> bool:
        """Whether the map mode has extents of its own."""
        return self.state.page.mode in (ISOTROPIC, ANISOTROPIC)

    def write_point(self, name: str, point: Point) -> bytes:
        """A record of a point, which WMF writes with y first."""
        return self.write(name, point.y, point.x)

    def move_record(self) -> bytes:
        """The record that moves the position to where it is."""
        return self.write_point("META_MOVETO", self.state.position)

    def file(self, records: list[bytes]) -> bytes:
        """The file of these records, with counts and sizes in its header ([MS-WMF] 2.3.2.2).

        Raises Fault TableFull if it can't count the objects.
        """
        head = bytearray(self.metafile.head)
        at = len(head) - _HEADER_SIZE
        words = (_HEADER_SIZE + sum(map(len, records))) // 2
        if self.slots.most > _MOST_SLOTS:
            raise Fault(FaultName.TableFull, "the header can't count so many objects")
        objects = max(int.from_bytes(head[at + 10 : at + 12], "little"), self.slots.most)
        largest = max(int.from_bytes(head[at + 12 : at + 16], "little"), max(map(len, records)) // 2)
        head[at + 6 : at + 10] = words.to_bytes(4, "little")
        head[at + 10 : at + 12] = objects.to_bytes(2, "little")
        head[at + 12 : at + 16] = largest.to_bytes(4, "little")
        return bytes(head) + b"".join(records)

    def overlook(self) -> None:
        """Goes on after a fault: a record that makes an object takes an index even then ([MS-WMF] 3.1.4.1)."""
        if WMF.layout.number(self.data) in _MAKERS:
            self.slots.lose()

    def check_depth(self) -> None:
        """Raises Fault DepthLimit if a block can't save the state."""
        if len(self.saved) >= MOST_SAVED:
            raise Fault(FaultName.DepthLimit)

    def draw(self, figure: Figure) -> None:
        """Replaces the record by a block that fills and strokes a closed figure, or strokes an open one, with the
        file's pen.
        """
        self.check_depth()
        pen = self.state.pen
        is_wide = not pen.is_null and pen.width > 0 and pen.data is not None
        is_even = is_wide or self.state.page.mode == ISOTROPIC
        window = FineWindow.around(self.state.page, figure.points, is_even)
        drawn = polygons(window, [figure.points]) if figure.is_closed else lines(window, figure.points)
        if not drawn:
            self.replace(Action.CURVE)
            return
        make, drop = self._wide_pen(pen, window) if is_wide else ([], [])
        block = [self.write("META_SAVEDC"), *window.records(), *make, *drawn, self.write("META_RESTOREDC", -1), *drop]
        self.replace(Action.CURVE, block)

    def _wide_pen(self, pen: Pen, window: FineWindow) -> tuple[list[bytes], list[bytes]]:
        """Records that make and select the pen with its width in the block's units, and one that deletes it."""
        assert pen.data is not None
        (index,) = self.slots.lowest_free(1)
        width = min(_WIDEST, pen.width * window.factors.x)
        make = WMF.named("META_CREATEPENINDIRECT").changed(pen.data, width=width)
        return [make, self.write("META_SELECTOBJECT", index)], [self.write("META_DELETEOBJECT", index)]


def _first_map(metafile: Metafile) -> PageMap:
    """The page map at the start: that of the placeable box, or of the first window extent.

    Raises Fault NoFrame if there is none.
    """
    if metafile.form is Form.PLACEABLE:
        left, top, right, bottom = numbers_at(metafile.head, _BOX_AT, 4, "h")
    else:
        left, top = 0, 0
        right, bottom = _first_extent(metafile.records)
    extent = Point(right - left, bottom - top)
    if 0 in extent:
        raise Fault(FaultName.NoFrame)
    return PageMap(ANISOTROPIC, Point(left, top), extent, Point(0, 0), Point(abs(extent.x), abs(extent.y)))


def _pixel(metafile: Metafile, page: PageMap) -> int:
    """What counts as a pixel of the device, by the units of an inch that a placeable header has ([MS-WMF] 2.3.2.3); at
    least a unit.
    """
    inch = numbers_at(metafile.head, _INCH_AT, 1, "H")[0] if metafile.form is Form.PLACEABLE else 0
    if inch:
        return max(ONE, inch * ONE // _PIXELS_OF_INCH)
    return max(ONE, max(page.viewport_extent) * ONE // _PIXELS_OF_SIDE)


def _first_extent(records: Sequence[bytes]) -> Point:
    kind = WMF.named("META_SETWINDOWEXT")
    for record in records:
        if WMF.layout.number(record) == kind.number and len(record) >= kind.end:
            extent = kind.read(record).point()
            if 0 not in extent:
                return extent
    return Point(0, 0)
