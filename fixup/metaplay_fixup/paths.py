"""Paths of EMF ([MS-EMF] 2.3.10) as figures of fixed device points."""

from __future__ import annotations

from collections.abc import Sequence
from dataclasses import dataclass, field

from .affine import Point
from .output import Entry
from .shapes import MOST_POINTS, Figure
from .faults import Fault, FaultName


@dataclass(slots=True)
class Path:
    """A path that is open until its EMR_ENDPATH, and then finished.

    It is plain as long as the records in it stay as they are; `entries` are theirs. `is_joined` says whether lines
    from the position continue the newest figure.
    """

    is_open: bool = True
    is_plain: bool = True
    is_joined: bool = False
    entries: list[Entry] = field(default_factory=list)
    figures: list[Figure] = field(default_factory=list)
    _count: int = 0

    def add(self, points: Sequence[Point], is_closed: bool) -> None:
        """Adds a figure, if it has a point. Lines continue it if it isn't closed. Raises Fault TooManyEdges."""
        if points:
            self._counted(len(points))
            self.figures.append(Figure(list(points), is_closed))
            self.is_joined = not is_closed

    def continue_from(self, position: Point, points: Sequence[Point]) -> None:
        """Adds points to the figure that can be continued, or to a new one at the position.

        Raises Fault TooManyEdges.
        """
        if points:
            if not self.is_joined:
                self.add([position], False)
            self._counted(len(points))
            self.figures[-1].points.extend(points)

    def close_figure(self) -> None:
        """Closes the figure that can be continued, if there is one."""
        if self.is_joined:
            self.figures[-1] = self.figures[-1]._replace(is_closed=True)
        self.is_joined = False

    def _counted(self, count: int) -> None:
        self._count += count
        if self._count > MOST_POINTS:
            raise Fault(FaultName.TooManyEdges)
