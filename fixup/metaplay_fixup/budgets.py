"""How much work a conversion may do beyond what its output shows: a small file may ask for very much."""

from __future__ import annotations

from .faults import Fault, FaultName
from .reader import LONGEST_FILE

# A quarter of what a file that the checker takes could hold, since a point has at least four bytes in a record.
MOST_POINTS = LONGEST_FILE // 16
# The pixels of three pictures of 24 bits, each as large as a file that the checker takes.
MOST_PIXELS = LONGEST_FILE


class Budget:
    """What is left of the points of curves and of the pixels of bitmaps that a conversion may make.

    `tolerance` is how far chords may be from a curve, in fixed device units, above 0.
    """

    def __init__(self, tolerance: int, points: int = MOST_POINTS, pixels: int = MOST_PIXELS) -> None:
        self.tolerance = tolerance
        self._points = points
        self._pixels = pixels

    def take_points(self, count: int) -> None:
        """Takes points. Raises Fault TooManyEdges if there aren't as many left."""
        self._points -= count
        if self._points < 0:
            raise Fault(FaultName.TooManyEdges, "the curves of the file have too many chords")

    def take_pixels(self, count: int) -> None:
        """Takes pixels. Raises Fault TooLong if there aren't as many left."""
        self._pixels -= count
        if self._pixels < 0:
            raise Fault(FaultName.TooLong, "the bitmaps of the file have too many pixels")
