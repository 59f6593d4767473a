"""Clips of one kept box and a few boxes that are cut out, and the regions and paths that are such clips.

Boxes are in fixed device units, left to right and top to bottom.
"""

from __future__ import annotations

from collections.abc import Sequence
from dataclasses import dataclass, replace
from itertools import groupby

from .affine import Point
from .faults import Fault, FaultName
from .fixed import FRACTION_BITS
from .records import numbers_at
from .shapes import fixed_bounds, without_repeats
from .text import Box

# The most boxes that the checker lets a file cut out.
MOST_CUTS = 16

# How far corners of a path may be off and still make a box: each was rounded to a fixed unit.
_ROUNDING = 2

_RECTANGLES_AT = 48


@dataclass(frozen=True, slots=True)
class Clip:
    """What a clip keeps and what it cuts out. `kept` is None if nothing was kept."""

    kept: Box | None = None
    cuts: tuple[Box, ...] = ()

    @property
    def is_empty(self) -> bool:
        """Whether nothing is clipped."""
        return self.kept is None and not self.cuts

    def keeping(self, box: Box) -> Clip:
        """The clip narrowed to a box, which is what it has in common with the box kept before."""
        old = self.kept
        if old is None:
            return replace(self, kept=box)
        left, top = max(old.left, box.left), max(old.top, box.top)
        right, bottom = max(left, min(old.right, box.right)), max(top, min(old.bottom, box.bottom))
        return replace(self, kept=Box(left, top, right, bottom))

    def cutting(self, box: Box) -> Clip:
        """The clip without a box. Raises Fault TooManyCuts after 16 of them."""
        if len(self.cuts) >= MOST_CUTS:
            raise Fault(FaultName.TooManyCuts)
        return replace(self, cuts=(*self.cuts, box))

    def and_also(self, other: Clip) -> Clip:
        """What both clips leave. Raises Fault TooManyCuts if they have more than 16 cuts together."""
        both = self if other.kept is None else self.keeping(other.kept)
        for cut in other.cuts:
            both = both.cutting(cut)
        return both


NO_CLIP = Clip()


def ordered(one: Point, other: Point) -> Box:
    """The box between two corners."""
    return fixed_bounds((one, other))


def region_boxes(data: bytes) -> list[Box]:
    """The boxes of the region in an EMR_EXTSELECTCLIPRGN ([MS-EMF] 2.2.24), from whole device units.

    Raises Fault BadParams if they aren't all there.
    """
    (count,) = numbers_at(data, 24, 1, "I")
    numbers = numbers_at(data, _RECTANGLES_AT, 4 * count, "i")
    fixed = [number << FRACTION_BITS for number in numbers]
    return [Box(*fixed[at : at + 4]) for at in range(0, len(fixed), 4)]


def clip_of_region(boxes: Sequence[Box]) -> Clip:
    """The clip that keeps a region: its bounds without the gaps.

    The boxes must be in bands from top to bottom, as the standard's regions are, or it is Fault ClipShape. Raises
    Fault TooManyCuts if there are more than 16 gaps.
    """
    if not boxes:
        return Clip(Box(0, 0, 0, 0))
    left, right = min(box.left for box in boxes), max(box.right for box in boxes)
    clip = Clip(Box(left, boxes[0].top, right, max(box.bottom for box in boxes)))
    above: list[Box] = []
    end = boxes[0].top
    for (top, bottom), band in groupby(boxes, key=lambda box: (box.top, box.bottom)):
        if top < end or bottom < top:
            raise Fault(FaultName.ClipShape, "a region that isn't in bands")
        gaps = [Box(left, end, right, top)] if top > end else []
        gaps += _gaps(sorted(band), left, right)
        above = _joined(above, gaps)
        clip = _with_gaps(clip, above)
        end = bottom
    return clip


def _gaps(band: Sequence[Box], left: int, right: int) -> list[Box]:
    """The gaps between the boxes of one band, from left to right."""
    gaps = []
    for box in band:
        if box.left > left:
            gaps.append(Box(left, box.top, box.left, box.bottom))
        left = max(left, box.right)
    if left < right:
        gaps.append(Box(left, band[0].top, right, band[0].bottom))
    return gaps


def _joined(above: Sequence[Box], gaps: Sequence[Box]) -> list[Box]:
    """The gaps of a band; one that continues a gap above begins where that began."""
    continued = {(box.left, box.right, box.bottom): box.top for box in above}
    return [box._replace(top=continued.get((box.left, box.right, box.top), box.top)) for box in gaps]


def _with_gaps(clip: Clip, gaps: Sequence[Box]) -> Clip:
    """The clip without these gaps; a gap that grew takes the place of what it grew from."""
    grown = {(gap.left, gap.top, gap.right) for gap in gaps}
    clip = replace(clip, cuts=tuple(cut for cut in clip.cuts if (cut.left, cut.top, cut.right) not in grown))
    for gap in gaps:
        clip = clip.cutting(gap)
    return clip


def box_of_figure(points: Sequence[Point]) -> Box | None:
    """The box that a closed figure is, or None if it isn't one."""
    corners = without_repeats(points, True)
    if len(corners) != 4:
        return None
    box = fixed_bounds(corners)
    steps = [(corners[place - 1], corners[place]) for place in range(4)]
    is_upright = [_is_near(one.x, other.x) for one, other in steps]
    is_level = [_is_near(one.y, other.y) for one, other in steps]
    alternates = is_upright[0] == is_upright[2] != is_upright[1] == is_upright[3]
    return box if alternates and is_level == [not upright for upright in is_upright] else None


def _is_near(one: int, other: int) -> bool:
    return abs(one - other) <= _ROUNDING
