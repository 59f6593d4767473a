"""Which texts the fills of a block draw: each fill must be one that a text may make, in the texts' order."""

from __future__ import annotations

from typing import NamedTuple

from .areas import Area, Pair
from .files import Refused
from .texts import Stage, Text

# A text fills its box, its cell, its glyphs, its underline and its strike-out.
_MOST_FILLS = 5


class Fill(NamedTuple):
    """Polygons of one record: their colour, whether they are one quadrangle, the record's own box and the true one."""

    colour: int
    is_box: bool
    bounds: Area
    area: Area
    here: int


class Matching:
    """The fills that the texts of a place may still make."""

    def __init__(self, texts: list[Text]) -> None:
        self.texts = texts
        self.stages = [stage for text in texts for stage in text.stages]
        self.next = self.next_text = self.here = 0
        self.unit: Pair = (1.0, 1.0)

    def match(self, fills: list[Fill], clip: Area | None, unit: Pair, is_shared: bool, here: int) -> None:
        """Finds the texts that a block draws: one, or several if they share it.

        `unit` is how far the block's numbers may be off, and `here` the block's end. Raises Refused if there are none.
        """
        self.unit, self.here = unit, here
        if is_shared and fills:
            taken, end = self._taken(fills, self.next, len(self.stages), clip)
            if taken < len(fills):
                raise self._refusal(fills[taken : taken + 1], clip)
            text = self.stages[end - 1].text
        else:
            text = self._one_text(fills, clip)
        self.next_text = text + 1
        while self.next < len(self.stages) and self.stages[self.next].text < self.next_text:
            self.next += 1

    def _one_text(self, fills: list[Fill], clip: Area | None) -> int:
        """The next text that draws all fills of a block."""
        start = self.next
        for text in range(self.next_text, len(self.texts)):
            end = start + len(self.texts[text].stages)
            if self._taken(fills, start, end, clip)[0] == len(fills):
                return text
            start = end
        raise self._refusal(fills[:_MOST_FILLS], clip)

    def _taken(self, fills: list[Fill], start: int, end: int, clip: Area | None) -> tuple[int, int]:
        """Takes for each fill the first stage that it may be, in order: how many fills have one, and the end of the
        last.
        """
        for taken, fill in enumerate(fills):
            while start < end and not self._may_be(fill, self.stages[start], clip):
                start += 1
            if start == end:
                return taken, start
            start += 1
        return len(fills), start

    def _may_be(self, fill: Fill, stage: Stage, clip: Area | None) -> bool:
        is_alike = fill.colour == stage.colour and (fill.is_box or not stage.is_box)
        return is_alike and self._is_within(fill, stage, clip)

    def _is_within(self, fill: Fill, stage: Stage, clip: Area | None) -> bool:
        """Whether a fill lies in a text's box. A text that is clipped lies in its clip, or the block has that clip."""
        text = self.texts[stage.text]
        box = stage.area.grown(*self.unit)
        is_placed = box.holds(fill.area) and box.grown(1, 1).holds(fill.bounds)
        if not is_placed or (stage.is_whole and not fill.area.grown(*self.unit).holds(stage.area)):
            return False
        if text.clip is None or clip is None:
            return clip is None and (text.clip is None or text.clip.grown(*self.unit).holds(fill.area))
        return text.clip.grown(*self.unit).holds(clip) and clip.grown(*self.unit).holds(text.clip)

    def _refusal(self, fills: list[Fill], clip: Area | None) -> Refused:
        """Why a block's fills can't be the next texts'."""
        for fill in fills:
            stages = [stage for stage in self.stages[self.next :] if stage.colour == fill.colour]
            if stages and not any(self._is_within(fill, stage, clip) for stage in stages):
                return Refused(
                    "a polygon lies outside of the text's box, or doesn't fit it, or has a wrong clip", fill.here
                )
        return Refused("a block draws more than its text has", fills[-1].here if fills else self.here)
