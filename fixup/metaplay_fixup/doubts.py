"""What isn't known of the state any more after a record whose fault is overlooked, where only text is replaced."""

from __future__ import annotations

from collections.abc import Mapping
from enum import Enum

from .faults import Fault, FaultName
from .text import UPDATE_POSITION


class Part(Enum):
    """A part of the state that text depends on."""

    MAP = "map"
    WORLD = "world"
    POSITION = "position"


SET_IN_STEPS = {Part.MAP, Part.WORLD}
"""Parts of which not every record without a fault sets all."""

Doubts = Mapping[Part, Fault]
"""The parts that aren't known, each with the fault of the record that has set it."""

# Other programs follow records with these faults in ways that nothing here tells. Records with other faults change
# nothing there either.
_UNFOLLOWED = {
    FaultName.MetricMode,
    FaultName.OffPlane,
    FaultName.TooManyEdges,
    FaultName.Unsupported,
}


def doubted(doubts: Doubts, part: Part, fault: Fault, record: int) -> Doubts:
    """The doubts after the record of this number, which sets a part, had a fault."""
    if fault.name not in _UNFOLLOWED:
        return doubts
    return {**doubts, part: Fault(fault.name, fault.detail, record)}


def settled(doubts: Doubts, part: Part) -> Doubts:
    """The doubts after a part was set without a fault."""
    return {other: fault for other, fault in doubts.items() if other is not part} if part in doubts else doubts


def check_text(doubts: Doubts, align: int) -> None:
    """Raises the fault of the record that has set a part which a text of this alignment needs."""
    for part in (Part.MAP, Part.WORLD, *([Part.POSITION] if align & UPDATE_POSITION else [])):
        if part in doubts:
            raise doubts[part]
