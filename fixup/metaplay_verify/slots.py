"""The table of a WMF's objects: a new object gets the lowest free index ([MS-WMF] 3.1.4.1)."""

from __future__ import annotations

from heapq import heappop, heappush

MAKERS = {0x00F7, 0x0142, 0x01F9, 0x02FA, 0x02FB, 0x02FC, 0x06FF}
"""The functions that make an object ([MS-WMF] 2.3.4)."""


class Slots:
    """The indexes in use. `most` is how many places the table needed so far."""

    def __init__(self) -> None:
        self._used: set[int] = set()
        self._freed: list[int] = []
        self.most = 0

    def make(self) -> int:
        """The index of a new object."""
        index = heappop(self._freed) if self._freed else self.most
        self._used.add(index)
        self.most = max(self.most, index + 1)
        return index

    def delete(self, index: int) -> None:
        """Frees an index, if it is in use."""
        if index in self._used:
            self._used.remove(index)
            heappush(self._freed, index)
