"""The table of a WMF's objects: a new object gets the lowest free index ([MS-WMF] 3.1.4.1)."""

from __future__ import annotations

from heapq import heappop, heappush, nsmallest

from .faults import Fault, FaultName
from .objects import Object

# The most objects that the checker lets a WMF have at a time.
MOST_OBJECTS = 1024


class Slots:
    """Objects by their indexes. `most` is the greatest number of places that were needed."""

    def __init__(self) -> None:
        self._objects: dict[int, Object | None] = {}
        self._freed: list[int] = []
        self._next = 0
        self.most = 0

    def add(self, new: Object | None) -> None:
        """Gives an object the lowest free index; None is an object of no interest. Raises Fault TableFull."""
        self.lowest_free(1)
        self._put(new)

    def lose(self) -> None:
        """Gives the lowest free index to an object of no interest, whatever number of objects there is."""
        self._put(None)

    def _put(self, new: Object | None) -> None:
        if self._freed:
            index = heappop(self._freed)
        else:
            index = self._next
            self._next += 1
        self._objects[index] = new
        self.most = max(self.most, index + 1)

    def find(self, index: int) -> Object | None:
        """The object of an index, or None if there is none, or none of interest."""
        return self._objects.get(index)

    def delete(self, index: int) -> bool:
        """Frees an index, if it has an object, and says whether it had one."""
        is_used = index in self._objects
        if is_used:
            del self._objects[index]
            heappush(self._freed, index)
        return is_used

    def lowest_free(self, count: int) -> list[int]:
        """The indexes that the next objects would get. Raises Fault TableFull if the checker allows fewer."""
        if len(self._objects) + count > MOST_OBJECTS:
            raise Fault(FaultName.TableFull)
        found = nsmallest(count, self._freed)
        found += range(self._next, self._next + count - len(found))
        self.most = max(self.most, found[-1] + 1)
        return found
