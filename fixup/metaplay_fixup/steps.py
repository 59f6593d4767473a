"""What happens to each record of a file, by the kind that it is of."""

from __future__ import annotations

from collections.abc import Callable, Mapping
from dataclasses import dataclass
from typing import Generic, TypeVar

from .doubts import SET_IN_STEPS, Part, doubted, settled
from .faults import Fault, FaultName
from .output import Output
from .session import Session

SessionType = TypeVar("SessionType", bound=Session)
Handler = Callable[[SessionType], None]

# What the saved states are after these faults isn't known, so they aren't overlooked.
_NEVER_OVERLOOKED = {FaultName.NoSavedState, FaultName.DepthLimit}


@dataclass(frozen=True, slots=True)
class Steps(Generic[SessionType]):
    """The handlers of a format's records by their numbers.

    Kinds in `unsupported` are neither played by the checker nor replaced. Kinds in `texts` are text. Kinds in
    `drawings` change no state. `moves` are the handlers of those that only move the position, as far as the state
    goes. `parts` says which part of the state a kind sets. Kinds in `painted` use colours that earlier records may have
    taken from a palette. All others are kept.
    """

    handlers: Mapping[int, Handler[SessionType]]
    unsupported: frozenset[int]
    texts: frozenset[int]
    drawings: frozenset[int]
    moves: Mapping[int, Handler[SessionType]]
    parts: Mapping[int, Part]
    painted: frozenset[int]

    def run(self, session: SessionType) -> None:
        """Takes all records of the session's file over, or replaces them. Raises Fault with the record's number."""
        step = self._step_of_text if session.options.text_only else self._step
        for number, data in enumerate(session.metafile.records):
            session.begin(number, data)
            try:
                step(session)
            except Fault as fault:
                raise Fault(fault.name, fault.detail, number if fault.record is None else fault.record) from fault

    def _step(self, session: SessionType) -> None:
        """Takes over, or replaces, the record at hand."""
        number = session.table.layout.number(session.data)
        if session.is_at_header:
            session.keep()
        elif number in self.unsupported:
            raise Fault(FaultName.Unsupported, session.kind_at_hand.name)
        else:
            if number in self.painted and not session.options.text_only:
                session.state.check_palette()
            self.handlers.get(number, type(session).keep)(session)

    def _step_of_text(self, session: SessionType) -> None:
        """The same where only text is replaced: other records only change the state, whatever faults they have."""
        number = session.table.layout.number(session.data)
        if number in self.texts and not session.is_at_header:
            self._text_alone(session, self.handlers[number])
            return
        if number in self.drawings:
            session.keep()
            return
        output = session.output
        session.output = Output()
        try:
            self._step_of_state(session, number)
        finally:
            session.output = output
        session.keep()

    def _step_of_state(self, session: SessionType, number: int) -> None:
        """Takes a record's change of the state. A fault is overlooked, but what isn't known then is noted."""
        part = self.parts.get(number)
        try:
            self.moves.get(number, self._step)(session)
        except Fault as fault:
            if fault.name in _NEVER_OVERLOOKED:
                raise
            session.overlook()
            if part is not None:
                session.state.doubts = doubted(session.state.doubts, part, fault, session.number)
        else:
            # The handlers tell when a map is known again.
            if part is not None and part not in SET_IN_STEPS:
                session.state.doubts = settled(session.state.doubts, part)

    def _text_alone(self, session: SessionType, handler: Callable[[SessionType], None]) -> None:
        """Replaces text.

        If it moves the position, that is set anew at once, since lines that use it stay as they are.
        """
        if session.is_in_path:
            raise Fault(FaultName.PathState, "text in a path")
        before = session.state.position
        handler(session)
        if session.state.position != before:
            entry = session.output.entries[-1]
            session.output.put_in(entry, len(entry.records), [session.move_record()])
