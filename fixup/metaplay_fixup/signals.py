"""Signals that stop the program: its new files go, the process that reads a file ends, and it ends by the signal."""

from __future__ import annotations

import os
import signal
from collections.abc import Callable, Iterator
from contextlib import contextmanager
from types import FrameType
from typing import NoReturn

# The first comes from a terminal that is closed. For SIGINT, Python raises KeyboardInterrupt by itself.
_STOPS = (signal.SIGHUP, signal.SIGTERM)


class Stopped(BaseException):
    """A signal asks the program to end."""

    def __init__(self, number: int) -> None:
        super().__init__(number)
        self.number = number


def raise_stopped() -> None:
    """From now on each of these signals raises Stopped, except one that the caller of the program ignores."""
    _handle(_raise)


def end_at_once() -> None:
    """From now on each of these signals ends the process at once, except one that is ignored."""
    _handle(signal.SIG_DFL)


@contextmanager
def held() -> Iterator[Callable[[], None]]:
    """Signals that stop the program wait until the function that is given is called, or until the end."""
    mask = signal.pthread_sigmask(signal.SIG_BLOCK, ())

    def let_in() -> None:
        signal.pthread_sigmask(signal.SIG_SETMASK, mask)

    try:
        signal.pthread_sigmask(signal.SIG_BLOCK, (*_STOPS, signal.SIGINT))
        yield let_in
    finally:
        let_in()


def end_by(number: int) -> None:
    """Ends the process by a signal, so that a shell knows."""
    signal.signal(number, signal.SIG_DFL)
    os.kill(os.getpid(), number)


def _handle(handler: signal.Handlers | Callable[[int, FrameType | None], NoReturn]) -> None:
    for number in _STOPS:
        if signal.getsignal(number) != signal.SIG_IGN:
            signal.signal(number, handler)


def _raise(number: int, _: FrameType | None) -> NoReturn:
    raise Stopped(number)
