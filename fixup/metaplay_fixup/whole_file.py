"""Files that are written whole or not touched."""

from __future__ import annotations

import os
import stat
import tempfile
from collections.abc import Iterable
from pathlib import Path
from types import TracebackType

_CHUNK = 1 << 20
_MODES = 0o777


class WholeFile:
    """A file that changes as a whole. Leaving its context before `put_in_place` leaves the old file as it was.

    The new file is made in the folder of the old one, and renamed. A link is followed, and stays. What isn't a regular
    file, such as a device, is written as it is.
    """

    def __init__(self, path: Path) -> None:
        self._given = path
        self._path = Path(os.path.realpath(path))
        self._new: Path | None = None
        self._device: int | None = None
        self._chunks: tuple[bytes, ...] = ()

    def __enter__(self) -> WholeFile:
        return self

    def __exit__(
        self, kind: type[BaseException] | None, error: BaseException | None, trace: TracebackType | None
    ) -> None:
        """Takes away what isn't in its place."""
        if self._device is not None:
            os.close(self._device)
            self._device = None
        if self._new is not None:
            self._new.unlink(missing_ok=True)
            self._new = None

    def write(self, file: int) -> None:
        """Writes all of an open file that can be read from its begin to the new file, and syncs it.

        Raises OSError if it can't be written.
        """
        mode = _mode_of(self._given)
        if mode is not None and not stat.S_ISREG(mode):
            self._device = os.open(self._given, os.O_WRONLY | os.O_CLOEXEC)
            self._chunks = tuple(_chunks(file))
            return
        new, name = tempfile.mkstemp(prefix=f".{self._path.name[:100]}.", dir=self._path.parent)
        self._new = Path(name)
        try:
            _write_all(new, _chunks(file))
            os.fchmod(new, _MODES & (~_umask() & 0o666 if mode is None else mode))
            os.fsync(new)
        finally:
            os.close(new)

    def put_in_place(self) -> None:
        """Renames the new file. Raises OSError if that fails, and the old file is as it was."""
        if self._device is not None:
            _write_all(self._device, self._chunks)
        elif self._new is not None:
            os.replace(self._new, self._path)
            self._new = None


def append_file(file: int, other: int) -> None:
    """Writes all of an open file, read from its begin, at the end of another."""
    os.lseek(file, 0, os.SEEK_END)
    _write_all(file, _chunks(other))


def identity(path: Path) -> tuple[int, int] | str:
    """What is equal for names that lead to one file, also by another spelling or a link.

    The file needn't be there.
    """
    try:
        found = path.stat()
    except OSError:
        return os.path.realpath(path)
    return found.st_dev, found.st_ino


def _mode_of(path: Path) -> int | None:
    """The type and mode of a file, or None if there is none."""
    try:
        return path.stat().st_mode
    except FileNotFoundError:
        return None


def _umask() -> int:
    """The mask of new files. It can only be read by setting it."""
    mask = os.umask(0o077)
    os.umask(mask)
    return mask


def _chunks(file: int) -> Iterable[bytes]:
    at = 0
    while chunk := os.pread(file, _CHUNK, at):
        at += len(chunk)
        yield chunk


def _write_all(file: int, chunks: Iterable[bytes]) -> None:
    with open(file, "wb", buffering=0, closefd=False) as stream:
        for chunk in chunks:
            _write_chunk(stream.fileno(), chunk)


def _write_chunk(file: int, chunk: bytes) -> None:
    """Writes all of some bytes: one call may write a part of them."""
    rest = memoryview(chunk)
    while rest:
        rest = rest[os.write(file, rest) :]
