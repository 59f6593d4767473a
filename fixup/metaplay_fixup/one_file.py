"""The conversion of one file, from its name to what will be written: the work of a process of its own."""

from __future__ import annotations

import errno
import os
import sys
from collections.abc import Iterable
from dataclasses import dataclass
from typing import BinaryIO

from .catalogue import Catalogue
from .choice import FontChooser
from .command_line import STANDARD_INPUT, CommandLine
from .convert import chord_tolerance, convert
from .faults import Fault, FaultName
from .layer import FontLayer
from .report import report_lines
from .statuses import CANNOT_READ, Ending, Status, out_of_memory

LONGEST_INPUT = 1 << 28
"""A longer input isn't read, as `metaplay` does it."""
_PART = 1 << 20


@dataclass(frozen=True, slots=True)
class Results:
    """Open files, empty at first, for the converted file and for the report."""

    converted: int
    report: int


def convert_file(source: str, asked: CommandLine, catalogue: Catalogue, results: Results) -> None:
    """Converts a file. Raises Ending if it can't be read, is rejected, or the results are too long."""
    original = read_file(source)
    chooser = FontChooser(catalogue, asked.rules)
    try:
        layer = FontLayer(chooser, chord_tolerance(original, asked.options), asked.code_page)
        converted = convert(original, asked.options, layer)
    except Fault as fault:
        raise Ending(Status.REJECTED, str(fault)) from fault
    write_file(results.converted, (converted.data,))
    if asked.report is not None:
        write_file(results.report, report_lines(source, original, converted, chooser.opened()))


def read_file(source: str) -> bytes:
    """All bytes of a file, or of standard input. Raises Ending if it can't be read, or is too long."""
    try:
        if source == STANDARD_INPUT:
            return _all_of(sys.stdin.buffer)
        with open(source, "rb") as stream:
            return _all_of(stream)
    except (OSError, ValueError, AttributeError) as error:
        # There is no sys.stdin if standard input is closed.
        raise Ending(Status.FAILED, CANNOT_READ) from error


def _all_of(stream: BinaryIO) -> bytes:
    """All bytes of a stream, in parts, since one read takes memory for as many bytes as it asks for."""
    parts: list[bytes] = []
    length = 0
    while length <= LONGEST_INPUT and (part := stream.read(_PART)):
        parts.append(part)
        length += len(part)
    if length > LONGEST_INPUT:
        raise Ending(Status.FAILED, CANNOT_READ)
    return b"".join(parts)


def write_file(file: int, parts: Iterable[bytes]) -> None:
    """Writes parts to an open file. Raises Ending if they are longer than a file may be, or memory has no room."""
    try:
        with open(file, "wb", closefd=False) as stream:
            stream.writelines(parts)
    except OSError as error:
        if error.errno == errno.EFBIG:
            raise Ending(Status.REJECTED, str(Fault(FaultName.TooLong, "the output or its report"))) from error
        raise out_of_memory() from error


def empty_file(name: str) -> int:
    """An open file in memory that has no place in any folder. The caller closes it."""
    return os.memfd_create(name, os.MFD_CLOEXEC)
