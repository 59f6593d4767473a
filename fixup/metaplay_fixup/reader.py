"""A metafile as its headers, its records, and what follows them."""

from __future__ import annotations

from dataclasses import dataclass
from enum import Enum

from .faults import Fault, FaultName
from .records import Layout

LONGEST_FILE = 67_108_864
MOST_RECORDS = 1_048_576

_END_NUMBERS = {Layout.EMF: 14, Layout.WMF: 0}


class Form(Enum):
    """The three forms of metafiles."""

    PLACEABLE = "placeable"
    PLAIN = "wmf"
    EMF = "emf"

    @property
    def layout(self) -> Layout:
        """How the form's records begin."""
        return Layout.EMF if self is Form.EMF else Layout.WMF


@dataclass(frozen=True, slots=True)
class Metafile:
    """A file.

    `head` is what precedes the first record: of a WMF its headers, of an EMF nothing. `records` ends with the end
    record.
    """

    form: Form
    head: bytes
    records: tuple[bytes, ...]
    tail: bytes


def read_metafile(data: bytes) -> Metafile:
    """Divides a file into its records ([MS-WMF] 2.3.2, [MS-EMF] 2.3.4).

    Raises Fault with the checker's names for files that don't begin as a metafile, or whose records don't end properly.
    """
    if len(data) > LONGEST_FILE:
        raise Fault(FaultName.TooLong)
    form = _form(data)
    at = {Form.PLACEABLE: 40, Form.PLAIN: 18, Form.EMF: 0}[form]
    if len(data) < (88 if form is Form.EMF else at):
        raise Fault(FaultName.ShortHeader)
    _check_header(data, form)
    records, end = _records(data, form.layout, at)
    return Metafile(form, data[:at], records, data[end:])


def _form(data: bytes) -> Form:
    if data[:4] == b"\xd7\xcd\xc6\x9a":
        return Form.PLACEABLE
    if data[:4] == b"\x01\x00\x00\x00" and data[40:44] == b" EMF":
        return Form.EMF
    if data[:4] in (b"\x01\x00\x09\x00", b"\x02\x00\x09\x00"):
        return Form.PLAIN
    raise Fault(FaultName.NotMetafile)


def _check_header(data: bytes, form: Form) -> None:
    """What docs/FORMATS.md says of each form's header."""
    if form is Form.EMF:
        size = int.from_bytes(data[4:8], "little")
        if size < 88 or size % 4:
            raise Fault(FaultName.BadHeader)
        if size > len(data):
            raise Fault(FaultName.ShortHeader)
        return
    header = data[22:40] if form is Form.PLACEABLE else data[:18]
    kind, words, version = (int.from_bytes(header[at : at + 2], "little") for at in (0, 2, 4))
    if kind not in (1, 2) or words != 9 or version not in (0x0100, 0x0300):
        raise Fault(FaultName.BadHeader)


def _records(data: bytes, layout: Layout, at: int) -> tuple[tuple[bytes, ...], int]:
    """The records from a place on, and where they end."""
    records: list[bytes] = []
    while not records or layout.number(records[-1]) != _END_NUMBERS[layout]:
        end = at + _record_size(data, layout, at, len(records))
        records.append(data[at:end])
        at = end
    return tuple(records), at


def _record_size(data: bytes, layout: Layout, at: int, number: int) -> int:
    """The bytes of the record at a place, whose number in the file is given."""
    if number >= MOST_RECORDS:
        raise Fault(FaultName.TooManyRecords, record=number)
    if at + layout.head_size > len(data):
        raise Fault(FaultName.NoEnd, record=number)
    if layout is Layout.EMF:
        size = int.from_bytes(data[at + 4 : at + 8], "little")
    else:
        size = 2 * int.from_bytes(data[at : at + 4], "little")
    if size < layout.head_size or (layout is Layout.EMF and size % 4):
        raise Fault(FaultName.ShortRecord, record=number)
    if at + size > len(data):
        raise Fault(FaultName.PastEnd, record=number)
    return size
