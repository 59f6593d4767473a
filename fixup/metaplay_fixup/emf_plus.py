"""EMF+ in comments ([MS-EMF] 2.3.3.2): a second drawing, which a program that reads it shows in place of the first."""

from __future__ import annotations

from .reader import Form, read_metafile
from .records import Layout

_COMMENT, _SIGNATURE_AT, _SIGNATURE = 70, 12, b"EMF+"


def is_emf_plus(record: bytes) -> bool:
    """Whether a record of EMF is a comment that holds EMF+, whatever its own length says, as for the checker."""
    return Layout.EMF.number(record) == _COMMENT and record.startswith(_SIGNATURE, _SIGNATURE_AT)


def has_emf_plus(data: bytes) -> bool:
    """Whether a file holds EMF+. Raises Fault for one that can't be read."""
    metafile = read_metafile(data)
    return metafile.form is Form.EMF and any(map(is_emf_plus, metafile.records))
