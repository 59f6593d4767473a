"""Conversion of a file: see `convert`."""

from __future__ import annotations

from dataclasses import dataclass

from .emf import EMF_STEPS
from .emf_session import EmfSession
from .marks import marked, stamps
from .options import Options
from .output import Replacement
from .reader import Form, Metafile, read_metafile
from .session import Session
from .text import TextLayer
from .wmf import WMF_STEPS
from .wmf_session import WmfSession


@dataclass(frozen=True, slots=True)
class Converted:
    """A converted file, and what was replaced in it, in the order of the records. Nothing was if it is the original."""

    data: bytes
    replacements: tuple[Replacement, ...]


def convert(data: bytes, options: Options, texts: TextLayer | None) -> Converted:
    """Replaces records that the checker rejects by records that its print profile plays.

    Records of text stay as they are if there is no text layer. A file in which nothing is replaced comes out byte for
    byte; otherwise bytes after its end record are left out. Raises Fault, with the record's number, for what can't be
    replaced.
    """
    metafile = read_metafile(data)
    session = _converted(metafile, options, texts)
    if not session.output.is_changed:
        return Converted(data, ())
    replacements = sorted(session.output.replacements, key=lambda replacement: replacement.record)
    records = marked(metafile.form.layout, session.output.entries)
    records[-1:-1] = stamps(metafile.form.layout, data, replacements)
    return Converted(session.file(records), tuple(replacements))


def _converted(metafile: Metafile, options: Options, texts: TextLayer | None) -> Session:
    if metafile.form is Form.EMF:
        emf = EmfSession(metafile, options, texts)
        EMF_STEPS.run(emf)
        emf.check_extra()
        return emf
    wmf = WmfSession(metafile, options, texts)
    WMF_STEPS.run(wmf)
    return wmf


def chord_tolerance(data: bytes, options: Options) -> int:
    """How far chords may be from a curve in a conversion of this file, in fixed device units.

    That is an eighth of a pixel at the bound. A text layer for the file flattens its glyphs by this. Raises Fault for
    files whose headers can't be read.
    """
    metafile = read_metafile(data)
    if metafile.form is Form.EMF:
        return EmfSession(metafile, options, None).budget.tolerance
    return WmfSession(metafile, options, None).budget.tolerance
