"""The report of a conversion: lines of JSON with sorted keys, as `report.schema.json` says."""

from __future__ import annotations

import hashlib
import json
from collections.abc import Iterable, Iterator, Sequence

from .convert import Converted
from .emf_plus import has_emf_plus
from .fonts import Font
from .output import Replacement
from .text import Choice, Note
from .version import VERSION

_FALLBACK = "fallback"

Value = int | str | bool | None | Sequence["Value"] | dict[str, "Value"]


def report_lines(source: str, original: bytes, converted: Converted, fonts: Sequence[Font]) -> Iterator[bytes]:
    """A line for each replaced record, in the order of the original, and a last one for the file.

    `source` is the file's name, of which what isn't UTF-8 becomes question marks. `fonts` are those that were opened
    for the file; those that gave no glyph are left out.
    """
    name = source.encode("utf-8", "replace").decode("utf-8")
    for replacement in converted.replacements:
        yield _line({"file": name, **_of_record(replacement)})
    notes = [replacement.note for replacement in converted.replacements if replacement.note is not None]
    yield _line(
        {
            "converted": hashlib.sha256(converted.data).hexdigest(),
            "emf_plus": has_emf_plus(converted.data),
            "file": name,
            "fonts": [entry for font in fonts for entry in _of_font(font, notes)],
            "original": hashlib.sha256(original).hexdigest(),
            "version": VERSION,
        }
    )


def _line(values: dict[str, Value]) -> bytes:
    return json.dumps(values, sort_keys=True, separators=(",", ":")).encode("ascii") + b"\n"


def _of_record(replacement: Replacement) -> dict[str, Value]:
    """What became of a record. What has no meaning for it is null."""
    note = replacement.note
    return {
        "action": replacement.action.value,
        "box": None if replacement.box is None else list(replacement.box),
        "kind": replacement.kind,
        "record": replacement.record,
        **(_no_text() if note is None else _of_note(note)),
    }


def _of_note(note: Note) -> dict[str, Value]:
    is_drawn = note.choice is not Choice.NONE
    return {
        "choice": note.choice.value,
        "code_page": note.code_page,
        "face": note.face,
        "fallbacks": list(note.fallbacks),
        "font": note.font if is_drawn else None,
        "made_slant": note.made_slant if is_drawn else None,
        "own_widths": note.own_widths if is_drawn else None,
        "style": note.style if is_drawn else None,
        "text": note.text,
    }


def _no_text() -> dict[str, Value]:
    names = ("choice", "code_page", "face", "fallbacks", "font", "made_slant", "own_widths", "style", "text")
    return dict.fromkeys(names)


def _of_font(font: Font, notes: Iterable[Note]) -> Iterator[dict[str, Value]]:
    """A font and how it was chosen, or nothing if it wasn't."""
    family = font.file.family
    choices = {note.choice.value for note in notes if (note.font, note.sha256) == (family, font.sha256)}
    if any(family in note.fallbacks for note in notes):
        choices.add(_FALLBACK)
    if choices:
        yield {
            "choices": sorted(choices),
            "family": family,
            "permission": font.permission,
            "sha256": font.sha256,
            "style": font.file.style,
        }
