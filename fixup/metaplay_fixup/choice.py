"""The font for a face. What the caller didn't name, and no table has, is never guessed."""

from __future__ import annotations

from collections.abc import Iterator, Mapping
from dataclasses import dataclass, field

from .catalogue import Catalogue, FontFile
from .charsets import SYMBOL_CHARSET
from .families import SYMBOL_FACES, equal_families
from .faults import Fault, FaultName
from .fonts import Font
from .text import Choice, LogicalFont

_BOLD_WEIGHT = 550


@dataclass(frozen=True, slots=True)
class FontRules:
    """What the caller names: families for faces, one for all other faces, and some for glyphs that a font hasn't."""

    maps: Mapping[str, str] = field(default_factory=dict)
    instead: str | None = None
    fallbacks: tuple[str, ...] = ()


@dataclass(frozen=True, slots=True)
class ChosenFont:
    """A font, how it was chosen, and whether its glyphs must be slanted since the family has no italic."""

    font: Font
    choice: Choice
    made_slant: bool


@dataclass(frozen=True, slots=True)
class _Style:
    is_bold: bool
    is_italic: bool


@dataclass(frozen=True, slots=True)
class _Candidate:
    family: str
    choice: Choice


class FontChooser:
    """Chooses and opens fonts. Each is opened once."""

    def __init__(self, catalogue: Catalogue, rules: FontRules) -> None:
        self._catalogue = catalogue
        self._maps = {face.lower(): family for face, family in rules.maps.items()}
        self._rules = rules
        self._fonts: dict[FontFile, Font] = {}
        self._chosen: dict[LogicalFont, ChosenFont] = {}

    def choose(self, request: LogicalFont) -> ChosenFont:
        """The font for a face, by --map, by its own name, by the table, by --instead.

        Where the family of a bold face has no bold font, the first one of equal widths that has one serves.

        Raises Fault with MissingFont if there is none, with MissingBold if a bold face's families have no bold one,
        with VerticalFace for vertical writing, and with BadFont or EmbeddingNotAllowed if the font can't be used.
        """
        if request not in self._chosen:
            self._chosen[request] = self._found(request)
        return self._chosen[request]

    def opened(self) -> tuple[Font, ...]:
        """The fonts that were opened so far, in that order."""
        return tuple(self._fonts.values())

    def _found(self, request: LogicalFont) -> ChosenFont:
        style = _Style(request.weight > _BOLD_WEIGHT, request.italic)
        is_found = False
        for candidate in self._candidates(request):
            files = self._catalogue.named(candidate.family)
            # Only a family of equal widths takes the place of one that has no bold.
            if not files or (is_found and candidate.choice is not Choice.TABLE):
                continue
            file = _file_of(files, style)
            if file is not None:
                return self._opened(file, request, candidate.choice)
            is_found = True
        if is_found:
            raise Fault(FaultName.MissingBold, request.face)
        raise Fault(FaultName.MissingFont, request.face or "no face is named")

    def fallbacks(self, request: LogicalFont) -> Iterator[ChosenFont]:
        """The fonts for glyphs that the chosen one hasn't, in the caller's order, each opened when its turn comes.

        A family without a bold serves no bold face, and none serves a face of signs.
        """
        style = _Style(request.weight > _BOLD_WEIGHT, request.italic)
        for family in () if _has_signs(request) else self._rules.fallbacks:
            file = _file_of(self._catalogue.named(family), style)
            if file is not None:
                yield self._opened(file, request, Choice.INSTEAD)

    def _candidates(self, request: LogicalFont) -> list[_Candidate]:
        face = request.face.lower()
        if face.startswith("@"):
            raise Fault(FaultName.VerticalFace, request.face)
        if face in self._maps:
            return [_Candidate(self._maps[face], Choice.MAP)]
        candidates = [_Candidate(face, Choice.FAMILY)]
        if request.charset != SYMBOL_CHARSET or face in SYMBOL_FACES:
            candidates += [_Candidate(family, Choice.TABLE) for family in equal_families(face)]
        if self._rules.instead is not None and not _has_signs(request):
            candidates.append(_Candidate(self._rules.instead, Choice.INSTEAD))
        return candidates

    def _opened(self, file: FontFile, request: LogicalFont, choice: Choice) -> ChosenFont:
        """The font of a file. Raises Fault as Font does, and names the face unless it is the font's family."""
        try:
            if file not in self._fonts:
                self._fonts[file] = Font(file)
        except Fault as fault:
            if request.face.lower() == file.family.lower():
                raise
            raise Fault(fault.name, f"{fault.detail}, for {request.face}") from fault
        return ChosenFont(self._fonts[file], choice, request.italic and not file.is_italic)


def _file_of(files: tuple[FontFile, ...], style: _Style) -> FontFile | None:
    """The file of a family that is the nearest to a style, or None if the family has no bold for a bold face.

    The first file with the weight and the slant is taken, else the first with the weight, else the first.
    """
    weights = [file for file in files if file.is_bold == style.is_bold]
    if style.is_bold and not weights:
        return None
    slants = [file for file in weights or files if file.is_italic == style.is_italic]
    return next(iter(slants or weights or files), None)


def _has_signs(request: LogicalFont) -> bool:
    """Whether the face has signs in place of letters, so that a family of letters can't stand in."""
    return request.charset == SYMBOL_CHARSET or request.face.lower() in SYMBOL_FACES
