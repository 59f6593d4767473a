"""Families of fonts with equal widths, and the faces that have signs in place of letters."""

from __future__ import annotations

_SANS = ("liberation sans", "arimo", "nimbus sans")
_SERIF = ("liberation serif", "tinos", "nimbus roman")
_MONO = ("liberation mono", "cousine", "nimbus mono ps")
_NARROW = ("liberation sans narrow", "nimbus sans narrow")

_EQUAL_WIDTHS: dict[str, tuple[str, ...]] = {
    "arial": _SANS,
    "liberation sans": _SANS,
    "nimbus sans": _SANS,
    "arimo": _SANS,
    "arial narrow": _NARROW,
    "helvetica narrow": _NARROW,
    "liberation sans narrow": _NARROW,
    "nimbus sans narrow": _NARROW,
    "times new roman": _SERIF,
    "liberation serif": _SERIF,
    "nimbus roman": _SERIF,
    "tinos": _SERIF,
    "courier new": _MONO,
    "courier": _MONO,
    "liberation mono": _MONO,
    "nimbus mono ps": _MONO,
    "cousine": _MONO,
    "calibri": ("carlito",),
    "cambria": ("caladea",),
    "symbol": ("standard symbols ps",),
}

# Windows lists these substitutes in its registry (FontSubstitutes).
_SUBSTITUTES = {"helvetica": "arial", "times": "times new roman"}
_SCRIPT_ENDINGS = (" baltic", " ce", " cyr", " greek", " tur")
_SCRIPT_FAMILIES = ("arial", "courier new", "times new roman")

SYMBOL_FACES = frozenset(
    {
        "bookshelf symbol 7",
        "euclid extra",
        "euclid fraktur",
        "euclid math one",
        "euclid math two",
        "euclid symbol",
        "marlett",
        "monotype sorts",
        "ms outlook",
        "ms reference specialty",
        "mt extra",
        "opensymbol",
        "starsymbol",
        "symbol",
        "webdings",
        "wingdings",
        "wingdings 2",
        "wingdings 3",
        "zapfdingbats",
    }
)
"""Faces in small letters that have signs where other fonts have letters, so that no other family can stand in."""


def substituted(face: str) -> str:
    """The face that Windows takes for another, such as Arial for Arial CE, both in small letters."""
    for ending in _SCRIPT_ENDINGS:
        family = face.removesuffix(ending)
        if family != face and family in _SCRIPT_FAMILIES:
            return family
    return _SUBSTITUTES.get(face, face)


def equal_families(face: str) -> tuple[str, ...]:
    """The families, in small letters and in order, whose advances equal those of the face in small letters."""
    family = substituted(face)
    families = _EQUAL_WIDTHS.get(family, ())
    return families if family == face else (family, *families)
