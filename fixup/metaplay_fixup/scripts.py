"""Which characters show nothing, and which need shaping."""

SOFT_HYPHEN = 0xAD
HYPHEN = 0x2D
SPACE = 0x20
NO_BREAK_SPACE = 0xA0

_BLANKS = frozenset({SPACE, NO_BREAK_SPACE, SOFT_HYPHEN, 0x1680, 0x202F, 0x205F, 0x3000, 0xF020})
"""Blanks with a width, but those of the ranges below. The last is the space of a symbol font."""
_SPACES = range(0x2000, 0x200B)
_WITHOUT_WIDTH = (
    range(0x00, 0x20),
    range(0x7F, 0x80),
    range(0x200B, 0x2010),
    range(0x2028, 0x202F),
    range(0x2060, 0x2070),
)

_SHAPED = (
    range(0x0300, 0x0370),  # combining marks
    range(0x0483, 0x048A),  # combining marks of Cyrillic
    range(0x0590, 0x1000),  # from Hebrew and Arabic over the scripts of India to Thai, Lao and Tibetan
    range(0x1000, 0x10A0),  # Burmese
    range(0x1100, 0x1200),  # single letters of Hangul
    range(0x135D, 0x1360),  # combining marks of Ethiopic
    range(0x1700, 0x1C80),  # from the scripts of the Philippines over Khmer and Mongolian to Ol Chiki
    range(0x1CD0, 0x1D00),  # marks of Vedic
    range(0x1DC0, 0x1E00),  # combining marks
    range(0x200F, 0x2010),  # the mark from right to left
    range(0x202B, 0x202C),  # directions from right to left
    range(0x202E, 0x202F),
    range(0x2067, 0x2069),
    range(0x20D0, 0x2100),  # combining marks for symbols
    range(0x302A, 0x3030),  # tone marks
    range(0x3099, 0x309B),  # voiced sound marks
    range(0xA66F, 0xA680),  # combining marks of Cyrillic
    range(0xA800, 0xA830),  # Syloti Nagri
    range(0xA840, 0xAC00),  # from Phags-pa over Javanese to Meetei Mayek
    range(0xD7B0, 0xD800),  # single letters of Hangul
    range(0xFB1D, 0xFE10),  # forms of Hebrew and Arabic, variation selectors
    range(0xFE20, 0xFE30),  # combining marks
    range(0xFE70, 0xFEFF),  # forms of Arabic
    range(0x10800, 0x12000),  # scripts from right to left, scripts of India
    range(0x16F00, 0x16FA0),  # Miao
    range(0x1E000, 0x1F000),  # Glagolitic marks, scripts from right to left
    range(0xE0100, 0xE01F0),  # variation selectors
)


def is_without_width(code: int) -> bool:
    """Whether a character is a control or a format character, which shows nothing and takes no place."""
    return code == 0xFEFF or any(code in codes for codes in _WITHOUT_WIDTH)


def is_blank(code: int) -> bool:
    """Whether a character may have a glyph without an outline."""
    return code in _BLANKS or code in _SPACES or is_without_width(code)


def shows_nothing(code: int) -> bool:
    """Whether a character surely has no visible glyph. A soft hyphen isn't one, since text shows it as a hyphen."""
    return is_blank(code) and code != SOFT_HYPHEN


def needs_shaping(code: int) -> bool:
    """Whether a character's glyph or place depends on its neighbours, or the line runs from right to left."""
    return code >= 0x0300 and any(code in codes for codes in _SHAPED)
