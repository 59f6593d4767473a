"""The faults of a file or of its conversion."""

from enum import Enum


class FaultName(Enum):
    """The name of a fault.

    The first group is the fix-up's own, each with what to do about it; the others are those of the checker
    (docs/FAULTS.md).
    """

    MissingFont = "MissingFont"
    """No folder has a font for a face. Name one that has it, or a family by --map or --instead."""
    MissingBold = "MissingBold"
    """A face is bold, and neither its family nor one of equal widths has a bold font; strokes aren't made bolder. Name
    a folder with the bold one, or a family that has one by --map.
    """
    MissingGlyph = "MissingGlyph"
    """A font has no glyph, or no outline, for a character. Name a family that has it by --fallback."""
    VerticalFace = "VerticalFace"
    """The name of a face begins with `@`: its text is written downwards, with wide glyphs turned, which isn't done.
    Make outlines of this text by the program that wrote the file.
    """
    GlyphIndexes = "GlyphIndexes"
    """Text has numbers of glyphs in place of characters. Make outlines of it by the program that wrote the file."""
    ComplexScript = "ComplexScript"
    """Glyphs or places depend on neighbours, or lines run from right to left. Make outlines as for GlyphIndexes."""
    ClipShape = "ClipShape"
    """Something is clipped by what isn't a box. Simplify the clip by the program that wrote the file."""
    EmbeddingNotAllowed = "EmbeddingNotAllowed"
    """A font forbids that its outlines are taken into files. Name another family by --map."""
    BadFont = "BadFont"
    """A font file is damaged, or has no tables that are needed. Take it out of the folder, or replace it."""
    Turned = "Turned"
    """A bitmap or a clip is under a world that turns or shears it. Turn the bitmap itself."""
    Alpha = "Alpha"
    """A bitmap lets a part of the background through. Lay it on white by --alpha white."""

    TooLong = "TooLong"
    NotMetafile = "NotMetafile"
    ShortHeader = "ShortHeader"
    BadHeader = "BadHeader"
    NoFrame = "NoFrame"
    NoEnd = "NoEnd"
    ShortRecord = "ShortRecord"
    PastEnd = "PastEnd"
    TooManyRecords = "TooManyRecords"
    UnknownRecord = "UnknownRecord"
    Unsupported = "Unsupported"
    BadParams = "BadParams"
    BadValue = "BadValue"
    PaletteColour = "PaletteColour"
    MetricMode = "MetricMode"
    BadDib = "BadDib"
    CompressedDib = "CompressedDib"
    ShortDib = "ShortDib"
    TableFull = "TableFull"
    HandleTaken = "HandleTaken"
    NoSuchHandle = "NoSuchHandle"
    WrongKind = "WrongKind"
    HeldObject = "HeldObject"
    NoSavedState = "NoSavedState"
    DepthLimit = "DepthLimit"
    TooManyCuts = "TooManyCuts"
    ZeroExtent = "ZeroExtent"
    OffPlane = "OffPlane"
    SourceMissing = "SourceMissing"
    SourceOutside = "SourceOutside"
    PathState = "PathState"
    TooManyEdges = "TooManyEdges"
    TooManyPieces = "TooManyPieces"
    NibTooWide = "NibTooWide"
    EmfPlusAlone = "EmfPlusAlone"


class Fault(Exception):
    """A file can't be converted.

    `detail` says what is wrong in a few words, or is empty. `record` is the number of the record, counted as `metaplay
    list` does, or None if the fault isn't one of a record.
    """

    def __init__(self, name: FaultName, detail: str = "", record: int | None = None) -> None:
        super().__init__(name, detail, record)
        self.name = name
        self.detail = detail
        self.record = record

    def __str__(self) -> str:
        detail = f" ({self.detail})" if self.detail else ""
        place = "" if self.record is None else f" at record {self.record}"
        return f"{self.name.value}{detail}{place}"
