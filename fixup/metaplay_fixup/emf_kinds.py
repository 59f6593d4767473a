"""The records of EMF ([MS-EMF] 2.1.1, 2.3), as far as fields are read or written.

Kinds without fields are there for their names.
"""

from .records import Layout, Table

_BOUNDS = "bounds_left:i bounds_top:i bounds_right:i bounds_bottom:i"
_BOX = "left:i top:i right:i bottom:i"
_TRANSFORM = "m11:I m12:I m21:I m22:I dx:I dy:I"
_COLOUR = "colour:I"
_SCALES = "x_numerator:i x_denominator:i y_numerator:i y_denominator:i"
_PARTS = "header_at:I header_size:I bits_at:I bits_size:I"
_CORNER = "x:i y:i width:i height:i"
_SOURCE = f"source_x:i source_y:i {_TRANSFORM} source_background:I usage:I {_PARTS}"
_SOURCE_SIZE = "source_width:i source_height:i"
_TEXT = f"{_BOUNDS} graphics_mode:I x_scale:I y_scale:I x:i y:i count:I string_at:I options:I {_BOX} distances_at:I"
_ARC = f"{_BOX} start_x:i start_y:i end_x:i end_y:i"
_FRAME = "frame_left:i frame_top:i frame_right:i frame_bottom:i"
_COUNTS = "signature:I version:I bytes:I records:I handles:H reserved:H"
_DESCRIPTION = "description_size:I description_at:I palette_entries:I"
_DEVICE = f"{_DESCRIPTION} device_width:i device_height:i millimetres_width:i millimetres_height:i"
_STRETCHED = "usage:I operation:I width:i height:i"
_FONT_SIZES = "height:i width:i escapement:i orientation:i weight:i"
_FONT_FLAGS = "italic:B underline:B strike_out:B charset:B out_precision:B clip_precision:B quality:B pitch:B"
_LISTS = f"{_BOUNDS} list_count:I total:I"

EMF = Table(
    Layout.EMF,
    f"""
    1 EMR_HEADER {_BOUNDS} {_FRAME} {_COUNTS} {_DEVICE}
    2 EMR_POLYBEZIER {_BOUNDS} count:I points:i
    3 EMR_POLYGON {_BOUNDS} count:I points:i
    4 EMR_POLYLINE {_BOUNDS} count:I points:i
    5 EMR_POLYBEZIERTO {_BOUNDS} count:I points:i
    6 EMR_POLYLINETO {_BOUNDS} count:I points:i
    7 EMR_POLYPOLYLINE {_LISTS} lists:i
    8 EMR_POLYPOLYGON {_LISTS} lists:i
    9 EMR_SETWINDOWEXTEX x:i y:i
    10 EMR_SETWINDOWORGEX x:i y:i
    11 EMR_SETVIEWPORTEXTEX x:i y:i
    12 EMR_SETVIEWPORTORGEX x:i y:i
    13 EMR_SETBRUSHORGEX
    14 EMR_EOF
    15 EMR_SETPIXELV x:i y:i {_COLOUR}
    16 EMR_SETMAPPERFLAGS
    17 EMR_SETMAPMODE mode:I
    18 EMR_SETBKMODE mode:I
    19 EMR_SETPOLYFILLMODE mode:I
    20 EMR_SETROP2 mode:I
    21 EMR_SETSTRETCHBLTMODE
    22 EMR_SETTEXTALIGN mode:I
    23 EMR_SETCOLORADJUSTMENT
    24 EMR_SETTEXTCOLOR {_COLOUR}
    25 EMR_SETBKCOLOR {_COLOUR}
    26 EMR_OFFSETCLIPRGN x:i y:i
    27 EMR_MOVETOEX x:i y:i
    28 EMR_SETMETARGN
    29 EMR_EXCLUDECLIPRECT {_BOX}
    30 EMR_INTERSECTCLIPRECT {_BOX}
    31 EMR_SCALEVIEWPORTEXTEX {_SCALES}
    32 EMR_SCALEWINDOWEXTEX {_SCALES}
    33 EMR_SAVEDC
    34 EMR_RESTOREDC saved:i
    35 EMR_SETWORLDTRANSFORM {_TRANSFORM}
    36 EMR_MODIFYWORLDTRANSFORM {_TRANSFORM} mode:I
    37 EMR_SELECTOBJECT index:I
    38 EMR_CREATEPEN index:I style:I width:i width_y:i {_COLOUR}
    39 EMR_CREATEBRUSHINDIRECT index:I style:I {_COLOUR} hatch:I
    40 EMR_DELETEOBJECT index:I
    41 EMR_ANGLEARC
    42 EMR_ELLIPSE {_BOX}
    43 EMR_RECTANGLE {_BOX}
    44 EMR_ROUNDRECT {_BOX} corner_width:i corner_height:i
    45 EMR_ARC {_ARC}
    46 EMR_CHORD {_ARC}
    47 EMR_PIE {_ARC}
    48 EMR_SELECTPALETTE index:I
    49 EMR_CREATEPALETTE index:I version:H entries:H
    50 EMR_SETPALETTEENTRIES index:I start:I entries:I
    51 EMR_RESIZEPALETTE index:I entries:I
    52 EMR_REALIZEPALETTE
    53 EMR_EXTFLOODFILL
    54 EMR_LINETO x:i y:i
    55 EMR_ARCTO {_ARC}
    56 EMR_POLYDRAW
    57 EMR_SETARCDIRECTION mode:I
    58 EMR_SETMITERLIMIT limit:I
    59 EMR_BEGINPATH
    60 EMR_ENDPATH
    61 EMR_CLOSEFIGURE
    62 EMR_FILLPATH {_BOUNDS}
    63 EMR_STROKEANDFILLPATH {_BOUNDS}
    64 EMR_STROKEPATH {_BOUNDS}
    65 EMR_FLATTENPATH
    66 EMR_WIDENPATH
    67 EMR_SELECTCLIPPATH mode:I
    68 EMR_ABORTPATH
    70 EMR_COMMENT size:I
    71 EMR_FILLRGN
    72 EMR_FRAMERGN
    73 EMR_INVERTRGN
    74 EMR_PAINTRGN
    75 EMR_EXTSELECTCLIPRGN size:I mode:I
    76 EMR_BITBLT {_BOUNDS} {_CORNER} operation:I {_SOURCE}
    77 EMR_STRETCHBLT {_BOUNDS} {_CORNER} operation:I {_SOURCE} {_SOURCE_SIZE}
    78 EMR_MASKBLT
    79 EMR_PLGBLT
    80 EMR_SETDIBITSTODEVICE
    81 EMR_STRETCHDIBITS {_BOUNDS} x:i y:i source_x:i source_y:i {_SOURCE_SIZE} {_PARTS} {_STRETCHED}
    82 EMR_EXTCREATEFONTINDIRECTW index:I {_FONT_SIZES} {_FONT_FLAGS}
    83 EMR_EXTTEXTOUTA {_TEXT}
    84 EMR_EXTTEXTOUTW {_TEXT}
    85 EMR_POLYBEZIER16 {_BOUNDS} count:I points:h
    86 EMR_POLYGON16 {_BOUNDS} count:I points:h
    87 EMR_POLYLINE16 {_BOUNDS} count:I points:h
    88 EMR_POLYBEZIERTO16 {_BOUNDS} count:I points:h
    89 EMR_POLYLINETO16 {_BOUNDS} count:I points:h
    90 EMR_POLYPOLYLINE16 {_LISTS} lists:h
    91 EMR_POLYPOLYGON16 {_LISTS} lists:h
    92 EMR_POLYDRAW16
    93 EMR_CREATEMONOBRUSH
    94 EMR_CREATEDIBPATTERNBRUSHPT index:I usage:I {_PARTS}
    95 EMR_EXTCREATEPEN index:I {_PARTS} style:I width:I brush_style:I {_COLOUR} hatch:I entries:I
    96 EMR_POLYTEXTOUTA
    97 EMR_POLYTEXTOUTW
    98 EMR_SETICMMODE
    99 EMR_CREATECOLORSPACE
    100 EMR_SETCOLORSPACE
    101 EMR_DELETECOLORSPACE
    102 EMR_GLSRECORD
    103 EMR_GLSBOUNDEDRECORD
    104 EMR_PIXELFORMAT
    105 EMR_DRAWESCAPE
    106 EMR_EXTESCAPE
    108 EMR_SMALLTEXTOUT x:i y:i count:I options:I graphics_mode:I x_scale:I y_scale:I
    109 EMR_FORCEUFIMAPPING
    110 EMR_NAMEDESCAPE
    111 EMR_COLORCORRECTPALETTE
    112 EMR_SETICMPROFILEA
    113 EMR_SETICMPROFILEW
    114 EMR_ALPHABLEND {_BOUNDS} {_CORNER} operation:I {_SOURCE} {_SOURCE_SIZE}
    115 EMR_SETLAYOUT mode:I
    116 EMR_TRANSPARENTBLT {_BOUNDS} {_CORNER} operation:I {_SOURCE} {_SOURCE_SIZE}
    118 EMR_GRADIENTFILL
    119 EMR_SETLINKEDUFIS
    120 EMR_SETTEXTJUSTIFICATION extra:i count:i
    121 EMR_COLORMATCHTOTARGETW
    122 EMR_CREATECOLORSPACEW
    """,
)
