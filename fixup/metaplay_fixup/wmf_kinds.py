"""The records of WMF ([MS-WMF] 2.1.1.1, 2.3), as far as fields are read or written.

Kinds without fields are there for their names.
"""

from .records import Layout, Table

_POINT = "y:h x:h"
_BOX = "bottom:h right:h top:h left:h"
_COLOUR = "colour:I"
_SCALES = "y_denominator:h y_numerator:h x_denominator:h x_numerator:h"
_ARC = f"end_y:h end_x:h start_y:h start_x:h {_BOX}"
_FONT_SIZES = "height:h width:h escapement:h orientation:h weight:h"
_FONT_FLAGS = "italic:B underline:B strike_out:B charset:B out_precision:B clip_precision:B quality:B pitch:B"
_CORNER = "height:h width:h y:h x:h"

WMF = Table(
    Layout.WMF,
    f"""
    0000 META_EOF
    001E META_SAVEDC
    0035 META_REALIZEPALETTE
    0037 META_SETPALENTRIES start:H entries:H
    00F7 META_CREATEPALETTE version:H entries:H
    0102 META_SETBKMODE mode:H
    0103 META_SETMAPMODE mode:H
    0104 META_SETROP2 mode:H
    0105 META_SETRELABS
    0106 META_SETPOLYFILLMODE mode:H
    0107 META_SETSTRETCHBLTMODE
    0108 META_SETTEXTCHAREXTRA extra:h
    0127 META_RESTOREDC saved:h
    012A META_INVERTREGION
    012B META_PAINTREGION
    012C META_SELECTCLIPREGION index:H
    012D META_SELECTOBJECT index:H
    012E META_SETTEXTALIGN mode:H
    0139 META_RESIZEPALETTE entries:H
    0142 META_DIBCREATEPATTERNBRUSH style:H usage:H
    0149 META_SETLAYOUT
    01F0 META_DELETEOBJECT index:H
    01F9 META_CREATEPATTERNBRUSH
    0201 META_SETBKCOLOR {_COLOUR}
    0209 META_SETTEXTCOLOR {_COLOUR}
    020A META_SETTEXTJUSTIFICATION count:h extra:h
    020B META_SETWINDOWORG {_POINT}
    020C META_SETWINDOWEXT {_POINT}
    020D META_SETVIEWPORTORG {_POINT}
    020E META_SETVIEWPORTEXT {_POINT}
    020F META_OFFSETWINDOWORG {_POINT}
    0211 META_OFFSETVIEWPORTORG {_POINT}
    0213 META_LINETO {_POINT}
    0214 META_MOVETO {_POINT}
    0220 META_OFFSETCLIPRGN
    0228 META_FILLREGION
    0231 META_SETMAPPERFLAGS
    0234 META_SELECTPALETTE index:H
    02FA META_CREATEPENINDIRECT style:H width:h width_y:h {_COLOUR}
    02FB META_CREATEFONTINDIRECT {_FONT_SIZES} {_FONT_FLAGS}
    02FC META_CREATEBRUSHINDIRECT style:H {_COLOUR} hatch:H
    0324 META_POLYGON count:h points:h
    0325 META_POLYLINE count:h points:h
    0410 META_SCALEWINDOWEXT {_SCALES}
    0412 META_SCALEVIEWPORTEXT {_SCALES}
    0415 META_EXCLUDECLIPRECT {_BOX}
    0416 META_INTERSECTCLIPRECT {_BOX}
    0418 META_ELLIPSE {_BOX}
    0419 META_FLOODFILL
    041B META_RECTANGLE {_BOX}
    041F META_SETPIXEL {_COLOUR} {_POINT}
    0429 META_FRAMEREGION
    0436 META_ANIMATEPALETTE start:H entries:H
    0521 META_TEXTOUT count:h
    0538 META_POLYPOLYGON list_count:H lists:h
    0548 META_EXTFLOODFILL
    061C META_ROUNDRECT corner_height:h corner_width:h {_BOX}
    061D META_PATBLT operation:I {_CORNER}
    0626 META_ESCAPE function:H size:H
    06FF META_CREATEREGION
    0817 META_ARC {_ARC}
    081A META_PIE {_ARC}
    0830 META_CHORD {_ARC}
    0922 META_BITBLT
    0940 META_DIBBITBLT operation:I source_y:h source_x:h {_CORNER}
    0A32 META_EXTTEXTOUT {_POINT} count:h options:H
    0B23 META_STRETCHBLT
    0B41 META_DIBSTRETCHBLT operation:I source_height:h source_width:h source_y:h source_x:h {_CORNER}
    0D33 META_SETDIBTODEV
    0F43 META_STRETCHDIB operation:I usage:H source_height:h source_width:h source_y:h source_x:h {_CORNER}
    """,
)
