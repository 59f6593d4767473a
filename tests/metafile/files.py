"""The records of both formats, [MS-WMF] 2.3 and [MS-EMF] 2.3, and files made of them, written for
the tests alone."""

import functools
import operator
import struct

from metafile.fields import colour, i16, i32, joined, u16, u32


def wmf_record(function, parameters=b"", size=None):
    """A WMF record: its size in words of two bytes (or another), its function, its parameters."""
    words = (6 + len(parameters)) // 2 if size is None else size
    return u32(words) + u16(function) + parameters


def emf_record(kind, parameters=b"", size=None):
    """An EMF record: its type, its size in bytes (or another), its parameters."""
    return u32(kind, 8 + len(parameters) if size is None else size) + parameters


def wmf_pixel(x, y, rgb):
    """META_SETPIXEL."""
    return wmf_record(0x041F, colour(0, rgb) + i16(y, x))


def emf_pixel(x, y, rgb):
    """EMR_SETPIXELV."""
    return emf_record(15, i32(x, y) + colour(0, rgb))


def window_extent(x, y):
    """META_SETWINDOWEXT."""
    return wmf_record(0x020C, i16(y, x))


WMF_END = wmf_record(0x0000)

EMF_END = emf_record(14, u32(0, 16, 20))


def standard_header(records):
    """META_HEADER ([MS-WMF] 2.3.2.2) of a file with these records."""
    longest = max(map(len, records), default=0)
    return {
        "type": u16(1),
        "header_size": u16(9),
        "version": u16(0x0300),
        "size": u32(9 + sum(map(len, records)) // 2),
        "objects": u16(0),
        "largest": u32(longest // 2),
        "members": u16(0),
    }


def plain_file(records, /, **changes):
    """A WMF file that begins with META_HEADER, some of its fields changed."""
    return joined(standard_header(records), changes) + b"".join(records)


# META_PLACEABLE ([MS-WMF] 2.3.2.3) up to its checksum, with the box (0,0,4,4).
PLACEABLE_HEADER = {
    "key": u32(0x9AC6CDD7),
    "handle": u16(0),
    "left": i16(0),
    "top": i16(0),
    "right": i16(4),
    "bottom": i16(4),
    "inch": u16(96),
    "reserved": u32(0),
}


def placeable_file(records, /, **changes):
    """A WMF file that begins with META_PLACEABLE, some fields changed of it or of META_HEADER
    behind it; the checksum is right unless it is changed."""
    fields = PLACEABLE_HEADER | {"checksum": u16(0)} | standard_header(records)
    words = struct.unpack_from("<10H", joined(fields, changes))
    fields["checksum"] = u16(functools.reduce(operator.xor, words))
    return joined(fields, changes) + b"".join(records)


def emf_header(records, extension):
    """EMR_HEADER ([MS-EMF] 2.3.4.2) of a file with these records, with the bounds (0,0,3,3) and one
    index for objects beside that of 0."""
    size = 88 + len(extension)
    return {
        "type": u32(1),
        "size": u32(size),
        "left": i32(0),
        "top": i32(0),
        "right": i32(3),
        "bottom": i32(3),
        "frame": i32(0, 0, 100, 100),
        "signature": u32(0x464D4520),
        "version": u32(0x00010000),
        "bytes": u32(size + sum(map(len, records))),
        "records": u32(1 + len(records)),
        "handles": u16(2),
        "reserved": u16(0),
        "description": u32(0, 0),
        "palette_entries": u32(0),
        "device": u32(4, 4),
        "millimetres": u32(1, 1),
        "extension": extension,
    }


def emf_file(records, /, extension=b"", **changes):
    """An EMF file whose header has 88 bytes and an extension, some of its fields changed."""
    return joined(emf_header(records, extension), changes) + b"".join(records)
