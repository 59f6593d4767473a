"""Records of EMF for tests, and what stands in the replaced places of files of them.

A frame of 100 by 100 units has 4,096 parts a unit under the print profile. For a bound of 8,192 pixels blocks count in
1,024 parts, the least power of two that gives 100 units at least 65,536 parts.
"""

import struct

from metaplay_fixup.convert import Converted, convert
from metaplay_fixup.options import Options

from .oracle import emf_file, emf_record, i32, refusal_of, u32
from .parts import Place, places_of

PARTS = 1024


def singles(*numbers: float) -> bytes:
    """IEEE singles."""
    return struct.pack(f"<{len(numbers)}f", *numbers)


def world(*numbers: float) -> bytes:
    """EMR_SETWORLDTRANSFORM."""
    return emf_record(35, singles(*numbers))


def modify(mode: int, *numbers: float) -> bytes:
    """EMR_MODIFYWORLDTRANSFORM."""
    return emf_record(36, singles(*numbers) + u32(mode))


def map_to(x: int, y: int, parts: int = PARTS) -> list[bytes]:
    """The records that set a block's page map."""
    return [
        emf_record(17, u32(8)),
        emf_record(10, i32(0, 0)),
        emf_record(9, i32(parts, parts)),
        emf_record(12, i32(x, y)),
        emf_record(11, i32(1, 1)),
    ]


def block(x: int, y: int, *records: bytes) -> list[bytes]:
    """A block with an origin in device units."""
    return [emf_record(33), *map_to(x, y), *records, emf_record(34, i32(-1))]


def converted(records: list[bytes], options: Options = Options()) -> list[Place]:
    """The replaced places of a file of these records. The converted file plays, and converts to itself."""
    data = emf_file(records)
    result = convert(data, options, None)
    assert refusal_of(result.data) is None, refusal_of(result.data)
    assert convert(result.data, options, None) == Converted(result.data, ())
    return places_of(data, result.data)


def contents(records: list[bytes]) -> list[list[bytes]]:
    """What stands in the replaced places of a file of these records."""
    return [place.records for place in converted(records)]
