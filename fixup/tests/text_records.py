"""Records of EMF with text for tests, and the records of the blocks that take their place."""

from .emf_records import PARTS
from .oracle import NO_BOUNDS, emf_record, emf_script, i16, i32, u32

TRANSPARENT = emf_script("back_mode 1")
UPDATE_POSITION = emf_record(22, u32(1))


def font(height: int = 10, underline: int = 0, index: int = 1) -> list[bytes]:
    """A font, selected."""
    sizes = i32(height, 0, 0, 0, 400) + bytes([0, underline, 0, 0, 0, 0, 0, 0])
    return [
        emf_record(82, u32(index) + sizes + "Squares".encode("utf-16-le").ljust(64, b"\0")),
        emf_record(37, u32(index)),
    ]


def text(string: str, x: int, y: int, options: int = 0, box: tuple[int, int, int, int] = (0, 0, -1, -1)) -> bytes:
    """EMR_EXTTEXTOUTW without distances."""
    codes = string.encode("utf-16-le")
    numbers = u32(1, 0, 0) + i32(x, y) + u32(len(string), 76, options) + i32(*box) + u32(0)
    return emf_record(84, NO_BOUNDS + numbers + codes + bytes(-len(codes) % 4))


def square(x: int, y: int, origin: tuple[int, int], size: int = 10) -> bytes:
    """The polygon of a square in a block with an origin."""
    left, top = (x - origin[0]) * PARTS, (y - origin[1]) * PARTS
    right, bottom = left + size * PARTS, top + size * PARTS
    return emf_record(
        86, i32(x, y, x + size, y + size) + u32(4) + i16(left, top, right, top, right, bottom, left, bottom)
    )


def brush(colour: int) -> list[bytes]:
    """A brush at the index beyond the file's, selected."""
    return [emf_record(39, u32(4, 0, colour, 0)), emf_record(37, u32(4))]


SETTINGS = [emf_record(19, u32(2)), emf_record(20, u32(13)), emf_record(37, u32(0x80000008))]
END = [emf_record(34, i32(-1)), emf_record(40, u32(4))]
