"""Checks Windows metafiles (WMF, EMF), and plays those that pass, by the proved library for C (libmetaplay.so.1).

    import metaplay

    file = open("drawing.emf", "rb").read()
    width, height = metaplay.fitted_sides(file, 1024, 768)
    certificate = metaplay.prepare(file, width, height)
    image = metaplay.play_image(file, certificate, width, height)

A file and a certificate may be any object with a buffer of bytes: bytes, a bytearray, a NumPy array, a mapped file. It
isn't copied, and nothing may change it while a call runs. So copy a mapped file of a stranger first: `bytes(mapped)`.

If the environment has METAPLAY_LIBRARY, that is the path of the library.
"""

from __future__ import annotations

import ctypes
import enum
import os
from collections.abc import Iterator
from contextlib import ExitStack, contextmanager
from typing import TYPE_CHECKING, Any, NamedTuple

if TYPE_CHECKING:
    import numpy.typing
    from PIL import Image

__all__ = [
    "MOST_SIDE",
    "Allow",
    "Rejected",
    "Terms",
    "certificate_terms",
    "check",
    "fitted_sides",
    "over",
    "play",
    "play_array",
    "play_image",
]
__all__ += ["play_rows", "prepare"]

# The greatest width and height of a surface, in pixels.
MOST_SIDE = 8192

# An object with a buffer of bytes, to read or to write.
Buffer = Any

# Flags of PyObject_GetBuffer, for bytes without gaps.
READ, WRITE = 0, 1


class Allow(enum.IntFlag):
    """What the print profile can allow."""

    HELD_DELETION = 1
    EMF_PLUS = 2


class Outcome(enum.IntEnum):
    """How a call of the library ended, if it isn't done."""

    REJECTED = 1
    TOO_SHORT = 2
    OUT_OF_MEMORY = 3


class Rejected(ValueError):
    """The file, the certificate or a size is rejected.

    It has the fault's name, as in FAULTS.md, and its code, the number of the record that the fault lies in, from 0, and
    the type or function of record that it refers to.
    """

    def __init__(self, fault: str, code: int, record: int | None = None, kind: int | None = None) -> None:
        super().__init__(fault, code, record, kind)
        self.fault, self.code, self.record, self.kind = fault, code, record, kind

    def __str__(self) -> str:
        record = "" if self.record is None else f" at record {self.record}"
        return f"{self.fault}{'' if self.kind is None else f' {self.kind}'}{record}"


class Terms(NamedTuple):
    """What a certificate says of every play: the most pixels that it writes, and its bound."""

    writes: int
    max_width: int
    max_height: int


class _Answer(ctypes.Structure):
    """`metaplay_answer` of metaplay.h."""

    _fields_ = [
        ("outcome", ctypes.c_uint32),
        ("fault", ctypes.c_uint32),
        ("record_number", ctypes.c_uint32),
        ("record_kind", ctypes.c_uint32),
        ("has_record_number", ctypes.c_bool),
        ("has_record_kind", ctypes.c_bool),
        ("length", ctypes.c_size_t),
    ]


class _Sides(ctypes.Structure):
    """`metaplay_sides`."""

    _fields_ = [("width", ctypes.c_uint32), ("height", ctypes.c_uint32)]


class _Rows(ctypes.Structure):
    """`metaplay_rows`."""

    _fields_ = [(name, ctypes.c_uint32) for name in ("width", "height", "first", "count", "stride")]


class _Terms(ctypes.Structure):
    """`metaplay_terms`."""

    _fields_ = [("writes", ctypes.c_uint64), ("max_width", ctypes.c_uint32), ("max_height", ctypes.c_uint32)]


class _PyBuffer(ctypes.Structure):
    """`Py_buffer` of Python's C API."""

    _fields_ = [
        ("buf", ctypes.c_void_p),
        ("obj", ctypes.c_void_p),
        ("len", ctypes.c_ssize_t),
        ("itemsize", ctypes.c_ssize_t),
        ("readonly", ctypes.c_int),
        ("ndim", ctypes.c_int),
        ("format", ctypes.c_char_p),
        *((name, ctypes.c_void_p) for name in ("shape", "strides", "suboffsets", "internal")),
    ]


_BYTES = [ctypes.c_void_p, ctypes.c_size_t]
_SIZE = [ctypes.c_uint32, ctypes.c_uint32]

FUNCTIONS = {
    "metaplay_check": [*_BYTES, *_BYTES],
    "metaplay_prepare": [*_BYTES, *_SIZE, *_BYTES],
    "metaplay_prepare_print": [*_BYTES, ctypes.c_uint32, *_SIZE, *_BYTES],
    "metaplay_play": [*_BYTES, *_BYTES, *_SIZE, *_BYTES],
    "metaplay_play_rows": [*_BYTES, *_BYTES, ctypes.POINTER(_Rows), *_BYTES],
    "metaplay_over": [*_BYTES, *_BYTES, *_SIZE, *_BYTES],
    "metaplay_fitted_sides": [*_BYTES, *_SIZE, ctypes.POINTER(_Sides)],
    "metaplay_certificate_terms": [*_BYTES, ctypes.POINTER(_Terms)],
    "metaplay_fault_name": [ctypes.c_uint32, *_BYTES],
}

_library = ctypes.CDLL(os.environ.get("METAPLAY_LIBRARY", "libmetaplay.so.1"))
for _name, _arguments in FUNCTIONS.items():
    _function = getattr(_library, _name)
    _function.argtypes, _function.restype = _arguments, _Answer

_get_buffer = ctypes.pythonapi.PyObject_GetBuffer
_get_buffer.argtypes, _get_buffer.restype = [ctypes.py_object, ctypes.POINTER(_PyBuffer), ctypes.c_int], ctypes.c_int
_release_buffer = ctypes.pythonapi.PyBuffer_Release
_release_buffer.argtypes, _release_buffer.restype = [ctypes.POINTER(_PyBuffer)], None

# Where the library is told that no bytes are: a pointer that isn't null.
_nowhere = ctypes.create_string_buffer(1)


@contextmanager
def _buffer(given: Buffer, flags: int = READ) -> Iterator[tuple[int, int]]:
    """Where an object's bytes are, and how many there are. It keeps them where they are meanwhile."""
    view = _PyBuffer()
    _get_buffer(given, ctypes.byref(view), flags)
    try:
        yield view.buf or ctypes.addressof(_nowhere), view.len
    finally:
        _release_buffer(ctypes.byref(view))


def _fault_name(code: int) -> str:
    """The name of the fault with this code."""
    name = ctypes.create_string_buffer(16)
    answer = _library.metaplay_fault_name(code, ctypes.addressof(name), len(name))
    return name.raw[: answer.length].decode("ascii")


def _demand(answer: _Answer) -> int:
    """The length that a call wrote, if it is done."""
    if answer.outcome == Outcome.REJECTED:
        record = answer.record_number if answer.has_record_number else None
        kind = answer.record_kind if answer.has_record_kind else None
        raise Rejected(_fault_name(answer.fault), answer.fault, record, kind)
    if answer.outcome == Outcome.OUT_OF_MEMORY:
        raise MemoryError
    if answer.outcome == Outcome.TOO_SHORT:
        raise ValueError(f"the buffer must have {answer.length} bytes")
    return int(answer.length)


def _number(number: int) -> int:
    """A number of 32 bits. ctypes would cut a larger one, and the greatest is rejected as any that is too large."""
    return number if 0 <= number < 1 << 32 else (1 << 32) - 1


def check(file: Buffer, certificate: Buffer) -> None:
    """Raises Rejected unless the certificate is accepted for the file."""
    with _buffer(file) as given, _buffer(certificate) as certified:
        _demand(_library.metaplay_check(*given, *certified))


def prepare(file: Buffer, width: int, height: int, *, profile: str = "core", allow: Allow = Allow(0)) -> bytes:
    """The certificate of a file for surfaces of at most this size, under the profile "core" or "print"."""
    if profile not in ("core", "print") or (profile == "core" and allow):
        raise ValueError('the profile is "core", or "print", which can allow more')
    is_print = profile == "print"
    call = _library.metaplay_prepare_print if is_print else _library.metaplay_prepare
    words = [*[int(allow)] * is_print, _number(width), _number(height)]
    with _buffer(file) as given:
        first = call(*given, *words, ctypes.addressof(_nowhere), 0)
        length = first.length if first.outcome == Outcome.TOO_SHORT else _demand(first)
        made = bytearray(length)
        with _buffer(made, WRITE) as out:
            _demand(call(*given, *words, *out))
    return bytes(made)


def fitted_sides(file: Buffer, width: int, height: int) -> tuple[int, int]:
    """The largest width and height within these that are in the proportion of the file's frame."""
    sides = _Sides()
    with _buffer(file) as given:
        _demand(_library.metaplay_fitted_sides(*given, _number(width), _number(height), ctypes.byref(sides)))
    return sides.width, sides.height


def certificate_terms(certificate: Buffer) -> Terms:
    """What a certificate says of every play."""
    terms = _Terms()
    with _buffer(certificate) as certified:
        _demand(_library.metaplay_certificate_terms(*certified, ctypes.byref(terms)))
    return Terms(terms.writes, terms.max_width, terms.max_height)


def _call(call: Any, file: Buffer, certificate: Buffer, words: list[Any], out: Buffer) -> None:
    """Calls a function that writes an image to a buffer."""
    with ExitStack() as stack:
        given, certified = (stack.enter_context(_buffer(it)) for it in (file, certificate))
        _demand(call(*given, *certified, *words, *stack.enter_context(_buffer(out, WRITE))))


def play(file: Buffer, certificate: Buffer, width: int, height: int, out: Buffer | None = None) -> Buffer:
    """The image of a file on a white surface of this size: red, green and blue of each pixel, row by row from the top.

    It is written to the start of `out`, or to a new bytearray.
    """
    made = (
        bytearray(3 * width * height if 0 < min(width, height) and max(width, height) <= MOST_SIDE else 0)
        if out is None
        else out
    )
    _call(_library.metaplay_play, file, certificate, [_number(width), _number(height)], made)
    return made


def play_rows(
    file: Buffer,
    certificate: Buffer,
    width: int,
    height: int,
    first: int,
    out: Buffer,
    *,
    count: int,
    stride: int | None = None,
) -> None:
    """Plays `count` rows of a surface of this size, from row `first` on, into a buffer.

    Each begins `stride` bytes after the one above, or directly after it. No other byte changes.
    """
    rows = _Rows(*map(_number, (width, height, first, count, 3 * width if stride is None else stride)))
    _call(_library.metaplay_play_rows, file, certificate, [ctypes.byref(rows)], out)


def over(file: Buffer, certificate: Buffer, width: int, height: int, image: Buffer) -> None:
    """Plays a file over an image of this size, whose bytes are at the start of a buffer. The result replaces them."""
    _call(_library.metaplay_over, file, certificate, [_number(width), _number(height)], image)


def play_array(file: Buffer, certificate: Buffer, width: int, height: int) -> numpy.typing.NDArray[numpy.uint8]:
    """The image as an array of NumPy, of `height` by `width` by 3 numbers of eight bits."""
    import numpy

    return numpy.frombuffer(play(file, certificate, width, height), numpy.uint8).reshape(height, width, 3)


def play_image(file: Buffer, certificate: Buffer, width: int, height: int) -> Image.Image:
    """The image as an image of Pillow."""
    from PIL import Image

    return Image.frombytes("RGB", (width, height), bytes(play(file, certificate, width, height)))
