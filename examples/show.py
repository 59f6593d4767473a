#!/usr/bin/env python3
"""Shows a metafile by the shared library: writes its image to standard output, as P6 (ppm(5)).

    show.py LIBRARY FILE WIDTH HEIGHT

The image has the largest sides within the width and the height that are in the proportion of the file's frame. The exit
status is 1 if the file is rejected, 2 for wrong usage, 3 if an input or the output fails, and 4 if memory runs out.
"""

import ctypes
import sys

DONE, REJECTED, TOO_SHORT, OUT_OF_MEMORY, NO_SUCH_FAULT = range(5)

MOST_SIDE = 8192


class Answer(ctypes.Structure):
    """The answer of a call, as `metaplay_answer` in include/metaplay.h."""

    _fields_ = [
        ("outcome", ctypes.c_uint32),
        ("fault", ctypes.c_uint32),
        ("record_number", ctypes.c_uint32),
        ("record_kind", ctypes.c_uint32),
        ("has_record_number", ctypes.c_bool),
        ("has_record_kind", ctypes.c_bool),
        ("length", ctypes.c_size_t),
    ]


class Sides(ctypes.Structure):
    """The width and the height of a surface, as `metaplay_sides`."""

    _fields_ = [("width", ctypes.c_uint32), ("height", ctypes.c_uint32)]


class Rows(ctypes.Structure):
    """Some rows of a surface, and where they lie in a buffer, as `metaplay_rows`."""

    _fields_ = [(name, ctypes.c_uint32) for name in ("width", "height", "first", "count", "stride")]


class Terms(ctypes.Structure):
    """What a certificate says of every play, as `metaplay_terms`."""

    _fields_ = [("writes", ctypes.c_uint64), ("max_width", ctypes.c_uint32), ("max_height", ctypes.c_uint32)]


class Rejected(Exception):
    """The file, the certificate or the size is rejected."""


# Bytes to read, or a buffer to write to, each followed by its length.
BYTES = [ctypes.c_char_p, ctypes.c_size_t]
BUFFER = [ctypes.POINTER(ctypes.c_char), ctypes.c_size_t]
SIZE = [ctypes.c_uint32, ctypes.c_uint32]

FUNCTIONS = {
    "metaplay_check": [*BYTES, *BYTES],
    "metaplay_prepare": [*BYTES, *SIZE, *BUFFER],
    "metaplay_prepare_print": [*BYTES, ctypes.c_uint32, *SIZE, *BUFFER],
    "metaplay_play": [*BYTES, *BYTES, *SIZE, *BUFFER],
    "metaplay_play_rows": [*BYTES, *BYTES, ctypes.POINTER(Rows), *BUFFER],
    "metaplay_over": [*BYTES, *BYTES, *SIZE, *BUFFER],
    "metaplay_fitted_sides": [*BYTES, *SIZE, ctypes.POINTER(Sides)],
    "metaplay_certificate_terms": [*BYTES, ctypes.POINTER(Terms)],
    "metaplay_fault_name": [ctypes.c_uint32, *BUFFER],
}


class Metaplay:
    """The library's functions, on bytes."""

    def __init__(self, path):
        """Loads the shared library."""
        self.library = ctypes.CDLL(path)
        for name, arguments in FUNCTIONS.items():
            function = getattr(self.library, name)
            function.argtypes, function.restype = arguments, Answer

    def check(self, file, certificate):
        """Rejects a certificate that isn't accepted for the file."""
        self.demand(self.library.metaplay_check(file, len(file), certificate, len(certificate)))

    def prepare(self, file, width, height):
        """The certificate of a file for surfaces of at most this size: a first call finds its length."""
        first = self.library.metaplay_prepare(file, len(file), width, height, ctypes.create_string_buffer(1), 0)
        needed = first.length if first.outcome == TOO_SHORT else self.demand(first)
        buffer = ctypes.create_string_buffer(max(needed, 1))
        length = self.demand(self.library.metaplay_prepare(file, len(file), width, height, buffer, needed))
        return buffer.raw[:length]

    def play(self, file, certificate, width, height):
        """The image of a file on a white surface of this size: three bytes for each pixel."""
        needed = 3 * width * height
        buffer = ctypes.create_string_buffer(max(needed, 1))
        inputs = file, len(file), certificate, len(certificate)
        length = self.demand(self.library.metaplay_play(*inputs, width, height, buffer, needed))
        return buffer.raw[:length]

    def play_rows(self, file, certificate, rows):
        """The bytes of some rows of a file's image, with zeros between them."""
        needed = rows.stride * (rows.count - 1) + 3 * rows.width
        buffer = ctypes.create_string_buffer(max(needed, 1))
        inputs = file, len(file), certificate, len(certificate)
        length = self.demand(self.library.metaplay_play_rows(*inputs, ctypes.byref(rows), buffer, max(needed, 0)))
        return buffer.raw[:length]

    def over(self, file, certificate, width, height, image):
        """The image of a file over another image of this size, both with three bytes for each pixel."""
        buffer = ctypes.create_string_buffer(image, max(len(image), 1))
        inputs = file, len(file), certificate, len(certificate)
        length = self.demand(self.library.metaplay_over(*inputs, width, height, buffer, len(image)))
        return buffer.raw[:length]

    def fitted_sides(self, file, width, height):
        """The largest width and height within these that are in the proportion of the file's frame."""
        sides = Sides()
        self.demand(self.library.metaplay_fitted_sides(file, len(file), width, height, ctypes.byref(sides)))
        return sides.width, sides.height

    def certificate_terms(self, certificate):
        """The most pixels that a play by this certificate writes, and the greatest width and height of its surface."""
        terms = Terms()
        self.demand(self.library.metaplay_certificate_terms(certificate, len(certificate), ctypes.byref(terms)))
        return terms.writes, terms.max_width, terms.max_height

    def fault_name(self, code):
        """The name of the fault with this code, or None if there is no such fault."""
        buffer = ctypes.create_string_buffer(16)
        answer = self.library.metaplay_fault_name(code, buffer, len(buffer))
        return buffer.raw[: answer.length].decode() if answer.outcome == DONE else None

    def demand(self, answer):
        """The length that a call wrote, if it is done."""
        if answer.outcome == REJECTED:
            kind = f" {answer.record_kind}" if answer.has_record_kind else ""
            place = f" at record {answer.record_number}" if answer.has_record_number else ""
            raise Rejected(f"{self.fault_name(answer.fault)}{kind}{place}")
        if answer.outcome == OUT_OF_MEMORY:
            raise MemoryError
        if answer.outcome != DONE:
            raise ValueError(f"the call ended with outcome {answer.outcome}")
        return answer.length


def fail(status, reason):
    """Ends the program with a line on standard error."""
    print(f"show.py: {reason}", file=sys.stderr)
    sys.exit(status)


def side(word):
    """A width or a height. The library takes numbers of 32 bits, to which ctypes would cut a larger one."""
    digits = word.lstrip("0")
    if not (word.isascii() and word.isdigit() and 1 <= len(digits) <= len(str(MOST_SIDE)) and int(digits) <= MOST_SIDE):
        fail(2, f"a side is a number from 1 to {MOST_SIDE}")
    return int(digits)


def main(library, name, width, height):
    """Writes the image of a file."""
    width, height = side(width), side(height)
    try:
        metaplay = Metaplay(library)
        with open(name, "rb") as source:
            file = source.read()
        width, height = metaplay.fitted_sides(file, width, height)
        image = metaplay.play(file, metaplay.prepare(file, width, height), width, height)
        sys.stdout.buffer.write(b"P6\n%d %d\n255\n" % (width, height) + image)
        sys.stdout.buffer.flush()
    except Rejected as fault:
        fail(1, fault)
    except (OSError, AttributeError) as failure:
        # An AttributeError names a function that the library lacks.
        fail(3, failure)
    except MemoryError:
        fail(4, "out of memory")


if __name__ == "__main__":
    if len(sys.argv) != 5:
        fail(2, "usage: show.py LIBRARY FILE WIDTH HEIGHT")
    main(*sys.argv[1:])
