"""What the program answers to files: an image, or a refusal."""

from built import Answer


def shown(pixels, width=4, height=4):
    """The answer to a file that is played: a white image with these pixels in their colours."""
    samples = bytearray(b"\xff" * (3 * width * height))
    for (x, y), rgb in pixels.items():
        place = 3 * (y * width + x)
        samples[place : place + 3] = bytes(rgb)
    return Answer(0, b"P6\n%d %d\n255\n" % (width, height) + samples, b"")


def refused(fault, record=None):
    """The answer to a file that is refused, by a fault of its headers or of a record."""
    where = "" if record is None else f" at record {record}"
    return Answer(1, b"", f"metaplay: {fault}{where}\n".encode())
