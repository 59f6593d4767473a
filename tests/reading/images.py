"""Reads the text of an image, by ppm(5): its first three numbers are apart by white space and comments, of which each goes to the end of its line."""

import re

GAP = rb"(?:[ \t\r\n]|#[^\r\n]*[\r\n])+"

HEAD = re.compile(rb"P6" + (GAP + rb"([0-9]+)") * 3 + rb"[ \t\r\n]")

LONGEST_SIDE = 8192


def read_image(text):
    """The sides of an image and its pixels, each by its place, or nothing where a text is none."""
    head = HEAD.match(text)
    if not head:
        return None
    width, height, most = map(int, head.groups())
    raster = text[head.end() :]
    if not (1 <= width <= LONGEST_SIDE and 1 <= height <= LONGEST_SIDE and most == 255 and 3 * width * height <= len(raster)):
        return None
    places = [(x, y) for y in range(height) for x in range(width)]
    return (width, height), {place: tuple(raster[3 * nth : 3 * nth + 3]) for nth, place in enumerate(places)}
