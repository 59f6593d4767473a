"""Whole files of pictures, with the headers that other readers ask for too: how large a picture is
on paper, and how many objects it has at a time."""

from metafile.fields import i16, i32, u16
from metafile.files import EMF_END, WMF_END, emf_file, placeable_file, plain_file

# The pixels of an inch, and the millimetres.
INCH, MILLIMETRES = 96, 25.4


def plain_picture(records):
    """META_HEADER, records, META_EOF."""
    return plain_file([*records, WMF_END])


def placeable_picture(width, height, records, objects=0):
    """The same behind META_PLACEABLE with a box at the origin, with so many objects at a time."""
    sides = {"right": i16(width), "bottom": i16(height)}
    return placeable_file([*records, WMF_END], **sides, objects=u16(objects))


def emf_picture(width, height, records, handles=1, device=(0, 0)):
    """EMR_HEADER with bounds at the origin, records, EMR_EOF. Objects have indexes from 1 to before
    the handles; the frame is all of the device, which has so many pixels."""
    millimetres = [round(side / INCH * MILLIMETRES) for side in device]
    return emf_file(
        [*records, EMF_END],
        right=i32(width - 1),
        bottom=i32(height - 1),
        frame=i32(0, 0, *(100 * side for side in millimetres)),
        handles=u16(handles),
        device=i32(*device),
        millimetres=i32(*millimetres),
    )
