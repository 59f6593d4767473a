"""What each layer of the files of work takes: the same polygons without an outline, without an inside and without both, and the same lines
without a pen. At 256 pixels a side the surface stays in the processor's second cache, at 1,024 a side it doesn't."""

from functools import partial

from shapes import any_lines, small_polygons
from timing import Row, least_seconds
from work import file_of
from writers import EMF, WMF

SIDES = 256, 1024

POLYGONS = {"3 to 8": {}, "20": {"corners": [20]}}

LAYERS = {
    "drawn whole": {},
    "only filled": {"pen": "null_pen"},
    "only stroked": {"brush": "null_brush"},
    "drawn without tools": {"pen": "null_pen", "brush": "null_brush"},
}

WHOLE = "drawn whole"


def drawings():
    """What is drawn, and with which layers."""
    for corners, how in POLYGONS.items():
        for layers, tools in LAYERS.items():
            yield (f"10,000 polygons of {corners} corners", layers), partial(small_polygons, **how, **tools)
    yield ("50,000 lines", WHOLE), any_lines
    yield ("50,000 lines", "drawn without tools"), partial(any_lines, pen="null_pen")


def files():
    """The files, each by its format, what it draws, and with which layers."""
    for form in (WMF, EMF):
        for key, make in drawings():
            yield (form.name, *key), lambda form=form, make=make: [file_of(form, make(form=form))]


def rows(bench):
    """All of them."""
    paths = {key: bench.write(pieces) for key, pieces in files()}
    for side in SIDES:
        seconds = least_seconds({key: bench.show(path, side) for key, path in paths.items()})
        for (form, name, layers), taken in seconds.items():
            yield Row(f"{form}: {name} {layers}, {side:,} a side", "s", taken, seconds[form, name, WHOLE], WHOLE)
