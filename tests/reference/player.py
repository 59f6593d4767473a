"""What scripts of records draw: the playing state and its changes, paths, and the layers of each
drawing, by the rules of `reference.pixels` for each pixel alone. The tests compare the built
programs with it.

A script is a list of steps, each a name and its words, as `metafile.scripts.Form` writes them to
files of [MS-WMF] 2.3 and [MS-EMF] 2.3.
"""

from typing import NamedTuple

from metafile.fields import BLACK, BLUE, RED
from metafile.shapes import lists_of, rgb_of
from reference.bitmaps import (
    Picture,
    Source,
    SourceMissing,
    depends_on_pattern,
    depends_on_source,
    joined_by,
    picture_in,
)
from reference.paths import CLOSED, ENDED, OPEN, Path, PathState
from reference.pixels import (
    ALTERNATE,
    HATCHES,
    ONE_PIXEL,
    Axis,
    Refused,
    closed,
    is_filled,
    is_in_box,
    is_stroked,
    mixed,
    nib_of,
    opened,
)

WHITE = (255, 255, 255)

# MixMode ([MS-WMF] 2.1.1.20), and the raster operation that copies the paint (2.1.1.2).
OPAQUE = 2
COPY_PEN = 13

# The parts of a state that are its brush, and those that are a pen which draws nothing.
NO_BRUSH = {"brush": None, "hatch": None, "tile": None}
NO_PEN = {"pen": None, "width": 0}

# The low bits of a pen's style, the style that draws nothing ([MS-WMF] 2.1.1.23), the bit of one whose width is that of the page ([MS-EMF]
# 2.1.25), and the style of a brush that draws nothing.
STYLE_BITS, NULL_STYLE, GEOMETRIC, NULL_BRUSH_STYLE = 0xF, 5, 0x10000, 1


class State(NamedTuple):
    """What later records are played with. A pen is its colour and its width in units of the page, or nothing; a brush is nothing, a colour, a hatch
    and a colour, or a tile, which is a picture."""

    axes: tuple[Axis, Axis]
    pen: tuple | None = BLACK
    width: int = 0
    brush: tuple | None = WHITE
    hatch: int | None = None
    tile: Picture | None = None
    back_mode: int = OPAQUE
    back: tuple = WHITE
    operation: int = COPY_PEN
    fill_mode: int = ALTERNATE
    position: tuple[int, int] = (0, 0)
    kept: tuple[tuple, ...] = ()
    cut: tuple[tuple, ...] = ()

    def place(self, point):
        """The place of a page point."""
        return tuple(axis.placed(number) for axis, number in zip(self.axes, point, strict=True))

    def box(self, left, top, right, bottom):
        """The placed corners of a box, put in order."""
        across, down = zip(self.place((left, top)), self.place((right, bottom)), strict=True)
        return min(across), min(down), max(across), max(down)

    def is_in_clip(self, x, y):
        """A pixel of each kept box and of no cut one."""
        in_kept = all(is_in_box(box, x, y) for box in self.kept)
        return in_kept and not any(is_in_box(box, x, y) for box in self.cut)

    def brush_at(self, x, y):
        """The brush's colour at a pixel, or nothing. A tile begins at the surface's corner."""
        if self.tile is not None:
            return self.tile.colour(x % self.tile.width, y % self.tile.height)
        if self.hatch is None or HATCHES[self.hatch](x % 8, y % 8):
            return self.brush
        return self.back if self.back_mode == OPAQUE else None


class Reference:
    """A white surface, and what steps draw on it. A rectangle of EMF has its last edges too. The
    path stands beside the state: it is neither saved nor restored."""

    def __init__(self, axes, inclusive):
        self.state = State(axes)
        self.inclusive = inclusive
        self.saved = []
        self.path = None
        self.objects = {}
        across, down = axes
        self.image = {
            (x, y): WHITE for y in range(down.surface) for x in range(across.surface)
        }

    def play(self, steps):
        """Plays steps in order, and answers the image, and the fault and the number of the step
        that is refused, if one is."""
        for number, (name, words) in enumerate(steps):
            try:
                getattr(self, f"play_{name.removeprefix('short_')}")(*words)
            except Refused as refused:
                return self.image, (type(refused).__name__, number)
        return self.image, None

    def change(self, **changes):
        """Changes parts of the state."""
        self.state = self.state._replace(**changes)

    def set_axes(self, part, numbers):
        """Sets a part of both axes."""
        pairs = zip(self.state.axes, numbers, strict=True)
        self.change(axes=tuple(axis._replace(**{part: number}) for axis, number in pairs))

    def layer(self, has, paint_at, plain=False):
        """Writes each pixel that a shape has, in the clip, where its paint isn't nothing."""
        state = self.state
        for (x, y), there in self.image.items():
            if has(x, y) and state.is_in_clip(x, y):
                paint = paint_at(x, y)
                if paint is not None:
                    drawn = paint if plain else mixed(state.operation, paint, there)
                    self.image[x, y] = drawn

    def fill(self, has):
        """A layer of the brush: a null one gives nothing anywhere."""
        self.layer(has, self.state.brush_at)

    def nib(self):
        """The nib of the pen of the moment, by the page map of the moment: of a null pen one pixel."""
        return ONE_PIXEL if self.state.pen is None else nib_of(self.state.width, self.state.axes)

    def stroke(self, lines):
        """A layer of the pen, if it isn't null. Without a line too the nib may be too wide."""
        nib = self.nib()
        if self.state.pen is not None:
            self.layer(lambda x, y: is_stroked(lines, x, y, nib), lambda x, y: self.state.pen)

    # Drawings. In an open path lines, polygons and rectangles are gathered in place of being drawn.

    def play_pixel(self, x, y, rgb=RED):
        at = self.state.place((x, y))
        self.layer(lambda *pixel: pixel == at, lambda *pixel: rgb, plain=True)

    def play_blue(self, x, y):
        self.play_pixel(x, y, BLUE)

    def play_line(self, x, y):
        self.play_polyline_to(x, y)

    def play_polyline_to(self, *numbers):
        points = pairs_of(numbers)
        through = [self.state.position, *points] if points else []
        if not self.open_path():
            self.stroke(opened(self.places(through)))
        elif points:
            self.go_on(points)
        self.change(position=points[-1] if points else self.state.position)

    def play_polyline(self, *numbers):
        self.play_polylines(*numbers)

    def play_polylines(self, *words):
        lists = list(map(pairs_of, lists_of(words)))
        if self.open_path():
            self.gather(lists, OPEN)
        else:
            self.stroke([line for points in lists for line in opened(self.places(points))])

    def play_polygon(self, *numbers):
        self.play_polygons(*numbers)

    def play_polygons(self, *words):
        lists = list(map(pairs_of, lists_of(words)))
        if self.open_path():
            self.gather(lists, CLOSED)
        else:
            self.fill_and_stroke(list(map(self.places, lists)))

    def play_rectangle(self, *numbers):
        if self.open_path():
            self.gather_box(numbers)
        else:
            self.draw_box(self.state.box(*numbers))

    def draw_box(self, corners):
        """A rectangle between placed corners: its box is filled, and the lines of a rim within it stroked. Without a pixel too the nib may be too
        wide, before anything is filled."""
        self.nib()
        left, top, right, bottom = corners
        right, bottom = right + self.inclusive, bottom + self.inclusive
        if left == right or top == bottom:
            return
        self.fill(lambda x, y: is_in_box((left, top, right, bottom), x, y))
        self.stroke(closed(corners_of(left, top, right - 1, bottom - 1)))

    def fill_and_stroke(self, lists):
        """Polygons by the places of their corners: nothing is filled where the nib is too wide."""
        self.nib()
        self.fill_polygons(lists)
        self.stroke([line for places in lists for line in closed(places)])

    def fill_polygons(self, lists):
        """What is inside of polygons, all of them together."""
        edges = [edge for places in lists for edge in closed(places)]
        self.fill(lambda x, y: is_filled(edges, self.state.fill_mode, x, y))

    def places(self, points):
        """The places of page points."""
        return list(map(self.state.place, points))

    # Blits, which a path doesn't gather. A WMF has a bitmap in one piece, an EMF in two.

    def picture(self, word):
        """The picture of a bitmap."""
        return picture_in(word, is_packed=not self.inclusive)

    def play_pat_blt(self, operation, *box):
        self.blit(operation, box, None)

    def play_bare_bit_blt(self, operation, x, y, width, height, *source):
        self.blit(operation, (x, y, width, height), None)

    def play_bare_stretch_blt(self, operation, x, y, width, height, *source):
        self.blit(operation, (x, y, width, height), None)

    def play_bare_stretch_dib(self, operation, x, y, width, height, *source):
        self.blit(operation, (x, y, width, height), None)

    def play_bit_blt(self, operation, x, y, width, height, source_x, source_y, word):
        source = Source(self.picture(word), (source_x, source_y), (width, height))
        self.blit(operation, (x, y, width, height), source)

    def play_stretch_blt(self, operation, x, y, width, height, *told):
        *source, word = told
        source = Source(self.picture(word), tuple(source[:2]), tuple(source[2:]))
        self.blit(operation, (x, y, width, height), source)

    def play_stretch_dib(self, operation, x, y, width, height, *told):
        *source, word = told
        picture = self.picture(word)
        source = Source(picture, tuple(source[:2]), tuple(source[2:]), picture.bottom_up)
        self.blit(operation, (x, y, width, height), source)

    def blit(self, operation, box, source):
        """Joins brush, source and what is there in a box, where the brush gives a colour or the
        operation doesn't ask it."""
        reads, state = depends_on_source(operation), self.state
        if reads and source is None:
            raise SourceMissing
        if reads:
            source.check()
        x, y, width, height = box
        corners = state.place((x, y)), state.place((x + width, y + height))
        covered = state.box(x, y, x + width, y + height)
        for pixel, there in self.image.items():
            if not is_in_box(covered, *pixel) or not state.is_in_clip(*pixel):
                continue
            pattern = state.brush_at(*pixel) if depends_on_pattern(operation) else BLACK
            read = source.colour(pixel, corners) if reads else BLACK
            if pattern is not None:
                self.image[pixel] = joined_by(operation, pattern, read, there)

    # Paths.

    def open_path(self):
        """The path that records add to, if there is one."""
        return self.path if self.path and self.path.is_open else None

    def needed_path(self):
        """The same, which has to be there."""
        if not self.open_path():
            raise PathState
        return self.path

    def go_on(self, points):
        """Lines from the open figure's last place or, where none is open, from the position."""
        begin = [] if self.path.open_figure() else [self.state.position]
        self.path.count(len(begin) + 1)
        self.path.go_on(self.places(begin + points))

    def gather(self, lists, state):
        """A figure for each list that has a point. Without any, nothing changes."""
        lists = list(filter(None, lists))
        if lists:
            self.path.count(1)
            self.path.add(list(map(self.places, lists)), state)

    def gather_box(self, numbers):
        """A rectangle's figure, of its corners as they are placed."""
        self.path.count(1)
        self.path.add([corners_of(*self.state.box(*numbers))], CLOSED)

    def play_begin_path(self):
        if self.open_path():
            raise PathState
        self.path = Path()

    def play_end_path(self):
        self.needed_path().is_open = False

    def play_close_figure(self):
        self.needed_path().leave(CLOSED)

    def play_abort_path(self):
        self.path = None

    def painted_figures(self):
        """The figures of the finished path, which is dropped."""
        path = self.path
        if path is None or path.is_open:
            raise PathState
        path.check_points()
        self.path = None
        return path.figures

    def play_fill_path(self):
        self.fill_polygons([figure.places for figure in self.painted_figures()])

    def play_stroke_path(self):
        self.stroke([line for figure in self.painted_figures() for line in figure.lines()])

    def play_stroke_and_fill_path(self):
        self.fill_and_stroke([figure.places for figure in self.painted_figures()])

    # What changes the state.

    def play_move(self, x, y):
        if self.open_path():
            self.path.leave(ENDED)
        self.change(position=(x, y))

    def play_solid_pen(self, index, number, width=1):
        self.objects[index] = {"pen": rgb_of(number), "width": width}

    def play_null_pen(self, index):
        self.objects[index] = NO_PEN

    def play_styled_pen(self, index, style, width, number):
        """A width below 0 counts by its distance from it."""
        if style & STYLE_BITS == NULL_STYLE:
            self.play_null_pen(index)
        else:
            self.play_solid_pen(index, number, abs(width))

    def play_styled_long_pen(self, index, style, width, brush, number):
        """Without the bit of pens that are measured by the page, the width isn't looked at."""
        if brush == NULL_BRUSH_STYLE:
            self.play_null_pen(index)
        else:
            self.play_styled_pen(index, style, width if style & GEOMETRIC else 0, number)

    def play_solid_brush(self, index, number):
        self.objects[index] = NO_BRUSH | {"brush": rgb_of(number)}

    def play_null_brush(self, index):
        self.objects[index] = NO_BRUSH

    def play_hatched_brush(self, index, hatch, number):
        self.objects[index] = {"brush": rgb_of(number), "hatch": hatch, "tile": None}

    def play_tiled_brush(self, index, word):
        self.objects[index] = NO_BRUSH | {"tile": self.picture(word)}

    def play_select(self, index):
        self.change(**self.objects[index])

    def play_raster(self, operation):
        self.change(operation=operation)

    def play_fill_mode(self, mode):
        self.change(fill_mode=mode)

    def play_back_mode(self, mode):
        self.change(back_mode=mode)

    def play_back_colour(self, number):
        self.change(back=rgb_of(number))

    def play_map_mode(self, mode):
        """Only mode 8, in which extents count, is drawn at random."""
        assert mode == 8, mode

    def play_window_origin(self, *numbers):
        self.set_axes("window", numbers)

    def play_window_extent(self, *numbers):
        self.set_axes("window_extent", numbers)

    def play_viewport_origin(self, *numbers):
        self.set_axes("viewport", numbers)

    def play_viewport_extent(self, *numbers):
        self.set_axes("viewport_extent", numbers)

    def play_keep(self, *numbers):
        self.change(kept=(*self.state.kept, self.state.box(*numbers)))

    def play_cut(self, *numbers):
        self.change(cut=(*self.state.cut, self.state.box(*numbers)))

    def play_unclip(self):
        self.change(kept=(), cut=())

    def play_save(self):
        self.saved.append(self.state)

    def play_restore(self, place):
        assert place == -1, place
        self.state = self.saved.pop()


def pairs_of(numbers):
    """Points from numbers."""
    return list(zip(numbers[::2], numbers[1::2], strict=True))


def corners_of(left, top, right, bottom):
    """The corners of a box, clockwise from its left upper one."""
    return [(left, top), (right, top), (right, bottom), (left, bottom)]
