"""Twenty files like those that programs export: ten kinds of drawings, each as WMF and as EMF, on a page that is scaled to the frame. All of them
together stand beside wine's GDI, or, where that isn't there, beside as many empty pictures."""

import math
import random

import peer
from shapes import FRAME, PAGE, WINDING, map_of
from timing import Row, least_seconds
from work import SIDES, file_of
from writers import BETWEEN, EMF, SRCCOPY, WMF, Bitmap, header

# How much of the peer's time all of them may take at the two sides.
GOALS = 0.1, 0.15

# The indexes of pens and brushes.
PENS, BRUSHES = range(4), range(4, 12)


def tools(chance, form):
    """Four pens, one of them without a width and the others of 10, 30 and 60 units of the page, and eight brushes."""
    for number, width in zip(PENS, (0, 10, 30, 60)):
        yield form.step("styled_pen", number, 0, width, chance.getrandbits(24))
    for number in BRUSHES:
        yield form.step("solid_brush", number, chance.getrandbits(24))


def around(chance, corners, far, centre=None):
    """The corners of a polygon round a place of the page, each at any distance from it up to a limit."""
    x, y = centre or (chance.randrange(far, PAGE - far), chance.randrange(far, PAGE - far))
    for number in range(corners):
        angle, away = math.tau * number / corners, chance.randrange(far // 2, far)
        yield x + round(away * math.cos(angle))
        yield y + round(away * math.sin(angle))


def curve(chance, count, step):
    """A polyline whose points lie near to each other, as of a curve."""
    x, y, angle = chance.randrange(PAGE), chance.randrange(PAGE), chance.random() * math.tau
    for _ in range(count):
        yield min(max(x, 0), PAGE)
        yield min(max(y, 0), PAGE)
        angle += chance.uniform(-0.4, 0.4)
        x, y = x + round(step * math.cos(angle)), y + round(step * math.sin(angle))


def noise(chance, side, depth):
    """A square bitmap of noise, with a full table of colours where it has one."""
    table = b"" if depth > 8 else b"".join(chance.randbytes(3) + b"\0" for _ in range(1 << depth))
    return Bitmap(header(side, side, depth) + table, chance.randbytes((side * depth + 31) // 32 * 4 * side))


def areas(chance, form):
    """A map: 600 areas with an outline."""
    for _ in range(600):
        yield form.step("select", chance.choice(BRUSHES))
        yield form.step("polygon", *around(chance, chance.randrange(20, 60), PAGE // 12))


def contours(chance, form):
    """80 contours of 300 points, by pens of several widths."""
    for number in range(80):
        yield form.step("select", number % len(PENS))
        yield form.step("polyline", *curve(chance, 300, 40))


def chart(chance, form):
    """A chart: grid lines, bars, and two series of points."""
    for number in range(0, PAGE + 1, PAGE // 40):
        yield form.step("move", 0, number) + form.step("line", PAGE, number)
    for number in range(60):
        yield form.step("select", BRUSHES[number % len(BRUSHES)])
        left = number * PAGE // 60
        yield form.step("rectangle", left + 60, chance.randrange(PAGE // 8, PAGE), left + PAGE // 70, PAGE)
    for pen in PENS[1:3]:
        yield form.step("select", pen)
        yield form.step("polyline", *(value for x in range(0, PAGE, 40) for value in (x, chance.randrange(PAGE))))


def circuit(chance, form):
    """A circuit: 3,000 short lines along the axes, and 300 small boxes."""
    for number in range(3_000):
        x, y, far = chance.randrange(PAGE), chance.randrange(PAGE), chance.randrange(100, 1_000)
        end = (x, min(y + far, PAGE)) if number % 2 else (min(x + far, PAGE), y)
        yield form.step("move", x, y) + form.step("line", *end)
    for _ in range(300):
        x, y = chance.randrange(PAGE - 300), chance.randrange(PAGE - 300)
        yield form.step("rectangle", x, y, x + 300, y + 200)


def letters(chance, form):
    """Text as outlines: 1,500 letters of two closed lists each."""
    yield form.step("select", BRUSHES[0]) + form.step("fill_mode", WINDING)
    for number in range(1_500):
        centre = 200 + number % 60 * 320, 300 + number // 60 * 750
        yield form.step("polygons", *around(chance, 24, 140, centre), BETWEEN, *around(chance, 12, 60, centre))


def clip_art(chance, form):
    """120 shapes with curved outlines of 200 points."""
    for _ in range(120):
        yield form.step("select", chance.choice(BRUSHES)) + form.step("select", chance.choice(PENS))
        yield form.step("polygon", *around(chance, 200, PAGE // 8))


def plan(chance, form):
    """A plan: hatched rooms, and 1,000 lines of several widths."""
    for number in range(6):
        yield form.step("hatched_brush", 12 + number, number, chance.getrandbits(24))
    yield form.step("back_mode", 1)
    for number in range(120):
        x, y = chance.randrange(PAGE - 3_000), chance.randrange(PAGE - 3_000)
        yield form.step("select", 12 + number % 6)
        yield form.step("rectangle", x, y, x + chance.randrange(500, 3_000), y + chance.randrange(500, 3_000))
    for number in range(1_000):
        yield form.step("select", number % len(PENS))
        x, y = chance.randrange(PAGE), chance.randrange(PAGE)
        yield form.step("move", x, y) + form.step("line", chance.randrange(PAGE), y if number % 3 else chance.randrange(PAGE))


def photograph(chance, form):
    """A bitmap of 480 by 480 in 24 bits, in a frame."""
    side = PAGE * 9 // 10
    yield form.step("rectangle", 0, 0, PAGE, PAGE)
    yield form.step("stretch_dib", SRCCOPY, PAGE // 20, PAGE // 20, side, side, 0, 0, 480, 480, str(noise(chance, 480, 24)))


def slide(chance, form):
    """A slide: forty pictures of 32 by 32 in 8 bits, boxes and arrows."""
    for number in range(40):
        x, y = 500 + number % 8 * 2_300, 500 + number // 8 * 3_500
        yield form.step("select", BRUSHES[number % len(BRUSHES)]) + form.step("rectangle", x - 200, y - 200, x + 1_800, y + 1_800)
        yield form.step("stretch_dib", SRCCOPY, x, y, 1_600, 1_600, 0, 0, 32, 32, str(noise(chance, 32, 8)))
        yield form.step("select", PENS[2]) + form.step("polyline", x + 1_800, y + 800, x + 2_100, y + 800, x + 2_000, y + 700)


def scatter(chance, form):
    """4,000 small marks of a diagram."""
    for number in range(4_000):
        x, y = chance.randrange(100, PAGE - 100), chance.randrange(100, PAGE - 100)
        if number % 400 == 0:
            yield form.step("select", BRUSHES[number // 400 % len(BRUSHES)])
        yield form.step("polygon", x, y - 80, x + 80, y, x, y + 80, x - 80, y)


KINDS = [areas, contours, chart, circuit, letters, clip_art, plan, photograph, slide, scatter]


def records_of(kind, form):
    """The records of a kind of drawing."""
    chance = random.Random(kind.__name__)
    return [*map_of(form, PAGE), *tools(chance, form), *kind(chance, form)]


def files():
    """The files, each by its format and kind."""
    for form in (WMF, EMF):
        for kind in KINDS:
            yield (form.name, kind.__name__), lambda form=form, kind=kind: [file_of(form, records_of(kind, form))]


def total(seconds, who, paths):
    """The seconds of all files together."""
    return sum(seconds[who, key] for key in paths)


def rows(bench):
    """All of them together, and each kind in both formats."""
    paths = {key: bench.write(pieces) for key, pieces in files()}
    empty = bench.write(lambda: [file_of(WMF, [])])
    with peer.running() as beside:
        for side, goal in zip(SIDES, GOALS):
            commands = {("ours", key): bench.show(path, side) for key, path in paths.items()}
            commands |= {("beside", key): bench.show(empty, side) if beside is None else beside(path, side) for key, path in paths.items()}
            seconds, name = least_seconds(commands), "empty pictures" if beside is None else peer.NAME
            most = None if beside is None else goal
            yield Row(
                f"twenty exported files, {side:,} a side", "s", total(seconds, "ours", paths), total(seconds, "beside", paths), name, most_ratio=most
            )
            for kind in KINDS:
                both = [key for key in paths if key[1] == kind.__name__]
                told = f"{kind.__name__.replace('_', ' ')}, {side:,} a side"
                yield Row(told, "s", total(seconds, "ours", both), total(seconds, "beside", both), name)
