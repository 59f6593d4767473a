"""How an axis of the page lies on the surface, so that a file may tell in units of its page where pixels are."""

from typing import NamedTuple

from writers import BETWEEN


class Axis(NamedTuple):
    """The extents of window and viewport, their origins, and the sides of frame and surface."""

    window: int = 1
    viewport: int = 1
    window_origin: int = 0
    viewport_origin: int = 0
    frame: int = 1
    surface: int = 1

    def placed(self, pixel: int) -> int:
        """Where a column or a row begins on the page, or nearly."""
        return self.window_origin + (pixel * self.frame - self.viewport_origin * self.surface) * self.window // (self.viewport * self.surface)


class Page(NamedTuple):
    """Both axes, and the least and the greatest number that a record of the format may have."""

    across: Axis
    down: Axis
    least: int
    greatest: int

    def number(self, axis: Axis, pixel: int) -> int:
        """Where a column or a row begins on the page, as far as numbers go."""
        return max(self.least, min(self.greatest, axis.placed(pixel)))

    def places(self, words: tuple[object, ...]) -> list[int | str]:
        """These places of pixels on the page, and the marks between lists of them."""
        placed: list[int | str] = []
        is_across = True
        for word in words:
            if isinstance(word, int):
                placed.append(self.number(self.across if is_across else self.down, word))
                is_across = not is_across
            else:
                placed.append(BETWEEN)
        return placed

    def box(self, box: tuple[int, int, int, int]) -> tuple[int, int, int, int]:
        """A box of pixels on the page: its first corner, and how far the last one is from it."""
        left, top, right, bottom = (self.number(axis, edge) for axis, edge in zip((self.across, self.down) * 2, box, strict=True))
        return left, top, right - left, bottom - top

    def setting(self) -> str:
        """Records that set the map."""
        origins = f"window_origin {self.across.window_origin} {self.down.window_origin}; "
        origins += f"viewport_origin {self.across.viewport_origin} {self.down.viewport_origin}"
        extents = f"window_extent {self.across.window} {self.down.window}; viewport_extent {self.across.viewport} {self.down.viewport}"
        return f"map_mode 8; {extents}; {origins}"
