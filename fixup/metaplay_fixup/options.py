"""What a caller may choose."""

from dataclasses import dataclass
from enum import Enum


class AlphaRule(Enum):
    """What becomes of pixels that let a part of the background through: a fault, or they are laid on white."""

    REFUSE = "refuse"
    WHITE = "white"


LARGEST_BOUND = 8192


@dataclass(frozen=True, slots=True)
class Options:
    """Choices for a conversion.

    `bound` is the longer side of the largest surface that matters, in pixels, from 1 to 8,192. With `text_only` all
    records but those of text stay as they are. With `drop_emf_plus` comments that hold EMF+ are left out, which a
    program that reads EMF+ would show in place of the file's own records. With `strokes` the strokes of dashed pens,
    and of wide pens whose caps or joins the player doesn't draw, become lines or polygons.
    """

    bound: int = LARGEST_BOUND
    alpha: AlphaRule = AlphaRule.REFUSE
    text_only: bool = False
    drop_emf_plus: bool = False
    strokes: bool = False

    def __post_init__(self) -> None:
        """Raises ValueError if the bound isn't in its range."""
        if not 1 <= self.bound <= LARGEST_BOUND:
            raise ValueError("the bound must be from 1 to 8192")
