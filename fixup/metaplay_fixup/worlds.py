"""World transforms ([MS-EMF] 2.2.28): six singles, kept as exact ratios."""

from __future__ import annotations

from dataclasses import dataclass

from .affine import Affine
from .faults import Fault, FaultName
from .records import Fields
from .singles import Ratio, nearest_single, single_of

_NAMES = ("m11", "m12", "m21", "m22", "dx", "dy")
_ZERO, _UNIT = Ratio(0, 1), Ratio(1, 1)


@dataclass(frozen=True, slots=True)
class World:
    """x' = m11 x + m21 y + dx, y' = m12 x + m22 y + dy."""

    m11: Ratio
    m12: Ratio
    m21: Ratio
    m22: Ratio
    dx: Ratio
    dy: Ratio

    def then(self, other: World) -> World:
        """This transform first, and the other after it. Each number is rounded to a single."""
        return World(
            _sum_of_products((self.m11, other.m11), (self.m12, other.m21)),
            _sum_of_products((self.m11, other.m12), (self.m12, other.m22)),
            _sum_of_products((self.m21, other.m11), (self.m22, other.m21)),
            _sum_of_products((self.m21, other.m12), (self.m22, other.m22)),
            _sum_of_products((self.dx, other.m11), (self.dy, other.m21), (other.dx, _UNIT)),
            _sum_of_products((self.dx, other.m12), (self.dy, other.m22), (other.dy, _UNIT)),
        )

    def affine(self) -> Affine:
        """The same as whole numbers over one denominator."""
        ratios = (self.m11, self.m12, self.m21, self.m22, self.dx, self.dy)
        denominator = max(ratio.denominator for ratio in ratios)
        a, b, c, d, e, f = (ratio.numerator * (denominator // ratio.denominator) for ratio in ratios)
        return Affine.reduced((a, b, c, d, e, f), denominator)


IDENTITY_WORLD = World(_UNIT, _ZERO, _ZERO, _UNIT, _ZERO, _ZERO)


def _sum_of_products(*pairs: tuple[Ratio, Ratio]) -> Ratio:
    """The sum of products of ratios whose denominators are powers of two, rounded to a single."""
    denominator = max(one.denominator * other.denominator for one, other in pairs)
    numerators = [
        one.numerator * other.numerator * (denominator // (one.denominator * other.denominator)) for one, other in pairs
    ]
    return nearest_single(Ratio(sum(numerators), denominator))


def read_world(fields: Fields) -> World:
    """The transform in a record's fields. Raises Fault BadValue or OffPlane as `single_of` does."""
    m11, m12, m21, m22, dx, dy = (single_of(fields[name]) for name in _NAMES)
    return World(m11, m12, m21, m22, dx, dy)


def modified(world: World, fields: Fields, mode: int) -> World:
    """The world after EMR_MODIFYWORLDTRANSFORM ([MS-EMF] 2.3.12.1). Raises Fault BadValue for an unknown mode,
    and as `single_of` and `nearest_single` do.
    """
    if mode == 1:
        return IDENTITY_WORLD
    if mode == 2:
        return read_world(fields).then(world)
    if mode == 3:
        return world.then(read_world(fields))
    if mode == 4:
        return read_world(fields)
    raise Fault(FaultName.BadValue, f"mode {mode} of a world transform")
