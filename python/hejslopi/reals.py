"""Weights of reals: from the number that was given to the binary32 that is held."""
from __future__ import annotations

import struct
from decimal import Decimal
from fractions import Fraction
from typing import Any, List, NamedTuple

from .messages import shown
from .stage_bytes import REAL_WEIGHTS
from .values import Mistake

# Outside of these no rounding leads to an allowed weight, and none has to be tried.
FAR_BELOW, FAR_ABOVE = Decimal(2) ** -13, 8
LEAST, MOST = 2.0 ** -12, 4.0


class Rounded(NamedTuple):
    """A weight that was given and is no binary32, and the one that is held in its place."""
    place: str
    given: str
    held: float


def nearest_binary32(value: Fraction, first: float) -> float:
    """The binary32 nearest to a value, the even one of two. `first` is close to it; by way of a binary64 alone, the wrong one of two might be taken."""
    bits, = struct.unpack(">I", struct.pack(">f", first))
    near = [(abs(Fraction(held) - value), b & 1, held) for b in (bits - 1, bits, bits + 1) if b >= 0 for held in struct.unpack(">f", struct.pack(">I", b))]
    return min(near)[2]


def is_near(value: Any) -> bool:
    """Whether a number is 0, or of a size from which an allowed weight is not far."""
    try:
        return value == 0 or FAR_BELOW < value < FAR_ABOVE or -FAR_ABOVE < value < -FAR_BELOW
    except ArithmeticError:
        return False


def real_weight(place: str, value: Any, rounded: List[Rounded]) -> float:
    """A weight as a binary32. One that is written as `describe` shows it counts as held, though its last digit may be rounded there."""
    if isinstance(value, bool) or not isinstance(value, (int, float, Decimal)) or not is_near(value):
        raise Mistake(place, shown(value), REAL_WEIGHTS)
    held = float(value) if value == 0 else nearest_binary32(Fraction(value), float(value))
    if held and not LEAST <= abs(held) <= MOST:
        raise Mistake(place, shown(value), REAL_WEIGHTS)
    if Fraction(value) not in (Fraction(held), Fraction(repr(held))):
        rounded.append(Rounded(place, shown(value), held))
    return held
