"""What a stage looks at, and with which weights: its window, and on each axis the sum and the gain, exactly, and how many weights are rounded."""
from __future__ import annotations

from fractions import Fraction
from math import comb
from typing import List, Optional

from .stage_bytes import Stage

# A weight counts 65,536ths, and so does T, of a grey level.
UNITS = 65536

# An outline has no weights on an axis: its four kernels look at 3 by 3 samples, and six weights of each are 1 or -1, the others 0.
OUTLINE_OFFSETS, OUTLINE_GROWTH = (-1, 0, 1), 6


def area(across: int, down: int) -> int:
    """How many samples a window of these radii has."""
    return (2 * across + 1) * (2 * down + 1)


def window(stage: Stage) -> int:
    """How many samples the window of a stage with radii has."""
    return area(int(stage.one("radius", "across")), int(stage.one("radius", "down")))


def weights(stage: Stage, axis: str) -> List[Fraction]:
    """The weights of an axis as they are held; of a binomial and of a box, which hold none, their sum alone, 1; of a rank and an outline none."""
    if stage.kind in ("binomial", "box"):
        return [Fraction(1)]
    divisor = int(stage.values.get(("divisor", axis), [1])[0])
    return [Fraction(weight) / divisor for weight in stage.values.get(("weight", axis), [])]


def gain(stage: Stage, axis: str) -> Fraction:
    return sum(map(abs, weights(stage, axis)), Fraction(0))


def rounded(stage: Stage, axis: str) -> Optional[int]:
    """How many weights of an axis are no whole number of 65,536ths, and so are rounded. None where a stage puts no weights into 65,536ths: of a box, a rank and an outline."""
    if stage.kind == "binomial":
        radius = int(stage.one("radius", axis))
        held = [Fraction(comb(2 * radius, k), 4 ** radius) for k in range(2 * radius + 1)]
    elif ("weight", axis) in stage.values:
        held = weights(stage, axis)
    else:
        return None
    return sum((UNITS * weight).denominator > 1 for weight in held)


def fraction_text(value: Fraction) -> str:
    """A fraction exactly, as `Fraction` reads it: as a decimal where one of a few digits is exact, else as a ratio."""
    decimal = repr(float(value))
    return decimal.replace(".0", "") if value.denominator == 1 else decimal if Fraction(decimal) == value else str(value)


def short_text(value: str) -> str:
    """A fraction's text for a table: one that is long as a decimal that is near to it."""
    return value if len(value) <= 8 else "~%.5g" % Fraction(value)
