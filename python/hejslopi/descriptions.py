"""Recipes from descriptions: a list of stages, each a dict. `recipe` shows one of each kind.

What is wrong is said by `Mistake` in one line. The library has the last word on what a recipe may be.
"""
from __future__ import annotations

import re
from typing import Any, Dict, List, NamedTuple, Tuple

from .kernels import area
from .messages import close_to, place_of, shown
from .reals import Rounded, real_weight
from .stage_bytes import AXES, BORDERS, KINDS, MOST_OFFSET, MOST_RADIUS, MOST_STAGES, MOST_TAPS, Number, Values, axes_held, stage_bytes
from .values import Mistake, keyed, one_of, whole

PLACES = {"across": {"left": -1, "here": 0, "right": 1}, "down": {"up": -1, "here": 0, "down": 1}}
BORDER_WORDS = 'nearest, mirror, wrap, or {"constant": VALUE} with a value from 0 to 255'


def border_values(place: str, given: Any) -> Tuple[int, int]:
    """The border and its value. Constant has one, and no other border has."""
    if isinstance(given, dict):
        return BORDERS["constant"], whole(place + ", constant", keyed(place, given, ("constant",))["constant"], 0, 255)
    if isinstance(given, str) and given in BORDERS and given != "constant":
        return BORDERS[given], 0
    raise Mistake(place, shown(given), BORDER_WORDS + close_to(given, [name for name in BORDERS if name != given]))


def offset_of(place: str, axis: str, key: Any) -> int:
    """The offset of a tap, by its word or number."""
    if isinstance(key, str) and key in PLACES[axis]:
        return PLACES[axis][key]
    number = key if isinstance(key, int) and not isinstance(key, bool) else None
    if isinstance(key, str) and re.fullmatch(r"[+-]?[0-9]{1,2}", key):
        number = int(key)
    if number is None or not -MOST_OFFSET <= number <= MOST_OFFSET:
        words = ", ".join(PLACES[axis])
        raise Mistake(place, "the tap %s" % shown(key), "%s, or an offset from -%d to %d" % (words, MOST_OFFSET, MOST_OFFSET))
    return number


def taps_of(place: str, axis: str, given: Any) -> List[Tuple[int, str, Any]]:
    """The taps of an axis by rising offset: the offset, the place for messages, and the weight as it was given."""
    if not isinstance(given, dict):
        raise Mistake(place, shown(given), 'an object with a weight for each tap, as {"here": 1}')
    for key in getattr(given, "twice", ()):
        raise Mistake(place, "the tap %s twice" % shown(key), "each tap once")
    if not 1 <= len(given) <= MOST_TAPS:
        raise Mistake(place, "%d taps" % len(given), "1 to %d" % MOST_TAPS)
    taps: Dict[int, Tuple[str, Any]] = {}
    for key, weight in given.items():
        offset = offset_of(place, axis, key)
        if offset in taps:
            raise Mistake(place, "offset %d twice" % offset, "each tap once")
        taps[offset] = "%s, tap %s" % (place, shown(key)), weight
    return [(offset, *taps[offset]) for offset in sorted(taps)]


def ratio_axis(place: str, axis: str, given: Any, rounded: List[Rounded]) -> Dict[str, List[Number]]:
    parts = keyed(place, given, ("over", "taps"))
    divisor = whole(place + ", over", parts["over"], 1, 65535)
    taps = taps_of(place + ", taps", axis, parts["taps"])
    return {"taps": [len(taps)], "divisor": [divisor], "offset": [offset for offset, _, _ in taps],
            "weight": [whole(where, weight, -32768, 32767) for _, where, weight in taps]}


def real_axis(place: str, axis: str, given: Any, rounded: List[Rounded]) -> Dict[str, List[Number]]:
    taps = taps_of(place, axis, given)
    return {"taps": [len(taps)], "offset": [offset for offset, _, _ in taps], "weight": [real_weight(where, weight, rounded) for _, where, weight in taps]}


def radius_axis(place: str, axis: str, given: Any, rounded: List[Rounded]) -> Dict[str, List[Number]]:
    return {"radius": [whole(place, given, 0, MOST_RADIUS)]}


AXIS_VALUES = {"ratios": ratio_axis, "reals": real_axis, "binomial": radius_axis, "box": radius_axis, "rank": radius_axis}


def named_positions(samples: int) -> Dict[str, int]:
    """The positions that have a name, in a window of so many samples."""
    return {"median": (samples + 1) // 2, "smallest": 1, "largest": samples}


def position_of(place: str, given: Any, samples: int) -> int:
    """A rank's position, by its word or number."""
    named = named_positions(samples)
    if isinstance(given, str):
        if given in named:
            return named[given]
        raise Mistake(place, shown(given), "%s, or a whole number from 1 to %d" % (", ".join(named), samples) + close_to(given, named))
    return whole(place, given, 1, samples)


# ---- whole stages


def stage_of(number: int, given: Any, rounded: List[Rounded]) -> bytes:
    """The bytes of a stage. Its kind says which keys it has."""
    place = place_of(number)
    if not isinstance(given, dict) or "kind" not in given:
        raise Mistake(place, shown(given) if not isinstance(given, dict) else 'no key "kind"', 'an object as {"kind": "box", "across": 1, "down": 1}')
    kind = one_of(place + ", kind", given["kind"], KINDS)
    keyed(place, given, ("kind", *axes_held(kind), *(("position",) if kind == "rank" else ())), ("border",))
    border, border_value = border_values(place + ", border", given.get("border", "nearest"))
    values: Values = {("kind", ""): [KINDS[kind]], ("border", ""): [border], ("border value", ""): [border_value]}
    for axis in axes_held(kind):
        for name, held in AXIS_VALUES[kind](place_of(number, axis), axis, given[axis], rounded).items():
            values[name, axis] = held
    if kind == "rank":
        samples = area(*(int(values["radius", axis][0]) for axis in AXES))
        values["position", ""] = [position_of(place + ", position", given["position"], samples)]
    return stage_bytes(kind, values)


class Encoded(NamedTuple):
    """The bytes of a recipe, and the weights that had to be rounded for it."""
    recipe: bytes
    rounded: List[Rounded]


def encode(stages: Any) -> Encoded:
    """A recipe from a description, with what was rounded."""
    if not isinstance(stages, (list, tuple)):
        raise Mistake("the description", shown(stages), 'a list of 1 to %d stages, as [{"kind": ..}, ..]' % MOST_STAGES)
    if not 1 <= len(stages) <= MOST_STAGES:
        raise Mistake("the description", "%d stages" % len(stages), "1 to %d" % MOST_STAGES)
    rounded: List[Rounded] = []
    return Encoded(bytes([len(stages)]) + b"".join(stage_of(number, stage, rounded) for number, stage in enumerate(stages, 1)), rounded)


def recipe(stages: Any) -> bytes:
    """The bytes of a recipe with these stages, each given as a dict.

        {"kind": "binomial", "across": 1, "down": 1, "border": "nearest"}                  radii across and down
        {"kind": "box", "across": 2, "down": 2, "border": {"constant": 20}}                a border value of 20
        {"kind": "rank", "across": 1, "down": 1, "position": "median"}                     or a number from 1, "smallest", "largest"
        {"kind": "outline"}                                                                no radii: it looks at 3 by 3 samples
        {"kind": "ratios", "across": {"over": 4, "taps": {"left": -1, "here": 4, "right": 1}}, "down": {"over": 1, "taps": {"here": 1}}}
        {"kind": "reals", "across": {"-1": 0.25, "0": 0.5, "1": 0.25}, "down": {"0": 1.0}}

    Borders: nearest (where none is given), mirror, wrap, or constant with its value. A tap is an offset from -15 to 15; across also left, here, right, down
    also up, here, down. Weights of reals are held as binary32. A description that is wrong raises `Mistake`. Whether a gain is too large is left to the
    library: `read_recipe` on the result says it.
    """
    return encode(stages).recipe
