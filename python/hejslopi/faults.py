"""Where a refused recipe or still is at fault, in words: the place, what was found there and what is allowed.

The library's number stays alone: these words are found by asking it again, or by looking at the bytes, and decide nothing.
"""
from __future__ import annotations

import ctypes
import re
from typing import Iterable, Optional, Tuple

from .kernels import fraction_text, gain, window
from .library import call
from .messages import found, place_of
from .stage_bytes import AXES, MOST_GAIN, MOST_OFFSET, MOST_RADIUS, MOST_STAGES, MOST_TAPS, BORDER_NAMES, KIND_NAMES, REAL_WEIGHTS, Field, Stage, read_stages

STAGE_COUNT, CUT, TRAILING, GAIN = 10, 11, 12, 17


def place_of_field(stage: Stage, field: Field) -> str:
    return place_of(stage.number, field.axis, "tap %d" % field.tap if field.tap else "", field.name)


# ---- what the fields of a stage allow


def listed(names: Iterable[Tuple[int, str]]) -> str:
    return ", ".join("%d %s" % pair for pair in sorted(names))


ALLOWED = {
    "kind": lambda stage: listed(KIND_NAMES.items()),
    "border": lambda stage: listed(BORDER_NAMES.items()),
    "border value": lambda stage: "0, unless the border is 0 constant",
    "taps": lambda stage: "1 to %d" % MOST_TAPS,
    "divisor": lambda stage: "1 to 65,535",
    "offset": lambda stage: "-%d to %d, each above the one before it" % (MOST_OFFSET, MOST_OFFSET),
    "weight": lambda stage: REAL_WEIGHTS,
    "radius": lambda stage: "0 to %d" % MOST_RADIUS,
    "position": lambda stage: "1 to %d, the samples of its window" % window(stage),
}


# ---- recipes


def answer(recipe: bytes) -> int:
    """What the library answers to a recipe: 0 or a refusal's number."""
    return call("hejslopi_read_recipe", recipe, (ctypes.c_uint64 * 2)())


def field_at_fault(recipe: bytes) -> Optional[Tuple[Stage, Field]]:
    """The field that makes the library refuse. A recipe is tested byte after byte, so one that is cut behind a field is told to be cut, unless that field is wrong."""
    for stage in read_stages(recipe):
        for field in stage.fields:
            if field.value is None or answer(recipe[:field.end]) != CUT:
                return stage, field
    return None


def gain_at_fault(stage: Stage) -> str:
    """The first axis whose gain is too large."""
    for axis in AXES:
        if gain(stage, axis) > MOST_GAIN:
            return found(place_of(stage.number, axis), "a gain of %s" % fraction_text(gain(stage, axis)), "at most %d" % MOST_GAIN)
    return place_of(stage.number)


def in_recipe(recipe: bytes, number: int) -> str:
    """Where a recipe that is refused with this number is at fault. "" where nothing more can be said."""
    if not recipe:
        return "it has no bytes"
    if number == STAGE_COUNT:
        return found("byte 1", "%d stages" % recipe[0], "1 to %d" % MOST_STAGES)
    if number == TRAILING:
        return "its last stage ends with byte %d, and more follow" % read_stages(recipe)[-1].fields[-1].end
    at_fault = field_at_fault(recipe)
    if at_fault is None:
        return ""
    stage, field = at_fault
    if number == CUT:
        return "%s: it ends with byte %d" % (place_of_field(stage, field), len(recipe))
    if number == GAIN:
        return gain_at_fault(stage)
    return found(place_of_field(stage, field), repr(field.value), ALLOWED[field.name](stage))


# ---- stills

GAP = rb"(?:[ \t\n\r]|#[^\n]*\n)+"
HEADER = re.compile(rb"P([56])" + 2 * (GAP + rb"([0-9]{1,20})") + GAP + rb"([0-9]{1,20})[ \t\n\r]")

# A longer header is left alone: these words are not worth reading a whole file of comments.
LONGEST_HEADER = 4096


def in_still(still: bytes, number: int) -> str:
    """What was found in a still that is refused with this number. "" where nothing more can be said."""
    if number == 1:
        return "it begins with %s" % ascii(still[:2].decode("latin-1")) if still else "it has no bytes"
    header = HEADER.match(still, 0, LONGEST_HEADER)
    if header is None:
        return ""
    magic, width, height, maximum = map(int, header.groups())
    needed, there = width * height * (1 if magic == 5 else 3), len(still) - header.end()
    return {
        3: "found %d by %d" % (width, height),
        4: "found %d" % maximum,
        5: "found %d, needed for %d by %d: %d" % (there, width, height, needed),
        6: "found %d, needed for %d by %d: %d" % (there, width, height, needed),
    }.get(number, "")
