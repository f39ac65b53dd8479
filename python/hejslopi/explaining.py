"""What a recipe does, for people and for programs: its stages, and how T grows. Every T is the library's, from reading the recipe's first stages."""
from __future__ import annotations

from typing import Any, Dict, List

from .calls import BytesLike, read_recipe, taken
from .describing import stage_described, stages_of
from .kernels import OUTLINE_GROWTH, OUTLINE_OFFSETS, UNITS, fraction_text, gain, rounded, short_text, weights, window
from .stage_bytes import AXES, Stage

# 255 grey levels: all that there are.
MOST_TOLERANCE = 255 * UNITS


def tolerance_after(recipe: bytes, stage: Stage) -> int:
    """T of a recipe's first stages, up to this one."""
    return read_recipe(bytes([stage.number]) + recipe[1:stage.fields[-1].end]).tolerance


def offsets(stage: Stage, axis: str) -> List[int]:
    """The offsets that a stage looks at on an axis."""
    if stage.kind == "outline":
        return list(OUTLINE_OFFSETS)
    if ("radius", axis) in stage.values:
        radius = int(stage.one("radius", axis))
        return list(range(-radius, radius + 1))
    return [int(offset) for offset in stage.values["offset", axis]]


def axis_explained(stage: Stage, axis: str) -> Dict[str, Any]:
    """The offsets of an axis, the sum and the gain of its weights, exactly, as texts, and how many of them are rounded. A rank and an outline have no weights, and a box rounds none."""
    held = weights(stage, axis)
    return {
        "offsets": offsets(stage, axis),
        "sum": fraction_text(sum(held)) if held else None,
        "gain": fraction_text(gain(stage, axis)) if held else None,
        "rounded": rounded(stage, axis),
    }


def stage_explained(recipe: bytes, stage: Stage) -> Dict[str, Any]:
    tolerance = tolerance_after(recipe, stage)
    explained: Dict[str, Any] = {"stage": stage.number, "kind": stage.kind, "border": stage.border, "border_value": stage.one("border value")}
    for axis in AXES:
        explained[axis] = axis_explained(stage, axis)
    if stage.kind == "rank":
        explained["position"], explained["window"] = stage.one("position"), window(stage)
    if stage.kind == "outline":
        explained["growth"] = OUTLINE_GROWTH
    explained.update({"tolerance": tolerance, "grey_levels": tolerance / UNITS, "description": stage_described(stage)})
    return explained


def explain(recipe: BytesLike) -> Dict[str, Any]:
    """What an accepted recipe does. One that is refused raises `Refusal`.

    `tolerance` is T in 65,536ths of a grey level, `grey_levels` the same in grey levels. Between two stills filtered by this recipe no sample can surely be
    still under a movement limit below `least_movement_limit`, in grey levels. `says_nothing`: T is all 255 grey levels. `growth`, of an outline: how many times
    as large as before it makes T, up to all 255 grey levels. `rounded`, of an axis: how many of its weights are no whole number of 65,536ths, and so are rounded,
    which T pays for; None where a stage puts no weights into 65,536ths.
    """
    given = taken("recipe", recipe)
    tolerance = read_recipe(given).tolerance
    return {
        "stages": [stage_explained(given, stage) for stage in stages_of(given)],
        "tolerance": tolerance,
        "grey_levels": tolerance / UNITS,
        "least_movement_limit": 2 * tolerance / UNITS,
        "says_nothing": tolerance >= MOST_TOLERANCE,
    }


# ---- for people


def levels_text(units: int) -> str:
    """Grey levels to four decimals, rounded up: T bounds from above."""
    return "%.4f" % (-(-units * 10000 // UNITS) / 10000)


def levels_below(units: int) -> str:
    """Grey levels to four decimals, rounded down: what is said of limits below it stays true."""
    return "%.4f" % (units * 10000 // UNITS / 10000)


def axis_text(axis: Dict[str, Any]) -> str:
    """How many samples an axis looks at, and how far."""
    first, last, count = axis["offsets"][0], axis["offsets"][-1], len(axis["offsets"])
    return "%d at %d" % (count, first) if count == 1 else "%d at %d to %d" % (count, first, last)


def axis_row(axis: Dict[str, Any]) -> List[str]:
    sums = [short_text(axis[name] or "-") for name in ("sum", "gain")]
    return [axis_text(axis), *sums, "-" if axis["rounded"] is None else str(axis["rounded"])]


def row(stage: Dict[str, Any]) -> List[str]:
    kind = "rank %d of %d" % (stage["position"], stage["window"]) if "position" in stage else stage["kind"]
    border = "constant %d" % stage["border_value"] if stage["border"] == "constant" else stage["border"]
    axes = [text for axis in AXES for text in axis_row(stage[axis])]
    return [str(stage["stage"]), kind, border, *axes, str(stage["tolerance"]), levels_text(stage["tolerance"])]


def growth_of(stages: List[Dict[str, Any]]) -> List[str]:
    """What an outline does to T, which no sum or gain of its row tells, in a sentence."""
    if not any("growth" in stage for stage in stages):
        return []
    return ["Behind an outline T is %d times what it was before it, at most all 255 grey levels: each of its four sums weighs six samples by 1 or -1." % OUTLINE_GROWTH]


HEADINGS = ["stage", "kind", "border", "across", "sum", "gain", "rounded", "down", "sum", "gain", "rounded", "T", "levels"]


def meaning_of(tolerance: int) -> List[str]:
    """What T says, in sentences."""
    if tolerance >= MOST_TOLERANCE:
        return ["T is %d, all 255 grey levels: it says nothing about a sample." % tolerance]
    if tolerance == 0:
        return ["T is 0: every sample is the exact result."]
    within = "No sample is further than T/65,536 from the exact result: %d/65,536, %s grey levels." % (tolerance, levels_text(tolerance))
    still = "Between two stills filtered by it, no sample can surely be still under a movement limit below 2 T/65,536: %s grey levels, " % levels_below(2 * tolerance)
    return [within, still + ("so under none." if 2 * tolerance > MOST_TOLERANCE else "so %d as a whole number." % -(-2 * tolerance // UNITS))]


def explanation_text(explained: Dict[str, Any]) -> str:
    """A table of the stages, and below it what T means."""
    rows = [HEADINGS] + [row(stage) for stage in explained["stages"]]
    widths = [max(len(line[k]) for line in rows) for k in range(len(HEADINGS))]
    table = ["  ".join(cell.ljust(width) for cell, width in zip(line, widths)).rstrip() for line in rows]
    return "\n".join(table + [""] + growth_of(explained["stages"]) + meaning_of(explained["tolerance"]))
