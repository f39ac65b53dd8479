"""Descriptions from recipes, whatever wrote their bytes."""
from __future__ import annotations

import json
from typing import Any, Dict, List

from .calls import BytesLike, read_recipe, taken
from .descriptions import named_positions, recipe as recipe_of
from .kernels import window
from .stage_bytes import Stage, axes_held, read_stages


def axis_described(stage: Stage, axis: str) -> Any:
    """A radius, or the taps with their weights as they are held."""
    if ("radius", axis) in stage.values:
        return stage.one("radius", axis)
    taps = {str(offset): weight for offset, weight in zip(stage.values["offset", axis], stage.values["weight", axis])}
    return {"over": stage.one("divisor", axis), "taps": taps} if stage.kind == "ratios" else taps


def stage_described(stage: Stage) -> Dict[str, Any]:
    described: Dict[str, Any] = {"kind": stage.kind}
    for axis in axes_held(stage.kind):
        described[axis] = axis_described(stage, axis)
    if stage.kind == "rank":
        position = stage.one("position")
        described["position"] = next((name for name, named in named_positions(window(stage)).items() if named == position), position)
    described["border"] = {"constant": stage.one("border value")} if stage.border == "constant" else stage.border
    return described


def stages_of(recipe: bytes) -> List[Stage]:
    """The stages of a recipe that the library accepts."""
    read_recipe(recipe)
    stages = read_stages(recipe)
    if not stages[-1].whole:
        raise NotImplementedError("stage %d: the library accepts its kind, %s, which is not known here" % (stages[-1].number, stages[-1].one("kind")))
    return stages


def describe(recipe: BytesLike) -> List[Dict[str, Any]]:
    """A description that gives the same bytes. A recipe that is refused raises `Refusal`."""
    given = taken("recipe", recipe)
    description = [stage_described(stage) for stage in stages_of(given)]
    if recipe_of(description) != given:
        raise NotImplementedError("this recipe has bytes that no description gives")
    return description


def description_text(description: List[Dict[str, Any]]) -> str:
    """A description as JSON, a stage on a line."""
    return "[%s]" % ",\n ".join(json.dumps(stage) for stage in description)
