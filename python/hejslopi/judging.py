"""A verdict on a still that was filtered elsewhere."""
from __future__ import annotations

from typing import Tuple

from . import faults
from .calls import ROOM, BytesLike, first_refused, limit_for, read_recipe, read_still, results, room, taken
from .library import call
from .messages import found, place_of, shown
from .refusals import Refusal
from .stage_bytes import KINDS

VERDICT_STAGE, RECEIVED_SIZE, DISTANCE_LIMIT = 30, 31, 32
MOST_DISTANCE = 255
JUDGED = ("ratios", "box", "rank")


def stage_at_fault(recipe: bytes) -> str:
    """Why no verdict can be given on an accepted recipe: it has more than one stage, or one of another kind."""
    stages, kind = recipe[:2]
    if stages != 1:
        return found("byte 1", "%d stages" % stages, "1")
    return found(place_of(1, "kind"), str(kind), faults.listed((KINDS[name], name) for name in JUDGED))


def at_fault(number: int, recipe: bytes, raw: bytes, received: bytes, distance: int) -> Tuple[str, str]:
    """What was found, and in which argument."""
    if number == DISTANCE_LIMIT:
        return "found %s, allowed: 0 to %d" % (shown(distance), MOST_DISTANCE), "distance"
    if number == VERDICT_STAGE:
        return stage_at_fault(recipe), "recipe"
    if number == RECEIVED_SIZE:
        return "found %d by %d, channels: %d, allowed: %d by %d, channels: %d" % (*read_still(received)[:3], *read_still(raw)[:3]), "received"
    return first_refused(("recipe", read_recipe, recipe), ("raw", read_still, raw), ("received", read_still, received))


def verdict(recipe: BytesLike, raw: BytesLike, received: BytesLike, distance: int) -> bool:
    """Whether each sample of a still that was filtered elsewhere, in every channel, lies within a distance of the exact result on the raw still at its place.

        near = hejslopi.verdict(recipe, raw, received, 1)

    The distance is from 0 to 255 grey levels. The exact result is what the recipe's one stage, of ratios, a box or a rank, gives in fractions, kept to 0..255, with
    nothing rounded. At just that distance the answer is still `True`. A `Refusal` has in `argument` what is at fault.
    """
    recipe, raw, received = taken("recipe", recipe), taken("raw", raw), taken("received", received)
    run = "hejslopi_verdict", recipe, raw, received, limit_for("distance", distance, "0 to %d" % MOST_DISTANCE)
    result = results(1)
    # Room is tested last, so a call that is lent nothing gives any other refusal there is.
    number = call(*run, room(0), result)
    if number == ROOM:
        width, height = read_still(raw)[:2]
        number = call(*run, room(width * height), result)
    if number:
        raise Refusal(number, *at_fault(number, recipe, raw, received, distance))
    return bool(result[0])
