"""The movement between two stills."""
from __future__ import annotations

from typing import NamedTuple, Tuple

from .calls import ROOM, BytesLike, first_refused, lent, limit_for, needs, read_recipe, read_still, results, room, taken
from .library import call
from .messages import shown
from .refusals import Refusal

SIZES_DIFFER, MOVEMENT_LIMIT = 26, 27
MOST_LIMIT = 255


class Movement(NamedTuple):
    """How many samples have surely moved, are surely still and are open, the T of each still in 65,536ths of a grey level, and both filtered, as files' bytes."""
    moved: int
    still: int
    open: int
    tolerance1: int
    tolerance2: int
    picture1: bytes
    picture2: bytes


def at_fault(number: int, still1: bytes, recipe1: bytes, still2: bytes, recipe2: bytes, limit: int) -> Tuple[str, str]:
    """What was found, and in which argument."""
    if number == MOVEMENT_LIMIT:
        return "found %s" % shown(limit), "limit"
    if number == SIZES_DIFFER:
        return "found %d by %d, channels: %d, and %d by %d, channels: %d" % (*read_still(still1)[:3], *read_still(still2)[:3]), ""
    return first_refused(("recipe1", read_recipe, recipe1), ("still1", read_still, still1), ("recipe2", read_recipe, recipe2), ("still2", read_still, still2))


def movement(still1: BytesLike, recipe1: BytesLike, still2: BytesLike, recipe2: BytesLike, limit: int) -> Movement:
    """Filters two stills of one size, each by its own recipe, and counts the movement between them, over all samples of all channels.

        moved, still, open, *rest = hejslopi.movement(before, recipe, after, recipe, 19)

    The limit is from 0 to 255 grey levels. The exact results of a sample that has moved differ by more than the limit, those of one that is still do not. Of the
    open ones nothing is known: their written samples are so near to the limit that rounding may have decided. A `Refusal` has in `argument` what is at fault.
    """
    still1, recipe1, still2, recipe2 = taken("still1", still1), taken("recipe1", recipe1), taken("still2", still2), taken("recipe2", recipe2)
    runs = recipe1, still1, recipe2, still2, limit_for("limit", limit, "0 to %d" % MOST_LIMIT)

    def refused(number: int) -> Refusal:
        return Refusal(number, *at_fault(number, still1, recipe1, still2, recipe2, limit))

    # Room is tested last, so a call that is lent nothing gives any other refusal there is.
    number = call("hejslopi_movement", *runs, *lent(), room(0), room(0), results(6))
    if number != ROOM:
        raise refused(number)
    first, second = needs(still1, recipe1), needs(still2, recipe2)
    out1, out2, result = room(first.out), room(second.out), results(6)
    number = call("hejslopi_movement", *runs, *lent(first, second), out1, out2, result)
    if number:
        raise refused(number)
    return Movement(*result[:5], bytes(out1), bytes(out2))
