"""The six calls on stills and recipes. Each takes bytes-like objects only, and raises `Refusal` where the library refuses; nothing is kept between calls."""
from __future__ import annotations

import ctypes
import operator
from typing import Any, Callable, NamedTuple, Sequence, Tuple, Union

from . import faults
from .library import call
from .messages import found, shown
from .refusals import OF_RECIPES, Refusal

BytesLike = Union[bytes, bytearray, memoryview]

MOST_SIDE = 8192
MOST_WORD = (1 << 32) - 1
ROOM, STAGE_LIMIT, SAMPLE_LIMIT = 20, 28, 29


class Still(NamedTuple):
    """What a still's header says, and at which of its bytes the raster begins."""
    width: int
    height: int
    channels: int
    raster_start: int


class Recipe(NamedTuple):
    """How many stages a recipe has, and its tolerance T in 65,536ths of a grey level."""
    stages: int
    tolerance: int


class Needs(NamedTuple):
    """How many work bytes, row values and sums a run must be lent, how many bytes it writes, and its tolerance T in 65,536ths of a grey level."""
    work: int
    rows: int
    sums: int
    out: int
    tolerance: int


class FilteredFile(NamedTuple):
    """A filtered still as a file's bytes, and T in 65,536ths of a grey level."""
    picture: bytes
    tolerance: int


class FilteredPlane(NamedTuple):
    """A filtered plane, and T in 65,536ths of a grey level."""
    samples: bytes
    tolerance: int


class Limits(NamedTuple):
    """How many stages a recipe may have, and how many samples a plane of a still: width times height, however many channels there are."""
    stages: int
    samples: int


# The archive's, and those of every call that takes none: no recipe that is accepted has more stages, and no still more samples.
ARCHIVE = Limits(8, MOST_SIDE * MOST_SIDE)
# The bedside panel's.
PANEL = Limits(4, 8192)


# ---- what is handed on


def taken(name: str, given: BytesLike) -> bytes:
    """The bytes of an argument: as they are, or copied from what somebody might alter while the library reads. Nothing else is taken for bytes."""
    if isinstance(given, bytes):
        return given
    try:
        view = memoryview(given)
    except TypeError:
        raise TypeError("%s: bytes are needed, and this is of type %s" % (name, type(given).__name__)) from None
    if view.itemsize != 1:
        raise TypeError("%s: bytes are needed, and these are elements of %d bytes each" % (name, view.itemsize))
    return view.tobytes()


def whole(name: str, given: int) -> int:
    """A whole number. True and false are none."""
    try:
        if not isinstance(given, bool):
            return operator.index(given)
    except TypeError:
        pass
    raise TypeError("%s: a whole number is needed, and this is of type %s" % (name, type(given).__name__))


def size(name: str, given: int) -> int:
    """A number for the library. One that no machine word holds is as far from every allowed one as 0, which is handed on in its place."""
    number = whole(name, given)
    return number if 0 <= number < 1 << 64 else 0


def word(name: str, given: int) -> int:
    """A number of 32 bits for the library, which knows no refusal for another one."""
    number = whole(name, given)
    if not 0 <= number <= MOST_WORD:
        raise ValueError(found(name, shown(number), "0 to %s" % format(MOST_WORD, ",")))
    return number


def limit_for(name: str, given: int, allowed: str) -> int:
    """A limit for the library. One that no machine word holds is as far above all that there is as the largest that one does, which is handed on in its place."""
    number = whole(name, given)
    if number < 0:
        raise ValueError(found(name, shown(number), allowed))
    return min(number, (1 << 64) - 1)


def limits_for(given: Sequence[int]) -> Limits:
    """A caller's limits for the library."""
    if not isinstance(given, (tuple, list)):
        raise TypeError("limits: a pair of stages and samples is needed, and this is of type %s" % type(given).__name__)
    if len(given) != 2:
        raise ValueError("limits: a pair of stages and samples is needed, and this has a length of %d" % len(given))
    return Limits(*(limit_for("limits, " + name, number, "0 or more") for name, number in zip(Limits._fields, given)))


def results(count: int) -> Any:
    return (ctypes.c_uint64 * count)()


def room(count: int) -> Any:
    return (ctypes.c_uint8 * count)()


def are_sides(width: int, height: int) -> bool:
    return 1 <= width <= MOST_SIDE and 1 <= height <= MOST_SIDE


def grey_header(width: int, height: int) -> bytes:
    """The header of a still of one channel. That of three is as long."""
    return b"P5\n%d %d\n255\n" % (width, height)


def lent(*needed: Needs) -> Tuple[Any, Any, Any]:
    """Work bytes, row values and sums, just as many as each of these needs: none where nothing is named."""
    work, rows, sums = (max((lengths[i] for lengths in needed), default=0) for i in range(3))
    return room(work), (ctypes.c_int32 * rows)(), (ctypes.c_uint32 * sums)()


def done(number: int, recipe: bytes = b"", still: bytes = b"") -> None:
    """Raises the refusal of a call, with the place at fault."""
    if number in OF_RECIPES:
        raise Refusal(number, faults.in_recipe(recipe, number))
    if number:
        raise Refusal(number, faults.in_still(still, number))


def first_refused(*arguments: Tuple[str, Callable[[bytes], Any], bytes]) -> Tuple[str, str]:
    """What was found, and in which argument: the first, in the order of the tests, that is refused by itself. "" where none is."""
    for argument, read, data in arguments:
        try:
            read(data)
        except Refusal as wrong:
            return wrong.where, argument
    return "", ""


# ---- the calls


def read_still(still: BytesLike) -> Still:
    """Width, height, channels, and at which index of the bytes the raster begins."""
    still, result = taken("still", still), results(4)
    done(call("hejslopi_read_still", still, result), still=still)
    return Still(*result)


def write_still(width: int, height: int, channels: int, raster: BytesLike) -> bytes:
    """A still as a file's bytes: header and raster."""
    given = shown(width), shown(height), shown(channels)
    width, height, channels = size("width", width), size("height", height), size("channels", channels)
    raster, result = taken("raster", raster), results(1)
    # What is going to be refused for another reason is lent nothing.
    right = are_sides(width, height) and channels in (1, 3) and len(raster) == width * height * channels
    out = room(len(grey_header(width, height)) + width * height * channels if right else 0)
    number = call("hejslopi_write_still", width, height, channels, raster, out, result)
    if number:
        raise Refusal(number, "found a picture of %s by %s, channels: %s, samples: %d" % (*given, len(raster)))
    return ctypes.string_at(out, result[0])


def read_recipe(recipe: BytesLike) -> Recipe:
    """How many stages a recipe has, and its tolerance T."""
    recipe, result = taken("recipe", recipe), results(2)
    done(call("hejslopi_read_recipe", recipe, result), recipe)
    return Recipe(*result)


def needs(still: BytesLike, recipe: BytesLike) -> Needs:
    """What a still and a recipe need, without filtering: the length of each buffer that a run must be lent, how many bytes it writes, and its T.

        work, rows, sums, out, T = hejslopi.needs(still, recipe)

    Of the still the header decides alone: behind it there may be too few samples, too many or none. A still that `filter_file` takes needs just these, and comes
    out with just this T and length.
    """
    still, recipe, result = taken("still", still), taken("recipe", recipe), results(5)
    done(call("hejslopi_needs", recipe, still, result), recipe, still)
    return Needs(*result)


def filter_plane(plane: BytesLike, width: int, height: int, recipe: BytesLike) -> FilteredPlane:
    """A plane of width times height samples, row by row, filtered by a recipe of one stage."""
    given = shown(width), shown(height)
    plane, recipe = taken("plane", plane), taken("recipe", recipe)
    width, height = size("width", width), size("height", height)
    stages = read_recipe(recipe).stages
    run = "hejslopi_filter_plane", recipe, width, height, plane
    # Room is tested last, so a call that is lent nothing gives any other refusal there is.
    number = call(*run, *lent(), room(0), results(1))
    if number != ROOM:
        raise Refusal(number, "found stages: %d, a plane of %s by %s, samples: %d" % (stages, *given, len(plane)))
    # A plane needs what a still of its size does, and no room for a header.
    out, result = room(width * height), results(1)
    done(call(*run, *lent(needs(grey_header(width, height), recipe)), out, result), recipe)
    return FilteredPlane(bytes(out), result[0])


def over_limits(number: int, recipe: bytes, still: bytes, most: Limits) -> Refusal:
    """The refusal of a recipe that is accepted, or of a still that is read, by a caller's limits."""
    if number == STAGE_LIMIT:
        return Refusal(number, "found %d, allowed: at most %d" % (recipe[0], most.stages))
    width, height = read_still(still)[:2]
    return Refusal(number, "found %d by %d, which are %d, allowed: at most %d" % (width, height, width * height, most.samples))


def filter_file(still: BytesLike, recipe: BytesLike, limits: Sequence[int] = ARCHIVE) -> FilteredFile:
    """A still, as a file's bytes, filtered by a recipe: the filtered still, as a file's bytes, and the tolerance T.

        picture, T = hejslopi.filter_file(still, recipe, limits=hejslopi.PANEL)

    The limits are how many stages the recipe may have and how many samples a plane of the still, at most: more are refused with 28 and 29. What they let by comes
    out as without them.
    """
    still, recipe, most = taken("still", still), taken("recipe", recipe), limits_for(limits)
    run = "hejslopi_filter_file_limited", recipe, still, *most
    # Room is tested last, so a call that is lent nothing gives any other refusal there is.
    number = call(*run, *lent(), room(0), results(5))
    if number in (STAGE_LIMIT, SAMPLE_LIMIT):
        raise over_limits(number, recipe, still, most)
    if number != ROOM:
        done(number, recipe, still)
    needed = needs(still, recipe)
    out, result = room(needed.out), results(5)
    done(call(*run, *lent(needed), out, result), recipe, still)
    return FilteredFile(ctypes.string_at(out, result[4]), result[3])
