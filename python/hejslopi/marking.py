"""A picture of the movement between two stills, to look at instead of reading numbers."""
from __future__ import annotations

import operator
from typing import List

from .calls import read_still, write_still
from .kernels import UNITS
from .moving import Movement

# What samples tell. A pixel's is the bitwise or of its samples', so 3 is moved as well.
STILL, OPEN, MOVED = 0, 1, 2


def table(still: int, open: int, moved: int) -> bytes:
    """A byte for each thing that a pixel's samples tell, to translate by."""
    return bytes([still, open, moved, moved]) + bytes(252)


# Which pixels keep their samples; and in red, green and blue what stands in place of the others': moved is red, open is yellow.
KEPT = table(255, 0, 0)
MARKS = (table(0, 255, 255), table(0, 255, 0), table(0, 0, 0))


def motion(difference: int, limit: int, tolerances: int) -> int:
    """What two written samples tell that differ by so much: the tests of the call."""
    if UNITS * difference > UNITS * limit + tolerances:
        return MOVED
    return STILL if UNITS * difference + tolerances <= UNITS * limit else OPEN


def motions(seen: Movement, limit: int, start: int) -> bytes:
    """What the samples of each place tell, in the order of the rasters, which begin at `start`."""
    upwards = [motion(difference, limit, seen.tolerance1 + seen.tolerance2) for difference in range(256)]
    # A difference below 0 is looked up from the end.
    by_difference = upwards + upwards[:0:-1]
    told = bytes(map(by_difference.__getitem__, map(operator.sub, seen.picture1[start:], seen.picture2[start:])))
    if (told.count(MOVED), told.count(STILL), told.count(OPEN)) != seen[:3]:
        raise ValueError("limit: found %d, with which this movement was not counted" % limit)
    return told


def either(planes: List[bytes]) -> bytes:
    """The bitwise or of bytes, place by place. Whole numbers do that at once for all."""
    bits = 0
    for plane in planes:
        bits |= int.from_bytes(plane, "big")
    return bits.to_bytes(len(planes[0]), "big")


def kept(plane: bytes, places: bytes) -> bytes:
    """The bytes of a plane where `places` has 255, and 0 where it has 0."""
    return (int.from_bytes(plane, "big") & int.from_bytes(places, "big")).to_bytes(len(plane), "big")


def movement_picture(seen: Movement, limit: int) -> bytes:
    """The first filtered still as the bytes of a P6 file, with the pixels red of which a sample has moved, and those yellow of which none has and one is open.
    The limit is the one that the movement was counted with."""
    width, height, channels, start = read_still(seen.picture1)
    told = motions(seen, limit, start)
    pixels = either([told[channel::channels] for channel in range(channels)])
    raster = bytearray(3 * width * height)
    for colour, mark in enumerate(MARKS):
        plane = seen.picture1[start + colour % channels::channels]
        raster[colour::3] = either([kept(plane, pixels.translate(KEPT)), pixels.translate(mark)])
    return write_still(width, height, 3, raster)
