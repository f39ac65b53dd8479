"""A background: up to a thousand stills of one size, kept in memory of its own, and their mean."""
from __future__ import annotations

import ctypes
from typing import Any, NamedTuple, Optional, Tuple

from . import faults
from .calls import BytesLike, read_still, results, room, taken, word
from .library import call
from .refusals import Refusal

MOST_STILLS = 1000
ROOM, STILL_NUMBER, STILL_SIZE = 20, 23, 24


class Mean(NamedTuple):
    """The mean of a background's stills as a raster, and T in 65,536ths of a grey level."""
    raster: bytes
    tolerance: int


class Background:
    """Up to 1,000 stills of one size, each with a number and its tolerance T, and their mean.

        background = hejslopi.Background()
        background.add(b"P5\\n2 1\\n255\\n\\x0a\\xfa", 7, 100)
        background.add(b"P5\\n2 1\\n255\\n\\x0b\\xff", 8, 300)
        raster, T = background.mean()       # samples 11 253, and 33068
        background.size                     # width, height, channels: (2, 1, 1)
        background.remove(7)                # len(background) is 1 now

    Numbers and T are from 0 to 4,294,967,295. Others raise `ValueError`, and what is no whole number raises `TypeError`: neither is a refusal.
    What is refused raises `Refusal`. Memory grows with the stills, and is given back with the last one; where the machine has none left, `MemoryError` is raised.
    After any of these the background is as it was. It may not be used by two threads at once.
    """

    def __init__(self) -> None:
        self._forget()

    def _forget(self) -> None:
        """No stills, and no memory. `held` is how many stills there are, their width, height and channels."""
        self._rasters, self._labels, self._held = room(0), labels(0), results(4)

    def __len__(self) -> int:
        """How many stills are held."""
        return int(self._held[0])

    @property
    def size(self) -> Optional[Tuple[int, int, int]]:
        """Width, height and channels, which all stills held have in common. None where there are none."""
        stills, width, height, channels = self._held
        return (width, height, channels) if stills else None

    def add(self, still: BytesLike, number: int, tolerance: int) -> None:
        """Adds a still, as a file's bytes, with a number that no other one has, and its T: both from 0 to 4,294,967,295. The first still may have any size,
        the others must have the same. Raises `MemoryError` where the machine has no memory for one more. (In Rust, that is refusal 20.)"""
        still, number, tolerance = taken("still", still), word("number", number), word("tolerance", tolerance)
        refusal = self._added(still, number, tolerance)
        if refusal == ROOM:
            # The stills held have their room, so only the last test gives this: all others have passed.
            self._grow(still)
            refusal = self._added(still, number, tolerance)
        if refusal:
            raise Refusal(refusal, self._fault(refusal, number, still))

    def remove(self, number: int) -> None:
        """Removes the still of a number, from 0 to 4,294,967,295."""
        number = word("number", number)
        refusal = call("hejslopi_background_remove", ctypes.c_uint32(number), self._rasters, self._labels, self._held)
        if refusal:
            raise Refusal(refusal, self._fault(refusal, number))
        if not len(self):
            # The next one may have another size.
            self._forget()

    def mean(self) -> Optional[Mean]:
        """The mean of the stills held, sample by sample, halves up, and its T. None where there are none.

        It is a raster: `write_still(*background.size, raster)` makes a still of it.
        """
        out, result = room(self._samples()), results(3)
        refusal = call("hejslopi_background_mean", self._rasters, self._labels, ctypes.byref(self._held), out, result)
        if refusal:
            raise Refusal(refusal)
        stills, tolerance, _ = result
        return Mean(bytes(out), tolerance) if stills else None

    def _added(self, still: bytes, number: int, tolerance: int) -> int:
        return call("hejslopi_background_add", still, ctypes.c_uint32(number), ctypes.c_uint32(tolerance), self._rasters, self._labels, self._held)

    def _samples(self) -> int:
        """How many samples each still has."""
        _, width, height, channels = self._held
        return int(width * height * channels)

    def _grow(self, still: bytes) -> None:
        """Makes room for a still more: for twice as many as are held, so that stills are seldom copied, or else for just this one."""
        width, height, channels, _ = read_still(still)
        more = len(self) + 1
        try:
            self._make_room(max(more, min(2 * len(self), MOST_STILLS)), width * height * channels)
        except MemoryError:
            self._make_room(more, width * height * channels)

    def _make_room(self, stills: int, samples: int) -> None:
        """Memory for so many stills, and in it those held. Where there is no memory for them, nothing changes."""
        self._rasters, self._labels = copied(self._rasters, room(stills * samples)), copied(self._labels, labels(2 * stills))

    def _fault(self, refusal: int, number: int, still: bytes = b"") -> str:
        """What was found, for the words of a refusal."""
        if refusal == STILL_NUMBER:
            return "number %d, stills held: %d" % (number, len(self))
        if refusal == STILL_SIZE:
            return "found %d by %d, channels: %d; held: %d by %d, channels: %d" % (*read_still(still)[:3], *self._held[1:])
        return faults.in_still(still, refusal)


def labels(count: int) -> Any:
    return (ctypes.c_uint32 * count)()


def copied(held: Any, into: Any) -> Any:
    """A longer array with the elements of another at its front."""
    ctypes.memmove(into, held, ctypes.sizeof(held))
    return into
