"""The refusals of the library by their numbers, and what each means."""
from __future__ import annotations

from typing import Tuple, Type

MEANINGS = {
    1: "the file does not begin with P5 or P6",
    2: "the header lacks a separator, a number or the whitespace byte at its end",
    3: "the width or the height is not from 1 to 8,192",
    4: "the header's maximum is not 255",
    5: "there are fewer samples than the picture's size asks for",
    6: "there are more samples than the picture's size asks for",
    10: "the number of stages is 0 or over 8",
    11: "the recipe ends before a field is complete",
    12: "the recipe goes on after its last stage",
    13: "a kind is not 1 to 6, a border is over 3, or a border other than constant has a value that is not 0",
    14: "an axis has 0 or over 31 taps, a divisor is 0, a radius is over 15, or a plane's recipe has several stages",
    15: "an offset is not -15 to 15, or not above the one before it",
    16: "the size of a real weight is neither 0 nor from 2^-12 to 4",
    17: "an axis has a gain above 4",
    18: "a rank's position is 0 or above the number of samples in its window",
    19: "the number of channels is neither 1 nor 3",
    20: "a lent buffer has less room than the call needs",
    23: "the number to add is already there, or the number to remove is not",
    24: "the still has another size or other channels than those held",
    25: "a thousand stills are already held",
    26: "the two stills have different sizes or channels",
    27: "the movement limit is over 255",
    28: "the recipe has more stages than the caller's limit",
    29: "the still has more samples a plane, width times height, than the caller's limit",
    30: "the recipe has more than one stage, or a stage of another kind than ratios, box and rank",
    31: "the received still has another size or other channels than the raw one",
    32: "the distance is over 255",
}

# The numbers whose cause lies in the recipe; all others lie in the still, in the call, in a background or between two stills.
OF_RECIPES = range(10, 19)


class Refusal(Exception):
    """A call that was refused: `number`, what that means in `meaning`, and in `where` the place at fault as far as one can be named. `argument` says in which
    argument that is, of a call that takes two stills."""

    def __init__(self, number: int, where: str = "", argument: str = "") -> None:
        self.number = number
        self.meaning = MEANINGS.get(number, "unknown")
        self.where = where
        self.argument = argument
        place = ": ".join(filter(None, (argument, where)))
        super().__init__("refused with %d: %s" % (number, self.meaning) + (" (%s)" % place if place else ""))

    def __reduce__(self) -> Tuple[Type[Refusal], Tuple[int, str, str]]:
        """A refusal can be sent from one process to another."""
        return Refusal, (self.number, self.where, self.argument)
