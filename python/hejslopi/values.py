"""Values of a description, looked at one by one. What is wrong is said by `Mistake`."""
from __future__ import annotations

import operator
from typing import Any, Dict, Iterable, Tuple, Type

from .messages import close_to, found, shown


class Mistake(ValueError):
    """A description that is wrong."""

    def __init__(self, place: str, value: str, allowed: str) -> None:
        super().__init__(found(place, value, allowed))
        self.parts = place, value, allowed

    def __reduce__(self) -> Tuple[Type[Mistake], Tuple[str, str, str]]:
        """A mistake can be sent from one process to another."""
        return Mistake, self.parts


def one_of(place: str, value: Any, words: Iterable[str]) -> str:
    if isinstance(value, str) and value in words:
        return value
    raise Mistake(place, shown(value), ", ".join(words) + close_to(value, words))


def whole(place: str, value: Any, least: int, most: int) -> int:
    """A whole number of a range. True and false are none."""
    try:
        number = None if isinstance(value, bool) else operator.index(value)
    except TypeError:
        number = None
    if number is None or not least <= number <= most:
        raise Mistake(place, shown(value), "a whole number from %s to %s" % (format(least, ","), format(most, ",")))
    return number


def keyed(place: str, given: Any, needed: Tuple[str, ...], optional: Tuple[str, ...] = ()) -> Dict[str, Any]:
    """An object with all of the needed keys, each once, and no others but optional ones."""
    allowed = [*needed, *optional]
    if not isinstance(given, dict):
        raise Mistake(place, shown(given), "an object with the keys %s" % ", ".join(allowed))
    for key in getattr(given, "twice", ()):
        raise Mistake(place, "the key %s twice" % shown(key), "each key once")
    for key in given:
        if key not in allowed:
            raise Mistake(place, "the key %s" % shown(key), ", ".join(allowed) + close_to(key, allowed))
    for key in needed:
        if key not in given:
            raise Mistake(place, "no key %s" % shown(key), ", ".join(needed) + (", all of them" if len(needed) > 1 else ""))
    return given
