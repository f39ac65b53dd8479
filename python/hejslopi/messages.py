"""The form of every line about a mistake: the place, what was found, what is allowed."""
from __future__ import annotations

import difflib
import json
from decimal import Decimal
from typing import Any, Iterable

# Of a longer value a message has the beginning.
LONGEST = 60


def found(place: str, value: str, allowed: str) -> str:
    """One line about a mistake, the same for recipes and descriptions."""
    return "%s: found %s, allowed: %s" % (place, value, allowed)


def place_of(stage: int, *words: str) -> str:
    """A place in a recipe or a description: the stage from 1, then axis, tap and field as far as there are any."""
    return ", ".join(["stage %d" % stage] + [word for word in words if word])


def shown(value: Any) -> str:
    """A value in a message: as JSON writes it, on one line and not too long."""
    if isinstance(value, dict):
        return "an object"
    if isinstance(value, (list, tuple)):
        return "a list"
    if isinstance(value, int) and value.bit_length() > 200:
        return "a number of %d bits" % value.bit_length()
    if isinstance(value, Decimal) and value.is_finite() and abs(value.adjusted()) < 20:
        text = format(value, "f")
    elif value is None or isinstance(value, (str, bool)):
        text = json.dumps(value)
    else:
        text = " ".join(str(value).split())
    return text if len(text) <= LONGEST else text[:LONGEST] + ".."


def close_to(word: Any, words: Iterable[str]) -> str:
    """A hint at the word that may have been meant."""
    near = difflib.get_close_matches(word, list(words), 1) if isinstance(word, str) else []
    return "; is it %s?" % near[0] if near else ""
