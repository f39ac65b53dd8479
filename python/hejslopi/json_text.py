"""Descriptions from JSON. Numbers stay as they were typed, and keys that come twice are noticed, where Python's own reader says nothing."""
from __future__ import annotations

import json
from collections import Counter
from decimal import Decimal
from typing import Any, List, Tuple, Union

from .messages import shown
from .values import Mistake

BYTE_ORDER_MARKS = (b"\xef\xbb\xbf", b"\xff\xfe", b"\xfe\xff")

# No number of a recipe needs as many digits, and longer ones would only cost time.
MOST_DIGITS = 400


class Object(dict):
    """An object, with the keys that were given more than once."""

    def __init__(self, pairs: List[Tuple[str, Any]]) -> None:
        super().__init__(pairs)
        self.twice = [key for key, count in Counter(key for key, _ in pairs).items() if count > 1]


def number(text: str) -> Union[int, Decimal]:
    """A number as it was typed: a whole one, or a decimal that keeps its digits."""
    if len(text) > MOST_DIGITS:
        raise Mistake("the description", "a number of %d characters" % len(text), "at most %d" % MOST_DIGITS)
    try:
        return int(text) if text.lstrip("-").isdigit() else Decimal(text)
    except ArithmeticError:
        raise Mistake("the description", shown(text), "a number that can be held") from None


def parsed(data: bytes) -> Any:
    """What a text in JSON says. NaN and Infinity, which are none, are refused where they stand: no value may be one of them."""
    if data.startswith(BYTE_ORDER_MARKS):
        raise Mistake("the description", "a byte order mark at its beginning", "JSON in UTF-8 without one")
    try:
        text = data.decode("utf-8")
        return json.loads(text, object_pairs_hook=Object, parse_int=number, parse_float=number, parse_constant=Decimal)
    except UnicodeDecodeError as wrong:
        raise Mistake("byte %d" % (wrong.start + 1), "%02X" % data[wrong.start], "JSON in UTF-8") from None
    except json.JSONDecodeError as wrong:
        rest = text[wrong.pos:].split()
        raise Mistake("line %d, column %d" % (wrong.lineno, wrong.colno), shown(rest[0][:20]) if rest else "the end", "JSON (%s)" % wrong.msg.lower()) from None
    except RecursionError:
        raise Mistake("the description", "brackets inside brackets, too deep to follow", "a list of stages") from None
