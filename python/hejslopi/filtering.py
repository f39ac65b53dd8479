"""One still filtered from file to file."""
from __future__ import annotations

import contextlib
from typing import Dict, Iterator

from . import calls, files
from .output import FAILED, REFUSED, Trouble, name_text
from .refusals import OF_RECIPES, Refusal
from .values import Mistake


@contextlib.contextmanager
def about(path: str, recipe: str = "") -> Iterator[None]:
    """Says of which file a refusal or a mistake is. Where a recipe is named too, refusals of recipes are its."""
    try:
        yield
    except (Refusal, Mistake) as wrong:
        of_recipe = recipe and getattr(wrong, "number", 0) in OF_RECIPES
        raise Trouble(REFUSED, "%s: %s" % (name_text(recipe if of_recipe else path), wrong)) from None
    except MemoryError:
        raise Trouble(FAILED, "%s: there is not enough memory" % name_text(path)) from None


@contextlib.contextmanager
def about_each(paths: Dict[str, str]) -> Iterator[None]:
    """The same for a call that takes several files: each by its argument, and under "" what is said of none alone."""
    with about(paths[""]):
        try:
            yield
        except Refusal as wrong:
            with about(paths[wrong.argument]):
                raise Refusal(wrong.number, wrong.where) from None


def filter_into(still: str, recipe: str, data: bytes, target: str) -> int:
    """Filters a file by the bytes of a recipe. The target is touched only once the library has accepted both."""
    with about(still, recipe):
        picture, tolerance = calls.filter_file(files.read_whole(still, files.MOST_STILL), data)
    files.write(target, picture)
    return tolerance
