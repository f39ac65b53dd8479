"""Many stills filtered by one recipe into a folder: one that is refused does not stop the others."""
from __future__ import annotations

import os
import sys
from typing import List

from . import calls, files
from .filtering import about, filter_into
from .output import DONE, FAILED, Trouble, complain, name_text, put, say


class Lines:
    """A line for each still."""

    def __init__(self, count: int) -> None:
        self.count = count

    def filtered(self, target: str, tolerance: int) -> None:
        say("%s T %d" % (name_text(target), tolerance))

    def failed(self, trouble: Trouble) -> None:
        complain(str(trouble))

    def end(self, filtered: int, folder: str) -> None:
        """The lines have said all."""


class Bar(Lines):
    """A bar on a terminal that grows with each still, and a line at the end. Only what went wrong is said by name."""
    WIPE = "\r\033[K"

    def __init__(self, count: int) -> None:
        super().__init__(count)
        self.tried = 0
        self.draw()

    def draw(self) -> None:
        numbers = "%d of %d" % (self.tried, self.count)
        columns = os.get_terminal_size(sys.stdout.fileno()).columns or 80
        width = min(columns - len(numbers) - 4, 60)
        full = width * self.tried // self.count
        # Where a bar does not fit, the numbers do, or nothing: a line that breaks could not be wiped.
        put(self.WIPE + ("[%s%s] %s" % ("#" * full, "." * (width - full), numbers) if width > 4 else numbers[:columns - 1]))

    def filtered(self, target: str, tolerance: int) -> None:
        self.tried += 1
        self.draw()

    def failed(self, trouble: Trouble) -> None:
        put(self.WIPE)
        super().failed(trouble)
        self.tried += 1
        self.draw()

    def end(self, filtered: int, folder: str) -> None:
        say(self.WIPE + "%d of %d filtered into %s" % (filtered, self.count, name_text(folder)))


def targets_of(recipe: str, stills: List[str], folder: str) -> List[str]:
    """Where each filtered still goes: into the folder, under its own name. None may be lost by it, neither an input nor another's output."""
    targets = [os.path.join(folder, os.path.basename(still)) for still in stills]
    inputs = {os.path.realpath(path) for path in [recipe] + stills}
    outputs = set()
    for target in targets:
        if os.path.realpath(target) in inputs:
            raise Trouble(FAILED, "%s: is one of the files to be read, and would be written over" % name_text(target))
        if files.is_standard_output(target):
            raise Trouble(FAILED, "%s: is where standard output goes, and the lines with it" % name_text(target))
        if os.path.realpath(target) in outputs:
            raise Trouble(FAILED, "%s: two of the stills would be written there, and one would be lost" % name_text(target))
        outputs.add(os.path.realpath(target))
    return targets


def make_folder(folder: str) -> None:
    """The folder is made where it is missing; those above it have to be there."""
    try:
        if not os.path.isdir(folder):
            os.mkdir(folder)
    except OSError as wrong:
        raise files.cannot(folder, "made a folder", wrong) from None


def filter_many(recipe: str, stills: List[str], folder: str) -> int:
    """Filters each still. The status is the worst that any of them has."""
    targets = targets_of(recipe, stills, folder)
    data = files.read(recipe, files.MOST_RECIPE)
    with about(recipe):
        calls.read_recipe(data)
    make_folder(folder)
    progress = Bar(len(stills)) if sys.stdout.isatty() else Lines(len(stills))
    worst, filtered = DONE, 0
    for still, target in zip(stills, targets):
        try:
            progress.filtered(target, filter_into(still, recipe, data, target))
            filtered += 1
        except Trouble as trouble:
            progress.failed(trouble)
            worst = max(worst, trouble.status)
    progress.end(filtered, folder)
    return worst
