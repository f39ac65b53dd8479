"""What the command says, and how it ends. What cannot be said on standard output is a failure."""
from __future__ import annotations

import os
import sys
from typing import Any

DONE, REFUSED, FAILED = 0, 1, 2
# A verdict of `not`, the status of a refusal elsewhere.
NOT = 1


class Trouble(Exception):
    """What the command could not do, in one line, and the status that it ends with."""

    def __init__(self, status: int, text: str) -> None:
        super().__init__(text)
        self.status = status


def name_text(path: str) -> str:
    """A path in a message: as it is, with `?` for what would break the line or cannot be shown."""
    return "".join(letter if letter.isprintable() else "?" for letter in path) or '""'


def silence(stream: Any) -> None:
    """Sends what a stream still holds nowhere: it could not be written, and must not be tried again at the end."""
    nowhere = os.open(os.devnull, os.O_WRONLY)
    os.dup2(nowhere, stream.fileno())
    os.close(nowhere)


def put(text: str) -> None:
    """Writes to standard output and sees that it got there."""
    try:
        sys.stdout.write(text)
        sys.stdout.flush()
    except OSError as wrong:
        silence(sys.stdout)
        raise Trouble(FAILED, "standard output cannot be written: %s" % wrong.strerror) from None


def say(text: str) -> None:
    put(text + "\n")


def complain(text: str) -> bool:
    """A line on standard error, and whether it got there. Where that is closed or full, the status alone has to tell."""
    if sys.stderr is None:
        return False
    try:
        sys.stderr.write("hejslopi: %s\n" % text)
        sys.stderr.flush()
    except OSError:
        silence(sys.stderr)
        return False
    return True


def prepare() -> None:
    """Sees that there is a standard output. Names are shown whatever their bytes are."""
    if sys.stdout is None:
        raise Trouble(FAILED, "standard output is closed")
    for stream in (sys.stdout, sys.stderr):
        if hasattr(stream, "reconfigure"):
            stream.reconfigure(errors="backslashreplace")
