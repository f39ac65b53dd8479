"""Files read whole, and written whole or not at all."""
from __future__ import annotations

import contextlib
import errno
import os
import secrets
import signal
import stat
import sys
from typing import Iterator, Optional

from .output import FAILED, Trouble, name_text

# The longest still has 8,192 by 8,192 samples of three channels; the rest is for its header's comments.
MOST_STILL = 3 * 8192 * 8192 + (1 << 20)
# No recipe that is accepted is longer than 2,521 bytes, and fields are tested in the order of their bytes: what is behind these cannot change an answer.
MOST_RECIPE = 65536
MOST_DESCRIPTION = 1 << 20

# A file whose length is not known beforehand is read in pieces of so many bytes.
PIECE = 1 << 20
# As many links as Linux follows.
MOST_LINKS = 40


def cannot(path: str, what: str, wrong: OSError) -> Trouble:
    return Trouble(FAILED, "%s: cannot be %s: %s" % (name_text(path), what, wrong.strerror or wrong))


# ---- reading


def read(path: str, most: int) -> bytes:
    """A file's first bytes, up to so many: no file is endless here."""
    try:
        with open(path, "rb") as file:
            pieces = [file.read(min(most, os.fstat(file.fileno()).st_size + 1))]
            while pieces[-1] and most > sum(map(len, pieces)):
                pieces.append(file.read(min(most - sum(map(len, pieces)), PIECE)))
            return b"".join(filter(None, pieces))
    except OSError as wrong:
        raise cannot(path, "read", wrong) from None


def read_whole(path: str, most: int) -> bytes:
    """A file's bytes, where there are not more than so many."""
    data = read(path, most + 1)
    if len(data) > most:
        raise cannot(path, "read", OSError("it is longer than %s bytes" % format(most, ",")))
    return data


def same(one: str, other: str) -> bool:
    """Whether both paths lead to one file."""
    try:
        return os.path.samefile(one, other)
    except OSError:
        return False


def is_standard_output(path: str) -> bool:
    """Whether a path leads to where standard output goes: the line would be lost with the old file, or stand behind the samples. A terminal may have both."""
    try:
        there, printed = os.stat(path), os.fstat(sys.stdout.fileno())
    except (OSError, ValueError):
        return False
    return not stat.S_ISCHR(there.st_mode) and os.path.samestat(there, printed)


# ---- writing


def write(path: str, data: bytes) -> None:
    """Writes a file. A regular one holds these bytes afterwards, or is as it was before; anything else, as a device, is written in place."""
    try:
        old = status_of(path)
        if old is None or stat.S_ISREG(old.st_mode):
            replace(followed(path), data, old)
        else:
            with open(path, "wb") as file:
                file.write(data)
    except OSError as wrong:
        raise cannot(path, "written", wrong) from None


def status_of(path: str) -> Optional[os.stat_result]:
    """What lies at a path, links followed. None where nothing does."""
    try:
        return os.stat(path)
    except FileNotFoundError:
        return None


def followed(path: str) -> str:
    """What a path names once its last name is no link any more, whether that is there or not. All else is left to the system."""
    for _ in range(MOST_LINKS):
        if not os.path.islink(path):
            break
        path = os.path.join(os.path.dirname(path), os.readlink(path))
    return path


def replace(path: str, data: bytes, old: Optional[os.stat_result]) -> None:
    """Writes a new file beside the path, sees that the disk has it, and gives it the path's name."""
    if old is not None and not os.access(path, os.W_OK):
        raise PermissionError(errno.EACCES, os.strerror(errno.EACCES))
    new = os.path.join(os.path.dirname(path), ".hejslopi-" + secrets.token_hex(8))
    with unwinding():
        try:
            with open(new, "xb") as file:
                # Nobody else may read what takes the place of another before it has that one's permissions.
                if old is not None:
                    os.fchmod(file.fileno(), stat.S_IMODE(old.st_mode) & 0o777)
                file.write(data)
                file.flush()
                os.fsync(file.fileno())
            os.replace(new, path)
        except FileExistsError:
            raise
        except BaseException:
            with contextlib.suppress(FileNotFoundError):
                os.remove(new)
            raise


@contextlib.contextmanager
def unwinding() -> Iterator[None]:
    """While a new file is there, Ctrl-C and the like do not end the process on the spot, but by an exception that removes the file."""
    ending = [number for number in (signal.SIGINT, signal.SIGTERM, signal.SIGHUP) if signal.getsignal(number) == signal.SIG_DFL]
    for number in ending:
        signal.signal(number, lambda number, _: sys.exit(128 + number))
    try:
        yield
    finally:
        for number in ending:
            signal.signal(number, signal.SIG_DFL)
