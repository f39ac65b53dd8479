"""Files laid out before a run, and what lies there after it."""
import collections
import contextlib
import os
import stat
import subprocess
import tempfile

from tally import Words

# What lies at a path. `mark` tells a file that was written anew from one that was left alone, though both hold the same bytes.
Thing = collections.namedtuple("Thing", "kind bytes mark")

NOTHING = Thing("nothing", None, None)


@contextlib.contextmanager
def fresh_folder():
    """An empty folder that everybody may enter, removed afterwards, whatever its permissions have become."""
    with tempfile.TemporaryDirectory(prefix="hejslopi-") as folder:
        os.chmod(folder, 0o755)
        try:
            yield folder
        finally:
            os.chmod(folder, 0o755)


# ---- ways to lay a file. One that starts a process gives it back, so that it can be ended.


def nothing(path):
    """The file is missing."""


def folder(path):
    os.mkdir(path)


def holding(data, mode=0o644):
    """A file with these bytes, as if it had been there since 1970: whoever writes to it changes its time."""
    def lay(path):
        with open(path, "wb") as file:
            file.write(data)
        os.chmod(path, mode)
        os.utime(path, (0, 0))
    return lay


def link_to(target):
    return lambda path: os.symlink(target, path)


def in_pieces(data):
    """A pipe that gives its first bytes, then for a while none, then the rest: one read does not get all."""
    def lay(path):
        os.mkfifo(path)
        pieces = ["".join("\\%03o" % byte for byte in piece) for piece in (data[:4], data[4:])]
        return subprocess.Popen(["sh", "-c", 'exec >"$0"; printf "$1"; sleep 0.05; printf "$2"', path] + pieces, stderr=subprocess.DEVNULL)
    return lay


# ---- what lies there


def lies_at(path):
    """What lies at a path. A link is not followed."""
    try:
        status = os.lstat(path)
    except FileNotFoundError:
        return NOTHING
    if stat.S_ISLNK(status.st_mode):
        return Thing("a link to %s" % os.readlink(path), None, None)
    if stat.S_ISDIR(status.st_mode):
        return Thing("a folder of %d files" % len(os.listdir(path)), None, None)
    if not stat.S_ISREG(status.st_mode):
        return Thing("a pipe", None, None)
    return Thing("a file", bytes_of(path), (status.st_ino, status.st_mode, status.st_mtime_ns))


def bytes_of(path):
    """A file's bytes, or None of one that may not be read: its mark tells then."""
    try:
        with open(path, "rb") as file:
            return file.read()
    except PermissionError:
        return None


def lying_in(path):
    """Everything in a folder by name."""
    return {name: lies_at(os.path.join(path, name)) for name in os.listdir(path)}


def apart(found, expected):
    """How two things differ, in words: found, expected. None where they do not. An expected thing without a mark may have any."""
    if found.kind != expected.kind:
        return Words(found.kind), Words(expected.kind)
    if found.bytes != expected.bytes:
        return held(found.bytes, expected.bytes), held(expected.bytes, found.bytes)
    if expected.mark is not None and found.mark != expected.mark:
        return Words("the same bytes, written anew"), Words("a file that was left alone")
    return None


def held(data, other):
    """Bytes by their number and by what stands where they are not as the others."""
    if data is None or other is None:
        return Words("a file that %s" % ("may not be read" if data is None else "may be read"))
    same = len(os.path.commonprefix([data, other]))
    return Words("%d bytes, at place %d: %s" % (len(data), same, data[same:same + 8].hex(" ").upper() or "the end"))
