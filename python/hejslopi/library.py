"""The proved library as a shared object, and its functions called with bytes, arrays and numbers.

It is looked for in the folder that HEJSLOPI_LIB_DIR names, else beside this file (where it was installed), else in the repository's target/staticlib. From
a static library, libcapi.a, the shared one is made beside it with the machine's cc, once.
"""
from __future__ import annotations

import ctypes
import os
import shutil
import subprocess
import tempfile
import threading
from typing import Any, Optional

ARCHIVE, SHARED = "libcapi.a", "libcapi.so"
HERE = os.path.dirname(os.path.abspath(__file__))


class LibraryError(OSError):
    """The library cannot be found, made or loaded. The text says in one line what is missing."""


def folder() -> str:
    """Where the library has to be."""
    named = os.environ.get("HEJSLOPI_LIB_DIR")
    if named:
        return named
    if os.path.exists(os.path.join(HERE, SHARED)):
        return HERE
    return os.path.normpath(os.path.join(HERE, "..", "..", "target", "staticlib"))


def link(archive: str, shared: str) -> None:
    """Makes a shared object of a static library: in a folder of its own first, so that nobody loads half of one."""
    if not os.access(os.path.dirname(shared), os.W_OK):
        raise LibraryError("%s cannot be made: its folder is closed to writing" % shared)
    if shutil.which("cc") is None:
        raise LibraryError("%s cannot be made: the C compiler cc is not to be found, and is needed once" % shared)
    with tempfile.TemporaryDirectory(dir=os.path.dirname(shared), prefix=".hejslopi-") as room:
        made = os.path.join(room, SHARED)
        command = ["cc", "-shared", "-o", made, "-Wl,--whole-archive", archive, "-Wl,--no-whole-archive"]
        done = subprocess.run(command, stdin=subprocess.DEVNULL, stdout=subprocess.PIPE, stderr=subprocess.STDOUT)
        if done.returncode != 0 or not os.path.exists(made):
            lines = done.stdout.decode("utf-8", "replace").strip().splitlines() or ["cc ended with status %d" % done.returncode]
            raise LibraryError("%s cannot be made: %s" % (shared, lines[0]))
        os.replace(made, shared)


def missing(archive: str) -> str:
    return "no library at %s: run `tools/build library` at the top of the repository, or name the folder of %s in HEJSLOPI_LIB_DIR" % (archive, ARCHIVE)


def shared_object() -> str:
    """The path of the shared object, made again where the static library is newer."""
    archive, shared = (os.path.join(os.path.abspath(folder()), name) for name in (ARCHIVE, SHARED))
    if not os.path.exists(archive):
        if os.path.exists(shared):
            return shared
        raise LibraryError(missing(archive))
    if not os.path.exists(shared) or os.path.getmtime(shared) < os.path.getmtime(archive):
        link(archive, shared)
    return shared


_loaded: Optional[ctypes.CDLL] = None
_loading = threading.Lock()


def loaded() -> ctypes.CDLL:
    """The library, loaded at its first use."""
    global _loaded
    with _loading:
        if _loaded is None:
            try:
                _loaded = ctypes.CDLL(shared_object())
            except LibraryError:
                raise
            except OSError as wrong:
                raise LibraryError("the library cannot be loaded: %s" % wrong) from None
    return _loaded


def call(name: str, *arguments: Any) -> int:
    """Calls a function: 0, or the number of the refusal. Bytes and arrays go as pointer and length, the last argument, its results, as a pointer. Numbers go
    as sizes, and what is neither, a number or a pointer of ctypes, as it is."""
    flat = []
    for argument in arguments[:-1]:
        if isinstance(argument, int):
            flat.append(ctypes.c_size_t(argument))
        elif hasattr(argument, "__len__"):
            held = ctypes.c_char_p(argument) if isinstance(argument, bytes) else argument
            flat += [held, ctypes.c_size_t(len(argument))]
        else:
            flat.append(argument)
    try:
        function = getattr(loaded(), name)
    except AttributeError:
        raise LibraryError("the library in %s is another one: it has no %s" % (folder(), name)) from None
    function.restype = ctypes.c_uint32
    return function(*flat, arguments[-1])
