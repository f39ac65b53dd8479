"""Makes the wheel that `pip install` asks for: the package, with the shared library in it, so that what is installed needs neither cc nor the repository."""
from __future__ import annotations

import base64
import hashlib
import os
import sys
import tempfile
import zipfile
from typing import Any, Dict

from hejslopi import __version__, library

HERE = os.path.dirname(os.path.abspath(__file__))
NAME = "hejslopi"
INFO = "%s-%s.dist-info" % (NAME, __version__)
TAG = "py3-none-linux_x86_64"

METADATA = """\
Metadata-Version: 2.1
Name: %s
Version: %s
Summary: Netpbm stills filtered by recipes, with a tolerance that is proved
Requires-Python: >=3.8
""" % (NAME, __version__)

WHEEL = """\
Wheel-Version: 1.0
Generator: %s
Root-Is-Purelib: false
Tag: %s
""" % (NAME, TAG)

ENTRY_POINTS = """\
[console_scripts]
%s = %s.command:entry
""" % (NAME, NAME)


def package_files() -> Dict[str, bytes]:
    """The package's files, and the shared library."""
    held = {}
    package = os.path.join(HERE, NAME)
    for name in sorted(os.listdir(package)):
        if name.endswith((".py", "py.typed")):
            with open(os.path.join(package, name), "rb") as file:
                held["%s/%s" % (NAME, name)] = file.read()
    held["%s/%s" % (NAME, library.SHARED)] = shared_library()
    return held


def shared_library() -> bytes:
    """The shared library, from the archive. It is made in a folder of its own: the archive's may be closed to writing."""
    archive = os.path.join(library.folder(), library.ARCHIVE)
    if not os.path.exists(archive):
        sys.exit(library.missing(archive))
    with tempfile.TemporaryDirectory() as room:
        shared = os.path.join(room, library.SHARED)
        try:
            library.link(archive, shared)
        except library.LibraryError as wrong:
            sys.exit(str(wrong))
        with open(shared, "rb") as file:
            return file.read()


def recorded(name: str, data: bytes) -> str:
    """A line of RECORD: the file, its digest and its length."""
    digest = base64.urlsafe_b64encode(hashlib.sha256(data).digest()).rstrip(b"=").decode()
    return "%s,sha256=%s,%d\n" % (name, digest, len(data))


def build_wheel(wheel_directory: str, config_settings: Any = None, metadata_directory: Any = None) -> str:
    """Writes the wheel into a folder. Gives its name."""
    held = package_files()
    for name, text in (("METADATA", METADATA), ("WHEEL", WHEEL), ("entry_points.txt", ENTRY_POINTS)):
        held["%s/%s" % (INFO, name)] = text.encode()
    record = "%s/RECORD" % INFO
    held[record] = ("".join(recorded(name, data) for name, data in held.items()) + record + ",,\n").encode()
    wheel = "%s-%s-%s.whl" % (NAME, __version__, TAG)
    with zipfile.ZipFile(os.path.join(wheel_directory, wheel), "w", zipfile.ZIP_DEFLATED) as archive:
        for name, data in held.items():
            archive.writestr(name, data)
    return wheel


def build_sdist(sdist_directory: str, config_settings: Any = None) -> str:
    """There is none: the library's sources are Rattle's, and lie outside of this folder."""
    sys.exit("a source distribution of this package is the repository itself")
