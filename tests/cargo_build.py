"""How the Rust package finds its library: made by tools/build, beneath which a stand-in plays `rt` here, or in a folder that is named; and what it says where
there is none."""
import os
import shutil
import subprocess

import folders
from scripts import written
from tally import Words

# Plays `rt lib` in the crate's folder: says how it was called, and leaves the library where rt does.
STAND_IN = """#!/bin/sh
echo "${PWD##*/} $*" >>"$CALLS"
mkdir -p out && cp "$ARCHIVE" out/libcapi_c.a
"""
CALL = b"capi_c lib\n"


class Build:
    """A copy of the package in a repository that has little else."""

    def __init__(self, tally, room):
        self.tally, self.room = tally, room
        self.calls = os.path.join(room, "calls")
        shutil.copytree("rust", os.path.join(room, "rust"), ignore=shutil.ignore_patterns("target"))
        self.source = os.path.join(room, "crates", "capi_c", "src", "lib.rt")
        os.makedirs(os.path.dirname(self.source))
        written(self.source, b"")
        for folder in ("tools", "stand-in"):
            os.mkdir(os.path.join(room, folder))
        shutil.copy(os.path.join("tools", "build"), os.path.join(room, "tools"))
        written(os.path.join(room, "crates.txt"), b"capi_c staticlib:\n")
        self.stand_in(STAND_IN)

    def stand_in(self, text):
        path = os.path.join(self.room, "stand-in", "rt")
        written(path, text.encode())
        os.chmod(path, 0o755)

    def run(self, **changed):
        """Whether cargo builds the example, and the lines that it prints which are the package's own."""
        changed.setdefault("PATH", os.path.join(self.room, "stand-in") + os.pathsep + os.environ["PATH"])
        done = subprocess.run(["cargo", "build", "--offline", "--example", "filter"], cwd=os.path.join(self.room, "rust"), stdin=subprocess.DEVNULL,
                              stdout=subprocess.PIPE, stderr=subprocess.STDOUT, universal_newlines=True,
                              env=dict(os.environ, CALLS=self.calls, ARCHIVE=os.path.abspath(os.path.join("target", "staticlib", "libcapi.a")), **changed))
        return done.returncode == 0, [line.strip() for line in done.stdout.splitlines() if line.strip().startswith("hejslopi: ")], done.stdout

    def builds(self, where, calls, **changed):
        """One test: it builds, and rt has been called so often, each time for the library."""
        well, _, text = self.run(**changed)
        called = folders.lies_at(self.calls).bytes or b""
        right = (well, called) == (True, CALL * calls)
        self.tally.judge(where, None if right else (Words("the calls %r of rt: %s" % (called, text)), Words("a build with %d calls" % calls)))

    def fails(self, where, words, **changed):
        """One test: it does not build, and says why in one line, not by a panic."""
        well, lines, text = self.run(**changed)
        right = not well and len(lines) == 1 and words in lines[0] and "panicked" not in text
        self.tally.judge(where, None if right else (Words(text), Words("one line with '%s'" % words)))


def try_build(tally):
    with folders.fresh_folder() as room:
        build = Build(tally, room)
        build.builds("a first build", 1)
        build.builds("a second build", 1)
        # The source is touched, so that the example is linked again.
        shutil.rmtree(os.path.join(room, "target"))
        os.utime(os.path.join(room, "rust", "src", "lib.rs"))
        build.builds("once target/ is gone", 1)
        written(os.path.join(os.path.dirname(build.source), "changed.rt"), b"")
        build.builds("once a crate has changed", 2)
        named = os.path.join(room, "named")
        os.mkdir(named)
        build.fails("a folder without a library", "HEJSLOPI_LIB_DIR names", HEJSLOPI_LIB_DIR=named)
        shutil.copy(os.path.join("target", "staticlib", "libcapi.a"), named)
        build.builds("a folder that is named", 2, HEJSLOPI_LIB_DIR=named)
        build.stand_in("#!/bin/sh\necho 'src/lib.rt:1:1: error: nothing is proved'\necho 'rt: and more'\nexit 1\n")
        build.fails("rt that fails", "tools/build library: exit status: 1: src/lib.rt:1:1: error: nothing is proved")
        build.stand_in("#!/bin/sh\nexec no-such-command-as-rt\n")
        build.fails("no rt", "put it on the path, or name the folder of libcapi.a in HEJSLOPI_LIB_DIR")
        os.remove(os.path.join(room, "tools", "build"))
        build.fails("no tools/build", "tools/build cannot be run")
