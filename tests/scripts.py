"""The tools around the program."""
import os
import shutil
import subprocess
import sys

import folders
import program
import suites
from tally import Words


def written(path, data):
    with open(path, "wb") as file:
        file.write(data)


def worked_out():
    """The files of cases of limits that tools/expected makes: the archive's line where it is another than the panel's, and the output that belongs to it."""
    vectors = os.path.join(program.DATA, "vectors")
    cases = [os.path.join(vectors, name) for name in sorted(os.listdir(vectors)) if os.path.exists(os.path.join(vectors, name, "archive"))]
    return [os.path.join(case, name) for case in cases for name in ("archive", "out") if os.path.exists(os.path.join(case, name))]


def expected_again(tally):
    """tools/expected, run in a copy without what it makes, makes what is tracked."""
    crate = os.path.join("crates", "conformance")
    with folders.fresh_folder() as room:
        shutil.copytree(program.DATA, os.path.join(room, program.DATA))
        for path in worked_out():
            os.remove(os.path.join(room, path))
        os.mkdir(os.path.join(room, "tools"))
        shutil.copy(os.path.join("tools", "expected"), os.path.join(room, "tools"))
        done = subprocess.run([sys.executable, os.path.join("tools", "expected")], cwd=room, stdin=subprocess.DEVNULL, stdout=subprocess.PIPE,
                              stderr=subprocess.STDOUT, universal_newlines=True)
        for path in [os.path.join(crate, name) for name in ("args", "stdout")] + worked_out():
            where = "%s as tools/expected makes it" % path
            made = folders.lies_at(os.path.join(room, path))
            kept = folders.lies_at(path)._replace(mark=None)
            stopped = done.returncode and (suites.telling(done.stdout), Words("a run without an error"))
            tally.judge(where, stopped or folders.apart(made, kept))


def build_called_wrongly(tally):
    """tools/build without a word, and with another one. What it builds, the groups filter and cargo try."""
    for words in ([], ["programs"]):
        done = subprocess.run([os.path.join("tools", "build")] + words, stdin=subprocess.DEVNULL, stdout=subprocess.PIPE, stderr=subprocess.PIPE, universal_newlines=True)
        tally.equal("tools/build with %d words" % len(words), (done.returncode, done.stdout, done.stderr), (2, "", "usage: tools/build program|library\n"))


def try_tools(tally):
    expected_again(tally)
    build_called_wrongly(tally)
