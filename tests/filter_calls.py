"""./filter in a copy of the repository, and what is seen of a call."""
import os
import re
import shutil
import subprocess
import time

import folders
import program
from scripts import written

EXAMPLE = ("-still", "a recipe", "out")
UNMADE = ("-still", "a recipe", "unmade")
BUILT = os.path.join("target", "bin", "hejslopi")
BUILD = os.path.join("tools", "build")


def word(number):
    """What the system says of an error."""
    return os.strerror(number)


def meanings():
    """What each refusal means, in the words of the Rust package: all who tell it have the same."""
    with open(os.path.join("rust", "src", "refusal.rs"), encoding="utf-8") as file:
        text = file.read()
    numbers = dict(re.findall(r"(?m)^    (\w+) = (\d+),", text))
    return {int(numbers[name]): words for name, words in re.findall(r'Refusal::(\w+) => "([^"]*)"', text)}


def waits_for(path):
    """Until there are bytes at a path."""
    end = time.monotonic() + program.PATIENCE
    while not folders.lies_at(path).bytes:
        if time.monotonic() > end:
            raise TimeoutError("%s has not come after %d s" % (path, program.PATIENCE))
        time.sleep(0.02)


class Filter:
    """The script in a folder with document 01's example, called from there and not from the repository. Its scratch files have a folder of their own."""

    def __init__(self, tally, room, shell):
        self.tally, self.room, self.shell = tally, room, shell
        self.scratch, self.top = self.at("scratch"), self.at("a repository")
        self.crate = os.path.join(self.top, "crates", "hejslopi")
        self.command, self.built = (os.path.join(self.top, name) for name in ("filter", BUILT))
        self.source, self.out = (os.path.join(self.crate, *names) for names in (("src", "main.rt"), ("out", "hejslopi")))
        self.changed = {"TMPDIR": self.scratch}
        self.meanings = meanings()
        for folder in [self.scratch] + [os.path.dirname(path) for path in (self.source, self.out, self.built, os.path.join(self.top, BUILD))]:
            os.makedirs(folder)
        os.chmod(self.scratch, 0o777)
        self.lay()

    def lay(self):
        """What the script looks at and runs. The program comes last, so no source is newer; what rt leaves of it is as new, and no source."""
        written(self.source, b"fn main() {}\n")
        written(self.at("-still"), program.STILL)
        written(self.at("a recipe"), program.RECIPE)
        for name in ("filter", BUILD, "crates.txt", BUILT):
            shutil.copy(name, os.path.join(self.top, name))
        shutil.copy(BUILT, self.out)

    def at(self, name):
        return os.path.join(self.room, name)

    def stands_in(self, name, text):
        """A program that is found in place of another one, from now on."""
        folder = self.at("stand-in")
        os.makedirs(folder, exist_ok=True)
        written(os.path.join(folder, name), b"#!/bin/sh\n" + text.encode())
        os.chmod(os.path.join(folder, name), 0o755)
        self.changed["PATH"] = folder + os.pathsep + os.environ["PATH"]

    def starts(self, words, prepare=program.bounded(), given=subprocess.DEVNULL, lines=subprocess.PIPE, errors=subprocess.PIPE, **changed):
        """A call that is not waited for."""
        return subprocess.Popen(self.shell + [self.command] + list(words), cwd=self.room, env={**os.environ, **self.changed, **changed},
                                stdin=given, stdout=lines, stderr=errors, preexec_fn=prepare, start_new_session=True)

    def ends(self, words, **how):
        """What a call ends with and prints."""
        with self.starts(words, **how) as process:
            out, err = program.finished(process)
        return process.returncode, os.fsdecode(out or b""), os.fsdecode(err or b"")

    # ---- tests

    def equal(self, where, found, expected):
        """One test, named with the shell."""
        self.tally.equal(" ".join(self.shell + [where]), found, expected)

    def says(self, where, words, status, stdout, stderr="", **how):
        """One test: what a call ends with and prints."""
        self.equal(where, self.ends(words, **how), (status, stdout, stderr))

    def accepts(self, where, words=EXAMPLE, **how):
        """Two tests: document 01's example is filtered, and lies at OUT."""
        self.says(where, words, 0, program.LINE + "\n", **how)
        self.holds(where, words[2], program.OUT)

    def refuses(self, where, words, which, number, more="", **how):
        """One test: the library refuses, by this file. `more` is what stands behind the meaning, None where another test says what that is."""
        status, out, err = self.ends(words, **how)
        line = "filter: %s: refused with %d: %s" % (which, number, self.meanings[number])
        told = err[:len(line)] if more is None and err.count("\n") == 1 else err
        self.equal(where, (status, out, told), (1, "no %d\n" % number, line if more is None else "%s%s\n" % (line, more)))

    def fails(self, where, words, which, verb, why, **how):
        """One test: a file cannot be read or written."""
        self.says(where, words, 2, "no 22\n", "filter: %s: cannot be %s: %s\n" % (which, verb, why), **how)

    def stops(self, where, words, why, **how):
        """One test: there is no line, and one word why."""
        self.says(where, words, 2, "", "filter: %s\n" % why, **how)

    def holds(self, where, name, data):
        """One test: what a file holds, None where there must be none."""
        self.equal("%s: %s" % (where, name), folders.lies_at(self.at(name)).bytes, data)

    def leaves_nothing(self, where):
        """One test: no scratch file is left, and no half of an OUT."""
        halves = [name for _, _, names in os.walk(self.room) for name in names if name.startswith(".hejslopi-")]
        self.equal("%s: files that are left" % where, os.listdir(self.scratch) + halves, [])
