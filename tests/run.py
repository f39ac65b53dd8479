"""Builds what is to be tried, runs each group of tests and says how many passed. `./test` says what it is for."""
import os
import re
import signal
import subprocess
import sys
import time

import cargo_build
import commands
import filter_script
import front_ends
import program
import readme
import scripts
import suites
import wordings
from tally import Tally, Words

GROUPS = {
    "program": ("the program on every vector that is its own, with out in every state", lambda tally: program.try_vectors(tally, program.to_try())),
    "files": ("the program with its files in every state", lambda tally: program.try_files(tally, program.to_try())),
    "filter": ("./filter", filter_script.try_filter),
    "fronts": ("filtering a still from the shell, Python, Rust and C", front_ends.try_front_ends),
    "commands": ("the command hejslopi", commands.try_commands),
    "readme": ("README's examples", readme.try_readme),
    "python": ("python/test_hejslopi.py", suites.python),
    "wordings": ("the meaning of each refusal, wherever it is said", wordings.try_wordings),
    "tools": ("tools/expected, tools/build; the gate holds the layout of the sources", scripts.try_tools),
    "cargo": ("how the Rust package finds its library", cargo_build.try_build),
    "rust": ("cargo test", suites.rust),
}

# Variables that would lead a group to another library, or a runner to other words.
UNSET = ("HEJSLOPI_LIB_DIR", "FORCE_COLOR") + tuple(name for name in os.environ if name.startswith("PYTHON") and name != "PYTHONDONTWRITEBYTECODE")
SET = {"CARGO_TERM_COLOR": "never", "NO_COLOR": "1"}


def prepare():
    """The top of the repository, and the same surroundings wherever it is run."""
    os.chdir(os.path.join(os.path.dirname(os.path.abspath(__file__)), ".."))
    os.umask(0o022)
    signal.signal(signal.SIGTERM, lambda *_: sys.exit(143))
    for name in UNSET:
        os.environ.pop(name, None)
    os.environ.update(SET)


def seconds_since(began):
    return "%d s" % round(time.monotonic() - began)


def build(tally):
    """Proves and builds the program and the library. Without them there is nothing to try."""
    for name in ("program", "library"):
        command = [os.path.join("tools", "build"), name]
        status, text = suites.logged(name, command)
        if status != 0:
            tally.fails(" ".join(command), suites.telling(text), Words("a proof; target/test/%s.log has the whole" % name))
            return False
    return True


def tree():
    """What git says of the tree, and of files that it is told to ignore, apart from the folders for what is built. None where git cannot say."""
    try:
        done = subprocess.run(["git", "status", "--porcelain", "--ignored"], stdout=subprocess.PIPE, stderr=subprocess.DEVNULL, universal_newlines=True)
    except OSError:
        return None
    if done.returncode != 0:
        return None
    return [line for line in done.stdout.splitlines() if not re.fullmatch(r"target/|rust/target/|crates/\w+/out/", line[3:])]


def try_group(total, name):
    """Runs a group and prints its line. An error in a test is a failure, and so is a group without a test."""
    tally, (what, work), began = Tally(name), GROUPS[name], time.monotonic()
    try:
        work(tally)
    except Exception as wrong:
        tally.fails("the group", Words("%s: %s" % (type(wrong).__name__, wrong)), Words("its end"))
    if not (tally.passed or tally.failed):
        tally.fails("the group", Words("no test"), Words("at least one"))
    print("%s: %s: %s, %s" % (name, what, tally.counts(), seconds_since(began)), flush=True)
    total.add(tally)


def all_groups(total, names):
    """Builds, runs the groups, and sees that the tree is as it was."""
    before, began = tree(), time.monotonic()
    if not build(total):
        return
    print("build: the program and the library: %s" % seconds_since(began), flush=True)
    for name in names:
        try_group(total, name)
    if before is None:
        total.skips("git does not know this tree", 1)
    else:
        total.equal("git status", tree(), before)


def main(words):
    """The status: 0 only where something passed and nothing failed."""
    wrong = [word for word in words if word not in GROUPS]
    if wrong:
        print("usage: ./test [GROUP...], each one of %s" % ", ".join(GROUPS), file=sys.stderr)
        return 2
    if sys.stdout is None:
        print("test: standard output is closed", file=sys.stderr)
        return 2
    prepare()
    total = Tally("test")
    all_groups(total, words or list(GROUPS))
    print(total.counts(), flush=True)
    return 0 if total.passed and not total.failed else 1


try:
    sys.exit(main(sys.argv[1:]))
except KeyboardInterrupt:
    sys.exit("test: interrupted")
except OSError as wrong:
    os.dup2(os.open(os.devnull, os.O_WRONLY), sys.stdout.fileno())
    sys.exit("test: %s" % wrong)
