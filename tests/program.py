"""The built program on files: every vector that is no script of a background, and every state that its three files may be in.

What it has to answer comes from the vectors and from the rules in docs/METHOD.md ('The program', 'Who causes which refusal'), never from the program.
"""
import collections
import contextlib
import itertools
import os
import re
import resource
import shutil
import signal
import subprocess

import folders
from folders import folder, holding, in_pieces, link_to, nothing

DATA = os.path.join("crates", "conformance", "data")
STILL_LIMIT, RECIPE_LIMIT = 65536, 4096

# The example of 'The program'.
STILL = b"P5\n3 1\n255\n\x0A\x14\x28"
RECIPE = b"\x01\x03\x01\x00\x01\x00"
LINE = "ok 3 1 1 33280"
OUT = b"P5\n3 1\n255\n\x0D\x17\x23"

# A run that takes longer than this many seconds has failed, and so has one that wants more bytes, in a file or in memory.
PATIENCE = 20
MOST, MEMORY = 1 << 20, 1 << 30

# Longer than any output, so that what is left of it shows.
OLD = b"old " * 17500

NOBODY = 65534

# A still, a recipe (each a way to lay it) and what belongs to them: the line, and the output where they are accepted. `locked`: permissions count.
Case = collections.namedtuple("Case", "name still recipe line out locked")

# What lies at `out` before the run. `writable`: an accepted still can be written there. `locked`: the folder is closed to writing. `limited`: there is
# room for all but the last byte.
OutState = collections.namedtuple("OutState", "name lay writable locked limited")

OUT_STATES = (
    OutState("missing", nothing, True, False, False),
    OutState("an old file", holding(OLD), True, False, False),
    OutState("a folder", folder, False, False, False),
    OutState("a full device", link_to("/dev/full"), False, False, False),
    OutState("on a disk with one byte too little", nothing, False, False, True),
    OutState("missing in a closed folder", nothing, False, True, False),
    OutState("a read-only file in a closed folder", holding(OLD, 0o444), False, True, False),
)

# A file on disk. `unfit`: the refusal by the tests on files, `refused`: the one by the call that reads it; 0 where there is none.
FileState = collections.namedtuple("FileState", "name lay unfit refused locked", defaults=(0, 0, False))

STILLS = (
    FileState("as it should be", holding(STILL)),
    FileState("missing", nothing, unfit=22),
    FileState("a folder", folder, unfit=22),
    FileState("closed to reading", holding(STILL.ljust(STILL_LIMIT + 1), 0), unfit=22, locked=True),
    FileState("endless", link_to("/dev/zero"), unfit=21),
    FileState("a byte too long", holding(STILL.ljust(STILL_LIMIT + 1)), unfit=21),
    FileState("as long as it may be, with bytes after the raster", holding(STILL.ljust(STILL_LIMIT)), refused=6),
    FileState("as long as it may be, by a comment", holding(STILL.replace(b"\n", b"\n#" + b"x" * (STILL_LIMIT - len(STILL) - 2) + b"\n", 1))),
    FileState("empty", holding(b""), refused=1),
)

RECIPES = (
    FileState("as it should be", holding(RECIPE)),
    FileState("missing", nothing, unfit=22),
    FileState("a folder", folder, unfit=22),
    FileState("closed to reading", holding(RECIPE.ljust(RECIPE_LIMIT + 1), 0), unfit=22, locked=True),
    FileState("endless", link_to("/dev/zero"), unfit=21),
    FileState("a byte too long", holding(RECIPE.ljust(RECIPE_LIMIT + 1)), unfit=21),
    FileState("as long as it may be", holding(RECIPE.ljust(RECIPE_LIMIT)), refused=12),
    FileState("empty", holding(b""), refused=11),
)

STILL_IN_PIECES = FileState("a pipe that halts", in_pieces(STILL))
RECIPE_IN_PIECES = FileState("a pipe that halts", in_pieces(RECIPE))


# ---- running it


def to_try():
    """The built program, or the one that somebody wants to be tried in its place."""
    return os.path.abspath(os.environ.get("HEJSLOPI_PROGRAM") or os.path.join("target", "bin", "hejslopi"))


def bounded(file_size=MOST, plain_user=False):
    """What a new process does before it becomes the program. None may fill the disk or the memory: there are endless files among those it is handed."""
    def prepare():
        resource.setrlimit(resource.RLIMIT_FSIZE, (file_size, file_size))
        resource.setrlimit(resource.RLIMIT_AS, (MEMORY, MEMORY))
        if file_size < MOST:
            # A full disk sends no signal, and this limit would.
            signal.signal(signal.SIGXFSZ, signal.SIG_IGN)
        if plain_user and os.geteuid() == 0:
            # Root may read and write everything, so it becomes nobody; everybody else stays who they are.
            os.setgroups([])
            os.setgid(NOBODY)
            os.setuid(NOBODY)
    return prepare


def finished(process):
    """What a process prints until its end. It is ended, with all that it has started, where it takes too long or the test itself is ended."""
    try:
        return process.communicate(timeout=PATIENCE)
    finally:
        with contextlib.suppress(ProcessLookupError):
            os.killpg(process.pid, signal.SIGKILL)
        process.wait()


def run(program, where, prepare=bounded()):
    """What the program prints when it is run in a folder, with a remark where it did not end by itself or wrote to standard error."""
    with subprocess.Popen([program], cwd=where, stdin=subprocess.DEVNULL, stdout=subprocess.PIPE, stderr=subprocess.PIPE, preexec_fn=prepare,
                          start_new_session=True) as process:
        out, err = finished(process)
    said = out.decode("ascii", "backslashreplace")
    if process.returncode < 0:
        said += "(ended by signal %d)" % -process.returncode
    if err:
        said += "(standard error: %s)" % err.decode("ascii", "backslashreplace")
    return said


@contextlib.contextmanager
def copied(program):
    """The program where everybody can reach it: a repository may lie in a folder that nobody but its owner may enter."""
    with folders.fresh_folder() as room:
        copy = os.path.join(room, "hejslopi")
        shutil.copy(program, copy)
        os.chmod(copy, 0o755)
        yield copy


def permissions_count(program):
    """Whether it can be run as somebody whom permissions stop."""
    with folders.fresh_folder() as room:
        try:
            run(program, room, bounded(plain_user=True))
        except subprocess.TimeoutExpired:
            return True
        except (OSError, subprocess.SubprocessError):
            return False
    return True


# ---- one test


def preparation(case, state):
    """Who runs the program, and with how much room."""
    room = len(case.out) - 1 if state.limited and case.out is not None else MOST
    return bounded(room, case.locked or state.locked)


def fault(case, state, said, before, after):
    """The first thing that is not as it has to be, and how: found, expected. None and None where all is."""
    accepted = case.out is not None
    line = "no 22" if accepted and not state.writable else case.line
    if said != line + "\n":
        return "line", (said, line + "\n")
    expected = dict(before)
    if accepted and state.writable:
        expected["out"] = folders.Thing("a file", case.out, None)
    for name in sorted(set(after) | set(expected)):
        # What a write that was cut off has left behind, no rule says.
        if name == "out" and accepted and state.limited:
            continue
        differing = folders.apart(after.get(name, folders.NOTHING), expected.get(name, folders.NOTHING))
        if differing:
            return name, differing
    return None, None


def try_once(tally, program, case, state):
    """One test: a case with `out` in one state, in a folder of its own. Nothing but `out` may change there, and `out` only where all went well."""
    where = "%s, out %s" % (case.name, state.name)
    with folders.fresh_folder() as room:
        laid = [lay(os.path.join(room, name)) for name, lay in (("still", case.still), ("recipe", case.recipe), ("out", state.lay))]
        before = folders.lying_in(room)
        if state.locked:
            os.chmod(room, 0o555)
        try:
            said = run(program, room, preparation(case, state))
        except subprocess.TimeoutExpired:
            # One is enough: the next ones would wait as long.
            raise TimeoutError("%s: the program has not ended after %d s" % (where, PATIENCE))
        finally:
            for process in filter(None, laid):
                process.kill()
                process.wait()
        after = folders.lying_in(room)
    name, differing = fault(case, state, said, before, after)
    tally.judge("%s: %s" % (where, name), differing)


def try_all(tally, program, cases):
    """Every case with `out` in every state."""
    with copied(program) as copy:
        stopped, full = permissions_count(copy), os.path.exists("/dev/full")
        unfit = collections.Counter()
        for case, state in itertools.product(cases, OUT_STATES):
            if (case.locked or state.locked) and not stopped:
                unfit["no user here whom permissions stop"] += 1
            elif state.name == "a full device" and not full:
                unfit["/dev/full is not there"] += 1
            else:
                try_once(tally, copy, case, state)
        for why, count in unfit.items():
            tally.skips(why, count)


# ---- the cases


def laid_as(path):
    """A vector's file as it is, or missing as it is."""
    data = folders.lies_at(path).bytes
    return nothing if data is None else holding(data)


def vector_names(kind):
    """The folders of a kind that are the program's. A script is of a background, two stills are of movement, limits are of another caller, a received still is
    of a verdict, and a line of lengths is of needs, which the program knows nothing of: Rust's and Python's tests run them."""
    whole = os.path.join(DATA, kind)
    other = ("script", "still1", "limits", "received")

    def is_program(name):
        files = os.path.join(whole, name)
        return not any(os.path.exists(os.path.join(files, file)) for file in other) and not folders.bytes_of(os.path.join(files, "line")).startswith(b"work")

    return [name for name in sorted(os.listdir(whole)) if is_program(name)]


def vector(name):
    """A folder of the conformance data. One that does not say what belongs to it is no vector."""
    path = os.path.join(DATA, name)
    line = folders.bytes_of(os.path.join(path, "line")).decode("ascii")
    out = folders.lies_at(os.path.join(path, "out")).bytes
    if not re.fullmatch(r"ok \d+ \d+ [13] \d+\n|no \d+\n", line) or line.startswith("ok") != (out is not None):
        raise ValueError("%s says %r and has %s output" % (name, line, "no" if out is None else "an"))
    return Case(name, laid_as(os.path.join(path, "still")), laid_as(os.path.join(path, "recipe")), line[:-1], out, False)


def try_vectors(tally, program):
    """Each folder with a line of the program's, whatever it holds beside it."""
    names = [os.path.join(kind, name) for kind in ("vectors", "bench") for name in vector_names(kind)]
    try_all(tally, program, [vector(name) for name in names])


def files_case(still, recipe):
    """The first step that fails decides: both tests on the still's file, both on the recipe's, then the recipe, then the still."""
    refusal = still.unfit or recipe.unfit or recipe.refused or still.refused
    line, out = ("no %d" % refusal, None) if refusal else (LINE, OUT)
    return Case("still %s, recipe %s" % (still.name, recipe.name), still.lay, recipe.lay, line, out, still.locked or recipe.locked)


def try_files(tally, program):
    """Every state of the still with every state of the recipe."""
    pairs = list(itertools.product(STILLS, RECIPES)) + [(STILL_IN_PIECES, RECIPES[0]), (STILLS[0], RECIPE_IN_PIECES)]
    try_all(tally, program, [files_case(still, recipe) for still, recipe in pairs])
