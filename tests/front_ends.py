"""What every front end that filters STILL by RECIPE into OUT does alike: ./filter, the command in Python, the programs in Rust and in C.

Each is tried in a copy of what it needs, without the toolchain. A refusal ends with 1, a file that cannot be read or written with 2, and either is said in one
line on standard error; OUT is whole or untouched.
"""
import collections
import contextlib
import os
import resource
import shutil
import signal
import subprocess
import sys

import folders
import program
from folders import bytes_of, folder, holding, lies_at, link_to, nothing
from tally import Words

# `lines`: it prints `ok W H channels T` or `no N` on standard output, as the program does. Python prints `T N`, and of a failure nothing.
FrontEnd = collections.namedtuple("FrontEnd", "name command lines")

# One still, one recipe of two stages whose second is refused, one of three whose last two are, one of three whose last is cut off, one of outlines whose last is refused.
STILL, RECIPE, OUT, OLD = program.STILL, program.RECIPE, program.OUT, b"old " * 25
BAD_RANK = bytes.fromhex("02 03 01 00 01 01 05 01 00 01 01 00 0A")
BAD_TWICE = bytes.fromhex("03 03 01 00 01 01 05 01 00 01 01 00 0A 03 01 00 10 01")
BAD_CUT = bytes.fromhex("03 03 01 00 01 01 04 01 00 01 01 03 01 00 01")
BAD_OUTLINE = bytes.fromhex("03 06 01 00 06 00 09 06 02 07")

# A disk with room for nothing that the tests write: a few pages, filled.
SMALL = "size=16k"

Answer = collections.namedtuple("Answer", "status stdout stderr")


# ---- the four


def build_rust():
    """The package's example, over the library that is there."""
    command = ["cargo", "build", "--quiet", "--offline", "--manifest-path", os.path.join("rust", "Cargo.toml"), "--example", "filter"]
    subprocess.run(command, check=True, env=dict(os.environ, HEJSLOPI_LIB_DIR=os.path.abspath(os.path.join("target", "staticlib"))))
    return os.path.join("rust", "target", "debug", "examples", "filter")


def build_c(target):
    command = ["cc", "-std=c99", "-Wall", "-Wextra", "-pedantic", "-Werror", "-I", "include", os.path.join("c", "filter.c")]
    subprocess.run(command + [os.path.join("target", "staticlib", "libcapi.a"), "-o", target], check=True)


def runs_for_everybody(command, room):
    """Whether somebody whom permissions stop can run a command."""
    try:
        subprocess.run(command, cwd=room, preexec_fn=program.bounded(plain_user=True), stdin=subprocess.DEVNULL, stdout=subprocess.DEVNULL, stderr=subprocess.DEVNULL)
    except (OSError, subprocess.SubprocessError):
        return False
    return True


def python_for_everybody(room):
    """A Python that a plain user may run too, if there is one: this one may lie in somebody's own folder."""
    return next((python for python in (sys.executable, "/usr/bin/python3") if runs_for_everybody([python, "-c", ""], room)), sys.executable)


def installed(room):
    """Copies of all four where everybody can reach them, with what each needs and nothing else."""
    for part in ("crates", "target/bin", "target/staticlib"):
        os.makedirs(os.path.join(room, part))
    for name in ("filter", "crates.txt", "target/bin/hejslopi"):
        shutil.copy(name, os.path.join(room, name))
    shutil.copytree("python", os.path.join(room, "python"))
    subprocess.run([sys.executable, "-c", "from hejslopi import library; library.loaded()"], cwd="python", check=True)
    shutil.copy(os.path.join("target", "staticlib", "libcapi.so"), os.path.join(room, "target", "staticlib"))
    shutil.copy(build_rust(), os.path.join(room, "rust-filter"))
    build_c(os.path.join(room, "c-filter"))
    return (
        FrontEnd("./filter", [os.path.join(room, "filter")], True),
        FrontEnd("Python", [python_for_everybody(room), os.path.join(room, "python", "hejslopi.py"), "filter"], False),
        FrontEnd("Rust", [os.path.join(room, "rust-filter")], True),
        FrontEnd("C", [os.path.join(room, "c-filter")], True),
    )


# ---- one call


class Calls:
    """A front end, called in a folder with a still, recipes and an old file."""

    def __init__(self, tally, front):
        self.tally, self.front = tally, front

    def where(self, what):
        return "%s: %s" % (self.front.name, what)

    def run(self, words, cwd, prepare=program.bounded(), stdout=subprocess.PIPE, **changed):
        """How a call ends and what it prints. It has no toolchain at hand."""
        try:
            done = subprocess.run(self.front.command + words, cwd=cwd, stdin=subprocess.DEVNULL, stdout=stdout, stderr=subprocess.PIPE, preexec_fn=prepare,
                                  env=dict(os.environ, PATH="/usr/bin:/bin", **changed), timeout=program.PATIENCE)
        except subprocess.TimeoutExpired:
            return Answer(None, "", "no end after %d s" % program.PATIENCE)
        return Answer(done.returncode, (done.stdout or b"").decode("utf-8", "backslashreplace"), done.stderr.decode("utf-8", "backslashreplace"))

    def said(self, what, answer, status, line, *words):
        """One test: the status, the line on standard output (of Python only where all went well), and one line on standard error with these words."""
        line = line + "\n" if line and (self.front.lines or status == 0) else ""
        errors = answer.stderr.splitlines()
        right = not errors if status == 0 else len(errors) == 1 and all(word in errors[0] for word in words)
        if right and (answer.status, answer.stdout) == (status, line):
            self.tally.passes()
        else:
            self.tally.fails(self.where(what), answer, Words("%d, %r and %s" % (status, line, "one line with %s" % (words,) if status else "no line")))

    @property
    def done(self):
        return program.LINE if self.front.lines else "T %s" % program.LINE.split()[-1]


@contextlib.contextmanager
def laid(**others):
    """A folder with the example's still and recipe, and whatever else."""
    with folders.fresh_folder() as room:
        for name, lay in dict({"still": holding(STILL), "recipe": holding(RECIPE)}, **others).items():
            lay(os.path.join(room, name))
        os.chmod(room, 0o777)
        yield room


def kept(calls, what, room, name, before):
    """One test: a file is as it was, and nothing half written lies beside it."""
    calls.tally.judge(calls.where("%s: %s" % (what, name)), folders.apart(lies_at(os.path.join(room, name)), before))
    calls.tally.equal(calls.where("%s: left behind" % what), [name for name in os.listdir(room) if name.startswith(".")], [])


# ---- what goes well


def accepts(calls):
    """A new file, an old one with its permissions, through links, over the still itself, and under names of all kinds."""
    for what, name, lay in (("a new file", "out", nothing), ("an old file", "out", holding(OLD, 0o640)), ("a name of two words", "an out", nothing),
                            ("a name that is not UTF-8", os.fsdecode(b"o\xfft"), nothing), ("a name that begins with a dash", "./-out", nothing)):
        with laid(**{name: lay}) as room:
            calls.said(what, calls.run(["still", "recipe", name], room), 0, calls.done)
            calls.tally.equal(calls.where(what + ": out"), bytes_of(os.path.join(room, name)), OUT)
            mode = 0o640 if what == "an old file" else 0o644
            calls.tally.equal(calls.where(what + ": permissions"), oct(os.stat(os.path.join(room, name)).st_mode & 0o777), oct(mode))
    with laid() as room:
        calls.said("over the still", calls.run(["still", "recipe", "still"], room), 0, calls.done)
        calls.tally.equal(calls.where("over the still: still"), bytes_of(os.path.join(room, "still")), OUT)


def large(calls):
    """A still in colour, each channel of one grey, and a box: its mean is that grey everywhere, whatever the border of nearest adds. ./filter says that it is too large."""
    still = b"P6\n300 200\n255\n" + bytes([10, 20, 30]) * (300 * 200)
    with laid(still=holding(still), recipe=holding(bytes.fromhex("01 04 01 00 0F 0F"))) as room:
        answer = calls.run(["still", "recipe", "out"], room)
        if calls.front.name == "./filter":
            calls.said("a large still", answer, 1, "no 21", "still: refused with 21", "python3 python/hejslopi.py filter")
            return
        calls.said("a large still", answer, 0, "ok 300 200 3 32768" if calls.front.lines else "T 32768")
        calls.tally.equal(calls.where("a large still: out"), bytes_of(os.path.join(room, "out")), still)


def outlines(calls):
    """The shortest recipe. In one row that stands for all, 10 20 40, an outline is three times the right neighbour less the left; nothing is rounded."""
    with laid(recipe=holding(bytes.fromhex("01 06 01 00"))) as room:
        calls.said("an outline", calls.run(["still", "recipe", "out"], room), 0, "ok 3 1 1 0" if calls.front.lines else "T 0")
        calls.tally.equal(calls.where("an outline: out"), bytes_of(os.path.join(room, "out")), STILL[:-3] + bytes([30, 90, 60]))


def follows_links(calls):
    """A link stays a link, and what it names gets the bytes, whether that was there or not."""
    for what, lay in (("a link", holding(OLD)), ("a link to nothing", nothing)):
        with laid(target=lay, out=link_to("target")) as room:
            calls.said(what, calls.run(["still", "recipe", "out"], room), 0, calls.done)
            calls.tally.equal(calls.where(what), (os.path.islink(os.path.join(room, "out")), bytes_of(os.path.join(room, "target"))), (True, OUT))


def writes_to_pipes(calls):
    """What is no regular file is written in place."""
    with laid() as room:
        path = os.path.join(room, "out")
        os.mkfifo(path)
        reader = subprocess.Popen(["cat", path], stdout=subprocess.PIPE)
        calls.said("a pipe", calls.run(["still", "recipe", "out"], room), 0, calls.done)
        calls.tally.equal(calls.where("a pipe: its bytes"), reader.communicate(timeout=program.PATIENCE)[0], OUT)


# ---- what does not


def wrong_usage(calls):
    for words in ([], ["still"], ["still", "recipe"], ["still", "recipe", "out", "more"]):
        with laid() as room:
            calls.said("%d words" % len(words), calls.run(words, room), 2, "", "usage")
    with laid() as room:
        before = lies_at(os.path.join(room, "recipe"))
        calls.said("out is the recipe", calls.run(["still", "recipe", "./recipe"], room), 2, "", "recipe")
        kept(calls, "out is the recipe", room, "recipe", before)
        # Nothing lies there for the system, though it would if the path were shortened first.
        calls.said("out is the recipe by way of nothing", calls.run(["still", "recipe", "none/../recipe"], room), 2, "no 22", "cannot be written", "No such file")
        kept(calls, "out is the recipe by way of nothing", room, "recipe", before)
    with laid(printed=holding(b"")) as room, open(os.path.join(room, "printed"), "wb") as printed:
        calls.said("out is standard output", calls.run(["still", "recipe", "/dev/stdout"], room, stdout=printed), 2, "", "standard output")
        calls.tally.equal(calls.where("out is standard output: printed"), bytes_of(os.path.join(room, "printed")), b"")
        calls.said("out is a pipe that is standard output", calls.run(["still", "recipe", "/dev/stdout"], room), 2, "", "standard output")


def refuses(calls):
    """Refused by the library: the number, its meaning, the file and the stage; but for the program in C also the field and what was found. An old file stays."""
    for what, files, line, words, *found in (
        ("a position in stage 2", {"recipe": holding(BAD_RANK)}, "no 18", ("recipe", "refused with 18: a rank's position", "stage 2"), "position: found 10"),
        ("a position in stage 2, and a radius in stage 3", {"recipe": holding(BAD_TWICE)}, "no 18", ("recipe", "refused with 18: a rank's position", "stage 2")),
        ("a recipe cut in stage 3", {"recipe": holding(BAD_CUT)}, "no 11", ("recipe", "refused with 11: the recipe ends", "stage 3")),
        ("an outline in stage 3", {"recipe": holding(BAD_OUTLINE)}, "no 13", ("recipe", "refused with 13: a kind is not 1 to 6", "stage 3"), "border value: found 7"),
        ("an outline without its end", {"recipe": holding(BAD_OUTLINE[:-1])}, "no 11", ("recipe", "refused with 11: the recipe ends", "stage 3")),
        ("an empty recipe", {"recipe": holding(b"")}, "no 11", ("recipe", "refused with 11")),
        ("nine stages", {"recipe": holding(b"\x09" + RECIPE[1:])}, "no 10", ("recipe", "refused with 10: the number of stages"), "found 9"),
        ("a byte too much", {"recipe": holding(RECIPE + b"\0")}, "no 12", ("recipe", "refused with 12: the recipe goes on"), "last stage ends with byte 6"),
        ("no still", {"still": holding(b"GIF89a")}, "no 1", ("still", "refused with 1: the file does not begin"), "GI"),
        ("a still without height", {"still": holding(b"P5\n3 0\n255\n")}, "no 3", ("still", "refused with 3: the width or the height"), "found 3 by 0"),
        ("a still of other samples", {"still": holding(b"P5\n3 1\n256\nabc")}, "no 4", ("still", "refused with 4: the header's maximum"), "found 256"),
        ("a short still", {"still": holding(STILL[:-1])}, "no 5", ("still", "refused with 5: there are fewer samples"), "3 by 1"),
        ("an endless recipe", {"recipe": link_to("/dev/zero")}, None, ("recipe", "refused with")),
    ):
        with laid(out=holding(OLD), **files) as room:
            before = lies_at(os.path.join(room, "out"))
            answer = calls.run(["still", "recipe", "out"], room)
            calls.said(what, answer, 1, line or answer.stdout.strip(), *words, *(found if calls.front.name != "C" else ()))
            kept(calls, what, room, "out", before)


def cannot_read(calls):
    """A file that cannot be read is named, with the system's reason."""
    for what, files, words in (
        ("a missing still", {"still": nothing}, ("still", "cannot be read", "No such file")),
        ("a missing recipe", {"recipe": nothing}, ("recipe", "cannot be read", "No such file")),
        ("a folder as still", {"still": folder}, ("still", "cannot be read", "Is a directory")),
        ("a folder as recipe", {"recipe": folder}, ("recipe", "cannot be read", "Is a directory")),
    ):
        with laid(out=holding(OLD), **files) as room:
            before = lies_at(os.path.join(room, "out"))
            calls.said(what, calls.run(["still", "recipe", "out"], room), 2, "no 22", *words)
            kept(calls, what, room, "out", before)
    with laid() as room:
        calls.said("a name of two lines", calls.run(["no\nsuch", "recipe", "out"], room), 2, "no 22", "no?such", "cannot be read")
    with laid(still=link_to("/dev/zero"), out=holding(OLD)) as room:
        answer = calls.run(["still", "recipe", "out"], room)
        calls.tally.equal(calls.where("an endless still"), (answer.status in (1, 2), len(answer.stderr.splitlines())), (True, 1))


def limited(most):
    """A limit on a file's length that sends its signal."""
    def prepare():
        resource.setrlimit(resource.RLIMIT_FSIZE, (most, most))
        signal.signal(signal.SIGXFSZ, signal.SIG_DFL)
    return prepare


def faulty_disk(calls):
    """A disk that says only when a file is synced or closed that it did not keep it."""
    with folders.fresh_folder() as shims:
        shim = os.path.join(shims, "faults.so")
        subprocess.run(["cc", "-shared", "-fPIC", "-o", shim, os.path.join("tests", "c", "faults.c"), "-ldl"], check=True)
        for fault in ("fsync", "close"):
            with laid(out=holding(OLD)) as room:
                before = lies_at(os.path.join(room, "out"))
                what = "a disk that fails at %s" % fault
                # Of ./filter it is the program's own file, in the scratch folder, that cannot be closed.
                calls.said(what, calls.run(["still", "recipe", "out"], room, LD_PRELOAD=shim, FAULT=fault), 2, "no 22", "cannot be written")
                kept(calls, what, room, "out", before)


def cannot_write(calls):
    """No place for it: a folder, a device that is full, a folder that is missing, too little room."""
    for what, name, lay, words in (("a folder", "out", folder, "Is a directory"), ("in a missing folder", "none/out", None, "No such file"),
                                   ("in a file", "still/out", None, "Not a directory"), ("a name that ends in a slash", "none/", None, ""),
                                   ("no name", "", None, "No such file")):
        with laid(**({name: lay} if lay else {})) as room:
            calls.said("out " + what, calls.run(["still", "recipe", name], room), 2, "no 22", "cannot be written", words)
    if os.path.exists("/dev/full"):
        with laid(out=link_to("/dev/full")) as room:
            calls.said("a full device", calls.run(["still", "recipe", "out"], room), 2, "no 22", "out", "cannot be written", "No space left")
    else:
        calls.tally.skips("/dev/full is not there", 1)
    with laid(out=holding(OLD)) as room:
        before = lies_at(os.path.join(room, "out"))
        # ./filter has to copy its inputs first: so the limit lets these by.
        for what, prepare in (("a byte too little", program.bounded(len(OUT) - 1)), ("a byte too little, told by a signal", limited(len(OUT) - 1))):
            answer = calls.run(["still", "recipe", "out"], room, prepare)
            calls.tally.equal(calls.where(what), (answer.status, len(answer.stderr.splitlines())), (2, 1))
            kept(calls, what, room, "out", before)


def closed_to_writing(calls):
    """A plain user may replace neither a read-only file nor a file in a folder that is closed."""
    with laid(out=holding(OLD, 0o444)) as room:
        before = lies_at(os.path.join(room, "out"))
        calls.said("read-only", calls.run(["still", "recipe", "out"], room, program.bounded(plain_user=True)), 2, "no 22", "cannot be written", "Permission denied")
        kept(calls, "read-only", room, "out", before)
    with laid(out=holding(OLD, 0o666)) as room:
        before = lies_at(os.path.join(room, "out"))
        os.chmod(room, 0o555)
        calls.said("a closed folder", calls.run(["still", "recipe", "out"], room, program.bounded(plain_user=True)), 2, "no 22", "cannot be written", "Permission denied")
        kept(calls, "a closed folder", room, "out", before)


def fill_up(path):
    """Makes a file of all the room that is left."""
    with contextlib.suppress(OSError), open(path, "wb", 0) as rest:
        while True:
            rest.write(bytes(1024))


def full_disk(calls):
    """A file system with no room left: what was there stays whole."""
    with laid(disk=folder) as room:
        disk = os.path.join(room, "disk")
        mounted = subprocess.run(["mount", "-t", "tmpfs", "-o", SMALL, "none", disk], stderr=subprocess.DEVNULL)
        if mounted.returncode != 0:
            calls.tally.skips("no small file system can be mounted", 3)
            return
        try:
            holding(OLD)(os.path.join(disk, "out"))
            fill_up(os.path.join(disk, "rest"))
            before = lies_at(os.path.join(disk, "out"))
            calls.said("a full disk", calls.run(["still", "recipe", "disk/out"], room), 2, "no 22", "disk/out", "cannot be written", "No space left")
            kept(calls, "a full disk", disk, "out", before)
        finally:
            subprocess.run(["umount", disk], check=True)


# ---- standard output and standard error


def unprintable(calls):
    """A line that cannot be printed is a failure, and where standard output is closed nothing is done."""
    if os.path.exists("/dev/full"):
        with laid() as room, open("/dev/full", "wb") as full:
            calls.said("a full standard output", calls.run(["still", "recipe", "out"], room, stdout=full), 2, "", "standard output", "No space left")
    with laid(out=holding(OLD)) as room:
        before = lies_at(os.path.join(room, "out"))
        answer = calls.run(["still", "recipe", "out"], room, lambda: os.close(1), stdout=None)
        calls.said("a closed standard output", answer, 2, "", "standard output")
        kept(calls, "a closed standard output", room, "out", before)
    with laid(recipe=holding(BAD_RANK)) as room:
        answer = calls.run(["still", "recipe", "out"], room, lambda: os.close(2))
        calls.tally.equal(calls.where("a closed standard error"), (answer.status, answer.stderr), (1, ""))


def try_front_ends(tally):
    """Each of the four, in each way."""
    with folders.fresh_folder() as room:
        for front in installed(room):
            calls = Calls(tally, front)
            for part in (accepts, large, outlines, follows_links, writes_to_pipes, wrong_usage, refuses, cannot_read, cannot_write, full_disk, faulty_disk, unprintable):
                part(calls)
            if runs_for_everybody(front.command, room):
                closed_to_writing(calls)
            else:
                tally.skips("%s: no user here whom permissions stop" % front.name, 6)
