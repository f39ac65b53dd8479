"""./filter and OUT: a file is whole or untouched, whatever happens to it."""
import errno
import os
import resource
import shutil
import signal
import subprocess

import folders
import program
from filter_calls import UNMADE, waits_for, word
from scripts import written

# Stops where the new file is whole and is still to be put in the place of OUT.
HALTING = 'echo here >"$REACHED"\nexec sleep 60\n'

# Signals to the script while a file or a folder is made that it does not know yet.
SIGNALLING = """if [ "$1" = "$WHEN" ]; then
    read -r _ _ _ _ _ session _ </proc/$$/stat
    kill -s TERM "$session"
fi
exec "$MKTEMP" "$@"
"""

# Makes a folder of OUT in between.
SWAPPING = 'rm -f kept; mkdir kept\nexec "$CHMOD" "$@"\n'

# A small disk, on which the old file takes a page. It is gone with the processes that see it.
DISK = 'mount -t tmpfs -o "size=$KILOBYTES"k none disk || exit 77; printf old >disk/old; "$@"; echo "$?"; ls -A disk; cat disk/old'


def mode(path):
    return os.lstat(path).st_mode & 0o7777


def replaced(calls):
    """An old file gives way to a new one with its permissions, and whoever reads the old one goes on to do so."""
    folders.holding(program.OLD, 0o640)(calls.at("old"))
    with open(calls.at("old"), "rb") as reader:
        calls.accepts("over an old file", ("-still", "a recipe", "old"))
        calls.equal("whoever reads the old file", reader.read() == program.OLD, True)
    calls.accepts("no old file", ("-still", "a recipe", "new"), prepare=lambda: os.umask(0o027))
    calls.equal("permissions", (mode(calls.at("old")), mode(calls.at("new"))), (0o640, 0o640))


def linked(calls):
    """A link stays one. What it leads to is replaced, or made where there was none."""
    links = {"link": "far/file", "links": "link", "dangling": "far/none", "loop": "loop", "nowhere": "none/file", "full": "/dev/full"}
    os.mkdir(calls.at("far"))
    written(calls.at("far/file"), program.OLD)
    for link, target in links.items():
        os.symlink(target, calls.at(link))
    for link, file in (("links", "far/file"), ("dangling", "far/none")):
        calls.says("OUT by %s" % link, ("-still", "a recipe", link), 0, program.LINE + "\n")
        calls.holds("OUT by %s" % link, file, program.OUT)
    for link, number in (("loop", errno.ELOOP), ("nowhere", errno.ENOENT), ("full", errno.ENOSPC)):
        calls.fails("OUT by %s" % link, ("-still", "a recipe", link), link, "written", word(number))
    calls.equal("links", {link: folders.lies_at(calls.at(link)).kind for link in links}, {link: "a link to %s" % target for link, target in links.items()})


def no_file(calls):
    """A folder is no file, and nothing is moved into it. A device or a pipe is written in place."""
    os.mkdir(calls.at("folder"))
    os.mkfifo(calls.at("pipe"))
    for name, number in (("folder", errno.EISDIR), ("folder/", errno.EISDIR), ("none/", errno.EISDIR), ("none/out", errno.ENOENT),
                         ("-still/out", errno.ENOTDIR), ("/dev/full", errno.ENOSPC)):
        calls.fails("OUT %s" % name, ("-still", "a recipe", name), name, "written", word(number))
    calls.equal("a folder", os.listdir(calls.at("folder")), [])
    calls.stops("OUT /dev/stdout", ("-still", "a recipe", "/dev/stdout"), "/dev/stdout: is where standard output goes, and the line with it")
    calls.says("OUT /dev/stderr", ("-still", "a recipe", "/dev/stderr"), 0, program.LINE + "\n", os.fsdecode(program.OUT))
    with subprocess.Popen(["cat", calls.at("pipe")], stdout=subprocess.PIPE) as reader:
        calls.says("OUT a pipe", ("-still", "a recipe", "pipe"), 0, program.LINE + "\n")
        calls.equal("what comes out of the pipe", program.finished(reader)[0], program.OUT)
    calls.equal("OUT a pipe", folders.lies_at(calls.at("pipe")).kind, "a pipe")


def locked(calls):
    """Nothing is read or replaced that the user may not read or write."""
    with program.copied(calls.built) as copy:
        if not program.permissions_count(copy):
            return calls.tally.skips("no user here whom permissions stop", 5)
    nobody = program.bounded(plain_user=True)
    folders.holding(program.STILL, 0)(calls.at("hidden"))
    for folder, rights in (("closed", 0o755), ("open", 0o777)):
        os.mkdir(calls.at(folder))
        folders.holding(program.OLD, 0o444)(calls.at(folder + "/old"))
        os.chmod(calls.at(folder), rights)
    before = [folders.lying_in(calls.at(folder)) for folder in ("closed", "open")]
    calls.fails("a still closed to reading", ("hidden", "a recipe", "open/new"), "hidden", "read", word(errno.EACCES), prepare=nobody)
    for name in ("closed/old", "closed/new", "open/old"):
        calls.fails("OUT %s" % name, ("-still", "a recipe", name), name, "written", word(errno.EACCES), prepare=nobody)
    calls.equal("closed files", [folders.lying_in(calls.at(folder)) for folder in ("closed", "open")] == before, True)


def interrupted(calls):
    """A signal when all but the last step is done: the script ends by it, OUT is as it was, and nothing is left."""
    calls.stands_in("mv", HALTING)
    written(calls.at("kept"), program.OLD)
    for number in (signal.SIGINT, signal.SIGTERM, signal.SIGHUP):
        reached = calls.at("reached %d" % number)
        with calls.starts(("-still", "a recipe", "kept"), prepare=lambda: signal.signal(number, signal.SIG_DFL), REACHED=reached) as process:
            waits_for(reached)
            halves = [name for name in os.listdir(calls.room) if name.startswith(".hejslopi-")]
            os.killpg(process.pid, number)
            line = program.finished(process)[0]
        calls.equal("signal %d" % number, (len(halves), process.returncode, line), (1, -number, b""))
        calls.holds("signal %d" % number, "kept", program.OLD)
        calls.leaves_nothing("signal %d" % number)


def interrupted_early(calls):
    """A signal when the scratch folder, or the new file, is just being made."""
    calls.stands_in("mktemp", SIGNALLING)
    for what, option in (("the scratch folder", "-d"), ("the new file", "--")):
        found = calls.ends(UNMADE, WHEN=option, MKTEMP=shutil.which("mktemp"))[:2]
        calls.equal("a signal when %s is made" % what, found, (-signal.SIGTERM, ""))
        calls.leaves_nothing("a signal when %s is made" % what)
    calls.holds("a signal", "unmade", None)


def no_scratch(calls):
    """A limit on files, told by an error and by a signal, and no scratch folder."""
    limit = len(program.STILL) - 1
    for where, how, number in (
        ("a limit on files", {"prepare": program.bounded(limit)}, errno.EFBIG),
        ("a limit on files with a signal", {"prepare": lambda: resource.setrlimit(resource.RLIMIT_FSIZE, (limit, limit))}, errno.EFBIG),
        ("no scratch folder", {"TMPDIR": calls.at("none")}, errno.ENOENT),
    ):
        calls.fails(where, UNMADE, "scratch folder", "written", word(number), **how)
        calls.holds(where, "unmade", None)


def last_step(calls):
    """A new file that cannot be put in the place of OUT, and an OUT that has become a folder meanwhile."""
    written(calls.at("kept"), program.OLD)
    calls.stands_in("mv", "echo 'mv: a: b: %s' >&2\nexit 1\n" % word(errno.EBUSY))
    calls.fails("a file that cannot be moved", ("-still", "a recipe", "kept"), "kept", "written", word(errno.EBUSY))
    calls.holds("a file that cannot be moved", "kept", program.OLD)
    os.remove(calls.at("stand-in/mv"))
    calls.stands_in("chmod", SWAPPING)
    calls.equal("OUT becomes a folder", calls.ends(("-still", "a recipe", "kept"), CHMOD=shutil.which("chmod"))[:2], (2, "no 22\n"))
    calls.equal("OUT becomes a folder: its files", os.listdir(calls.at("kept")), [])


def on_disk(calls, pages, out, **changed):
    """What a call prints where `disk` is a disk of some pages; then come its status, what lies on the disk, and the old file. None without such a disk."""
    command = ["unshare", "-rm", "sh", "-c", DISK, "sh"] + calls.shell + [calls.command, "-still", "a recipe", out]
    done = subprocess.run(command, cwd=calls.room, env={**os.environ, **calls.changed, "KILOBYTES": str(4 * pages), **changed}, stdin=subprocess.DEVNULL,
                          stdout=subprocess.PIPE, stderr=subprocess.PIPE, universal_newlines=True)
    return None if done.returncode == 77 or "unshare" in done.stderr else (done.stdout, done.stderr)


def full_disk(calls):
    """A disk without room for OUT, for the copy of the recipe, for the program's output, and one with room for all."""
    os.mkdir(calls.at("disk"))
    if not shutil.which("unshare") or on_disk(calls, 4, "made") is None:
        return calls.tally.skips("no disk can be made", 6)
    for where, pages, out, which, changed in (
        ("no room for OUT, which is there", 1, "disk/old", "disk/old", {}),
        ("no room for OUT", 1, "disk/new", "disk/new", {}),
        ("no room for the recipe", 2, "unmade", "scratch folder", {"TMPDIR": "disk"}),
        ("no room for the program's output", 3, "unmade", "scratch folder", {"TMPDIR": "disk"}),
    ):
        full = "filter: %s: cannot be written: %s\n" % (which, word(errno.ENOSPC))
        calls.equal(where, on_disk(calls, pages, out, **changed), ("no 22\n2\nold\nold", full))
    calls.equal("room for all", on_disk(calls, 4, "made", TMPDIR="disk"), (program.LINE + "\n0\nold\nold", ""))
    calls.holds("a full disk", "unmade", None)


PARTS = (replaced, linked, no_file, locked, interrupted, interrupted_early, no_scratch, last_step, full_disk)
