"""How ./filter comes to its program: as it is built, by a proof, or not at all. Another program stands in for rt."""
import contextlib
import errno
import os
import shutil
import signal
import time

import folders
import program
from filter_calls import BUILT, EXAMPLE, UNMADE, waits_for, word

PROVING = "filter: proving the program, some minutes the first time: %d of %d crates"
AS_BUILT = "filter: crates/ is newer than the program, and there is no rt to prove it again: this is the program as it was built\n"
NO_RT = "rt (the Rattle toolchain) is needed to build the program, and is not to be found"

# What stands in for rt, beneath tools/build, writes down each run, tells of crates as rt does, and waits until ./filter has looked some times: what stands in
# for sleep counts them. Of a crate that has not changed rt says nothing.
SLEEP = 'echo >>"$LOOKS"\nexec "$SLEEP" 0.1\n'
RT = """echo "${PWD##*/} $*" >>"$RUNS"
place=0
passes() { place=$((place + $1)); }
proves() {
    for crate in $(echo "$ORDER" | cut -d ' ' -f "$((place + 1))-$((place + $1))"); do
        printf 'rt: chose --jobs 2 for %s\\nfn %s::made: proved\\ncrate %s: modules loaded=8 checked=4\\nlogic=proved functions=1 sum=dac8\\n' "$crate" "$crate" "$crate"
    done >"$RUNS.said"
    cat "$RUNS.said"
    passes "$1"
}
looks() { wc -l <"$LOOKS"; }
pause() { until=$(($(looks) + $1)); until [ "$(looks)" -ge "$until" ]; do "$SLEEP" 0.02; done; }
"""
UNCHANGED = RT + "echo 'rt: nothing has changed since the last proved build, by out/hejslopi.stamp, so nothing is checked now'\n"
# How many crates are proved at each step, up to all.
STEPS = (11, 13, 23)
BY_AND_BY = RT + """passes 9
proves 2; pause 3; proves 2; pause 3; proves 10; pause 3; proves $((TOTAL - 23)); pause 3
mkdir -p out; cp -- "$PROGRAM" out; echo 'no 22'
"""
LONG_AT_ONE = RT + "passes 5; echo 'rt: chose --jobs 2 for' $(echo \"$ORDER\" | cut -d ' ' -f 6); pause 25; exit 1\n"
# How rt tells of a proof that fails, of a function without one, and of what cannot be read.
REFUSED = RT + """cat <<'END'
rt: chose --jobs 2 for b
warning: a line of no account
./proofs/wide/Answers.antt:8:13: error: `returns`: expected another type
fn b::wide: not proved
crate b: modules loaded=0 checked=4
logic=not-proved
rattle build: nothing was built, since only a proved crate is built
rt: the library b did not build, so nothing above it was checked
END
exit 1
"""
NO_PROOF = RT + "echo 'rt: chose --jobs 2 for b'; echo 'fn b::wide: no proof'; echo logic=not-proved; echo 'rt: the library b did not build'; exit 1\n"
UNREAD = RT + "echo 'src/main.rt:13:1: error[unexpected-token]: expected expression'; echo 'rt: mend these first: no library was built'; exit 1\n"
ENDLESS = RT + 'echo $$ >"$REACHED"\nexec "$SLEEP" 60\n'


def resting_on(name):
    """All that a crate rests on, each behind what it rests on, and itself last: in this order rt proves them."""
    with open("crates.txt", encoding="utf-8") as file:
        rests = dict(line.split(":") for line in file if ":" in line and not line.startswith("#"))
    order = []

    def visit(crate):
        if crate in rests and crate not in order:
            for below in rests[crate].split():
                visit(below)
            order.append(crate)

    visit(name)
    return order


# ---- the state of the copy


def with_rt(calls, text):
    """From now on this stands in for rt. It has not been run yet. How many crates there are."""
    order = resting_on("hejslopi")
    calls.stands_in("rt", text)
    calls.stands_in("sleep", SLEEP)
    calls.changed.update(RUNS=calls.at("runs"), LOOKS=calls.at("looks"), ORDER=" ".join(order), TOTAL=str(len(order)), PROGRAM=os.path.abspath(BUILT),
                         SLEEP=shutil.which("sleep"))
    for name in ("runs", "looks"):
        open(calls.at(name), "w").close()
    return len(order)


def without_rt(calls):
    """From now on there is no rt: a folder that has it gives way to links to all else in it."""
    path = []
    for number, folder in enumerate(os.environ["PATH"].split(os.pathsep)):
        if os.path.exists(os.path.join(folder, "rt")):
            folder, whole = calls.at("path %d" % number), folder
            os.mkdir(folder)
            for name in set(os.listdir(whole)) - {"rt"}:
                os.symlink(os.path.join(whole, name), os.path.join(folder, name))
        path.append(folder)
    calls.changed["PATH"] = os.pathsep.join(path)


def set_older(calls):
    """The program is older than the sources."""
    os.utime(calls.built, (1, 1))


def ran(calls, where, times):
    """One test: how often rt was run, each time for the program."""
    calls.holds("%s: runs of rt" % where, "runs", b"hejslopi run\n" * times)


def log_of(calls):
    return os.path.join(calls.top, "target", "filter.log")


# ---- no proof


def as_built(calls):
    """No toolchain: what is built is run, with a word where the sources are newer."""
    without_rt(calls)
    calls.accepts("no rt")
    set_older(calls)
    calls.says("no rt, newer sources", EXAMPLE, 0, program.LINE + "\n", AS_BUILT)
    os.remove(calls.built)
    calls.stops("no rt, no program", UNMADE, NO_RT)
    os.remove(os.path.join(calls.top, "crates.txt"))
    calls.stops("no repository", UNMADE, "%s is not there: this script belongs to its repository" % os.path.join(calls.top, "crates.txt"))
    calls.holds("no program", "unmade", None)


def unchanged(calls):
    """Sources that are newer and no other: rt is asked once, and nothing is said. A file that is gone counts too, and what rt leaves does not."""
    for where, change in (("a newer source", lambda: os.utime(calls.source)), ("a source less", lambda: os.remove(calls.source))):
        with_rt(calls, UNCHANGED)
        for path in (calls.source, os.path.dirname(calls.source), os.path.join(calls.top, "crates.txt")):
            os.utime(path, (0, 0))
        set_older(calls)
        calls.accepts("before %s" % where)
        ran(calls, "before %s" % where, 0)
        change()
        for _ in range(2):
            calls.accepts(where)
        ran(calls, where, 1)


def no_program(calls):
    """A file that is no program does not count as built."""
    os.chmod(calls.built, 0o644)
    with_rt(calls, "echo >>\"$RUNS\"; exit 1\n")
    calls.equal("no program", (calls.ends(UNMADE)[:2], folders.lies_at(calls.at("runs")).bytes), ((2, ""), b"\n"))
    without_rt(calls)
    calls.stops("no program, no rt", UNMADE, NO_RT)
    os.chmod(calls.built, 0o755)
    calls.accepts("a program again")


def broken_program(calls):
    """A program that does not say its line, and one that a signal ends: the shell's own words on that are not heard."""
    for text, status in (("echo else; exit 3", 3), ("kill -s SEGV $$", 128 + signal.SIGSEGV)):
        with open(calls.built, "w") as file:
            file.write("#!/bin/sh\n%s\n" % text)
        calls.stops(text, UNMADE, "%s has ended with status %d and without its line" % (calls.built, status))


# ---- proofs


def proving(calls):
    """From nothing: what is done of what, a line for about every ten crates. The log has all that rt says."""
    for folder in (os.path.join(calls.top, "target"), os.path.dirname(calls.out)):
        shutil.rmtree(folder)
    total = with_rt(calls, BY_AND_BY)
    calls.says("from nothing", EXAMPLE, 0, program.LINE + "\n", "".join(PROVING % (count, total) + "\n" for count in (11, 23, total)))
    calls.holds("from nothing", "out", program.OUT)
    calls.equal("lines of the log", len(folders.bytes_of(log_of(calls)).splitlines()), 4 * (total - 9) + 1)
    calls.accepts("once it is proved")
    ran(calls, "from nothing", 1)


def on_terminal(calls):
    """The same on a terminal: one line, which is written anew in its place."""
    set_older(calls)
    total = with_rt(calls, BY_AND_BY)
    reading, terminal = os.openpty()
    answer = calls.ends(EXAMPLE, errors=terminal)[:2]
    os.close(terminal)
    said = b""
    with contextlib.suppress(OSError):
        while not said.endswith(b"\n"):
            said += os.read(reading, 4096)
    os.close(reading)
    steps = list(dict.fromkeys(said.decode().split("\r")))
    calls.equal("on a terminal", (answer, steps), ((0, program.LINE + "\n"), [""] + [PROVING % (count, total) for count in STEPS + (total,)] + ["\n"]))


def not_proved(calls):
    """A proof that fails: one line with the failure and the place of the log. There is no OUT, and the old program stays."""
    for text, failure in (
        (REFUSED, "crates/b/proofs/wide/Answers.antt:8:13: error: `returns`: expected another type"),
        (NO_PROOF, "fn b::wide: no proof"),
        (UNREAD, "crates/hejslopi/src/main.rt:13:1: error[unexpected-token]: expected expression"),
        (RT + "echo wrong >&2; exit 2\n", "wrong"),
        (RT + "exit 3\n", "rt has said nothing"),
    ):
        set_older(calls)
        with_rt(calls, text)
        calls.stops(failure, UNMADE, "the program is not built: %s (the whole is in %s)" % (failure, log_of(calls)))
        ran(calls, failure, 1)
    without_rt(calls)
    calls.says("the old program", EXAMPLE, 0, program.LINE + "\n", AS_BUILT)
    os.remove(calls.built)
    with_rt(calls, RT + "chmod a-x out/hejslopi\n")
    calls.stops("no program though rt ended well", UNMADE, "tools/build has ended well, and there is no %s" % calls.built)
    calls.holds("not proved", "unmade", None)


def long_at_one(calls):
    """Where rt takes long for a crate, it is said that it proves, though none has been proved yet."""
    set_older(calls)
    total = with_rt(calls, LONG_AT_ONE)
    status, _, err = calls.ends(UNMADE)
    calls.equal("long at one crate", (status, err.splitlines()[:1]), (2, [PROVING % (5, total)]))


def no_log(calls):
    """A log, or a folder for it, that cannot be written."""
    set_older(calls)
    with_rt(calls, UNCHANGED)
    os.mkdir(log_of(calls))
    calls.stops("a log that is a folder", UNMADE, "%s: cannot be written: %s" % (log_of(calls), word(errno.EISDIR)))
    os.rmdir(log_of(calls))
    with program.copied(calls.built) as copy:
        if not program.permissions_count(copy):
            return calls.tally.skips("no user here whom permissions stop", 1)
    nobody = program.bounded(plain_user=True)
    calls.stops("a closed target folder", UNMADE, "%s: cannot be written: %s" % (log_of(calls), word(errno.EACCES)), prepare=nobody)


def still_there(number):
    """Whether a process is there after some time in which it may end."""
    for _ in range(100):
        try:
            os.kill(number, 0)
        except ProcessLookupError:
            return False
        time.sleep(0.05)
    return True


def ended_while_proving(calls):
    """A signal to the script alone ends rt too."""
    set_older(calls)
    with_rt(calls, ENDLESS)
    reached = calls.at("reached")
    with calls.starts(UNMADE, REACHED=reached) as process:
        waits_for(reached)
        process.terminate()
        process.wait(program.PATIENCE)
        left = still_there(int(folders.bytes_of(reached)))
        program.finished(process)
    calls.equal("ended while it proves", (process.returncode, left), (-signal.SIGTERM, False))


def at_once(calls):
    """Two calls and one proof: the other waits for it."""
    if not shutil.which("flock"):
        return calls.tally.skips("flock is not there", 2)
    set_older(calls)
    with_rt(calls, BY_AND_BY)
    with contextlib.ExitStack() as started:
        both = [started.enter_context(calls.starts(("-still", "a recipe", name))) for name in ("first", "second")]
        lines = [program.finished(process)[0].decode() for process in both]
    calls.equal("two calls at once", lines, [program.LINE + "\n"] * 2)
    ran(calls, "two calls at once", 1)


PARTS = (as_built, unchanged, no_program, broken_program, proving, on_terminal, not_proved, long_at_one, no_log, ended_while_proving, at_once)
