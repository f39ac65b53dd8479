"""The command `hejslopi` in Python: making, explaining and describing recipes, many stills at once, what must be lent, movement, verdicts, and what it says when
something is missing.

What it shares with the other front ends, filtering one still, is tried in front_ends.py.
"""
import collections
import fcntl
import json
import os
import pty
import shutil
import struct
import subprocess
import sys
import termios

import descriptions
import folders
import program
from folders import bytes_of
from scripts import written
from tally import Words

Answer = collections.namedtuple("Answer", "status stdout stderr")

OLD = b"an old file"
TWO_STAGES = bytes.fromhex("02 03 01 00 01 01 04 01 00 01 01")
# Weights -1 4 1 over 4 across: they add up to 1, and their sizes to 3/2. Then an edge of sixteen times the gain, three times over.
SHARPEN = bytes.fromhex("01 01 02 00 03 01 00 04 00 01 FF 00 01 00 FF FF 00 04 00 01 00 01")
FOURFOLD = bytes.fromhex("01 00 00 01 01 00 01 00 01 00 00 00 04 00 04")
LOUD = b"\x04\x03\x01\x00\x01\x01" + 3 * FOURFOLD
OUTLINED = bytes.fromhex("03 06 00 07 04 01 00 01 01 06 03 00")


def environment(**changed):
    return {name: value for name, value in dict(os.environ, **changed).items() if value is not None}


def run(words, cwd, prepare=None, stdout=subprocess.PIPE, command=None, **changed):
    """How the command ends and what it prints."""
    command = command or [sys.executable, os.path.abspath(os.path.join("python", "hejslopi.py"))]
    done = subprocess.run(command + words, cwd=cwd, stdin=subprocess.DEVNULL, stdout=stdout, stderr=subprocess.PIPE, preexec_fn=prepare, timeout=program.PATIENCE,
                          env=environment(**changed))
    return Answer(done.returncode, (done.stdout or b"").decode("utf-8", "backslashreplace"), done.stderr.decode("utf-8", "backslashreplace"))


def one_line(tally, where, answer, status, *words):
    """One test: nothing but a single line on standard error, with these words."""
    lines = answer.stderr.splitlines()
    if (answer.status, answer.stdout, len(lines)) == (status, "", 1) and all(word in lines[0] for word in words) and "should not happen" not in lines[0]:
        tally.passes()
    else:
        tally.fails(where, answer, Words("%d and one line with %s" % (status, words)))


def kept(tally, where, room, name):
    """One test: the old file is there as it was, and nothing half written beside it."""
    tally.equal(where, (bytes_of(os.path.join(room, name)), [name for name in os.listdir(room) if name.startswith(".")]), (OLD, []))


# ---- recipes from descriptions


def wrong_descriptions(tally):
    """Each ends in its line, and the old recipe stays."""
    with folders.fresh_folder() as room:
        for text, words in descriptions.WRONG:
            written(os.path.join(room, "recipe"), OLD)
            where = "the description %s" % (text[:60],)
            written(os.path.join(room, "wrong.json"), text if isinstance(text, bytes) else text.encode())
            one_line(tally, where, run(["recipe", "wrong.json", "recipe"], room), 1, "wrong.json: ", *words)
            kept(tally, where, room, "recipe")


def recipes_made(tally):
    """A new recipe, one over an old file, one with a weight that has to be rounded, and targets that take none."""
    with folders.fresh_folder() as room:
        written(os.path.join(room, "two.json"), b'[{"kind": "binomial", "across": 1, "down": 1},\n {"kind": "box", "across": 1, "down": 1}]\n')
        written(os.path.join(room, "old"), OLD)
        for name in ("new", "old"):
            tally.equal("recipe into %s" % name, run(["recipe", "two.json", name], room), Answer(0, "stages 2 T 66048\n", ""))
            tally.equal("recipe into %s: bytes" % name, bytes_of(os.path.join(room, name)), TWO_STAGES)
        written(os.path.join(room, "real.json"), (descriptions.REALS % '{"left": 0.1, "here": 0.25}').encode())
        note = 'hejslopi: real.json: stage 1, across, tap "left": 0.1 is held as 0.10000000149011612, the nearest binary32\n'
        answer = run(["recipe", "real.json", "real"], room)
        tally.equal("a weight that is rounded", (answer.status, answer.stderr), (0, note))
        tally.equal("a weight that is rounded: bytes", bytes_of(os.path.join(room, "real"))[9:17], bytes.fromhex("3D CC CC CD 3E 80 00 00"))
        written(os.path.join(room, "close.json"), (descriptions.REALS % '{"here": 0.25000000000000000001}').encode())
        tally.equal("a weight that is rounded by little", run(["recipe", "close.json", "close"], room).stderr.count("is held as 0.25"), 1)
        written(os.path.join(room, "again.json"), run(["describe", "real"], room).stdout.encode())
        tally.equal("a weight as it is described", run(["recipe", "again.json", "again"], room).stderr, "")
        if os.path.exists("/dev/full"):
            command = [os.path.join(room, "on-full")]
            written(command[0], ('#!/bin/sh\nexec "%s" "%s" "$@" 2>/dev/full\n' % (sys.executable, os.path.abspath(os.path.join("python", "hejslopi.py")))).encode())
            os.chmod(command[0], 0o755)
            tally.equal("a note that is lost", run(["recipe", "real.json", "real"], room, command=command).status, 2)
        written(os.path.join(room, "kept"), OLD)
        one_line(tally, "a missing description", run(["recipe", "none.json", "kept"], room), 2, "none.json: cannot be read: No such file")
        one_line(tally, "a folder as description", run(["recipe", ".", "kept"], room), 2, ".: cannot be read: Is a directory")
        one_line(tally, "an endless description", run(["recipe", "/dev/zero", "kept"], room), 2, "/dev/zero: cannot be read: it is longer")
        one_line(tally, "a folder as recipe", run(["recipe", "two.json", "."], room), 2, ".: cannot be written: Is a directory")
        one_line(tally, "the description as recipe", run(["recipe", "two.json", "./two.json"], room), 2, "would be lost", "usage")
        if os.path.exists("/dev/full"):
            one_line(tally, "a full device", run(["recipe", "two.json", "/dev/full"], room), 2, "/dev/full: cannot be written: No space left")
        one_line(tally, "too little room", run(["recipe", "two.json", "kept"], room, program.bounded(len(TWO_STAGES) - 1)), 2, "kept: cannot be written")
        kept(tally, "too little room: kept", room, "kept")


# ---- explaining and describing


def explained(tally):
    """The words of the table, with sums, gains, rounded weights and T worked by hand or taken from the documents' examples."""
    with folders.fresh_folder() as room:
        for name, data in (("two", TWO_STAGES), ("sharpen", SHARPEN), ("loud", LOUD), ("rank", bytes.fromhex("01 05 00 07 01 02 00 08"))):
            written(os.path.join(room, name), data)
        answer = run(["explain", "two"], room)
        rows = [line.split() for line in answer.stdout.splitlines()]
        axis = ["3", "at", "-1", "to", "1", "1", "1"]
        tally.equal("explain: a binomial", rows[1], ["1", "binomial", "nearest"] + 2 * (axis + ["0"]) + ["33280", "0.5079"])
        # 66,048 over 65,536 is 1.00781.., rounded up since it bounds. Twice that is 2.01562..: rounded down, so that what is said of limits below stays true.
        tally.equal("explain: a box", rows[2], ["2", "box", "nearest"] + 2 * (axis + ["-"]) + ["66048", "1.0079"])
        last = answer.stdout.splitlines()[-1]
        tally.equal("explain: the movement limit", ["2 T/65,536: 2.0156 grey levels, so 3 as" in last, answer.status, answer.stderr], [True, 0, ""])
        tally.equal("explain: ratios", run(["explain", "sharpen"], room).stdout.splitlines()[1].split()[:17],
                    "1 ratios mirror 3 at -1 to 1 1 1.5 0 1 at 0 1 1 0".split())
        tally.equal("explain: a rank", run(["explain", "rank"], room).stdout.splitlines()[1].split(),
                    "1 rank 8 of 15 constant 7 3 at -1 to 1 - - - 5 at -2 to 2 - - - 0 0.0000".split())
        explained_outlines(tally, room)
        tally.equal("explain: T 0", run(["explain", "rank"], room).stdout.splitlines()[-1], "T is 0: every sample is the exact result.")
        tally.equal("explain: T at its most", "it says nothing" in run(["explain", "loud"], room).stdout.splitlines()[-1], True)
        one_line(tally, "explain: a missing recipe", run(["explain", "none"], room), 2, "none: cannot be read: No such file")
        explained_to_programs(tally, room)


def explained_outlines(tally, room):
    """T of a box is half a grey level, and the outline behind it makes three of it. One sentence says so, and none where there is no outline."""
    written(os.path.join(room, "outlined"), OUTLINED)
    lines = run(["explain", "outlined"], room).stdout.splitlines()
    axes = 2 * ["3", "at", "-1", "to", "1", "-", "-", "-"]
    tally.equal("explain: an outline", lines[1].split(), ["1", "outline", "constant", "7"] + axes + ["0", "0.0000"])
    tally.equal("explain: an outline behind a box", lines[3].split(), ["3", "outline", "wrap"] + axes + ["196608", "3.0000"])
    said = [sum("Behind an outline T is 6 times" in line for line in run(["explain", name], room).stdout.splitlines()) for name in ("outlined", "two")]
    tally.equal("explain: how T grows", said, [1, 0])


def explained_to_programs(tally, room):
    """The same as JSON."""
    told = json.loads(run(["explain", "--json", "sharpen"], room).stdout)
    stage = told["stages"][0]
    tally.equal("explain --json: ratios", [stage["kind"], stage["border"], stage["across"], stage["down"]["offsets"]],
                ["ratios", "mirror", {"offsets": [-1, 0, 1], "sum": "1", "gain": "1.5", "rounded": 0}, [0]])
    told = json.loads(run(["explain", "two", "--json"], room).stdout)
    tally.equal("explain --json: T", [[stage["tolerance"] for stage in told["stages"]], told["tolerance"], told["grey_levels"], told["least_movement_limit"]],
                [[33280, 66048], 66048, 66048 / 65536, 66048 / 32768])
    told = json.loads(run(["explain", "loud", "--json"], room).stdout)
    tally.equal("explain --json: T at its most", [told["tolerance"], told["says_nothing"]], [16711680, True])
    stages = json.loads(run(["explain", "outlined", "--json"], room).stdout)["stages"]
    tally.equal("explain --json: how T grows", [(stage["tolerance"], stage.get("growth")) for stage in stages], [(0, 6), (32768, None), (196608, 6)])
    # Weights 1/3 of ratios, and of reals the binary32 next to 0.1 and 1/4: 13421773/2^27 + 1/4 = 46976205/2^27.
    written(os.path.join(room, "thirds"), bytes.fromhex("01 01 01 00 02 01 00 03 00 01 00 01 00 00 01 00 01 00 01"))
    written(os.path.join(room, "tenth"), bytes.fromhex("01 02 01 00 02 01 00 01 00 3D CC CC CD 3E 80 00 00 3F 80 00 00"))
    across = [json.loads(run(["explain", name, "--json"], room).stdout)["stages"][0]["across"] for name in ("thirds", "tenth")]
    tally.equal("explain --json: exact sums", [axis["sum"] for axis in across], ["2/3", "46976205/134217728"])
    tally.equal("explain --json: rounded weights", [axis["rounded"] for axis in across], [2, 1])
    tally.equal("explain: a sum that is shortened", run(["explain", "tenth"], room).stdout.splitlines()[1].split()[8], "~0.35")


def described(tally):
    """What is described and made again has the same bytes."""
    with folders.fresh_folder() as room:
        for name, data in (("two", TWO_STAGES), ("sharpen", SHARPEN), ("loud", LOUD), ("outlined", OUTLINED), ("example", program.RECIPE)):
            written(os.path.join(room, name), data)
            answer = run(["describe", name], room)
            written(os.path.join(room, "again.json"), answer.stdout.encode())
            run(["recipe", "again.json", "again"], room)
            tally.equal("describe %s" % name, (answer.status, answer.stderr, bytes_of(os.path.join(room, "again"))), (0, "", data))
        written(os.path.join(room, "refused"), b"\x01\x09")
        for word in ("describe", "explain"):
            one_line(tally, "%s: a refused recipe" % word, run([word, "refused"], room), 1, "refused: refused with 13", "stage 1, kind", "found 9", "1 ratios")


# ---- many stills


def many(tally):
    """Good ones are filtered whatever the others are, each has its line, and the worst decides the status."""
    with folders.fresh_folder() as room:
        for name in ("a.pgm", "b.pgm", "c.pgm"):
            written(os.path.join(room, name), program.STILL)
        written(os.path.join(room, "bad.pgm"), b"P5\n3 1\n255\nab")
        written(os.path.join(room, "recipe"), program.RECIPE)
        answer = run(["filter", "recipe", "a.pgm", "b.pgm", "--into", "good"], room)
        tally.equal("many", answer, Answer(0, "good/a.pgm T 33280\ngood/b.pgm T 33280\n", ""))
        tally.equal("many: files", {name: bytes_of(os.path.join(room, "good", name)) for name in os.listdir(os.path.join(room, "good"))},
                    {"a.pgm": program.OUT, "b.pgm": program.OUT})
        os.mkdir(os.path.join(room, "there"))
        answer = run(["filter", "recipe", "bad.pgm", "--into=there", "a.pgm"], room)
        tally.equal("many, one refused", (answer.status, answer.stdout, answer.stderr.count("\n"), "bad.pgm: refused with 5" in answer.stderr),
                    (1, "there/a.pgm T 33280\n", 1, True))
        answer = run(["filter", "--into", "there", "recipe", "none.pgm", "bad.pgm", "c.pgm"], room)
        tally.equal("many, one missing", (answer.status, answer.stdout, answer.stderr.count("\n")), (2, "there/c.pgm T 33280\n", 2))
        tally.equal("many, some refused: files", sorted(os.listdir(os.path.join(room, "there"))), ["a.pgm", "c.pgm"])
        many_refused(tally, room)
        bar(tally, room)


def many_refused(tally, room):
    """Nothing is begun where an input or an output would be lost, or the recipe is refused."""
    os.mkdir(os.path.join(room, "other"))
    shutil.copy(os.path.join(room, "a.pgm"), os.path.join(room, "other", "a.pgm"))
    os.symlink("../b.pgm", os.path.join(room, "other", "b.pgm"))
    os.mkdir(os.path.join(room, "linked"))
    os.symlink("c.pgm", os.path.join(room, "linked", "a.pgm"))
    written(os.path.join(room, "refused"), b"\x01\x09")
    for where, words, status, said in (
        ("two of one name", ["recipe", "a.pgm", "other/a.pgm", "--into", "new"], 2, "new/a.pgm: two of the stills would be written there"),
        ("into their own folder", ["recipe", "a.pgm", "--into", "."], 2, "./a.pgm: is one of the files to be read"),
        ("over an input through a link", ["recipe", "b.pgm", "--into", "other"], 2, "other/b.pgm: is one of the files to be read"),
        ("over another's output through a link", ["recipe", "a.pgm", "c.pgm", "--into", "linked"], 2, "linked/c.pgm: two of the stills would be written there"),
        ("a refused recipe", ["refused", "a.pgm", "--into", "new"], 1, "refused: refused with 13"),
        ("a missing recipe", ["none", "a.pgm", "--into", "new"], 2, "none: cannot be read"),
        ("a file as folder", ["recipe", "a.pgm", "--into", "b.pgm"], 2, "b.pgm: "),
        ("a folder that cannot be made", ["recipe", "a.pgm", "--into", "none/new"], 2, "none/new: "),
        ("no still", ["recipe", "--into", "new"], 2, "usage"),
        ("no folder", ["recipe", "a.pgm", "--into"], 2, "usage"),
        ("a word in place of the folder", ["recipe", "a.pgm", "--into", "--json"], 2, "usage"),
        ("two folders", ["recipe", "a.pgm", "--into", "new", "--into", "newer"], 2, "--into twice"),
    ):
        one_line(tally, "many: %s" % where, run(["filter"] + words, room), status, said)
    os.mkdir(os.path.join(room, "printed"))
    with open(os.path.join(room, "printed", "a.pgm"), "wb") as printed:
        one_line(tally, "many: lines into an output", run(["filter", "recipe", "a.pgm", "--into", "printed"], room, stdout=printed), 2, "is where standard output goes")
    tally.equal("many: nothing begun", os.path.exists(os.path.join(room, "new")), False)
    tally.equal("many: the inputs", [bytes_of(os.path.join(room, name)) for name in ("a.pgm", "b.pgm")], [program.STILL] * 2)


def on_terminal(words, room, columns):
    """What the command shows on a terminal of so many columns, and how it ends."""
    master, terminal = pty.openpty()
    fcntl.ioctl(terminal, termios.TIOCSWINSZ, struct.pack("HHHH", 24, columns, 0, 0))
    answer = run(words, room, stdout=terminal)
    os.close(terminal)
    shown = os.read(master, 65536).decode()
    os.close(master)
    return answer, shown


def bar(tally, room):
    """On a terminal a bar grows, and a line at its end says how many. On one that is too narrow for it no line is broken."""
    answer, narrow = on_terminal(["filter", "recipe", "a.pgm", "--into", "narrow"], room, 5)
    tally.equal("many on a narrow terminal", (answer.status, "[" in narrow.replace("\033[K", ""), max(map(len, narrow.replace("\033[K", "").split("\r")[:-2]))), (0, False, 4))
    answer, shown = on_terminal(["filter", "recipe", "a.pgm", "bad.pgm", "b.pgm", "--into", "shown"], room, 80)
    steps = [step in shown for step in ("] 0 of 3", "] 1 of 3", "] 2 of 3", "] 3 of 3")]
    tally.equal("many on a terminal", (answer.status, steps, shown.split("\r")[-2].strip("\033[K"), "T 33280" in shown), (1, [True] * 4, "2 of 3 filtered into shown", False))


# ---- needs


def needs(tally):
    """The line, whatever follows the header, and what is said of each thing that is wrong. Nothing is written."""
    box = bytes.fromhex("01 04 01 00 01 02")
    files = {"still.pgm": program.STILL, "recipe": program.RECIPE, "box": box, "header.pgm": b"P5\n5 4\n255\n", "long.ppm": b"P6 5 4 255\n" + bytes(61),
             "largest.ppm": b"P6\n8192 8192\n255\n", "short": b"P5\n3 1\n255", "zero.pgm": b"P5\n0 4\n255\n", "deep.pgm": b"P5\n5 4\n65535\n", "other.pbm": b"P4\n5 4\n",
             "refused": b"\x01\x09", "empty": b""}
    with folders.fresh_folder() as room:
        for name, data in files.items():
            written(os.path.join(room, name), data)
        for still, recipe, line in (("still.pgm", "recipe", "work 6 rows 93 sums 0 out 14 T 33280"), ("header.pgm", "box", "work 40 rows 170 sums 48 out 31 T 32768"),
                                    ("long.ppm", "box", "work 40 rows 170 sums 48 out 71 T 32768"), ("largest.ppm", "box", "work 134217728 rows 67354624 sums 49170 out 201326609 T 32768")):
            tally.equal("needs of %s by %s" % (still, recipe), run(["needs", still, recipe], room, program.bounded(0)), Answer(0, line + "\n", ""))
        for where, words, status, said in (
            ("a refused recipe before a refused header", ["other.pbm", "refused"], 1, ["refused: refused with 13", "stage 1, kind: found 9"]),
            ("an empty recipe", ["still.pgm", "empty"], 1, ["empty: refused with 11", "it has no bytes"]),
            ("another magic", ["other.pbm", "recipe"], 1, ["other.pbm: refused with 1", "it begins with 'P4'"]),
            ("no bytes", ["empty", "recipe"], 1, ["empty: refused with 1", "it has no bytes"]),
            ("a header that is cut", ["short", "recipe"], 1, ["short: refused with 2"]),
            ("a width of 0", ["zero.pgm", "recipe"], 1, ["zero.pgm: refused with 3", "found 0 by 4"]),
            ("another maximum", ["deep.pgm", "recipe"], 1, ["deep.pgm: refused with 4", "found 65535"]),
            ("a missing still", ["none.pgm", "recipe"], 2, ["none.pgm: cannot be read: No such file"]),
            ("a missing recipe", ["still.pgm", "none"], 2, ["none: cannot be read: No such file"]),
            ("a folder", [".", "recipe"], 2, [".: cannot be read: Is a directory"]),
            ("no recipe", ["still.pgm"], 2, ["words behind `needs`: 1", "usage: hejslopi needs STILL RECIPE"]),
            ("an output", ["still.pgm", "recipe", "out"], 2, ["words behind `needs`: 3", "usage: hejslopi needs STILL RECIPE"]),
        ):
            one_line(tally, "needs: %s" % where, run(["needs"] + words, room), status, *said)
        tally.equal("needs: files", sorted(os.listdir(room)), sorted(files))


# ---- movement


# Three samples that the binomial of program.RECIPE makes 13 43 95, beside the 13 23 35 of program.STILL, with 1.016 levels for both T.
AFTER = b"P5\n3 1\n255\n" + bytes([10, 20, 120])
LINE = "moved 1 still 1 open 1 T 33280 33280\n"
MARKED = b"P6\n3 1\n255\n" + bytes([13, 13, 13, 255, 255, 0, 255, 0, 0])


def movement(tally):
    """The line, the picture in a new file and over an old one, and what is said of each thing that is wrong."""
    with folders.fresh_folder() as room:
        for name, data in (("a.pgm", program.STILL), ("b.pgm", AFTER), ("recipe", program.RECIPE), ("old", OLD)):
            written(os.path.join(room, name), data)
        tally.equal("movement", run(["movement", "a.pgm", "b.pgm", "recipe", "19"], room), Answer(0, LINE, ""))
        tally.equal("movement: files", sorted(os.listdir(room)), ["a.pgm", "b.pgm", "old", "recipe"])
        tally.equal("movement from a still to itself", run(["movement", "a.pgm", "a.pgm", "recipe", "0019"], room).stdout, "moved 0 still 3 open 0 T 33280 33280\n")
        for words, name in ((["--picture", "new.ppm"], "new.ppm"), (["--picture=old"], "old")):
            tally.equal("movement into %s" % name, run(["movement"] + words + ["a.pgm", "b.pgm", "recipe", "19"], room), Answer(0, LINE, ""))
            tally.equal("movement into %s: bytes" % name, bytes_of(os.path.join(room, name)), MARKED)
        written(os.path.join(room, "old"), OLD)
        movement_refused(tally, room)
        one_line(tally, "movement: too little room", run(["movement", "a.pgm", "b.pgm", "recipe", "19", "--picture", "old"], room, program.bounded(len(MARKED) - 1)), 2,
                 "old: cannot be written")
        with open(os.path.join(room, "old"), "ab") as printed:
            one_line(tally, "movement: the line into the picture", run(["movement", "a.pgm", "b.pgm", "recipe", "19", "--picture", "old"], room, stdout=printed), 2,
                     "old is where standard output goes")
        kept(tally, "movement: the old picture", room, "old")


def movement_refused(tally, room):
    """Each is said of its own file, in one line."""
    for name, data in (("short.pgm", b"P5\n3 1\n255\nab"), ("wide.ppm", b"P6\n4 1\n255\n" + bytes(12)), ("refused", b"\x01\x09")):
        written(os.path.join(room, name), data)
    for where, words, status, said in (
        ("a limit over 255", ["short.pgm", "b.pgm", "refused", "256"], 1, ["LIMIT: refused with 27: the movement limit is over 255 (found 256)"]),
        ("a limit of twenty digits", ["a.pgm", "b.pgm", "recipe", "9" * 20], 1, ["LIMIT: refused with 27", "found " + "9" * 20]),
        ("a limit of letters", ["a.pgm", "b.pgm", "recipe", "ten"], 2, ['found the limit "ten", allowed: a whole number from 0 to 255', "usage"]),
        ("a limit in Arabic digits", ["a.pgm", "b.pgm", "recipe", "\u0661"], 2, ["found the limit", "allowed: a whole number from 0 to 255"]),
        ("a limit below 0", ["a.pgm", "b.pgm", "recipe", "-1"], 2, ['found the limit "-1", allowed: a whole number from 0 to 255']),
        ("a limit with a sign", ["a.pgm", "b.pgm", "recipe", "+1"], 2, ['found the limit "+1", allowed: a whole number from 0 to 255']),
        ("a refused recipe", ["short.pgm", "b.pgm", "refused", "1"], 1, ["refused: refused with 13", "stage 1, kind: found 9"]),
        ("a refused first still", ["short.pgm", "wide.ppm", "recipe", "1"], 1, ["short.pgm: refused with 5", "found 2, needed for 3 by 1: 3"]),
        ("a refused second still", ["a.pgm", "short.pgm", "recipe", "1"], 1, ["short.pgm: refused with 5", "found 2, needed for 3 by 1: 3"]),
        ("two sizes", ["a.pgm", "wide.ppm", "recipe", "1"], 1, ["a.pgm and wide.ppm: refused with 26", "(found 3 by 1, channels: 1, and 4 by 1, channels: 3)"]),
        ("a missing still", ["a.pgm", "none.pgm", "recipe", "1"], 2, ["none.pgm: cannot be read: No such file"]),
        ("a missing recipe", ["a.pgm", "b.pgm", "none", "1"], 2, ["none: cannot be read: No such file"]),
        ("no limit", ["a.pgm", "b.pgm", "recipe"], 2, ["words behind `movement`: 3", "usage"]),
        ("a picture over a still", ["a.pgm", "b.pgm", "recipe", "19", "--picture", "./b.pgm"], 2, ["would be lost", "usage"]),
        ("a picture over the recipe", ["a.pgm", "b.pgm", "recipe", "19", "--picture", "recipe"], 2, ["would be lost", "usage"]),
        ("a picture into a folder", ["a.pgm", "b.pgm", "recipe", "19", "--picture", "."], 2, [".: cannot be written: Is a directory"]),
        ("a picture without a name", ["a.pgm", "b.pgm", "recipe", "19", "--picture"], 2, ["--picture without its value"]),
    ):
        one_line(tally, "movement: %s" % where, run(["movement"] + words, room), status, *said)
    one_line(tally, "movement: refused over an old picture", run(["movement", "a.pgm", "short.pgm", "recipe", "1", "--picture", "old"], room), 1, "short.pgm: refused with 5")
    kept(tally, "movement: refused", room, "old")


# ---- verdicts


# By a box of three samples across, the exact results of program.STILL are 40/3, 70/3 and 100/3. The received samples are 4/3, 5/3 and 1/3 from them.
BOX = bytes.fromhex("01 04 01 00 01 00")
RECEIVED = b"P5\n3 1\n255\n" + bytes([12, 25, 33])
JUDGED = ["verdict", "box", "raw.pgm", "received.pgm"]


def verdict(tally):
    """Both answers and their statuses, what is said of each thing that is wrong, always with 2, and that nothing is written."""
    files = {"raw.pgm": program.STILL, "received.pgm": RECEIVED, "box": BOX, "recipe": program.RECIPE, "two": TWO_STAGES, "refused": b"\x01\x09", "empty": b"",
             "box.json": b'[{"kind": "box", "across": 1, "down": 0}]', "short.pgm": b"P5\n3 1\n255\nab", "wide.ppm": b"P6\n4 1\n255\n" + bytes(12), "other.pbm": b"P4\n3 1\n"}
    with folders.fresh_folder() as room:
        for name, data in files.items():
            written(os.path.join(room, name), data)
        for distance, answer in (("0", "not"), ("1", "not"), ("2", "yes"), ("0002", "yes"), ("255", "yes")):
            tally.equal("verdict at %s" % distance, run(JUDGED + [distance], room, program.bounded(0)), Answer(0 if answer == "yes" else 1, answer + "\n", ""))
        tally.equal("verdict on a still itself", run(["verdict", "box", "raw.pgm", "raw.pgm", "3"], room), Answer(1, "not\n", ""))
        tally.equal("verdict behind --", run(["verdict", "--"] + JUDGED[1:] + ["2"], room), Answer(0, "yes\n", ""))
        verdict_refused(tally, room)
        verdict_unsaid(tally, room)
        tally.equal("verdict: files", sorted(os.listdir(room)), sorted(files))


def verdict_refused(tally, room):
    """Each is said of its own file or word, in one line, and ends with 2: the status of a refusal elsewhere is an answer here."""
    box, raw, received = JUDGED[1:]
    usage = "usage: hejslopi verdict RECIPE RAW RECEIVED DISTANCE"
    for where, words, said in (
        ("a distance over 255", ["refused", "short.pgm", received, "256"], ["DISTANCE: refused with 32: the distance is over 255 (found 256, allowed: 0 to 255)"]),
        ("a distance of twenty digits", [box, raw, received, "9" * 20], ["DISTANCE: refused with 32", "found " + "9" * 20]),
        ("a distance of many digits", [box, raw, received, "9" * 5000], ["found the distance", "allowed: a whole number from 0 to 255", usage]),
        ("a distance of letters", [box, raw, received, "ten"], ['found the distance "ten", allowed: a whole number from 0 to 255', usage]),
        ("a distance in Arabic digits", [box, raw, received, "\u0661"], ["found the distance", "allowed: a whole number from 0 to 255"]),
        ("a distance below 0", [box, raw, received, "-1"], ['found the distance "-1", allowed: a whole number from 0 to 255']),
        ("a distance with a sign", [box, raw, received, "+1"], ['found the distance "+1", allowed: a whole number from 0 to 255']),
        ("a distance with a point", [box, raw, received, "1.5"], ['found the distance "1.5", allowed: a whole number from 0 to 255']),
        ("an empty distance", [box, raw, received, ""], ['found the distance "", allowed: a whole number from 0 to 255']),
        ("a refused recipe", ["refused", "short.pgm", received, "1"], ["refused: refused with 13", "stage 1, kind: found 9"]),
        ("an empty recipe", ["empty", raw, received, "1"], ["empty: refused with 11", "it has no bytes"]),
        ("an endless recipe", ["/dev/zero", raw, received, "1"], ["/dev/zero: refused with 10", "found 0 stages"]),
        ("a description as recipe", ["box.json", raw, received, "1"], ["box.json: refused with 10", "found 91 stages, allowed: 1 to 8"]),
        ("two stages", ["two", "short.pgm", received, "1"], ["two: refused with 30: the recipe has more than one stage", "byte 1: found 2 stages, allowed: 1"]),
        ("a binomial", ["recipe", "short.pgm", received, "1"], ["recipe: refused with 30", "stage 1, kind: found 3, allowed: 1 ratios, 4 box, 5 rank"]),
        ("a refused raw still", [box, "short.pgm", "other.pbm", "1"], ["short.pgm: refused with 5", "found 2, needed for 3 by 1: 3"]),
        ("a refused received still", [box, raw, "other.pbm", "1"], ["other.pbm: refused with 1", "it begins with 'P4'"]),
        ("two sizes", [box, raw, "wide.ppm", "1"], ["wide.ppm: refused with 31", "(found 4 by 1, channels: 3, allowed: 3 by 1, channels: 1)"]),
        ("a missing recipe", ["none", raw, received, "1"], ["none: cannot be read: No such file"]),
        ("a missing raw still", [box, "none.pgm", received, "1"], ["none.pgm: cannot be read: No such file"]),
        ("a missing received still", [box, raw, "none.pgm", "1"], ["none.pgm: cannot be read: No such file"]),
        ("a folder", [box, raw, ".", "1"], [".: cannot be read: Is a directory"]),
        ("no word", [], ["words behind `verdict`: 0", usage]),
        ("no distance", [box, raw, received], ["words behind `verdict`: 3", usage]),
        ("a word too many", [box, raw, received, "1", "2"], ["words behind `verdict`: 5", usage]),
        ("an option", [box, raw, received, "1", "--json"], ["the option --json", usage]),
    ):
        one_line(tally, "verdict: %s" % where, run(["verdict"] + words, room), 2, *said)


def verdict_unsaid(tally, room):
    """An answer that cannot be said is none, whichever it is: on a full device, into a pipe that nobody reads, with standard output closed. Nor is one without a library."""
    for distance in ("1", "2"):
        if os.path.exists("/dev/full"):
            with open("/dev/full", "wb") as full:
                one_line(tally, "verdict at %s on a full device" % distance, run(JUDGED + [distance], room, stdout=full), 2, "standard output cannot be written: No space left")
        reader, writer = os.pipe()
        os.close(reader)
        one_line(tally, "verdict at %s into a closed pipe" % distance, run(JUDGED + [distance], room, stdout=writer), 2, "standard output cannot be written: Broken pipe")
        os.close(writer)
        closed = ["sh", "-c", 'exec "$@" >&-', "sh", sys.executable, os.path.abspath(os.path.join("python", "hejslopi.py"))]
        one_line(tally, "verdict at %s, closed" % distance, run(JUDGED + [distance], room, command=closed), 2, "standard output is closed")
        one_line(tally, "verdict at %s without a library" % distance, run(JUDGED + [distance], room, HEJSLOPI_LIB_DIR=room), 2, "no library at")


# ---- usage and help


def usage(tally):
    with folders.fresh_folder() as room:
        for words, said in (([], "no word"), (["filtr"], "the word filtr"), (["recipe"], "usage: hejslopi recipe DESCRIPTION RECIPE"), (["explain"], "usage"),
                            (["explain", "a", "b"], "usage"), (["describe", "--json", "a"], "the option --json"), (["filter", "-x", "a", "b", "c"], "the option -x"),
                            (["explain", "--json=1", "a"], "the option --json=1"), (["explain", "--json", "a", "--json"], "--json twice")):
            one_line(tally, "usage: %s" % words, run(words, room), 2, said)
        for words in (["--help"], ["-h"], ["help"], ["recipe", "--help"], ["filter", "-h"], ["explain", "--help"], ["describe", "x", "--help"], ["needs", "--help"], ["movement", "--help"], ["verdict", "--help"], ["help", "filter"]):
            answer = run(words, room)
            tally.equal("help: %s" % words, (answer.status, answer.stderr, "hejslopi" in answer.stdout, "Ends with 0" in answer.stdout), (0, "", True, True))
        if os.path.exists("/dev/full"):
            with open("/dev/full", "wb") as full:
                one_line(tally, "help on a full device", run(["--help"], room, stdout=full), 2, "standard output cannot be written: No space left")


def help_example(tally):
    """What `recipe --help` shows as a description is one, and has each kind once."""
    with folders.fresh_folder() as room:
        text = run(["recipe", "--help"], room).stdout
        example = text[text.index("[{"):text.index("}]") + len("}]")]
        written(os.path.join(room, "example.json"), example.encode())
        answer = run(["recipe", "example.json", "recipe"], room)
        kinds = descriptions.KINDS.split(", ")
        tally.equal("the help's description", (answer.status, answer.stderr, answer.stdout.split()[:2]), (0, "", ["stages", str(len(kinds))]))
        tally.equal("the help's kinds", sorted(stage["kind"] for stage in json.loads(example)), sorted(kinds))


# ---- the library


def library_missing(tally):
    """A library, a compiler or a place for the shared object that is missing: one line each."""
    with folders.fresh_folder() as room:
        written(os.path.join(room, "recipe"), program.RECIPE)
        empty, archive = os.path.join(room, "empty"), os.path.join(room, "archive")
        os.mkdir(empty)
        os.mkdir(archive)
        one_line(tally, "no library", run(["explain", "recipe"], room, HEJSLOPI_LIB_DIR=empty), 2, "no library at", "tools/build library", "HEJSLOPI_LIB_DIR")
        shutil.copy(os.path.join("target", "staticlib", "libcapi.a"), archive)
        one_line(tally, "no compiler", run(["explain", "recipe"], room, HEJSLOPI_LIB_DIR=archive, PATH=empty), 2, "the C compiler cc is not to be found")
        answer = run(["explain", "recipe"], room, HEJSLOPI_LIB_DIR=archive)
        tally.equal("another folder of the library", (answer.status, answer.stderr, sorted(os.listdir(archive))), (0, "", ["libcapi.a", "libcapi.so"]))
        written(os.path.join(archive, "libcapi.a"), b"no archive")
        os.utime(os.path.join(archive, "libcapi.so"), (0, 0))
        one_line(tally, "no archive", run(["explain", "recipe"], room, HEJSLOPI_LIB_DIR=archive), 2, "libcapi.so cannot be made", "libcapi.a")
        another_library(tally, room)


def through_a_link(tally):
    """The script of a checkout, called by a link under its own name."""
    with folders.fresh_folder() as room:
        os.symlink(os.path.abspath(os.path.join("python", "hejslopi.py")), os.path.join(room, "hejslopi.py"))
        answer = run(["--version"], room, command=[os.path.join(room, "hejslopi.py")])
        tally.equal("through a link", (answer.status, answer.stdout[:9], answer.stderr), (0, "hejslopi ", ""))


def another_library(tally, room):
    """A library of another kind, and one that is none."""
    for where, source in (("an empty library", ["-x", "c", "/dev/null"]), ("no library at all", None)):
        other = os.path.join(room, where)
        os.mkdir(other)
        if source:
            subprocess.run(["cc", "-shared", "-o", os.path.join(other, "libcapi.so")] + source, check=True)
        else:
            written(os.path.join(other, "libcapi.so"), b"none")
        one_line(tally, where, run(["explain", "recipe"], room, HEJSLOPI_LIB_DIR=other), 2, "librar")


def library_closed(tally):
    """A folder that is closed to writing, for a user whom that stops."""
    with folders.fresh_folder() as room:
        shutil.copytree("python", os.path.join(room, "python"))
        shutil.copy(os.path.join("target", "staticlib", "libcapi.a"), room)
        written(os.path.join(room, "recipe"), program.RECIPE)
        for python in (sys.executable, "/usr/bin/python3"):
            try:
                answer = run(["explain", "recipe"], room, program.bounded(plain_user=True), command=[python, os.path.join(room, "python", "hejslopi.py")], HEJSLOPI_LIB_DIR=room)
            except (OSError, subprocess.SubprocessError):
                continue
            one_line(tally, "a closed folder of the library", answer, 2, "libcapi.so cannot be made: its folder is closed to writing")
            return
        tally.skips("no Python here that a plain user may run", 1)


def pip_installs(tally):
    """pip makes the package and its command without a network, and what is installed needs neither the repository nor cc."""
    with folders.fresh_folder() as room:
        written(os.path.join(room, "recipe"), TWO_STAGES)
        target = os.path.join(room, "installed")
        command = [sys.executable, "-m", "pip", "install", "--quiet", "--no-index", "--no-deps", "--disable-pip-version-check", "--no-cache-dir", "--target", target]
        done = subprocess.run(command + [os.path.abspath("python")], cwd=room, stdin=subprocess.DEVNULL, stdout=subprocess.PIPE, stderr=subprocess.STDOUT, universal_newlines=True)
        if "No module named pip" in done.stdout:
            tally.skips("there is no pip", 1)
            return
        if done.returncode != 0:
            tally.fails("pip install", Words(done.stdout), Words("an installed package"))
            return
        answer = run(["explain", "recipe"], room, command=[os.path.join(target, "bin", "hejslopi")], PYTHONPATH=target, PATH="/nowhere")
        tally.equal("the installed package's types", os.path.exists(os.path.join(target, "hejslopi", "py.typed")), True)
        tally.equal("the installed command", (answer.status, answer.stderr, answer.stdout.splitlines()[2].split()[-2:]), (0, "", ["66048", "1.0079"]))


def try_commands(tally):
    for part in (recipes_made, wrong_descriptions, explained, described, many, needs, movement, verdict, usage, help_example, through_a_link, library_missing, library_closed, pip_installs):
        part(tally)
