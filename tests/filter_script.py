"""./filter: its words, its line and its statuses, as /bin/sh runs it and as bash does."""
import errno
import os
import re
import shutil

import filter_builds
import filter_outs
import folders
import program
from filter_calls import UNMADE, Filter, word
from scripts import written

USAGE = "usage: ./filter STILL RECIPE OUT\n"
FITS = "W*(H+30) at most 16,384 and, with box stages of radii r and s, (W+2r+1)*(2s+2) at most 16,384"
LARGER = "python3 python/hejslopi.py filter STILL RECIPE OUT takes up to 8,192 by 8,192"
LENT = "the program lends 32,768 bytes of work, 16,384 row values, 16,384 sums and 65,536 bytes of output, so a picture of W by H must have " + FITS

# Names that a careless script takes for options, for standard input, for several words or for less than they are.
NAMES = ("-n", "-", "--help", "a b", "*", "$(date)", "a\nb", "ends in a line\n", "\udcff", "a: b", "=")

# Stages that are accepted, and one for each refusal that a stage causes, with what is said of it.
GOOD = bytes.fromhex("03 01 00 01 01")
OUTLINE = bytes.fromhex("06 01 00")
BAD = (
    (11, GOOD[:-1], ": it ends with byte %d"),
    (11, bytes.fromhex("06 01"), ": it ends with byte %d"),
    (13, bytes.fromhex("07 01 00 01 01"), ", kind: found 7"),
    (13, bytes.fromhex("03 04 00 01 01"), ", border: found 4"),
    (13, bytes.fromhex("03 01 07 01 01"), ", border value: found 7"),
    (13, bytes.fromhex("06 02 09"), ", border value: found 9"),
    (14, bytes.fromhex("03 01 00 10 00"), ", across: found 16"),
    (14, bytes.fromhex("04 01 00 0F FF"), ", down: found 255"),
    (14, bytes.fromhex("01 01 00 01 01 0001 0000 00 00 0001 0001"), ", divisor: found 0"),
    (15, bytes.fromhex("01 01 00 01 01 0001 0001 F0 00 0001 0001"), ", offset: found -16"),
    (16, bytes.fromhex("02 01 00 01 01 00 00 40A00000 3F800000"), ", weight: found 5"),
    (17, bytes.fromhex("01 01 00 01 01 0001 0001 00 00 0005 0001"), ""),
    (18, bytes.fromhex("05 01 00 01 01 0100"), ", position: found 256"),
)


# ---- words


def usage(calls):
    """Too few words, one too many, and the help."""
    for words in ([], ["still"], ["still", "recipe"], ["still", "recipe", "out", "more"], ["--help", "more"]):
        calls.says("%d words" % len(words), words, 2, "", USAGE)
    for option in ("--help", "-h"):
        status, out, err = calls.ends([option])
        calls.equal(option, (status, out[:len(USAGE)], err), (0, USAGE, ""))
        parts = ("ok W H channels T", "no N", "0 where", "1 where", "2 where", FITS, LARGER)
        calls.equal(option + " lacks", [part for part in parts if part not in out], [])


def names(calls):
    """Each name as the still's, as the recipe's and as OUT's, with OUT in a folder of that name. What is typed is what is said, but on one line."""
    for name in NAMES:
        shown = re.sub(r"[\x00-\x1f\x7f]", "?", name)
        calls.fails("no still %r" % name, (name, "a recipe", "unmade"), shown, "read", word(errno.ENOENT))
        calls.accepts("OUT %r" % name, ("-still", "a recipe", name))
        os.remove(calls.at(name))
        for place in (0, 1):
            words = ["-still", "a recipe", os.path.join("folders", name, name)]
            os.makedirs(calls.at(os.path.dirname(words[2])), exist_ok=True)
            os.rename(calls.at(words[place]), calls.at(name))
            was, words[place] = words[place], name
            calls.accepts("%r in place of %s" % (name, was), words)
            os.rename(calls.at(name), calls.at(was))
    calls.fails("a still without a name", ("", "a recipe", "unmade"), "", "read", word(errno.ENOENT))
    calls.fails("OUT without a name", ("-still", "a recipe", ""), "", "written", word(errno.ENOENT))


def elsewhere(calls):
    """By links to the script and by its bare name, with folders in the way of `cd`, and with a scratch folder that looks like an option."""
    os.mkdir(calls.at("bin"))
    os.symlink(os.path.join("a repository", "filter"), calls.at("a link"))
    os.symlink(os.path.join("..", "a link"), calls.at("bin/linked"))
    shell, plain = calls.shell, calls.command
    for command in ("./a link", "bin/linked", "a link"):
        calls.command = command
        # A bare name is for a shell: by itself it is looked for among the commands.
        calls.shell = shell or ([] if "/" in command else ["sh"])
        calls.accepts("by %s" % command)
    calls.shell, calls.command = shell, "filter"
    calls.accepts("by the name of a command", PATH=calls.top + os.pathsep + os.environ["PATH"])
    calls.command = plain
    os.mkdir(calls.at("-scratch"))
    for scratch in ("scratch", "-scratch"):
        calls.accepts("scratch folder %s, and CDPATH" % scratch, TMPDIR=scratch, CDPATH=":".join((calls.top, calls.room, "/")))
        calls.equal("scratch folder %s" % scratch, os.listdir(calls.at(scratch)), [])


# ---- refusals


def refusals(calls):
    """One vector for each number that no stage causes, the first that has it."""
    vectors = os.path.abspath(os.path.join(program.DATA, "vectors"))
    lines = {name: folders.bytes_of(os.path.join(vectors, name, "line")).decode() for name in program.vector_names("vectors")}
    written(calls.at("kept"), program.OLD)
    for number in (1, 2, 3, 4, 5, 6, 10, 12, 20):
        first = next(name for name, line in lines.items() if line == "no %d\n" % number)
        still, recipe = (os.path.join(vectors, first, name) for name in ("still", "recipe"))
        # 082 is the first that does not fit: 144 by 96. The others are worked by hand below.
        more = " (found 144 by 96); %s; %s" % (LENT, LARGER) if number == 20 else None
        calls.refuses("refusal %d" % number, (still, recipe, "kept"), recipe if number in (10, 12) else still, number, more)
    calls.refuses("an empty recipe", ("-still", "/dev/null", "kept"), "/dev/null", 11, " (it has no bytes)")
    for name, data, number, more in (("still", b"P2\n", 1, " (it begins with 'P2')"), ("still", b"P5 0 7 255 ", 3, " (found 0 by 7)"),
                                     ("still", b"P5#a\r0 0 255 \n8193 1\n255\nab", 3, " (found 8193 by 1)"), ("still", b"P5 1 1 65535 aa", 4, " (found 65535)"),
                                     ("still", b"P6\n#c\n1 2\n255\nabc", 5, " (found 17 bytes with the header, for 1 by 2)"),
                                     ("recipe", b"\x09", 10, " (found 9)"), ("recipe", b"\x01" + GOOD + b"\0\0", 12, " (its last stage ends with byte 6)")):
        written(calls.at(name), data)
        words = (name, "a recipe", "kept") if name == "still" else ("-still", name, "kept")
        calls.refuses("a %s of %s" % (name, data), words, name, number, more)
    calls.holds("refusals", "kept", program.OLD)


def stages(calls):
    """The stage at fault is the first, one in between or the last, whatever the still is."""
    written(calls.at("no still"), b"P7")
    for number, bad, found in BAD:
        for good, place, count in ((GOOD, 1, 1), (GOOD, 2, 3), (OUTLINE, 3, 4), (GOOD, 8, 8)):
            after = b"" if number == 11 else good * (count - place)
            recipe = bytes([count]) + good * (place - 1) + bad + after
            written(calls.at("bad recipe"), recipe)
            said = " (stage %d%s)" % (place, found % len(recipe) if "%" in found else found)
            for still in ("-still", "no still"):
                where = "refusal %d at stage %d of %d, %s" % (number, place, count, still)
                calls.refuses(where, (still, "bad recipe", "unmade"), "bad recipe", number, said)
    calls.holds("stages", "unmade", None)


# ---- files


def inputs(calls):
    """Files that cannot be read, and files that are too long: an endless one is not copied to its end. The still's fault comes first."""
    written(calls.at("long"), program.STILL.ljust(program.STILL_LIMIT + 1))
    written(calls.at("long recipe"), program.RECIPE.ljust(program.RECIPE_LIMIT + 1))
    for name, number in (("none", errno.ENOENT), (".", errno.EISDIR), ("-still/x", errno.ENOTDIR), ("/proc/self/mem", errno.EIO)):
        calls.fails("a still that is %s" % name, (name, "a recipe", "unmade"), name, "read", word(number))
        calls.fails("a recipe that is %s" % name, ("-still", name, "unmade"), name, "read", word(number))
    for name in ("long", "/dev/zero"):
        calls.refuses("a still that is %s" % name, (name, "a recipe", "unmade"), name, 21, "; " + LARGER)
    for name in ("long recipe", "/dev/zero"):
        calls.refuses("a recipe that is %s" % name, ("-still", name, "unmade"), name, 21)
    calls.refuses("a long still, and no recipe", ("long", "none", "unmade"), "long", 21, "; " + LARGER)
    for recipe in ("long recipe", "no recipe"):
        calls.fails("no still, and %s" % recipe, ("none", recipe, "unmade"), "none", "read", word(errno.ENOENT))
    calls.holds("inputs", "unmade", None)


def out_is_the_recipe(calls):
    """By another name, by a link and by a second name of the file. OUT may be the still."""
    os.symlink("a recipe", calls.at("link"))
    os.link(calls.at("a recipe"), calls.at("second"))
    for name in ("./a recipe", "link", "second"):
        calls.stops("OUT is the recipe by %s" % name, ("-still", "a recipe", name), "%s: is the recipe, which would be lost" % name)
        calls.holds("OUT is the recipe", "a recipe", program.RECIPE)
    calls.accepts("OUT is the still", ("-still", "a recipe", "-still"))


def closed(calls):
    """Standard output closed, full or broken; standard error and standard input closed."""
    calls.stops("standard output closed", UNMADE, "standard output is closed", prepare=lambda: os.close(1))
    calls.holds("standard output closed", "unmade", None)
    unprinted = "standard output cannot be written: %s"
    with open("/dev/full", "wb") as full:
        for words in (("-still", "a recipe", "out"), ("none", "a recipe", "unmade"), ("-still", "/dev/null", "unmade"), ("--help",)):
            calls.stops("standard output full", words, unprinted % word(errno.ENOSPC), lines=full)
    reading, writing = os.pipe()
    os.close(reading)
    calls.stops("standard output broken", ("-still", "a recipe", "out"), unprinted % word(errno.EPIPE), lines=writing)
    os.close(writing)
    for number in (0, 2):
        calls.accepts("descriptor %d closed" % number, prepare=lambda: os.close(number))
    calls.says("standard error closed", ("none", "a recipe", "unmade"), 2, "no 22\n", prepare=lambda: os.close(2))
    with open(calls.at("-still"), "rb") as still:
        calls.accepts("a still on standard input", ("/dev/stdin", "a recipe", "out"), given=still)
    calls.refuses("standard input closed", ("/dev/stdin", "a recipe", "unmade"), "/dev/stdin", 1, None, prepare=lambda: os.close(0))


PARTS = (usage, names, elsewhere, refusals, stages, inputs, out_is_the_recipe, closed) + filter_outs.PARTS + filter_builds.PARTS


def try_filter(tally):
    """Every part with each shell in a folder of its own, and last the script of the repository itself."""
    for shell in ([], ["bash"]):
        if shell and not shutil.which(shell[0]):
            tally.skips("%s is not there" % shell[0], len(PARTS))
            continue
        for part in PARTS:
            with folders.fresh_folder() as room:
                calls = Filter(tally, room, shell)
                part(calls)
                calls.leaves_nothing(part.__name__)
    with folders.fresh_folder() as room:
        calls = Filter(tally, room, [])
        calls.command = os.path.abspath("filter")
        calls.accepts("the repository's own", prepare=None)
