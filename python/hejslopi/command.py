"""The command `hejslopi`: recipes made, explained and described, stills filtered by them, what that needs, the movement between two, and a verdict on one that was filtered
elsewhere. `STATUSES` says how it ends."""
from __future__ import annotations

import json
import re
import signal
import sys
from typing import Callable, Dict, List, NamedTuple, Tuple

from . import calls, describing, descriptions, explaining, files, json_text
from .filtering import about, about_each, filter_into
from .judging import MOST_DISTANCE, verdict
from .many import filter_many
from .marking import movement_picture
from .messages import shown
from .moving import MOST_LIMIT, movement
from .output import DONE, FAILED, NOT, Trouble, complain, name_text, prepare, say
from .version import VERSION

Options = Dict[str, str]


class Usage(Exception):
    """The command was called wrongly."""


# ---- what the words do


def not_printed_to(target: str) -> None:
    """A file cannot take both the bytes and the line about them."""
    if files.is_standard_output(target):
        raise Usage("%s is where standard output goes, and the line with it" % name_text(target))


def make_recipe(words: List[str], options: Options) -> int:
    description, target = words
    if files.same(description, target):
        raise Usage("RECIPE is the description, which would be lost")
    not_printed_to(target)
    with about(description):
        made = descriptions.encode(json_text.parsed(files.read_whole(description, files.MOST_DESCRIPTION)))
        answer = calls.read_recipe(made.recipe)
    files.write(target, made.recipe)
    notes = [complain("%s: %s: %s is held as %r, the nearest binary32" % (name_text(description), *rounded)) for rounded in made.rounded]
    say("stages %d T %d" % answer)
    return DONE if all(notes) else FAILED


def filter_stills(words: List[str], options: Options) -> int:
    if "--into" in options:
        return filter_many(words[0], words[1:], options["--into"])
    still, recipe, target = words
    if files.same(recipe, target):
        raise Usage("OUT is the recipe, which would be lost")
    not_printed_to(target)
    say("T %d" % filter_into(still, recipe, files.read(recipe, files.MOST_RECIPE), target))
    return DONE


def levels(name: str, given: str, most: int) -> int:
    """A number of grey levels. Whether it is too large is left to the library."""
    if not re.fullmatch("[0-9]{1,20}", given):
        raise Usage("found the %s %s, allowed: a whole number from 0 to %d" % (name, shown(given), most))
    return int(given)


def count_movement(words: List[str], options: Options) -> int:
    first, second, recipe = words[:3]
    limit = levels("limit", words[3], MOST_LIMIT)
    target = options.get("--picture")
    if target is not None:
        if any(files.same(path, target) for path in words[:3]):
            raise Usage("OUT is one of the files to be read, which would be lost")
        not_printed_to(target)
    before, after = (files.read_whole(still, files.MOST_STILL) for still in (first, second))
    data = files.read(recipe, files.MOST_RECIPE)
    with about_each({"still1": first, "still2": second, "recipe1": recipe, "recipe2": recipe, "limit": "LIMIT", "": "%s and %s" % (first, second)}):
        seen = movement(before, data, after, data, limit)
        picture = b"" if target is None else movement_picture(seen, limit)
    if target is not None:
        files.write(target, picture)
    say("moved %d still %d open %d T %d %d" % seen[:5])
    return DONE


def give_verdict(words: List[str], options: Options) -> int:
    """Its statuses are answers, so whatever else happens is a failure, a refusal too."""
    recipe, raw, received = words[:3]
    distance = levels("distance", words[3], MOST_DISTANCE)
    try:
        with about_each({"recipe": recipe, "raw": raw, "received": received, "distance": "DISTANCE", "": "%s and %s" % (raw, received)}):
            data = files.read(recipe, files.MOST_RECIPE)
            near = verdict(data, *(files.read_whole(still, files.MOST_STILL) for still in (raw, received)), distance)
    except Trouble as trouble:
        raise Trouble(FAILED, str(trouble)) from None
    say("yes" if near else "not")
    return DONE if near else NOT


def show_needs(words: List[str], options: Options) -> int:
    still, recipe = words
    data = files.read(recipe, files.MOST_RECIPE)
    with about(still, recipe):
        needed = calls.needs(files.read(still, files.MOST_STILL), data)
    say("work %d rows %d sums %d out %d T %d" % needed)
    return DONE


def explain(words: List[str], options: Options) -> int:
    with about(words[0]):
        explained = explaining.explain(files.read(words[0], files.MOST_RECIPE))
    say(json.dumps(explained, indent=1) if "--json" in options else explaining.explanation_text(explained))
    return DONE


def describe(words: List[str], options: Options) -> int:
    with about(words[0]):
        described = describing.describe(files.read(words[0], files.MOST_RECIPE))
    say(describing.description_text(described))
    return DONE


# ---- how they are called


STATUSES = """\
Ends with 0 only where all was done and said, with 1 for a refusal or a wrong description, with 2 for wrong usage and for what cannot be
read, written or printed. What is wrong is said in one line on standard error."""

VERDICT_STATUSES = """\
Ends with 0 for yes, with 1 for not, and with 2 for whatever else, a refusal too. What is wrong is said in one line on standard error."""


class Word(NamedTuple):
    """A word of the command: how it is called (`arguments`: for how many words without --into), what it does, its options, and how it ends."""
    usages: Tuple[str, ...]
    arguments: int
    options: Tuple[str, ...]
    help: str
    work: Callable[[List[str], Options], int]
    statuses: str = STATUSES


WORDS = {
    "recipe": Word(("recipe DESCRIPTION RECIPE",), 2, (), """\
Makes the bytes of a recipe from a description in JSON, and prints how many stages it has and its T.
A weight of reals that is no binary32 is rounded to the nearest, and that is said. RECIPE is written only if the library accepts it.

A description is a list of 1 to 8 stages:
  [{"kind": "binomial", "across": 1, "down": 1},
   {"kind": "box", "across": 2, "down": 2, "border": {"constant": 20}},
   {"kind": "rank", "across": 1, "down": 1, "position": "median", "border": "mirror"},
   {"kind": "outline", "border": "wrap"},
   {"kind": "ratios", "across": {"over": 4, "taps": {"left": 1, "here": 2, "right": 1}}, "down": {"over": 1, "taps": {"here": 1}}},
   {"kind": "reals", "across": {"-1": 0.25, "0": 0.5, "1": 0.25}, "down": {"0": 1}}]
kind      binomial, box, rank (radii 0 to 15), outline (no radii: 3 by 3), ratios (whole weights over a divisor), reals (weights as binary32)
border    nearest (where none is given), mirror, wrap, {"constant": VALUE} with a value from 0 to 255
position  of a rank: smallest, median, largest, or a number from 1
taps      offsets from -15 to 15; across also left, here, right; down also up, here, down""", make_recipe),
    "filter": Word(("filter STILL RECIPE OUT", "filter RECIPE STILL.. --into FOLDER"), 3, ("--into=",), """\
Filters a still, a P5 or P6 file of up to 8,192 by 8,192, into OUT and prints T, in 65,536ths of a grey level.
With --into, filters each STILL into a file of the same name in FOLDER, which is made if it is missing. A still that is refused does not stop the others.
A file that was there before is replaced as a whole, or is left as it was.""", filter_stills),
    "needs": Word(("needs STILL RECIPE",), 2, (), """\
Prints `work A rows B sums C out D T E`: what a program has to lend to filter a still by a recipe through the library (so many work bytes, row values of four bytes
each, sums of four bytes each), how many bytes the filtered still has, and its T, in 65,536ths of a grey level. Nothing is filtered. Of the still only the header is
looked at: what follows may be short, long or missing.""", show_needs),
    "movement": Word(("movement A B RECIPE LIMIT [--picture OUT]",), 4, ("--picture=",), """\
Filters two stills of one size by a recipe and counts the movement between them under a limit of 0 to 255 grey levels, over all samples of all channels. Prints
`moved M still S open O T T1 T2`: how many samples have surely moved, are surely still and are open, and the T of each still, in 65,536ths of a grey level.
The exact results of a sample that has moved differ by more than the limit, those of one that is still do not. Open ones are so near to it that rounding may have
decided. With --picture, writes the first filtered still into OUT as a P6 file: a pixel with a sample that has moved is red, else one with an open sample is yellow.
A file that was there before is replaced as a whole, or is left as it was.""", count_movement),
    "verdict": Word(("verdict RECIPE RAW RECEIVED DISTANCE",), 4, (), """\
Prints `yes` where each sample of RECEIVED, a still that was filtered elsewhere, lies within DISTANCE, 0 to 255 grey levels, of the exact result of RECIPE on the still
RAW at its place, in every channel, and `not` where one does not. The recipe has one stage, of ratios, a box or a rank. Its exact result is in fractions, kept to
0..255, with nothing rounded. At just that distance the answer is yes.""", give_verdict, VERDICT_STATUSES),
    "explain": Word(("explain RECIPE [--json]",), 1, ("--json",), """\
Prints what a recipe does: for each stage its kind, its border, how many offsets it looks at, from which to which, the sum and the gain of its weights
on each axis (`-` for a rank and an outline, which have none), how many of these are no whole number of 65,536ths and so are rounded (`-` also for a box), and T
after it, in 65,536ths and in grey levels; then what an outline does to T, and what T means for a movement limit. `~` marks a number that is shortened. With
--json the same for programs, sums and gains as exact texts.""", explain),
    "describe": Word(("describe RECIPE",), 1, (), """\
Prints a description of a recipe, in JSON, that gives the same bytes. A weight is shown as it is held.""", describe),
}


def usage_of(word: str) -> str:
    return " | ".join("hejslopi " + usage for usage in WORDS[word].usages)


def help_of(word: str) -> str:
    return "usage: %s\n\n%s\n\n%s" % (usage_of(word).replace(" | ", "\n       "), WORDS[word].help, WORDS[word].statuses)


def help_of_all() -> str:
    lines = ["  hejslopi %s" % usage for word in WORDS.values() for usage in word.usages]
    return "Filters Netpbm stills by recipes, with a tolerance that is proved.\n\n%s\n\n`hejslopi WORD --help` says more of each.\n%s\n`verdict` ends with 0 for yes, with 1 for not and with 2 for whatever else." % ("\n".join(lines), STATUSES)


def parted(word: str, given: List[str]) -> Tuple[List[str], Options]:
    """Words and options. An option that ends in = takes a value; behind -- all are words. A number below 0 is a word, and so is - alone."""
    words: List[str] = []
    options: Options = {}
    rest = list(given)
    while rest:
        item = rest.pop(0)
        name, equals, value = item.partition("=")
        if item == "--":
            return words + rest, options
        if item in ("-h", "--help"):
            options["--help"] = ""
        elif not item.startswith("-") or re.fullmatch("-[0-9]*", item):
            words.append(item)
        elif name in options:
            raise Usage("found the option %s twice" % name)
        elif name in WORDS[word].options and not equals:
            options[name] = ""
        elif name + "=" in WORDS[word].options and (equals or rest and not rest[0].startswith("-")):
            options[name] = value if equals else rest.pop(0)
        else:
            raise Usage("found the option %s%s" % (name_text(item), " without its value" if name + "=" in WORDS[word].options else ""))
    return words, options


def run(given: List[str]) -> int:
    """Does what the words say."""
    if given[:1] == ["help"]:
        given = given[1:] + ["--help"]
    if given and given[0] in ("-h", "--help", "--version"):
        say("hejslopi " + VERSION if given[0] == "--version" else help_of_all())
        return DONE
    if not given or given[0] not in WORDS:
        raise Usage("found %s, allowed: %s" % ("the word %s" % name_text(given[0]) if given else "no word", ", ".join(WORDS)))
    word = given[0]
    try:
        words, options = parted(word, given[1:])
        if "--help" in options:
            say(help_of(word))
            return DONE
        if len(words) < 2 if "--into" in options else len(words) != WORDS[word].arguments:
            raise Usage("words behind `%s`: %d" % (word, len(words)))
        return WORDS[word].work(words, options)
    except Usage as wrong:
        raise Trouble(FAILED, "%s; usage: %s" % (wrong, usage_of(word))) from None


def main(given: List[str]) -> int:
    """The status. Nothing that a person may type leads to anything but a line and a status."""
    try:
        prepare()
        return run(given)
    except Trouble as trouble:
        complain(str(trouble))
        return trouble.status
    except Usage as wrong:
        complain("%s; `hejslopi --help` says more" % wrong)
    except (OSError, NotImplementedError) as wrong:
        complain(name_text(str(wrong)))
    except Exception as wrong:
        complain("this should not happen: %s: %s" % (type(wrong).__name__, name_text(str(wrong))))
    return FAILED


def entry() -> None:
    """The command. Ctrl-C ends it on the spot, also while the library works, unless a file is being written."""
    if signal.getsignal(signal.SIGINT) is signal.default_int_handler:
        signal.signal(signal.SIGINT, signal.SIG_DFL)
    sys.exit(main(sys.argv[1:]))
