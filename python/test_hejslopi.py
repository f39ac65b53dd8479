"""Tests of the package: the calls on the vectors, backgrounds, movement, verdicts, recipes built from descriptions and back, and places at fault. Run: python3 python/test_hejslopi.py"""
import array
import inspect
import os
import pickle
import random
import re
import resource
import subprocess
import sys
import unittest
from decimal import Decimal
from fractions import Fraction

import hejslopi
from hejslopi import descriptions, reals

VECTORS = os.path.join(os.path.dirname(os.path.abspath(__file__)), "..", "crates", "conformance", "data", "vectors")

STILL = b"P5\n3 1\n255\n\x0A\x14\x28"
RECIPE = bytes.fromhex("01 03 01 00 01 00")


def contents(*path):
    with open(os.path.join(VECTORS, *path), "rb") as file:
        return file.read()


def answer_of(call, *arguments):
    """What a call gives, or the number of its refusal."""
    try:
        return call(*arguments)
    except hejslopi.Refusal as refusal:
        return refusal.number


def cases():
    """The vectors that have a still and a recipe and no limits, and whose line is not about files on disk, lent lengths or needs."""
    for name in sorted(os.listdir(VECTORS)):
        files = os.listdir(os.path.join(VECTORS, name))
        words = contents(name, "line").split()
        if "still" in files and "recipe" in files and "limits" not in files and words[0] != b"work" and words[:2] not in ([b"no", b"20"], [b"no", b"21"], [b"no", b"22"]):
            yield name, words


def recipes():
    """The recipes of the vectors, and whether they are accepted: a refusal of a still comes after the recipe has passed."""
    for name, words in cases():
        yield name, contents(name, "recipe"), words[0] == b"ok" or int(words[1]) < 10


class Vectors(unittest.TestCase):
    def test_files(self):
        tried = 0
        for name, words in cases():
            tried += 1
            with self.subTest(name):
                expected = (contents(name, "out"), int(words[4])) if words[0] == b"ok" else int(words[1])
                self.assertEqual(self.answer(contents(name, "still"), contents(name, "recipe")), expected)
        self.assertGreater(tried, 200)

    def test_limits(self):
        """The panel's answers, and the archive's to the same files. Memory of its own is never too short, so a line about that is left out."""
        tried = 0
        for name in sorted(os.listdir(VECTORS)):
            files = os.listdir(os.path.join(VECTORS, name))
            if "limits" not in files:
                continue
            limits = tuple(map(int, contents(name, "limits").split()))
            self.assertEqual(limits, hejslopi.PANEL)
            for line, given in ("line", (limits,)), ("archive" if "archive" in files else "line", ()):
                words = contents(name, line).split()
                if words != [b"no", b"20"]:
                    tried += 1
                    expected = (contents(name, "out"), int(words[4])) if words[0] == b"ok" else int(words[1])
                    with self.subTest(name, line=line):
                        self.assertTrue(self.answer(contents(name, "still"), contents(name, "recipe"), *given) == expected)
        self.assertEqual(tried, 2 * 43 - 3)

    @staticmethod
    def answer(still, recipe, *limits):
        """The picture and T, or the number of the refusal."""
        try:
            return hejslopi.filter_file(still, recipe, *limits)
        except hejslopi.Refusal as refusal:
            return refusal.number

    def test_needs(self):
        """The lines of lengths; and of the other cases T and the output's length, or the refusal, where that is not the raster's."""
        tried = 0
        for name in sorted(os.listdir(VECTORS)):
            if contents(name, "line").startswith(b"work"):
                tried += 1
                with self.subTest(name):
                    needed = hejslopi.needs(contents(name, "still"), contents(name, "recipe"))
                    self.assertEqual("work %d rows %d sums %d out %d T %d" % needed, contents(name, "line").decode().strip())
        self.assertGreater(tried, 30)
        for name, words in cases():
            with self.subTest(name):
                if words[0] == b"ok":
                    self.assertEqual(hejslopi.needs(contents(name, "still"), contents(name, "recipe"))[3:], (len(contents(name, "out")), int(words[4])))
                elif words[1] not in (b"5", b"6"):
                    with self.assertRaises(hejslopi.Refusal) as raised:
                        hejslopi.needs(contents(name, "still"), contents(name, "recipe"))
                    self.assertEqual(raised.exception.number, int(words[1]))

    def test_needs_of_a_header(self):
        """Whatever follows the header, nothing is set aside: the needs of 8,192 by 8,192, and a call on them that is refused, in little memory."""
        self.assertEqual(hejslopi.needs(b"P6 5 4 255\n", bytes.fromhex("01 04 01 00 01 02")), (40, 170, 48, 71, 32768))
        self.assertEqual(hejslopi.needs(STILL + b"more", RECIPE)._asdict(), {"work": 6, "rows": 93, "sums": 0, "out": 14, "tolerance": 33280})
        code = ("import hejslopi\nimport resource\nstill, recipe = b'P5\\n8192 8192\\n255\\n', bytes.fromhex('01 04 01 00 0f 0f')\n"
                "hejslopi.read_recipe(recipe)\n"
                "now = int(open('/proc/self/statm').read().split()[0]) * resource.getpagesize()\n"
                "resource.setrlimit(resource.RLIMIT_AS, (now + (16 << 20), now + (16 << 20)))\n"
                "assert hejslopi.needs(still, recipe) == (134217728, 67354624, 8223 * 32, 67108881, 32768)\n"
                "try:\n    hejslopi.filter_file(still, recipe)\nexcept hejslopi.Refusal as refusal:\n    assert refusal.number == 5\nelse:\n    raise SystemExit('not refused')\n")
        here = os.path.dirname(os.path.abspath(__file__))
        done = subprocess.run([sys.executable, "-c", code], cwd=here, stderr=subprocess.PIPE, universal_newlines=True)
        self.assertEqual((done.returncode, done.stderr), (0, ""))

    def test_planes(self):
        """A still of one channel and a recipe of one stage are the plane's too."""
        tried = 0
        for name, words in cases():
            if words[0] != b"ok" or words[3] != b"1" or contents(name, "recipe")[0] != 1:
                continue
            with self.subTest(name):
                tried += 1
                raster, out = (data[-int(words[1]) * int(words[2]):] for data in (contents(name, "still"), contents(name, "out")))
                self.assertEqual(hejslopi.filter_plane(raster, int(words[1]), int(words[2]), contents(name, "recipe")), (out, int(words[4])))
        self.assertGreater(tried, 50)

    def test_outputs_read_back(self):
        for name, words in cases():
            if words[0] == b"ok":
                with self.subTest(name):
                    out = contents(name, "out")
                    width, height, channels, start = hejslopi.read_still(out)
                    self.assertEqual([width, height, channels], [int(word) for word in words[1:4]])
                    self.assertEqual(hejslopi.write_still(width, height, channels, out[start:]), out)

    def test_described(self):
        """A description of an accepted recipe gives the same bytes."""
        tried = 0
        for name, recipe, accepted in recipes():
            if accepted:
                with self.subTest(name):
                    tried += 1
                    self.assertEqual(hejslopi.recipe(hejslopi.describe(recipe)), recipe)
        self.assertGreater(tried, 100)

    def test_explained(self):
        """T after the last stage is the line's, and each stage is there."""
        for name, words in cases():
            if words[0] == b"ok":
                with self.subTest(name):
                    explained = hejslopi.explain(contents(name, "recipe"))
                    self.assertEqual(explained["tolerance"], int(words[4]))
                    self.assertEqual(explained["stages"][-1]["tolerance"], int(words[4]))
                    self.assertEqual(len(explained["stages"]), contents(name, "recipe")[0])


class Calls(unittest.TestCase):
    def refused(self, number, call, *arguments):
        with self.assertRaises(hejslopi.Refusal) as raised:
            call(*arguments)
        self.assertEqual(raised.exception.number, number)

    def test_bytes_only(self):
        """Five is not five zero bytes, and a text is none either."""
        for wrong in (5, "P5", None, [1, 3], 1.5, array.array("i", [1])):
            for call in (hejslopi.read_still, hejslopi.read_recipe, lambda still: hejslopi.filter_file(still, RECIPE),
                         lambda recipe: hejslopi.filter_file(STILL, recipe), lambda plane: hejslopi.filter_plane(plane, 1, 1, RECIPE),
                         lambda raster: hejslopi.write_still(1, 1, 1, raster), hejslopi.describe, hejslopi.explain):
                with self.assertRaisesRegex(TypeError, "bytes are needed"):
                    call(wrong)

    def test_bytes_like(self):
        for kind in (bytes, bytearray, memoryview, lambda data: array.array("B", data), lambda data: memoryview(data + data)[:len(data)]):
            self.assertEqual(hejslopi.filter_file(kind(STILL), kind(RECIPE)), (b"P5\n3 1\n255\n\x0D\x17\x23", 33280))
            self.assertEqual(hejslopi.filter_plane(kind(STILL[-3:]), 3, 1, kind(RECIPE)), (b"\x0D\x17\x23", 33280))
            self.assertEqual(hejslopi.write_still(3, 1, 1, kind(STILL[-3:])), STILL)

    def test_numbers_only(self):
        for wrong in ("3", 3.0, None, True):
            with self.assertRaisesRegex(TypeError, "width: a whole number is needed"):
                hejslopi.write_still(wrong, 1, 1, b"abc")

    def test_numbers_that_no_word_holds(self):
        """2^64 + 3 is not 3."""
        for wrong in (-1, -(1 << 64) + 3, (1 << 64) + 3, 1 << 70, 8193, 1 << 31, 1 << 58):
            self.refused(3, hejslopi.write_still, wrong, 1, 1, b"abc")
            self.refused(3, hejslopi.write_still, 1, wrong, 1, b"abc")
            self.refused(19, hejslopi.write_still, 3, 1, wrong, b"abc")
            self.refused(3, hejslopi.filter_plane, b"abc", wrong, 1, RECIPE)

    def test_limits(self):
        """At a limit and one beyond it; 28 comes before the still is looked at, 29 once it has been read. Channels are not counted."""
        two = bytes.fromhex("02 04 01 00 01 00 04 01 00 01 00")
        colours = b"P6\n3 1\n255\n" + bytes(9)
        self.assertEqual(hejslopi.filter_file(STILL, two, (2, 3)), hejslopi.filter_file(STILL, two))
        self.assertEqual(hejslopi.filter_file(colours, two, [2, 3]), hejslopi.filter_file(colours, two))
        self.assertIs(inspect.signature(hejslopi.filter_file).parameters["limits"].default, hejslopi.ARCHIVE)
        self.assertEqual(hejslopi.ARCHIVE, (8, 8192 * 8192))
        self.assertEqual(hejslopi.filter_file(STILL, two, (1 << 64, 1 << 90)), hejslopi.filter_file(STILL, two))
        self.refused(28, hejslopi.filter_file, STILL, two, (1, 3))
        self.refused(28, hejslopi.filter_file, b"P7", two, (1, 0))
        self.refused(28, hejslopi.filter_file, STILL, RECIPE, (0, 3))
        self.refused(12, hejslopi.filter_file, STILL, two + b"\0", (1, 3))
        self.refused(29, hejslopi.filter_file, STILL, two, (2, 2))
        self.refused(29, hejslopi.filter_file, STILL, two, (2, 0))
        self.refused(5, hejslopi.filter_file, STILL[:-1], two, (2, 2))
        self.refused(6, hejslopi.filter_file, STILL + b"\0", two, (2, 2))

    def test_limits_in_words(self):
        """What was found and what is allowed, of a refusal and of limits that are none."""
        for limits, words in (((0, 3), "(found 1, allowed: at most 0)"), ((1, 2), "(found 3 by 1, which are 3, allowed: at most 2)")):
            with self.assertRaises(hejslopi.Refusal) as raised:
                hejslopi.filter_file(STILL, RECIPE, limits)
            self.assertEqual(str(raised.exception)[-len(words):], words)
        for wrong in (4, "48", None, {4, 5}, {"stages": 4, "samples": 5}):
            with self.assertRaisesRegex(TypeError, "^limits: a pair of stages and samples is needed, and this is of type "):
                hejslopi.filter_file(STILL, RECIPE, wrong)
        for wrong in ((), (4,), (4, 5, 6)):
            with self.assertRaisesRegex(ValueError, "^limits: a pair of stages and samples is needed, and this has a length of %d$" % len(wrong)):
                hejslopi.filter_file(STILL, RECIPE, wrong)
        for place, name in enumerate(("stages", "samples")):
            for wrong in (1.0, True, None, "4"):
                with self.assertRaisesRegex(TypeError, "^limits, %s: a whole number is needed" % name):
                    hejslopi.filter_file(STILL, RECIPE, [8, 8][:place] + [wrong] + [8, 8][place + 1:])
            with self.assertRaisesRegex(ValueError, "^limits, %s: found -1, allowed: 0 or more$" % name):
                hejslopi.filter_file(STILL, RECIPE, [8, 8][:place] + [-1] + [8, 8][place + 1:])

    def test_order_of_refusals(self):
        """A plane: the recipe's, 14 for several stages, the sides, the samples. A still to be written: channels, sides, samples."""
        two = bytes.fromhex("02 04 01 00 01 00 04 01 00 01 00")
        self.refused(10, hejslopi.filter_plane, b"", 0, 0, b"\x09")
        self.refused(14, hejslopi.filter_plane, b"", 0, 0, two)
        self.refused(3, hejslopi.filter_plane, b"", 0, 1, RECIPE)
        self.refused(3, hejslopi.filter_plane, b"", 8193, 1, RECIPE)
        self.refused(5, hejslopi.filter_plane, b"a", 2, 1, RECIPE)
        self.refused(6, hejslopi.filter_plane, b"abc", 2, 1, RECIPE)
        self.refused(19, hejslopi.write_still, 0, 0, 2, b"")
        self.refused(3, hejslopi.write_still, 0, 1, 1, b"")
        self.refused(5, hejslopi.write_still, 2, 1, 3, b"abcde")
        self.refused(6, hejslopi.write_still, 2, 1, 3, b"abcdefg")

    def test_sent_to_another_process(self):
        for wrong in (self.raised(hejslopi.read_recipe, b"\x01\x09"), self.raised(hejslopi.recipe, [])):
            again = pickle.loads(pickle.dumps(wrong))
            self.assertEqual((type(again), str(again)), (type(wrong), str(wrong)))

    def raised(self, call, argument):
        with self.assertRaises((hejslopi.Refusal, hejslopi.Mistake)) as raised:
            call(argument)
        return raised.exception

    def test_memory(self):
        """The largest still takes at most twice what the call needs: both files, work bytes, row values and sums."""
        side = 8192
        needed = 2 * side * side + 2 * side * side + 4 * side * (side + 30) + 4 * (side + 3) * 4
        code = ("import hejslopi\nstill = b'P5\\n8192 8192\\n255\\n' + bytes(8192 * 8192)\n"
                "assert len(hejslopi.filter_file(still, bytes.fromhex('01 04 01 00 01 01'))[0]) == len(still)\n")
        limit = lambda: resource.setrlimit(resource.RLIMIT_AS, (2 * needed, 2 * needed))
        here = os.path.dirname(os.path.abspath(__file__))
        done = subprocess.run([sys.executable, "-c", code], cwd=here, preexec_fn=limit, stderr=subprocess.PIPE, universal_newlines=True)
        self.assertEqual((done.returncode, done.stderr), (0, ""))


def grey(*samples):
    """A still of one row."""
    return b"P5\n%d 1\n255\n" % len(samples) + bytes(samples)


class Plain:
    """A background as a list of stills in the order in which they came, each a number, its T and its samples."""

    def __init__(self):
        self.stills = []

    def add(self, samples, number, tolerance):
        """The number of the refusal, or 0."""
        if any(number == other for other, _, _ in self.stills):
            return 23
        if any(len(samples) != len(other) for _, _, other in self.stills):
            return 24
        if len(self.stills) == 1000:
            return 25
        self.stills.append((number, tolerance, samples))
        return 0

    def remove(self, number):
        left = [still for still in self.stills if still[0] != number]
        gone, self.stills = len(self.stills) - len(left), left
        return 0 if gone else 23

    def mean(self):
        if not self.stills:
            return None
        means = [Fraction(sum(column), len(self.stills)) for column in zip(*(samples for _, _, samples in self.stills))]
        return bytes((mean + Fraction(1, 2)).__floor__() for mean in means), min(max(T for _, T, _ in self.stills) + 32768, 255 * 65536)


class Backgrounds(unittest.TestCase):
    @staticmethod
    def answer(change, *arguments):
        """The number of the refusal, or 0."""
        try:
            change(*arguments)
        except hejslopi.Refusal as refusal:
            return refusal.number
        return 0

    def test_by_hand(self):
        """21/2 and 505/2 go up, 34/3 and 505/3 do not; without the second still it is 23/2 and 250/2."""
        background = hejslopi.Background()
        self.assertIsNone(background.mean())
        for still, mean in (((grey(10, 250), 7, 100), ([10, 250], 32868)), ((grey(11, 255), 8, 300), ([11, 253], 33068)), ((grey(13, 0), 9, 200), ([11, 168], 33068))):
            background.add(*still)
            self.assertEqual(background.mean(), (bytes(mean[0]), mean[1]))
        background.remove(8)
        self.assertEqual((background.mean(), len(background)), ((bytes([12, 125]), 32968), 2))

    def test_lists(self):
        """Random additions and removals, beside a list of stills."""
        chance, tried = random.Random(202602), set()
        for _ in range(300):
            background, plain = hejslopi.Background(), Plain()
            for _ in range(chance.randrange(60)):
                number = chance.choice((0, 1, 2, 3, 4, 5, 6, 4294967295))
                if chance.random() < 0.4:
                    answer, expected = self.answer(background.remove, number), plain.remove(number)
                else:
                    samples = bytes(chance.choices(range(256), k=chance.choice((3, 3, 3, 3, 3, 3, 2))))
                    tolerance = chance.choice((0, 33280, 98060, 16678912, 4294967295))
                    answer, expected = self.answer(background.add, grey(*samples), number, tolerance), plain.add(samples, number, tolerance)
                self.assertEqual(answer, expected)
                self.assertEqual((background.mean(), len(background)), (plain.mean(), len(plain.stills)))
                tried.add(answer)
        self.assertEqual(tried, {0, 23, 24})

    def test_a_thousand_and_one_more(self):
        background, plain = hejslopi.Background(), Plain()
        for number in range(1000):
            samples = (255, number % 256)
            self.assertEqual((self.answer(background.add, grey(*samples), number, 0), plain.add(samples, number, 0)), (0, 0))
        for still, number, refusal in ((b"P7", 7, 1), (grey(1), 7, 23), (grey(1), 1000, 24), (grey(1, 2), 1000, 25)):
            self.assertEqual(self.answer(background.add, still, number, 4294967295), refusal)
            self.assertEqual((background.mean(), len(background)), (plain.mean(), 1000))
        background.remove(7)
        self.assertEqual(self.answer(background.add, grey(1, 2), 1000, 0), 0)

    def test_scripts(self):
        """The scripts among the vectors. Memory of its own is never too short: without the steps that were lent too little, all others have their answers."""
        tried = 0
        for name in sorted(os.listdir(VECTORS)):
            if not os.path.exists(os.path.join(VECTORS, name, "script")):
                continue
            background = hejslopi.Background()
            steps = [line.split() for line in contents(name, "script").decode().splitlines() if not line.startswith("lend ")]
            answers = contents(name, "line").decode().splitlines()
            self.assertEqual(len(steps), len(answers))
            for step, expected in zip(steps, answers):
                if expected != "no 20":
                    tried += 1
                    with self.subTest(name, step=step):
                        self.assertEqual(self.said(background, name, step), expected)
        self.assertGreater(tried, 1000)

    def said(self, background, name, step):
        """A step's answer as the vectors have it."""
        word, *rest = step
        if word == "mean":
            mean = background.mean()
            return "mean %d %s" % (mean.tolerance, mean.raster.hex()) if mean else "none"
        if word == "add":
            refusal = self.answer(background.add, contents(name, rest[2]), int(rest[0]), int(rest[1]))
        else:
            refusal = self.answer(background.remove, int(rest[0]))
        return "no %d" % refusal if refusal else "ok"

    def test_sizes(self):
        """A background that has been emptied takes another size, in colour too."""
        background = hejslopi.Background()
        background.add(grey(1, 2, 3, 4), 1, 0)
        background.remove(1)
        background.add(b"P6\n1 2\n255\nabcdef", 1, 0)
        self.assertEqual(background.mean(), (b"abcdef", 32768))
        self.assertEqual(self.answer(background.add, grey(1, 2, 3, 4, 5, 6), 2, 0), 24)

    def test_size(self):
        """That of the stills held, whatever is refused; none at first, and none again once they are gone."""
        background = hejslopi.Background()
        self.assertIsNone(background.size)
        self.assertEqual(self.answer(background.add, b"P5\n2 1\n255\na", 1, 0), 5)
        self.assertIsNone(background.size)
        for still, size in ((b"P5\n3 2\n255\nabcdef", (3, 2, 1)), (b"P6\n1 2\n255\nabcdef", (1, 2, 3))):
            for number in (1, 2):
                background.add(still, number, 0)
                for other, again, refusal in ((still, 1, 23), (grey(1, 2, 3, 4, 5, 6), 3, 24)):
                    self.assertEqual(self.answer(background.add, other, again, 0), refusal)
                self.assertEqual(background.size, size)
                self.assertEqual(hejslopi.write_still(*background.size, background.mean().raster), still)
            background.remove(1)
            self.assertEqual(background.size, size)
            background.remove(2)
            self.assertIsNone(background.size)
        with self.assertRaises(AttributeError):
            background.size = (1, 1, 1)

    def test_wrong_arguments(self):
        """Said in one line, and the background is as it was."""
        background = hejslopi.Background()
        background.add(grey(1, 2), 7, 0)
        table = [(wrong, TypeError, "a whole number is needed, and this is of type %s" % kind) for wrong, kind in ((True, "bool"), (7.0, "float"), ("7", "str"), (None, "NoneType"))]
        table += [(wrong, ValueError, "found %d, allowed: 0 to 4,294,967,295" % wrong) for wrong in (-1, 1 << 32, (1 << 32) + 7, 1 << 70)]
        for wrong, kind, words in table:
            for name, call in (("number", lambda: background.add(grey(1, 2), wrong, 0)), ("tolerance", lambda: background.add(grey(1, 2), 8, wrong)),
                               ("number", lambda: background.remove(wrong))):
                with self.subTest(name, wrong=wrong), self.assertRaises(kind) as raised:
                    call()
                self.assertEqual(str(raised.exception), "%s: %s" % (name, words))
        for wrong in (5, "P5", None, [1]):
            with self.assertRaisesRegex(TypeError, "^still: bytes are needed"):
                background.add(wrong, 8, 0)
        self.assertEqual((background.mean(), len(background)), ((b"\x01\x02", 32768), 1))

    def test_bytes_like(self):
        for kind in (bytes, bytearray, memoryview, lambda data: array.array("B", data)):
            background = hejslopi.Background()
            background.add(kind(grey(1, 2)), 4294967295, 4294967295)
            self.assertEqual(background.mean(), (b"\x01\x02", 255 * 65536))
            background.remove(4294967295)

    def test_what_was_found(self):
        background = hejslopi.Background()
        background.add(grey(1, 2), 7, 0)
        for call, number, where in ((lambda: background.add(grey(1, 2), 7, 0), 23, "number 7, stills held: 1"), (lambda: background.remove(8), 23, "number 8, stills held: 1"),
                                    (lambda: background.add(b"P6\n1 3\n255\nabcdefghi", 8, 0), 24, "found 1 by 3, channels: 3; held: 2 by 1, channels: 1"),
                                    (lambda: background.add(b"P5\n2 1\n255\na", 8, 0), 5, "found 1, needed for 2 by 1: 2")):
            with self.assertRaises(hejslopi.Refusal) as raised:
                call()
            self.assertEqual((raised.exception.number, raised.exception.where), (number, where))

    def test_help(self):
        """The example of its help does what is said there."""
        text, names = inspect.getdoc(hejslopi.Background), {"hejslopi": hejslopi}
        exec("\n".join(line[4:] for line in text.splitlines() if line.startswith("    ")), names)
        samples, tolerance = re.search(r"# samples ([\d ]+), and (\d+)", text).groups()
        self.assertEqual((names["raster"], names["T"]), (bytes(map(int, samples.split())), int(tolerance)))
        self.assertEqual(str(names["background"].size), re.search(r"channels: (\(.*\))", text).group(1))
        self.assertEqual(len(names["background"]), int(re.search(r"is (\d+) now", text).group(1)))

    def test_no_memory(self):
        """Where memory ends, the background is as it was: with a quarter of what is there at least filled, and its size and mean still to be had."""
        code = ("import hejslopi\nbackground, still = hejslopi.Background(), b'P5\\n8192 1024\\n255\\n' + bytes([7]) * (1 << 23)\n"
                "try:\n    while True: background.add(still, len(background), len(background))\nexcept MemoryError: pass\n"
                "assert background.mean() == (bytes([7]) * (1 << 23), len(background) - 1 + 32768)\nassert len(background) >= 16, len(background)\n"
                "assert background.size == (8192, 1024, 1), background.size\n")
        limit = lambda: resource.setrlimit(resource.RLIMIT_AS, (1 << 29, 1 << 29))
        here = os.path.dirname(os.path.abspath(__file__))
        done = subprocess.run([sys.executable, "-c", code], cwd=here, preexec_fn=limit, stderr=subprocess.PIPE, universal_newlines=True)
        self.assertEqual((done.returncode, done.stderr), (0, ""))


class Movements(unittest.TestCase):
    # Filtered by the binomial of RECIPE they are 13 23 35 and 13 43 95, with T 33280: 1.016 levels for both.
    AFTER = grey(10, 20, 120)
    # Ranks of one sample, T 0, and a box of one sample, T 32768.
    EXACT, HALF = bytes.fromhex("01 05 01 00 00 00 00 01"), bytes.fromhex("01 04 01 00 00 00")

    def test_by_hand(self):
        seen = hejslopi.movement(STILL, RECIPE, self.AFTER, RECIPE, 19)
        self.assertEqual(seen, (1, 1, 1, 33280, 33280, grey(13, 23, 35), grey(13, 43, 95)))
        self.assertEqual((seen.moved, seen.still, seen.open, seen.tolerance1, seen.tolerance2), (1, 1, 1, 33280, 33280))
        self.assertEqual((seen.picture1, seen.picture2), (grey(13, 23, 35), grey(13, 43, 95)))
        self.assertEqual(hejslopi.movement(STILL, self.EXACT, self.AFTER, self.HALF, 80), (0, 2, 1, 0, 32768, STILL, self.AFTER))
        self.assertEqual(hejslopi.movement(STILL, self.HALF, self.AFTER, self.EXACT, 79)[:5], (1, 2, 0, 32768, 0))

    def test_vectors(self):
        """Memory of its own is never too short: without those that were lent too little, all have their answers."""
        tried = set()
        for name in sorted(os.listdir(VECTORS)):
            words = contents(name, "line").split()
            if not os.path.exists(os.path.join(VECTORS, name, "still1")) or words[:2] == [b"no", b"20"]:
                continue
            with self.subTest(name):
                inputs = [contents(name, file) for file in ("still1", "recipe1", "still2", "recipe2")]
                expected = int(words[1])
                if words[0] == b"moved":
                    expected = *map(int, words[1:6:2]), *map(int, words[7:9]), contents(name, "out1"), contents(name, "out2")
                self.assertEqual(answer_of(hejslopi.movement, *inputs, int(contents(name, "limit"))), expected)
                tried.add(name)
        self.assertGreater(len(tried), 60)

    def test_what_was_found(self):
        """In the order of the tests, each with a cause for all later ones too."""
        bad, cut, short = b"\x09", b"\x01\x03", b"P5\n2 1\n255\na"
        for arguments, number, argument, where in (
            ((short, bad, short, bad, 256), 27, "limit", "found 256"),
            ((short, bad, b"P7", cut, 255), 10, "recipe1", "byte 1: found 9 stages, allowed: 1 to 8"),
            ((short, RECIPE, b"P7", bad, 255), 5, "still1", "found 1, needed for 2 by 1: 2"),
            ((STILL, RECIPE, b"P7", cut, 255), 11, "recipe2", "stage 1, border: it ends with byte 2"),
            ((STILL, RECIPE, b"P7", RECIPE, 255), 1, "still2", "it begins with 'P7'"),
            ((STILL, RECIPE, b"P6\n1 1\n255\nabc", RECIPE, 255), 26, "", "found 3 by 1, channels: 1, and 1 by 1, channels: 3"),
        ):
            with self.subTest(number), self.assertRaises(hejslopi.Refusal) as raised:
                hejslopi.movement(*arguments)
            wrong = raised.exception
            self.assertEqual((wrong.number, wrong.argument, wrong.where), (number, argument, where))
            self.assertEqual(str(wrong), "refused with %d: %s (%s)" % (number, hejslopi.MEANINGS[number], ": ".join(filter(None, (argument, where)))))
            again = pickle.loads(pickle.dumps(wrong))
            self.assertEqual((str(again), again.argument), (str(wrong), argument))

    def test_limits(self):
        """2^64 + 3 is not 3. A limit below 0 is none, and no refusal either."""
        for wrong in (256, 1 << 32, (1 << 64) - 1, (1 << 64) + 3, 1 << 70):
            self.assertEqual(answer_of(hejslopi.movement, STILL, RECIPE, STILL, RECIPE, wrong), 27)
        for wrong in (-1, -(1 << 64) + 3):
            with self.assertRaises(ValueError) as raised:
                hejslopi.movement(STILL, RECIPE, STILL, RECIPE, wrong)
            self.assertEqual(str(raised.exception), "limit: found %d, allowed: 0 to 255" % wrong)
        for wrong, kind in ((True, "bool"), (7.0, "float"), ("7", "str"), (None, "NoneType")):
            with self.assertRaises(TypeError) as raised:
                hejslopi.movement(STILL, RECIPE, STILL, RECIPE, wrong)
            self.assertEqual(str(raised.exception), "limit: a whole number is needed, and this is of type %s" % kind)

    def test_bytes_like(self):
        for kind in (bytes, bytearray, memoryview, lambda data: array.array("B", data)):
            self.assertEqual(hejslopi.movement(kind(STILL), kind(RECIPE), kind(self.AFTER), kind(RECIPE), 19).moved, 1)
        for place, name in enumerate(("still1", "recipe1", "still2", "recipe2")):
            inputs = [STILL, RECIPE, STILL, RECIPE]
            inputs[place] = "P5"
            with self.assertRaisesRegex(TypeError, "^%s: bytes are needed" % name):
                hejslopi.movement(*inputs, 1)

    def test_picture(self):
        """Still as it is, open yellow, moved red. Of a pixel's three samples one is enough, and moved goes before open."""
        seen = hejslopi.movement(STILL, RECIPE, self.AFTER, RECIPE, 19)
        self.assertEqual(hejslopi.movement_picture(seen, 19), b"P6\n3 1\n255\n" + bytes([13, 13, 13, 255, 255, 0, 255, 0, 0]))
        before, after = (b"P6\n4 1\n255\n" + bytes(samples) for samples in ([1, 2, 3] * 4, [1, 2, 3, 2, 2, 5, 4, 2, 5, 1, 4, 2]))
        seen = hejslopi.movement(before, self.EXACT, after, self.HALF, 2)
        # apart by 0 0 0, 1 0 2, 3 0 2 and 0 2 1, of which 2 is open: both T are half a level
        self.assertEqual(seen[:3], (1, 8, 3))
        self.assertEqual(hejslopi.movement_picture(seen, 2), b"P6\n4 1\n255\n" + bytes([1, 2, 3, 255, 255, 0, 255, 0, 0, 255, 255, 0]))
        with self.assertRaisesRegex(ValueError, "^limit: found 1, with which this movement was not counted$"):
            hejslopi.movement_picture(seen, 1)

    def test_pictures(self):
        """Random stills, beside each pixel looked at by itself."""
        chance, seen_colours = random.Random(202605), set()
        for _ in range(300):
            width, height, channels = chance.randrange(1, 9), chance.randrange(1, 9), chance.choice((1, 3))
            first = bytes(chance.choices(range(256), k=width * height * channels))
            second = bytes(min(max(sample + chance.randrange(-4, 5), 0), 255) for sample in first)
            limit, recipe = chance.choice((0, 1, 2, 3, 255)), chance.choice((self.EXACT, self.HALF))
            seen = hejslopi.movement(hejslopi.write_still(width, height, channels, first), recipe, hejslopi.write_still(width, height, channels, second), self.HALF, limit)
            colours = [self.colour(first[k:k + channels], second[k:k + channels], limit, Fraction(seen.tolerance1 + seen.tolerance2, 65536)) for k in range(0, len(first), channels)]
            raster = b"".join(colour or first[k * channels:(k + 1) * channels] * (3 // channels) for k, colour in enumerate(colours))
            self.assertEqual(hejslopi.movement_picture(seen, limit), hejslopi.write_still(width, height, 3, raster))
            seen_colours.update(colours)
        self.assertEqual(seen_colours, {b"", b"\xff\x00\x00", b"\xff\xff\x00"})

    @staticmethod
    def colour(first, second, limit, tolerances):
        differences = [abs(a - b) for a, b in zip(first, second)]
        if any(difference > limit + tolerances for difference in differences):
            return b"\xff\x00\x00"
        return b"" if all(difference + tolerances <= limit for difference in differences) else b"\xff\xff\x00"


class Verdicts(unittest.TestCase):
    # A box of three samples across: its exact results on STILL are 40/3, 70/3 and 100/3. A rank of one sample has the raw ones.
    BOX, RANK = bytes.fromhex("01 04 01 00 01 00"), bytes.fromhex("01 05 01 00 00 00 00 01")

    def test_by_hand(self):
        for samples, distance, near in (((13, 23, 33), 0, False), ((13, 23, 33), 1, True), ((14, 24, 34), 1, True), ((12, 23, 33), 1, False), ((13, 23, 35), 1, False),
                                        ((12, 25, 32), 2, True), ((255, 255, 255), 241, False), ((255, 255, 255), 242, True), ((0, 255, 0), 255, True)):
            with self.subTest(samples, distance=distance):
                self.assertIs(hejslopi.verdict(self.BOX, STILL, grey(*samples), distance), near)
        self.assertIs(hejslopi.verdict(self.RANK, STILL, grey(17, 13, 47), 7), True)
        self.assertIs(hejslopi.verdict(self.RANK, STILL, grey(17, 13, 48), 7), False)

    def test_vectors(self):
        """Memory of its own is never too short: without those that were lent too little, all have their answers."""
        tried = []
        for name in sorted(os.listdir(VECTORS)):
            words = contents(name, "line").split()
            if not os.path.exists(os.path.join(VECTORS, name, "received")):
                continue
            with self.subTest(name):
                tried.append(words)
                if words == [b"no", b"20"]:
                    continue
                expected = int(words[1]) if words[0] == b"no" else words[0] == b"yes"
                found = answer_of(hejslopi.verdict, *(contents(name, file) for file in ("recipe", "raw", "received")), int(contents(name, "distance")))
                self.assertEqual((type(found), found), (type(expected), expected))
        self.assertEqual([len(tried), tried.count([b"yes"]), tried.count([b"not"]), tried.count([b"no", b"20"])], [96, 21, 16, 6])

    def test_own_output(self):
        """What the filter writes is within T of the exact result."""
        tried = 0
        for name, words in cases():
            recipe = contents(name, "recipe")
            if words[0] == b"ok" and recipe[0] == 1 and recipe[1] in (1, 4, 5):
                for distance in range(-(-int(words[4]) // 65536), 256, 17):
                    tried += 1
                    with self.subTest(name, distance=distance):
                        self.assertIs(hejslopi.verdict(recipe, contents(name, "still"), contents(name, "out"), distance), True)
        self.assertGreater(tried, 500)

    def test_what_was_found(self):
        """In the order of the tests, each with a cause for all later ones too."""
        bad, two, outline = b"\x09", bytes.fromhex("02 04 01 00 01 00 04 01 00 01 00"), bytes.fromhex("01 06 01 00")
        short, wide = b"P5\n2 1\n255\na", b"P6\n4 1\n255\n" + bytes(12)
        for arguments, number, argument, where in (
            ((bad, short, b"P7", 256), 32, "distance", "found 256, allowed: 0 to 255"),
            ((bad, short, b"P7", 255), 10, "recipe", "byte 1: found 9 stages, allowed: 1 to 8"),
            ((two, short, b"P7", 255), 30, "recipe", "byte 1: found 2 stages, allowed: 1"),
            ((outline, short, b"P7", 255), 30, "recipe", "stage 1, kind: found 6, allowed: 1 ratios, 4 box, 5 rank"),
            ((RECIPE, short, b"P7", 255), 30, "recipe", "stage 1, kind: found 3, allowed: 1 ratios, 4 box, 5 rank"),
            ((self.BOX, short, b"P7", 255), 5, "raw", "found 1, needed for 2 by 1: 2"),
            ((self.BOX, STILL, b"P7", 255), 1, "received", "it begins with 'P7'"),
            ((self.BOX, STILL, short, 255), 5, "received", "found 1, needed for 2 by 1: 2"),
            ((self.BOX, STILL, wide, 255), 31, "received", "found 4 by 1, channels: 3, allowed: 3 by 1, channels: 1"),
        ):
            with self.subTest(number, where=where), self.assertRaises(hejslopi.Refusal) as raised:
                hejslopi.verdict(*arguments)
            wrong = raised.exception
            self.assertEqual((wrong.number, wrong.argument, wrong.where), (number, argument, where))
            self.assertEqual(str(wrong), "refused with %d: %s (%s: %s)" % (number, hejslopi.MEANINGS[number], argument, where))

    def test_distances(self):
        """2^64 + 3 is not 3. A distance below 0 is none, and no refusal either."""
        for wrong in (256, 1 << 32, (1 << 64) - 1, 1 << 64, (1 << 64) + 3, 1 << 70, 10 ** 5000):
            self.assertEqual(answer_of(hejslopi.verdict, self.BOX, STILL, STILL, wrong), 32)
        for wrong in (-1, -(1 << 64) + 3):
            with self.assertRaises(ValueError) as raised:
                hejslopi.verdict(self.BOX, STILL, STILL, wrong)
            self.assertEqual(str(raised.exception), "distance: found %d, allowed: 0 to 255" % wrong)
        for wrong, kind in ((True, "bool"), (7.0, "float"), ("7", "str"), (None, "NoneType")):
            with self.assertRaises(TypeError) as raised:
                hejslopi.verdict(self.BOX, STILL, STILL, wrong)
            self.assertEqual(str(raised.exception), "distance: a whole number is needed, and this is of type %s" % kind)

    def test_bytes_like(self):
        for kind in (bytes, bytearray, memoryview, lambda data: array.array("B", data)):
            self.assertIs(hejslopi.verdict(kind(self.BOX), kind(STILL), kind(grey(13, 23, 33)), 1), True)
        for place, name in enumerate(("recipe", "raw", "received")):
            for wrong in ("P5", 5, None, [1], array.array("i", [1])):
                inputs = [self.BOX, STILL, STILL]
                inputs[place] = wrong
                with self.assertRaisesRegex(TypeError, "^%s: bytes are needed" % name):
                    hejslopi.verdict(*inputs, 1)

    def test_memory(self):
        """Beside both files nothing is set aside but a byte for each pixel, whatever the channels."""
        code = ("import hejslopi\nimport resource\nstill, recipe = b'P6\\n4096 4096\\n255\\n' + bytes(3 << 24), bytes.fromhex('01 04 01 00 0f 0f')\n"
                "hejslopi.read_recipe(recipe)\n"
                "now = int(open('/proc/self/statm').read().split()[0]) * resource.getpagesize()\n"
                "resource.setrlimit(resource.RLIMIT_AS, (now + (20 << 20), now + (20 << 20)))\n"
                "assert hejslopi.verdict(recipe, still, still, 0) is True\n")
        here = os.path.dirname(os.path.abspath(__file__))
        done = subprocess.run([sys.executable, "-c", code], cwd=here, stderr=subprocess.PIPE, universal_newlines=True)
        self.assertEqual((done.returncode, done.stderr), (0, ""))


class Recipes(unittest.TestCase):
    """Bytes worked by hand from document 01's 'Recipe bytes'."""

    def built(self, stage, text):
        self.assertEqual(hejslopi.recipe([stage]), bytes.fromhex("01" + text))

    def test_binomial(self):
        self.built({"kind": "binomial", "across": 1, "down": 0, "border": "nearest"}, "03 01 00 01 00")

    def test_box_with_border_value(self):
        self.built({"kind": "box", "across": 2, "down": 15, "border": {"constant": 20}}, "04 00 14 02 0F")

    def test_rank(self):
        self.built({"kind": "rank", "across": 1, "down": 1, "position": "median", "border": "wrap"}, "05 03 00 01 01 00 05")
        self.built({"kind": "rank", "across": 15, "down": 15, "position": "largest"}, "05 01 00 0F 0F 03 C1")
        self.built({"kind": "rank", "across": 1, "down": 2, "position": "smallest"}, "05 01 00 01 02 00 01")

    def test_outline(self):
        """A header and nothing more."""
        self.built({"kind": "outline"}, "06 01 00")
        self.built({"kind": "outline", "border": "wrap"}, "06 03 00")
        self.built({"kind": "outline", "border": {"constant": 20}}, "06 00 14")

    def test_ratios(self):
        self.built(
            {
                "kind": "ratios",
                "across": {"over": 4, "taps": {"right": 1, "left": -1, "here": 4}},
                "down": {"over": 1, "taps": {"here": 1}},
                "border": "mirror",
            },
            "01 02 00 03 01 00 04 00 01 FF 00 01 00 FF FF 00 04 00 01 00 01",
        )

    def test_reals(self):
        text = "02 01 00 02 01 FF 00 00 3E 80 00 00 3F 00 00 00 C0 80 00 00"
        self.built({"kind": "reals", "across": {"-1": 0.25, "0": 0.5}, "down": {"0": -4.0}}, text)
        self.built({"kind": "reals", "across": {-1: 0.25, 0: 0.5}, "down": {"here": -4}}, text)

    def test_words_of_both_axes(self):
        taps = {"left": 1, "here": 1, "right": 1}, {"up": 2, "here": 2, "down": 2}
        self.built({"kind": "ratios", "across": {"over": 3, "taps": taps[0]}, "down": {"over": 6, "taps": taps[1]}},
                   "01 01 00 03 03 00 03 00 06 FF 00 01 FF 00 01 00 01 00 01 00 01 00 02 00 02 00 02")

    def test_accepted(self):
        stages = [{"kind": "binomial", "across": 1, "down": 1}, {"kind": "box", "across": 1, "down": 1}]
        self.assertEqual(hejslopi.read_recipe(hejslopi.recipe(stages)), (2, 66048))

    def test_rounded_weights(self):
        """0.1 lies between 13421772 and 13421773 over 2^27, and is nearer to the second. A quarter is held as it is."""
        made = descriptions.encode([{"kind": "reals", "across": {"left": 0.1, "here": 0.25}, "down": {"here": 1}}])
        self.assertEqual([(place, Fraction(held)) for place, _, held in made.rounded], [('stage 1, across, tap "left"', Fraction(13421773, 1 << 27))])

    def test_rounded_once(self):
        """A little above the middle of two binary32 is nearer to the upper one, though as a binary64 it is the middle, which goes to the even one."""
        low, step = 1 << 23, Fraction(1, 1 << 23)
        middle = (low + Fraction(1, 2)) * step
        self.assertEqual(Fraction(reals.nearest_binary32(middle, float(middle))), low * step)
        self.assertEqual(Fraction(reals.nearest_binary32(middle + Fraction(1, 1 << 90), float(middle))), (low + 1) * step)
        typed = Decimal(middle.numerator) / middle.denominator + Decimal("1e-27")
        made = descriptions.encode([{"kind": "reals", "across": {"here": typed}, "down": {"here": 1}}])
        self.assertEqual(made.recipe[8:12], bytes.fromhex("3F 80 00 01"))
        self.assertEqual(len(made.rounded), 1)

    def test_descriptions_are_as_held(self):
        """A recipe that something else wrote: an unusual border value, a negative zero, weights with all their digits."""
        recipe = bytes.fromhex("02 04 00 FF 00 00 02 03 00 02 01 F1 0F 00 3D CC CC CD 80 00 00 00 3F 80 00 00")
        box, real = hejslopi.describe(recipe)
        self.assertEqual(box, {"kind": "box", "across": 0, "down": 0, "border": {"constant": 255}})
        self.assertEqual(real["across"], {"-15": 0.10000000149011612, "15": 0.0})
        self.assertEqual(str(real["across"]["15"]), "-0.0")
        self.assertEqual(hejslopi.recipe([box, real]), recipe)

    def test_described_outlines(self):
        """Stages that end with their header, one behind the other and at the recipe's end."""
        recipe = bytes.fromhex("03 06 00 FF 04 01 00 01 02 06 02 00")
        described = [{"kind": "outline", "border": {"constant": 255}}, {"kind": "box", "across": 1, "down": 2, "border": "nearest"},
                     {"kind": "outline", "border": "mirror"}]
        self.assertEqual(hejslopi.describe(recipe), described)
        self.assertEqual(hejslopi.recipe(described), recipe)

    def test_explained_outlines(self):
        """T of a box is 32,768, half a grey level, and each outline behind it makes six times as much of it. In front of it there is nothing to grow."""
        first, box, *outlines = hejslopi.explain(bytes.fromhex("06 06 03 00 04 01 00 01 01" + 4 * "06 00 07"))["stages"]
        self.assertEqual([first["tolerance"], box["tolerance"], "growth" in box], [0, 32768, False])
        self.assertEqual([stage["tolerance"] for stage in outlines], [6 * 32768, 36 * 32768, 216 * 32768, 255 * 65536])
        axis = {"offsets": [-1, 0, 1], "sum": None, "gain": None, "rounded": None}
        for stage in outlines:
            self.assertEqual([stage[name] for name in ("kind", "border", "border_value", "across", "down", "growth")], ["outline", "constant", 7, axis, axis, 6])

    def test_explained_rounding(self):
        """Of 1 2 3 over 6 a half is whole in 65,536ths; of -1 0 1 over 3 the 0 is; 0.5 is, and 0.1 as binary32 is not; of the binomials all are up to radius 8."""
        ratios = {"kind": "ratios", "across": {"over": 6, "taps": {"left": 1, "here": 2, "right": 3}}, "down": {"over": 3, "taps": {"up": -1, "here": 0, "down": 1}}}
        reals = {"kind": "reals", "across": {"here": 0.5}, "down": {"here": 0.1}}
        binomials = [{"kind": "binomial", "across": across, "down": down} for across, down in ((8, 9), (10, 15))]
        stages = hejslopi.explain(hejslopi.recipe([ratios, reals, *binomials, {"kind": "box", "across": 1, "down": 1}]))["stages"]
        found = [(stage["across"]["rounded"], stage["down"]["rounded"]) for stage in stages]
        self.assertEqual(found, [(2, 2), (0, 1), (0, 8), (17, 31), (None, None)])


class Faults(unittest.TestCase):
    """Where a recipe is refused, worked by hand."""

    TABLE = (
        ("", 11, "it has no bytes"),
        ("09", 10, "byte 1: found 9 stages, allowed: 1 to 8"),
        ("01 07 01 00", 13, "stage 1, kind: found 7, allowed: 1 ratios, 2 reals, 3 binomial, 4 box, 5 rank, 6 outline"),
        ("01 00 01 00", 13, "stage 1, kind: found 0, allowed: 1 ratios, 2 reals, 3 binomial, 4 box, 5 rank, 6 outline"),
        ("02 03 01 00 01 01 03 04 00 01 01", 13, "stage 2, border: found 4, allowed: 0 constant, 1 nearest, 2 mirror, 3 wrap"),
        ("01 03 01 05 01 01", 13, "stage 1, border value: found 5, allowed: 0, unless the border is 0 constant"),
        ("02 06 01 00 06 04 00", 13, "stage 2, border: found 4, allowed: 0 constant, 1 nearest, 2 mirror, 3 wrap"),
        ("02 06 00 09 06 03 05", 13, "stage 2, border value: found 5, allowed: 0, unless the border is 0 constant"),
        ("01 03 01 00 01 10", 14, "stage 1, down, radius: found 16, allowed: 0 to 15"),
        ("01 01 01 00 20 01", 14, "stage 1, across, taps: found 32, allowed: 1 to 31"),
        ("01 01 01 00 01 01 00 01 00 00", 14, "stage 1, down, divisor: found 0, allowed: 1 to 65,535"),
        ("01 02 01 00 02 01 00 00", 15, "stage 1, across, tap 2, offset: found 0, allowed: -15 to 15, each above the one before it"),
        ("01 02 01 00 01 01 00 F0", 15, "stage 1, down, tap 1, offset: found -16, allowed: -15 to 15, each above the one before it"),
        ("01 02 01 00 01 01 00 00 3F 80 00 00 40 A0 00 00", 16, "stage 1, down, tap 1, weight: found 5.0, allowed: 0, or 2^-12 to 4 in size"),
        ("01 01 01 00 01 01 00 02 00 01 00 00 00 09 00 01", 17, "stage 1, across: found a gain of 4.5, allowed: at most 4"),
        ("01 01 01 00 01 01 00 01 00 03 00 00 00 01 FF F3", 17, "stage 1, down: found a gain of 13/3, allowed: at most 4"),
        ("02 03 01 00 01 01 05 01 00 01 01 00 0A", 18, "stage 2, position: found 10, allowed: 1 to 9, the samples of its window"),
        ("02 03 01 00 01 01 05 01 00 01 01 00", 11, "stage 2, position: it ends with byte 12"),
        ("01 06", 11, "stage 1, border: it ends with byte 2"),
        ("02 03 01 00 01 01 06 01", 11, "stage 2, border value: it ends with byte 8"),
        ("02 06 01 00", 11, "stage 2, kind: it ends with byte 4"),
        ("01 03 01 00 01 01 07 07", 12, "its last stage ends with byte 6, and more follow"),
        ("01 06 01 00 01 01", 12, "its last stage ends with byte 4, and more follow"),
    )

    def test_table(self):
        for text, number, where in self.TABLE:
            with self.subTest(text), self.assertRaises(hejslopi.Refusal) as raised:
                hejslopi.read_recipe(bytes.fromhex(text))
            self.assertEqual((raised.exception.number, raised.exception.where), (number, where))

    def test_stages(self):
        """The stage that is named is the first that the library refuses when it is told of no later one. 12 says that all so far are well."""
        tried = 0
        for name, recipe, accepted in recipes():
            if accepted or not recipe or not 1 <= recipe[0] <= 8:
                continue
            with self.subTest(name):
                tried += 1
                answers = [self.answer(bytes([count]) + recipe[1:]) for count in range(1, recipe[0] + 1)]
                stage = next((k for k, number in enumerate(answers, 1) if number not in (0, 12)), None)
                with self.assertRaises(hejslopi.Refusal) as raised:
                    hejslopi.read_recipe(recipe)
                self.assertTrue(raised.exception.where.startswith("stage %d" % stage if stage else "its last stage"), raised.exception.where)
        self.assertGreater(tried, 40)

    @staticmethod
    def answer(recipe):
        try:
            hejslopi.read_recipe(recipe)
        except hejslopi.Refusal as refusal:
            return refusal.number
        return 0

    def test_stills(self):
        for still, where in ((b"P2\n", "it begins with 'P2'"), (b"P", "it begins with 'P'"), (b"", "it has no bytes"), (b"P5 0 7 255 ", "found 0 by 7"), (b"P5 1 1 65535 aa", "found 65535"),
                             (b"P6\n#c\n1 2\n255\nabc", "found 3, needed for 1 by 2: 6"), (b"P5\n1 1\n255\nab", "found 2, needed for 1 by 1: 1"), (b"P5", ""),
                             # Only LF ends a comment.
                             (b"P5#a\r9 9 9 \n3 1\n255\nab", "found 2, needed for 3 by 1: 3"), (b"P5#a\r0 0 255 \n8193 1\n255\nab", "found 8193 by 1")):
            with self.subTest(still), self.assertRaises(hejslopi.Refusal) as raised:
                hejslopi.read_still(still)
            self.assertEqual(raised.exception.where, where)

    def test_meaning(self):
        with self.assertRaisesRegex(hejslopi.Refusal, "refused with 18: a rank's position"):
            hejslopi.read_recipe(bytes.fromhex("01 05 01 00 00 00 00 02"))


if __name__ == "__main__":
    unittest.main()
