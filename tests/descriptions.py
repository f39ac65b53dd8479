"""Wrong descriptions, and what the one line about each has to say: the place, what was found, what is allowed. Right ones are tried in python/test_hejslopi.py."""

BOX = '{"kind": "box", "across": 1, "down": 1%s}'
RANK = '[{"kind": "rank", "across": 1, "down": 1%s}]'
OUTLINE = '[{"kind": "outline"%s}]'
RATIOS = '[{"kind": "ratios", "across": %s, "down": {"over": 1, "taps": {"here": 1}}}]'
TAPS = RATIOS % '{"over": 1, "taps": %s}'
REALS = '[{"kind": "reals", "across": %s, "down": {"0": 1}}]'


def boxes(*rest):
    """A description of boxes, each with something more behind its radii."""
    return "[%s]" % ", ".join(BOX % words for words in rest)


RADIUS = "a whole number from 0 to 15"
KINDS = "ratios, reals, binomial, box, rank, outline"
BORDERS = 'nearest, mirror, wrap, or {"constant": VALUE}'
ACROSS, DOWN = "left, here, right, or an offset from -15 to 15", "up, here, down, or an offset from -15 to 15"
REAL = "0, or 2^-12 to 4 in size"

# A description, as text or as bytes, and words of the line about it.
WRONG = (
    # no JSON
    ("", ("line 1, column 1", "the end", "JSON")),
    ("{", ("line 1, column 2", "the end")),
    ("[{'kind': 'box'}]", ("line 1, column 3", "double quotes")),
    ("[\n%s,\n]" % BOX % "", ("line 3, column 1", '"]"')),
    (boxes("") + " x", ("found \"x\"", "extra data")),
    ("\ufeff" + boxes(""), ("byte order mark",)),
    (boxes("").encode("utf-16"), ("byte order mark",)),
    (b"[\x80]", ("byte 2", "80", "UTF-8")),
    (b"\0", ("line 1, column 1", "\\u0000")),
    ("[" * 100000, ("brackets",)),
    # no list of stages
    ("[]", ("0 stages", "1 to 8")),
    (boxes(*[""] * 9), ("9 stages", "1 to 8")),
    (BOX % "", ("found an object", "a list of 1 to 8 stages")),
    ("null", ("found null", "a list of 1 to 8 stages")),
    ("[1]", ("stage 1", "found 1", "an object")),
    ("[%s, []]" % BOX % "", ("stage 2", "found a list", "an object")),
    ("[{}]", ("stage 1", 'no key "kind"')),
    # keys
    ('[{"kind": "binomail", "across": 1, "down": 1}]', ("stage 1, kind", '"binomail"', KINDS, "is it binomial?")),
    ('[{"kind": 3, "across": 1, "down": 1}]', ("stage 1, kind", "found 3", KINDS)),
    ('[{"kind": "a\\nb", "across": 1, "down": 1}]', ("stage 1, kind", '"a\\nb"', KINDS)),
    ('[{"kind": "box", "down": 1}]', ("stage 1", 'no key "across"')),
    ('[%s, {"kind": "box", "across": 1}]' % BOX % "", ("stage 2", 'no key "down"')),
    (boxes(', "boarder": "wrap"'), ("stage 1", 'the key "boarder"', "is it border?")),
    (boxes("", ', "position": 1'), ("stage 2", 'the key "position"', "kind, across, down, border")),
    (boxes(', "down": 2'), ("stage 1", 'the key "down" twice', "each key once")),
    (boxes(', "border": "wrap", "border": "wrap"'), ("stage 1", 'the key "border" twice')),
    # radii
    ('[{"kind": "box", "across": "1", "down": 1}]', ("stage 1, across", 'found "1"', RADIUS)),
    ('[{"kind": "box", "across": 300, "down": 1}]', ("stage 1, across", "found 300", RADIUS)),
    ('[{"kind": "box", "across": 1, "down": 16}]', ("stage 1, down", "found 16", RADIUS)),
    ('[{"kind": "box", "across": -1, "down": 1}]', ("stage 1, across", "found -1", RADIUS)),
    ('[{"kind": "box", "across": 1.0, "down": 1}]', ("stage 1, across", "found 1.0", RADIUS)),
    ('[{"kind": "box", "across": true, "down": 1}]', ("stage 1, across", "found true", RADIUS)),
    ('[{"kind": "box", "across": null, "down": 1}]', ("stage 1, across", "found null", RADIUS)),
    ('[{"kind": "box", "across": {"left": 1}, "down": 1}]', ("stage 1, across", "found an object", RADIUS)),
    ('[{"kind": "box", "across": %s, "down": 1}]' % ("9" * 100), ("stage 1, across", RADIUS)),
    ('[{"kind": "box", "across": %s, "down": 1}]' % ("9" * 5000), ("5000 characters",)),
    # borders
    (boxes(', "border": "constant"'), ("stage 1, border", 'found "constant"', BORDERS)),
    (boxes(', "border": "miror"'), ("stage 1, border", '"miror"', BORDERS, "is it mirror?")),
    (boxes(', "border": 1'), ("stage 1, border", "found 1", BORDERS)),
    (boxes(', "border": {"constant": 256}'), ("stage 1, border, constant", "found 256", "from 0 to 255")),
    (boxes(', "border": {"constant": true}'), ("stage 1, border, constant", "found true")),
    (boxes(', "border": {"nearest": 0}'), ("stage 1, border", 'the key "nearest"', "constant")),
    (boxes(', "border": {"constant": 1, "constant": 2}'), ("stage 1, border", "twice")),
    (boxes(', "border": {}'), ("stage 1, border", 'no key "constant"')),
    # ranks
    (RANK % "", ("stage 1", 'no key "position"')),
    (RANK % ', "position": 0', ("stage 1, position", "found 0", "from 1 to 9")),
    (RANK % ', "position": 10', ("stage 1, position", "found 10", "from 1 to 9")),
    (RANK % ', "position": "middle"', ("stage 1, position", '"middle"', "median, smallest, largest")),
    # outlines
    (OUTLINE % ', "across": 1, "down": 1', ("stage 1", 'the key "across"', "allowed: kind, border")),
    ('[%s, {"kind": "outline", "down": 1}]' % BOX % "", ("stage 2", 'the key "down"', "allowed: kind, border")),
    (OUTLINE % ', "position": "largest"', ("stage 1", 'the key "position"', "allowed: kind, border")),
    (OUTLINE % ', "boarder": "wrap"', ("stage 1", 'the key "boarder"', "is it border?")),
    (OUTLINE % ', "border": "constant"', ("stage 1, border", 'found "constant"', BORDERS)),
    (OUTLINE % ', "border": {"constant": 256}', ("stage 1, border, constant", "found 256", "from 0 to 255")),
    ('[{"kind": "outlines"}]', ("stage 1, kind", '"outlines"', KINDS, "is it outline?")),
    # ratios
    (RATIOS % "1", ("stage 1, across", "found 1", "over, taps")),
    (RATIOS % '{"taps": {"here": 1}}', ("stage 1, across", 'no key "over"')),
    (RATIOS % '{"over": 1}', ("stage 1, across", 'no key "taps"')),
    (RATIOS % '{"over": 1, "taps": {"here": 1}, "ofer": 2}', ("stage 1, across", 'the key "ofer"', "is it over?")),
    (RATIOS % '{"over": 0, "taps": {"here": 1}}', ("stage 1, across, over", "found 0", "from 1 to 65,535")),
    (RATIOS % '{"over": 65536, "taps": {"here": 1}}', ("stage 1, across, over", "found 65536")),
    (TAPS % "{}", ("stage 1, across, taps", "0 taps", "1 to 31")),
    (TAPS % "[1, 2, 1]", ("stage 1, across, taps", "found a list")),
    (TAPS % '{"up": 1}', ("stage 1, across, taps", '"up"', ACROSS)),
    (TAPS % '{"down": 1}', ("stage 1, across, taps", '"down"', ACROSS)),
    (TAPS % '{"16": 1}', ("stage 1, across, taps", '"16"', ACROSS)),
    (TAPS % '{"1.5": 1}', ("stage 1, across, taps", '"1.5"', ACROSS)),
    (TAPS % '{"left": 1, "-1": 1}', ("stage 1, across, taps", "offset -1 twice")),
    (TAPS % '{"here": 1, "here": 2}', ("stage 1, across, taps", '"here" twice')),
    (TAPS % '{"here": 40000}', ('stage 1, across, taps, tap "here"', "found 40000", "from -32,768 to 32,767")),
    (TAPS % '{"here": 0.5}', ('stage 1, across, taps, tap "here"', "found 0.5", "a whole number")),
    (TAPS % '{"here": 5}', ("refused with 17", "stage 1, across", "a gain of 5", "at most 4")),
    # reals
    (REALS % "{}", ("stage 1, across", "0 taps", "1 to 31")),
    (REALS % '{"x": 1}', ("stage 1, across", '"x"', ACROSS)),
    ('[{"kind": "reals", "across": {"0": 1}, "down": {"left": 1}}]', ("stage 1, down", '"left"', DOWN)),
    (REALS % '{"here": "0.5"}', ('stage 1, across, tap "here"', 'found "0.5"', REAL)),
    (REALS % '{"here": true}', ('stage 1, across, tap "here"', "found true", REAL)),
    (REALS % '{"here": 1e400}', ('stage 1, across, tap "here"', "1E+400", REAL)),
    (REALS % '{"here": 1e-400}', ('stage 1, across, tap "here"', "1E-400", REAL)),
    (REALS % '{"here": 1e999999999999}', ('stage 1, across, tap "here"', REAL)),
    (REALS % '{"here": -1e99999999999999999999}', ("1e99999999999999999999", "a number that can be held")),
    (REALS % '{"here": 4.5}', ('stage 1, across, tap "here"', "found 4.5", REAL)),
    (REALS % '{"here": 4.0000003}', ('stage 1, across, tap "here"', "found 4.0000003", REAL)),
    (REALS % '{"here": 0.0002}', ('stage 1, across, tap "here"', "found 0.0002", REAL)),
    (REALS % '{"here": NaN}', ('stage 1, across, tap "here"', "found NaN", REAL)),
    (REALS % '{"here": -Infinity}', ('stage 1, across, tap "here"', "found -Infinity", REAL)),
    ('[{"kind": "box", "across": NaN, "down": 1}]', ("stage 1, across", "found NaN", RADIUS)),
    (REALS % ("{%s}" % ", ".join('"k%d": 1' % k for k in range(50000))), ("stage 1, across", "50000 taps", "1 to 31")),
    (REALS % '{"here": 3, "1": 3}', ("refused with 17", "stage 1, across", "a gain of 6")),
)
