#!/usr/bin/env python3
"""peers.py [FILE]: times OpenCV and SciPy on the work of rust/examples/benchmark.rs, where they are installed, OpenCV on counting movement, and NumPy on the
mean of a background.

It writes a line for each: work, size, peer, nanoseconds a sample (best of several runs, one thread, buffers warm), and `=` where
all the peer's samples are those of document 01 on this picture, `~` where some differ, with tabs between. On standard error it says
how many differ and by how much. The same arithmetic, whatever the picture: boxes (an odd area never gives a half), ranks and outlines.
Only a similar one: stages of weights, for neither peer rounds weights to 65,536ths and row values to 64ths. Binomials of 3x3 and
5x5 lose nothing by either, so their samples agree. SciPy is handed binary64 and its result is rounded here. A chain has both.
Ranks have more rows, by window, position and picture (`rank 7x7 p 25 noise`): measured for a shorter while, with SciPy at the small size alone, and compared in all
their samples too.

    python3 python/peers.py FILE && cd rust && cargo run --release --example benchmark -- FILE
"""
import functools
import itertools
import math
import sys
import time

import numpy

try:
    import cv2

    cv2.setNumThreads(1)
except ImportError:
    cv2 = None
try:
    from scipy import ndimage
except ImportError:
    ndimage = None

SIZES = [(96, 72), (1024, 768)]

# Boxes have one more: a frame whose running sums would fit no cache, were they all held.
LARGE = (4096, 4096)

# How many stills a background has.
KEPT = 100

# The limit of movement, in grey levels.
LIMIT = 8

# How many seconds a cell is measured, where its runs are not too long for that; the second for the many rows of ranks.
LONG, SHORT = 0.5, 0.15

# Pictures. The benchmark makes the same samples, in whole numbers like these.


def picture(w, h):
    """The usual picture."""
    x = (numpy.arange(w * h, dtype=numpy.uint64) * 2654435761 & 0xFFFFFFFF).astype(numpy.uint64)
    x = (x ^ x >> 15) * 2246822519 & 0xFFFFFFFF
    return (x >> 24).astype(numpy.uint8).reshape(h, w)


def random(w, h):
    """The numbers of splitmix64 that begins with 0, one for each place."""
    z = numpy.arange(1, w * h + 1, dtype=numpy.uint64) * 0x9E3779B97F4A7C15
    z = (z ^ z >> 30) * 0xBF58476D1CE4E5B9
    z = (z ^ z >> 27) * 0x94D049BB133111EB
    return (z ^ z >> 31).reshape(h, w)


def noise(w, h):
    """Every sample at random."""
    return (random(w, h) >> 56).astype(numpy.uint8)


# Ellipses that lie on the bed: the middle of each across and down, its radii, and how much lighter it is. Lengths are in 4,096ths of the frame.
OBJECTS = [
    (1500, 2300, 900, 500, 55),
    (2900, 1300, 350, 600, -50),
    (2048, 3600, 1900, 90, 40),
    (700, 700, 160, 160, -35),
    (3300, 3000, 240, 200, 70),
]


def bed(w, h):
    """Like a still of a bed: lighter in the middle than in the corners, with a few objects' edges, and a sensor's noise of at most three levels."""
    u = numpy.arange(w, dtype=numpy.int64) * 4096 // w
    v = numpy.arange(h, dtype=numpy.int64)[:, None] * 4096 // h
    level = 150 - ((u - 2048) ** 2 + (v - 2048) ** 2) // 131072
    for x, y, r, s, lighter in OBJECTS:
        level += lighter * (((u - x) * s) ** 2 + ((v - y) * r) ** 2 <= (r * s) ** 2)
    bits = (random(w, h) >> 60).astype(numpy.int64)
    return (level + (bits >> 2) + (bits & 3) - 3).astype(numpy.uint8)


# How each picture is called, how it is made, and the checksum of it in all sizes, which the benchmark has too.
PICTURES = [("usual", picture, 39427188518567), ("noise", noise, 39434502244458), ("bed", bed, 42140440107691)]


def checksum(make):
    """Of a picture in all sizes: every sample times its place from 1, added up."""
    return sum(int((numpy.arange(1, w * h + 1) * make(w, h).reshape(-1)).sum()) for w, h in SIZES)


# Taps of one axis as (numerators, denominator), at offsets that are symmetric about 0. Both axes have the same.


def binomial(r):
    return [math.comb(2 * r, k) for k in range(2 * r + 1)], 4 ** r


RATIOS_31 = [16 - abs(i) for i in range(-15, 16)], 256
SHARPER = [-1, 6, -1], 4
QUARTERS = [1, 2, 1], 4

# The kernels of an outline, each by its rows, the top row first.
KERNELS = [
    [[-1, 0, 1], [-1, 0, 1], [-1, 0, 1]],
    [[-1, -1, -1], [0, 0, 0], [1, 1, 1]],
    [[0, 1, 1], [-1, 0, 1], [-1, -1, 0]],
    [[-1, -1, 0], [-1, 0, 1], [0, 1, 1]],
]


def area(r):
    """How many samples a square window has."""
    return (2 * r + 1) ** 2


def middle(r):
    """The position of the median."""
    return area(r) // 2 + 1


def median(r):
    return "rank", (r, middle(r))


# A stage: ("weights", taps), ("box", radius), ("rank", (radius, position)), ("outline", kernels)
EIGHT = [
    ("weights", binomial(1)),
    ("box", 1),
    median(1),
    ("weights", SHARPER),
    ("weights", QUARTERS),
    ("weights", binomial(2)),
    ("box", 7),
    median(3),
]
WORK = [
    ("binomial 3x3", [("weights", binomial(1))]),
    ("binomial 5x5", [("weights", binomial(2))]),
    ("binomial 31x31", [("weights", binomial(15))]),
    ("ratios 31x31", [("weights", RATIOS_31)]),
    ("box 3x3", [("box", 1)]),
    ("box 15x15", [("box", 7)]),
    ("box 31x31", [("box", 15)]),
    ("rank 3x3", [median(1)]),
    ("rank 7x7", [median(3)]),
    ("rank 15x15", [median(7)]),
    ("rank 31x31", [median(15)]),
    ("outline", [("outline", KERNELS)]),
    ("eight stages", EIGHT),
]

# The windows of the table of ranks, by their radius across and down.
RADII = [1, 3, 7, 15]


def units(taps):
    """Document 01's weights in 65,536ths."""
    a, d = taps
    q = [65536 * x // d for x in a]
    lacking = (2 * 65536 * sum(a) + d) // (2 * d) - sum(q)
    order = sorted(range(len(a)), key=lambda k: (-(65536 * a[k] % d), k))
    for k in order[:lacking]:
        q[k] += 1
    return q


def unknown(kind):
    sys.exit("benchmark: %r is no kind of stage that is compared" % kind)


def strongest(sums):
    """The largest magnitude among some sums at each place, at most 255."""
    return functools.reduce(numpy.maximum, map(numpy.abs, sums)).clip(0, 255).astype(numpy.uint8)


def ranked(x, r, positions):
    """Document 01's ranks at some positions, with the nearest border: a plane for each. The sample at position p is the number of levels up to which the
    window has fewer than p samples. Level by level these are counted, for all positions at once, and no window takes longer than another."""
    side = 2 * r + 1
    padded = numpy.pad(x, ((r + 1, r), (r + 1, r)), mode="edge")
    planes = [numpy.zeros(x.shape, numpy.uint8) for _ in positions]
    for level in range(255):
        # the sums may wrap around: their differences are at most 961
        down = numpy.cumsum(padded <= level, axis=0, dtype=numpy.uint16)
        across = numpy.cumsum(down[side:] - down[:-side], axis=1, dtype=numpy.uint16)
        count = across[:, side:] - across[:, :-side]
        for plane, p in zip(planes, positions):
            plane += count < p
    return planes


def document_01(stage, x):
    """A stage as document 01 has it, with the nearest border, in whole numbers."""
    kind, what = stage
    if kind == "rank":
        return ranked(x, what[0], [what[1]])[0]
    h, w = x.shape
    r = len(what[0]) // 2 if kind in ("weights", "outline") else what
    padded = numpy.pad(x.astype(numpy.int64), r, mode="edge")
    side = 2 * r + 1
    if kind == "weights":
        q = units(what)
        rows = sum(q[i] * padded[:, i:i + w] for i in range(side)) + 512 >> 10
        level = sum(q[j] * rows[j:j + h] for j in range(side)) + (1 << 21) >> 22
        return level.clip(0, 255).astype(numpy.uint8)
    if kind == "box":
        table = numpy.pad(padded.cumsum(0).cumsum(1), ((1, 0), (1, 0)))
        total = table[side:, side:] - table[:-side, side:] - table[side:, :-side] + table[:-side, :-side]
        return ((2 * total + side * side) // (2 * side * side)).astype(numpy.uint8)
    if kind == "outline":
        return strongest(sum(kernel[j][i] * padded[j:j + h, i:i + w] for j in range(side) for i in range(side)) for kernel in what)
    unknown(kind)


def rank_by_opencv(r, p):
    """medianBlur for the median; erode for the first position and dilate for the last, with all of a square. medianBlur's border is always the nearest;
    erode and dilate leave out what lies outside unless they are told of a border."""
    side = 2 * r + 1
    if p == middle(r):
        return lambda x: cv2.medianBlur(x, side)
    run = {1: cv2.erode, area(r): cv2.dilate}.get(p) or unknown("rank at %d" % p)
    square = numpy.ones((side, side), numpy.uint8)
    return lambda x: run(x, square, borderType=cv2.BORDER_REPLICATE)


def by_opencv(stage):
    kind, what = stage
    edge = cv2.BORDER_REPLICATE
    if kind == "box":
        side = (2 * what + 1, 2 * what + 1)
        return lambda x: cv2.blur(x, side, borderType=edge)
    if kind == "rank":
        return rank_by_opencv(*what)
    if kind == "outline":
        kernels = [numpy.array(kernel, numpy.float32) for kernel in what]
        # Magnitude and saturation are one pass of OpenCV's. No order is lost by it, so the maximum may come last, and is of bytes.
        return lambda x: functools.reduce(cv2.max, [cv2.convertScaleAbs(cv2.filter2D(x, cv2.CV_16S, kernel, borderType=edge)) for kernel in kernels])
    if kind != "weights":
        unknown(kind)
    if what in (binomial(1), binomial(2)):
        side = (len(what[0]), len(what[0]))
        return lambda x: cv2.GaussianBlur(x, side, 0, borderType=edge)
    taps = numpy.array(what[0], numpy.float32) / numpy.float32(what[1])
    return lambda x: cv2.sepFilter2D(x, -1, taps, taps, borderType=edge)


def rank_by_scipy(r, p):
    """The fastest that SciPy has: the filters of the smallest and the largest go along each axis by itself, rank_filter looks at whole windows."""
    run = {1: ndimage.minimum_filter, middle(r): ndimage.median_filter, area(r): ndimage.maximum_filter}.get(p) or unknown("rank at %d" % p)
    return lambda x: run(x, 2 * r + 1, mode="nearest")


def by_scipy(stage):
    kind, what = stage
    if kind == "box":
        side = 2 * what + 1

        def box(x):
            mean = ndimage.uniform_filter(x.astype(numpy.float64), side, mode="nearest")
            return numpy.floor(mean + 0.5).astype(numpy.uint8)

        return box
    if kind == "rank":
        return rank_by_scipy(*what)
    if kind == "outline":
        return lambda x: strongest(ndimage.correlate(x, kernel, output=numpy.int16, mode="nearest") for kernel in what)
    if kind != "weights":
        unknown(kind)
    taps = numpy.array(what[0], numpy.float64) / what[1]

    def weights(x):
        rows = ndimage.correlate1d(x.astype(numpy.float64), taps, axis=1, mode="nearest")
        level = ndimage.correlate1d(rows, taps, axis=0, mode="nearest")
        return numpy.floor(level + 0.5).clip(0, 255).astype(numpy.uint8)

    return weights


def mean_in_whole_numbers(stills):
    """The mean of stills as document 02 has it: halves go up."""
    k = len(stills)
    return ((2 * stills.sum(axis=0, dtype=numpy.int64) + k) // (2 * k)).astype(numpy.uint8)


def mean_by_numpy(stills):
    """In binary64, where the sums of so few samples and their halves are exact."""
    return numpy.floor(stills.mean(axis=0) + 0.5).astype(numpy.uint8)


# The two edges of movement, in whole levels: beyond the first a sample has moved, and up to the second it is still. T is documents 01 and 02's, of both stills alike.
TOLERANCES = {"binomial 3x3": 33280, "outline": 0}


def edges(work):
    both = 2 * TOLERANCES[work]
    return (65536 * LIMIT + both) // 65536, (65536 * LIMIT - both) // 65536


def movement_in_whole_numbers(work, first, second):
    """How many samples have moved and how many are still, as document 02 has it."""
    units, both = 65536 * numpy.abs(first.astype(numpy.int64) - second), 2 * TOLERANCES[work]
    return numpy.array([[(units > 65536 * LIMIT + both).sum(), (units + both <= 65536 * LIMIT).sum()]])


def movement_by_opencv(work):
    """The samples beyond each edge are counted in the differences as bytes."""
    moved, still = edges(work)

    def count(stills):
        apart = cv2.absdiff(*stills)
        beyond = [cv2.countNonZero(cv2.compare(apart, edge, cv2.CMP_GT)) for edge in (moved, still)]
        return numpy.array([[beyond[0], apart.size - beyond[1]]])

    return count


def chain(stages):
    def run(x):
        for stage in stages:
            x = stage(x)
        return x

    return run


def best(run, seconds):
    """The best time of one run in nanoseconds, of at least three and for about so many seconds."""
    result, start, runs = math.inf, time.perf_counter(), 0
    while runs < 3 or (time.perf_counter() - start < seconds and runs < 10000):
        before = time.perf_counter_ns()
        run()
        result = min(result, time.perf_counter_ns() - before)
        runs += 1
        if time.perf_counter() - start > 10:
            break
    return result


PEERS = [(name, make) for name, there, make in (("opencv", cv2, by_opencv), ("scipy", ndimage, by_scipy)) if there]


def tell(out, work, peer, run, given, wanted, seconds=LONG, samples=lambda y: y, stills=1, size=None):
    """Times a peer's run, whose answer has some samples, and compares all of these with what is wanted. A size is that of the stills, where the answer has another."""
    w, h = size or wanted.shape[::-1]
    apart = numpy.abs(samples(run(given)).astype(int) - wanted.astype(int))
    sign = "~" if apart.any() else "="
    nanoseconds = best(lambda: run(given), seconds) / (w * h * stills)
    print("%s\t%dx%d\t%s\t%.2f\t%s" % (work, w, h, peer, nanoseconds, sign), file=out, flush=True)
    print("%s %dx%d %s: %d numbers differ, by at most %d" % (work, w, h, peer, (apart > 0).sum(), apart.max()), file=sys.stderr)


def tell_stages(out):
    for work, stages in WORK:
        for w, h in SIZES + [LARGE] * work.startswith("box"):
            x = picture(w, h)
            wanted = chain([lambda x, s=s: document_01(s, x) for s in stages])(x)
            for peer, make in PEERS:
                tell(out, work, peer, chain([make(s) for s in stages]), x, wanted)


def tell_ranks(out):
    """At the large size without SciPy, whose median takes over 10 microseconds a sample with the largest window."""
    for r, (name, make, _), (w, h) in itertools.product(RADII, PICTURES, SIZES):
        x = make(w, h)
        positions = [1, middle(r), area(r)]
        for p, wanted in zip(positions, ranked(x, r, positions)):
            work = "rank %dx%d p %d %s" % (2 * r + 1, 2 * r + 1, p, name)
            for peer, by in PEERS:
                if peer != "scipy" or (w, h) == SIZES[0]:
                    tell(out, work, peer, by(("rank", (r, p))), x, wanted, SHORT)


def tell_files(out):
    filtered = by_opencv(("weights", binomial(1)))

    def file(data):
        y = filtered(cv2.imdecode(numpy.frombuffer(data, numpy.uint8), cv2.IMREAD_GRAYSCALE))
        return cv2.imencode(".pgm", y)[1]

    for w, h in SIZES:
        x = picture(w, h)
        still = b"P5\n%d %d\n255\n" % (w, h) + x.tobytes()
        wanted = document_01(("weights", binomial(1)), x)
        tell(out, "file, bin. 3x3", "opencv", file, still, wanted, samples=lambda data: data.reshape(-1)[-wanted.size:].reshape(wanted.shape))


def tell_movement(out):
    """A bed and the same two columns further, filtered as document 01 has it."""
    for (work, stages), (w, h) in itertools.product(WORK, SIZES):
        if work in TOLERANCES:
            beds = bed(w, h), numpy.roll(bed(w, h).reshape(-1), -2).reshape(h, w)
            planes = [document_01(stages[0], x) for x in beds]
            tell(out, "movement " + work, "opencv", movement_by_opencv(work), planes, movement_in_whole_numbers(work, *planes), size=(w, h))


def tell_background(out):
    w, h = SIZES[0]
    stills = picture(w, KEPT * h).reshape(KEPT, h, w)
    tell(out, "background mean", "numpy", mean_by_numpy, stills, mean_in_whole_numbers(stills), stills=KEPT)


def main():
    for name, make, wanted in PICTURES:
        if checksum(make) != wanted:
            sys.exit("benchmark: %s: not the picture of benchmark.rs" % name)
    out = open(sys.argv[1], "w") if len(sys.argv) > 1 else sys.stdout
    tell_stages(out)
    tell_ranks(out)
    if cv2:
        tell_files(out)
        tell_movement(out)
    tell_background(out)


main()
