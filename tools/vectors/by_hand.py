"""Requests made by hand: document 01's numbers, every limit with its neighbour, every kind of malformed line. A section
is a function that gives lines; SECTIONS is their order. The recorded file has nothing but requests, so that what a line
is for stands here."""
import math
from vectors.lines import (BELOW_HALF, CODED, FLAGS_AT, FLAT, LEAST, SLICE, USUAL, bits, costs, inverse, least, put,
                           quantise, replaced, scaleback, subblock, transform)

NAN = "7ff8000000000000"
# one residual block of each component, none of which vanishes at QP 4
PICTURE = [100, -80, 60, -40, 90, -70, 50, -30, 20, 10, 0, -10, 5, -5, 3, -3] + [60, 20, -30, 5] + [-50, 40, 10, -5]
# no two entries equal: a mixed-up context shows in the price
MIXED = [20011 + 3001 * i + 17 * i * i for i in range(28)]
LARGEST = [1048576] * 28
PAST = costs(cbf_3_1=1048577)


def only(k, value, others):
    """Three settings, `value` for component k."""
    return tuple(value if i == k else others for i in range(3))


# ---- document 01's numbers

def the_papers_numbers():
    """P1 to P12."""
    yield transform([1, 2, 3, 4])
    yield from (transform([r] * 1024, 5, 5) for r in (1023, -1023))
    yield from (transform(put(16, {0: r}), 2, 2) for r in (4, -4))
    yield quantise([20, 7, 0, 0])
    yield quantise([-24, 0, 0, 0])
    yield quantise([16, 8, 0, 0], d=0.0)
    yield quantise([10, 0, 0, 0], d=1 / 64)
    yield from (quantise([c, 0, 0, 0]) for c in (9, 10))
    yield from (quantise([c, 0, 0, 0], flags=CODED) for c in (11, 12))
    yield from (quantise(put(1024, {0: c}), 5, qp=3) for c in (29183, 29184))
    yield from (quantise(put(1024, {0: c}), 5, d=8192.0) for c in (8191, 8192))
    yield from (quantise([16384] * n + [0] * (1024 - n), 5, d=0.0) for n in (64, 65))


# how the answers to these begin, by document 01's own words
STATED = [
    b"accepted : 80 -16 -32 0", b"accepted : 32736 0 0", b"accepted : -32736 0 0",
    b"accepted : 8 11 8 4 11 14 11 6 8 11 8 4 4 6 4 2",
    b"accepted : -8 -10 -8 -4 -10 -14 -10 -6 -8 -10 -8 -4 -4 -6 -4 -2", b"accepted 1 22282240 : 1 0 0 0",
    b"accepted 1 22020096 : -1 0 0 0",
    b"accepted 1 16777216 : 1 0 0 0", b"accepted 0 42991616 : 0 0 0 0", b"accepted 0 22282240 : 0 0 0 0",
    b"accepted 1 ", b"accepted 0 32768000 : 0 0 0 0",
    b"accepted 1 ", b"accepted ", b"refused 7 0 :", b"accepted ", b"refused 8 0 :", b"accepted ", b"refused 9 0 :",
]


def run_only():
    """Numbers that the paper asks to be run. Whether lambda is 0 or 1 shows in the price. The f64 before the largest
    below 1/2 is still lambda 0."""
    for x in (0.0, math.nextafter(BELOW_HALF, 0), BELOW_HALF, 0.5 / 32768, 1 / 32768):
        yield quantise([18, 9, 0, 0], qp=5, d=x)
    for r in (1023, 1024, -1023, -1024):
        yield transform([r, 0, 0, 0])
        yield transform([0, 0, 0, r])
    for at in range(28):
        for e in (1048576, 1048577):
            table = FLAT[:at] + [e] + FLAT[at + 1:]
            yield quantise([20, 7, 0, 0], component=at % 3, costs=table)
            yield subblock(PICTURE, run=at % 8, costs=table)
    for k in range(3):
        for qp in (63, 64):
            yield quantise([30000, 20000, 0, -25000], component=k, qp=qp)
            yield subblock([r * 10 for r in PICTURE], qp=only(k, qp, 4))


def exact_halves():
    """From side 8 on a row of the matrix begins 89 75. Two odd residuals, in column 0 of rows 0 and 1, for which that
    adds up to half a unit: with every odd entry of column 0 the coefficient lies between two. Halves go upward, and
    nothing may be lost on the way."""
    for lw, lh in ((5, 5), (4, 5), (5, 4), (1, 5), (5, 3), (3, 3), (4, 4)):
        half = 1 << (6 + lw + lh)
        pairs = [(a, (half - 89 * a) // 75) for a in range(-1023, 1024, 2) if (half - 89 * a) % 75 == 0]
        for a, b in [pair for pair in pairs if abs(pair[1]) <= 1023][:2]:
            for sign in (1, -1):
                yield transform(put(1 << (lw + lh), {0: sign * a, 1 << lw: sign * b}), lw, lh)


# ---- the limits of the nine refusals

def sides():
    """Sides whose low 32 bits, or whose sum, would pass are refused with the rest."""
    for log2 in (0, 1, 2, 5, 6, 63, 64, 2 ** 32 + 1, 2 ** 32 + 2, 2 ** 63, 2 ** 64 - 1):
        n = 1 << 2 * log2 if log2 <= 6 else 16
        yield transform([7, -9] * 64, log2, 1)
        yield transform([7, -9] * 64, 1, log2)
        yield transform([7, -9] * 8, log2, log2)
        yield quantise(put(max(n, 16), {0: 50, 3: -40, 5: 300}), log2, component=2)
        yield subblock(put(n + n // 2 + 8, {0: 99, 1: -70, 5: 300}), log2)
    yield transform([1, 2], 1, 0)
    yield transform([1, 2, 3, 4], 2 ** 64 - 1, 3)
    yield quantise([50])
    yield subblock([90, -70, 50, -30, 60, -60], 1)


def lambdas():
    """0, -0.0, the two denormals next to it, 8192 and its neighbours, infinities, NaNs quiet and signalling of both
    signs; halves of a step, where lambda is rounded up."""
    patterns = [bits(d) for d in (0.0, -0.0, 5e-324, -5e-324, -1.0, -8192.0, 1.0, math.nextafter(8192, 0), 8192.0,
                                  math.nextafter(8192, 9000), 8193.0, 1e300, -1e300)]
    patterns += ["7ff0000000000000", "fff0000000000000", "7fefffffffffffff", "ffefffffffffffff", "0010000000000000",
                 "8010000000000000"]
    patterns += [NAN, "fff8000000000000", "7ff0000000000001", "fff0000000000001", "7ff4000000000000",
                 "7fffffffffffffff", "ffffffffffffffff", "7ffc0ffee0ddf00d"]
    for k, pattern in enumerate(patterns):
        yield quantise([20, 7, 0, 0], d=pattern, component=k % 3)
        yield quantise([2, 1, 0, 0], d=pattern, component=2)
        for j in range(3):
            yield subblock(PICTURE, d=only(j, pattern, USUAL))
    for steps in (0.25, 0.5, 0.75, 1.25, 1.5, 2.5, 3.5, math.nextafter(2.5, 0), math.nextafter(2.5, 3), 100.5, 101.5,
                  2 ** 27 + 0.5):
        yield quantise([200, -70, 33, 9], d=steps / 32768, costs=MIXED)
    for k in range(29):
        for steps in (math.nextafter(2 ** k - 0.5, 0), 2 ** k - 0.5, math.nextafter(2 ** k, 0), 2.0 ** k):
            yield quantise([200, -70, 33, 9], d=steps / 32768, costs=MIXED, component=k % 3)


def qps():
    """One past, and numbers whose low 8 bits would pass."""
    for qp in (62, 63, 64, 68, 255, 256, 260, 2 ** 31, 2 ** 32 - 1):
        for k in range(3):
            yield quantise([30000, 20000, 0, -25000], component=k, qp=qp)
            yield subblock([r * 10 for r in PICTURE], qp=only(k, qp, 30))


def cost_entries():
    """Entries whose low 32 bits would pass, and what a host's negative entries become. They are refused also when
    nothing runs, or nothing that reads them."""
    for at in range(28):
        for k, e in enumerate((2 ** 32, 2 ** 32 + 32768, 2 ** 63, 2 ** 64 - 1)):
            table = FLAT[:at] + [e] + FLAT[at + 1:]
            yield quantise([20, 7, 0, 0], component=(at + k) % 3,
                           costs=table) if k % 2 else subblock(PICTURE, run=(at + k) % 8, costs=table)
        for run in (0, 1, 2, 4):
            yield subblock(PICTURE, run=run, costs=FLAT[:at] + [1048577] + FLAT[at + 1:])
        for k in range(3):
            yield quantise([9, 0, 0, 0], component=k, costs=FLAT[:at] + [1048577] + FLAT[at + 1:])
    yield quantise([20, 7, 0, 0], costs=[0] * 28)
    yield quantise([20, 7, 0, 0], costs=LARGEST)
    yield subblock(PICTURE, costs=[0] * 28)
    yield subblock(PICTURE, costs=LARGEST)


def lengths():
    """Empty, one short, exact, longer: the surplus is neither tested nor changed, whatever is in it."""
    wild = [-32768, 32767, 1024, -1024, 7, 0]
    for lw, lh in ((1, 1), (2, 1), (1, 2), (2, 2), (3, 1), (1, 5), (5, 1)):
        n = 1 << (lw + lh)
        block = [(37 * i * i + 11 * i) % 401 - 200 for i in range(n)]
        for buffer in ([], block[:1], block[:n - 1], block, block + [1024], block + [-32768], block + wild):
            yield transform(buffer, lw, lh)
    for log2 in (1, 2):
        n = 1 << 2 * log2
        block = [(53 * i * i + 29 * i) % 301 - 150 for i in range(n)]
        for k, buffer in enumerate(([], block[:1], block[:n - 1], block, block + [-32768], block + wild)):
            yield quantise(buffer, log2, component=k % 3)
            yield quantise(buffer[:n] and [c // 100 for c in buffer[:n]] + buffer[n:], log2, component=k % 3)
    for buffer in ([], PICTURE[:1], PICTURE[:16], PICTURE[:20], PICTURE[:23], PICTURE, PICTURE + [-32768],
                   PICTURE + wild):
        for run in (7, 3, 1, 2, 4, 0):
            yield subblock(buffer, run=run)


def samples():
    """At the first and the last place of a component. No block with -32768 is skipped by the definition, but one whose
    magnitude wraps is."""
    for r in (1023, 1024, -1023, -1024, 32767, -32767, -32768):
        yield transform([r, 0, 0, 0, 1, 1, 1, 1], 2, 1)
        yield transform([0, 0, 0, 0, 1, 1, 1, r], 2, 1)
        for place in (0, 15, 16, 19, 20, 23):
            yield subblock(PICTURE[:place] + [r] + PICTURE[place + 1:])
            yield subblock(PICTURE[:place] + [r] + PICTURE[place + 1:], run=5)
    for c in (-32768, -32767, 32767):
        for k in range(3):
            for qp in (0, 4, 63):
                yield quantise([c, 0, 0, 0], component=k, qp=qp)
                yield quantise([0, 0, 0, c], component=k, qp=qp, flags=CODED)
        yield quantise([0, 0, 0, 0, c], qp=63)


def levels():
    """m at 32767 and one past, with each sign, in a corner and at the end of the scan, at every QP that can reach
    it."""
    for qp, c in ((0, 20479), (1, 23039), (2, 26111), (3, 29182)):
        for more in range(3):
            yield quantise(put(1024, {0: c + more}), 5, qp=qp, component=qp % 3)
    yield quantise(put(1024, {1023: -29183}), 5, qp=3, component=1)
    yield quantise(put(1024, {1023: -29184}), 5, qp=3, component=1)
    yield quantise(put(1024, {5: 32767}), 5, qp=4, component=2)


def prices():
    """lambda × (M+1) at 2^41, at the nearest products past it, and where d's half step decides."""
    for k, (step, c) in enumerate(((2 ** 28, 8190), (2 ** 28, 8191), (2 ** 28, -8192), (2 ** 28 - 1, 8192),
                                   (2 ** 27, 16383), (2 ** 27 + 1, 16383), (2 ** 27, 16384))):
        yield quantise(put(1024, {33: c}), 5, component=k % 3, d=step / 32768)
    for steps in (2 ** 26, 2 ** 26 + 0.5 - 2 ** -27, 2 ** 26 + 0.5, 2 ** 26 + 1):
        yield quantise(put(1024, {0: 29183}), 5, qp=3, d=steps / 32768)
    step, m = nearest_past(1 << 41)
    yield quantise(put(1024, {0: m}), 5, d=step / 32768)
    yield quantise(put(1024, {0: m}), 5, d=(step - 1) / 32768)
    for k in range(3):
        yield quantise(put(64, {9: 20480}), 3, component=k, qp=0, d=8192.0)
        yield quantise(put(64, {9: 20475}), 3, component=k, qp=0, d=8192.0)


def nearest_past(limit):
    """Of all lambdas and magnitudes, the pair whose lambda × (m+1) is past the limit by the least."""
    return min(((limit // n + 1, n - 1) for n in range(8193, 32768)), key=lambda pair: pair[0] * (pair[1] + 1))


def widest_prices():
    """lambda, magnitudes and entries as large as the limits let them be together; counts of 256 and of 1,024 levels."""
    for d, qp, c in ((8192.0, 4, 8191), (2048.0, 3, 29183), (2048.0, 4, 32767), (4096.0, 10, 32767)):
        for n in (1, 2, 16):
            for table in (LARGEST, costs(1048576, run_0_0=0, level_0_0=0, level_0_1=0, level_1_0=0, level_1_1=0),
                          costs(0, run_0_1=1048576, run_1_1=1048576)):
                yield quantise([c, -c] * (n // 2) + [c] * (n % 2) + [0] * (1024 - n), 5, qp=qp, d=d, costs=table)
    for n, c, log2 in ((256, 16384, 4), (1024, 4096, 5), (1024, 4095, 5)):
        for d in (0.0, 1.0, 8192.0 if c < 8192 else 4096.0):
            yield quantise([c if i % 3 else -c for i in range(n)], log2, d=d, costs=LARGEST, component=n % 3)
    # more digits than an f64 has
    yield quantise([(i * i * 37 + 11 * i) % 16001 - 8000 for i in range(256)], 4, qp=3, d=(2 ** 27 + 1) / 32768,
                   costs=MIXED)


def distortions():
    """D at 2^60 exactly, and past it by one coefficient of 1; also where every place adds to it; past it by 2,553,385;
    and, by coefficients that are worked out for it, at 2^60 and past it by 1."""
    yield quantise([16384] * 64 + [1] + [0] * 959, 5, d=0.0, component=1)
    yield quantise([0] * 959 + [1] + [-16384] * 64, 5, d=0.0, component=2)
    yield quantise([4096] * 1024, 5, d=0.0)
    yield quantise([4096] * 1023 + [4097], 5, d=0.0)
    yield quantise([16384] * 256, 4, d=0.0)
    yield quantise([16384] * 255 + [16385], 4, d=0.0)
    yield quantise([16384] * 255 + [-16383], 4, d=0.0)
    yield quantise([32767] * 64, 3, d=0.0)
    yield quantise([8692] * 226 + [10268] + [0] * 797, 5, qp=63, d=0.0, costs=[0] * 28)
    for ones, twos, threes in ((4, 131, 1), (7, 128, 2)):
        block = [7077] * 343 + [1067] + [1] * ones + [2] * twos + [3] * threes
        yield quantise(block + [0] * (1024 - len(block)), 5, qp=63, d=0.0)


# ---- the order of the refusals

def order_of_the_quantiser():
    """Each pair of neighbours at once, then every fault from each number on."""
    high, half = put(1024, {0: 29184}), [16384] * 65 + [0] * 959
    for k in (1, 2):
        yield quantise([20, 7, 0, 0], 6, qp=64, component=k)
        yield quantise([20, 7, 0, 0], 0, qp=64, component=k)
        yield quantise([20, 7, 0, 0], qp=64, d=NAN, component=k)
        yield quantise([20, 7, 0, 0], d=NAN, costs=PAST, component=k)
        yield quantise([20, 7, 0], costs=PAST, component=k)
        yield quantise([20, 7, -32768], component=k)
        yield quantise(high[:1023] + [-32768], 5, qp=3, component=k)
        yield quantise(high, 5, qp=3, d=8192.0, component=k)
        yield quantise(half, 5, d=8192.0, component=k)
    for settings in ({"log2": 6, "qp": 64}, {"qp": 64}, {}):
        for d in (NAN, -1.0, 8193.0):
            yield quantise([-32768, 7, 0], **{"log2": 1, "component": 1, "d": d, "costs": PAST, **settings})
    yield quantise([-32768, 7, 0], costs=PAST, component=1)
    yield quantise([-32768, 7, 0], component=1)
    full = [29184] * 1024
    yield quantise([-32768] + full[1:], 5, qp=3, d=8192.0, component=1)
    yield quantise(full, 5, qp=3, d=8192.0, component=1)
    yield quantise(full, 5, qp=3, d=0.0, component=1)
    yield quantise(full, 5, qp=4, d=8192.0, component=1)
    yield quantise(full, 5, qp=4, d=0.0, component=1)


def order_of_the_transform():
    """1 before 5 before 6."""
    yield transform([1024, 2], 0, 1)
    yield transform([1024, 2], 1, 6)
    yield transform([1024, 2], 1, 1)
    yield transform([1024, 2, 0, 0], 6, 6)
    yield transform([], 0, 0)
    yield transform([1, 2, 1024], 1, 1)


def order_of_three_components():
    """Each pair of neighbours at once: a number for Y, U, V, then the next number; 7 to 9 component by component."""
    wild = [PICTURE[:16] + [1024] + PICTURE[17:], PICTURE[:20] + [-1024] + PICTURE[21:]]
    for log2 in (1, 6):
        yield subblock(PICTURE, log2, qp=(64, 4, 4))
        yield subblock(PICTURE, log2, qp=(4, 4, 64))
    for qp in ((64, 64, 64), (4, 64, 64), (4, 4, 64)):
        for d in ((NAN, NAN, NAN), (NAN, USUAL, USUAL), (USUAL, NAN, NAN), (USUAL, USUAL, NAN)):
            yield subblock(PICTURE, qp=qp, d=d)
    for d in ((NAN, NAN, NAN), (USUAL, NAN, NAN), (USUAL, USUAL, -1.0), (8193.0, USUAL, NAN)):
        yield subblock(PICTURE, d=d, costs=PAST)
        yield subblock(PICTURE[:23], d=d)
    yield subblock(PICTURE[:23], costs=PAST)
    yield subblock([1024] + PICTURE[1:23])
    yield subblock(PICTURE[:19] + [1024] + PICTURE[20:23])
    yield subblock([1024] + PICTURE[1:], costs=PAST)
    yield from (subblock(w) for w in wild)
    yield subblock([1024] * 24)
    yield subblock(PICTURE[:16] + [1024] * 8)
    yield subblock(PICTURE[:16] + [1024] * 8, run=5)
    yield subblock([1024] * 24, qp=(4, 64, 4), d=(NAN, USUAL, USUAL), run=6)


def late_refusals_of_three_components():
    """Luma 32 reaches 7; 8 needs a side of 8 or more. Y's coded levels must not be in the buffer when U or V is
    refused."""
    bright, soft = [1023] * 64, [(i % 8) * 9 - 30 for i in range(64)]
    y = [(i % 16) * 5 - (i // 16) * 3 for i in range(256)]
    for parts, d in (
        ((y, bright, soft), only(1, 8192.0, USUAL)), ((y, soft, bright), only(2, 8192.0, USUAL)),
        ((y, bright, bright), (USUAL, 8192.0, 8192.0)),
        (([1023] * 256, bright, soft), (8192.0, 8192.0, USUAL)), (([-1023] * 256, soft, soft), only(0, 8192.0, USUAL)),
        ((y, bright, soft[:63] + [1024]), only(1, 8192.0, USUAL)),
        (([1023] * 256, soft, soft[:63] + [1024]), only(0, 8192.0, USUAL)),
    ):
        for qp in ((0, 0, 0), (34, 1, 3)):
            yield subblock(sum(parts, []), 4, qp=qp, d=d)
    yield subblock(y + bright + soft, 4, run=5, qp=(0, 0, 0), d=only(1, 8192.0, USUAL))
    yield subblock(y + bright + soft, 4, run=6, qp=(0, 0, 0), d=only(1, 8192.0, USUAL))
    whole, dim = [1023] * 1024, [3, -3] * 128
    yield subblock(whole + dim + dim, 5, qp=(3, 30, 30))
    yield subblock(whole + dim + dim, 5, qp=(4, 30, 30))
    yield subblock(whole + dim + dim, 5, qp=(3, 30, 30), d=(8192.0, USUAL, USUAL))
    yield subblock(whole + [1023] * 512, 5, qp=(0, 0, 0), d=(USUAL, 8192.0, 8192.0))
    yield subblock(whole + dim + dim[:255] + [1024], 5, qp=(0, 30, 30))
    yield subblock(whole + dim + dim, 5, run=6, qp=(0, 30, 30))


# ---- what runs

def masks():
    """Only bits 0, 1, 2 mean anything. What is not run keeps its residuals, whatever they are, and its settings are not
    read."""
    for run in (0, 1, 2, 3, 4, 5, 6, 7, 8, 9, 10, 12, 15, 16, 128, 256, 2 ** 31, 2 ** 32 - 1, 2 ** 32 - 8, 2 ** 32 - 7,
                2 ** 32 - 4):
        yield subblock(PICTURE + [1024], run=run, qp=(4, 10, 22), d=(USUAL, 0.0, 1 / 64), costs=MIXED)
    for run in range(8):
        bad = [run >> k & 1 == 0 for k in range(3)]
        yield subblock(PICTURE, run=run, qp=tuple(2 ** 32 - 1 if b else 4 for b in bad))
        yield subblock(PICTURE, run=run, d=tuple(NAN if b else USUAL for b in bad))
        yield subblock(PICTURE, run=run, d=tuple("fff0000000000000" if b else USUAL for b in bad),
                       qp=tuple(64 if b else 4 for b in bad))
        parts = [PICTURE[:16], PICTURE[16:20], PICTURE[20:]]
        for value in (1024, -32768):
            yield subblock(sum(([value] * len(p) if b else p for p, b in zip(parts, bad)), []), run=run)
        yield subblock([-32768] * 24, run=run)
        yield subblock(PICTURE, run=run, qp=(64, 64, 64))
        yield subblock(PICTURE, run=run, d=(NAN, NAN, NAN))


def nothing_run():
    """1, 4 and 5 are tested all the same, in their order."""
    nothing = {"run": 8, "qp": (64, 64, 64), "d": (NAN, NAN, NAN)}
    yield subblock([-32768] * 24, **nothing)
    yield subblock([-32768] * 24, costs=PAST, **nothing)
    yield subblock([-32768] * 23, costs=PAST, **nothing)
    yield subblock([-32768] * 23, **nothing)
    yield subblock([-32768] * 23, 6, costs=PAST, **nothing)
    yield subblock([-32768] * 24, 1, **nothing)
    yield subblock([], **nothing)


def flags():
    """11 is skipped in an inter slice only; cbf_all serves luma that is not intra-coded. FLAGS stands for two numbers
    that these requests once had, 0 or one of six and one of three others: so they come more than once."""
    for slice_ in [0] + [SLICE] * 6:
        for coded in [0] + [CODED] * 3:
            yield quantise([11, 0, 0, 0], flags=slice_ | coded, costs=MIXED)
            yield subblock([9, 2, 0, 0] * 6, qp=(10, 16, 16), flags=slice_ | coded, costs=MIXED)


def thresholds():
    """The skip on both sides of its threshold, at QPs where a coefficient meets it exactly (34: 311 and 359) and where
    none does; one place that reaches it is enough."""
    for slice_ in (0, SLICE):
        at = 311 if slice_ else 359
        for c in (at - 1, at, at + 1, -at, 1 - at):
            for place in (0, 1, 2, 3):
                yield quantise(put(4, {place: c}), qp=34, flags=slice_ or CODED, component=place % 3)
    for log2, qp, first in ((1, 0, 5), (2, 15, 17), (3, 29, 50), (1, 51, 2200), (2, 63, 4000)):
        for c in range(first, first * 2, max(1, first // 6)):
            yield quantise(put(1 << 2 * log2, {1: -c, 2: c - 1}), log2, qp=qp, d=0.0, flags=c % 4)


# ---- the quantiser's choices

def contexts():
    """No two cost entries equal; places first, after a zero and after a nonzero; magnitudes 1, 2 and above."""
    blocks = [[200, 0, 0, 0], [0, 0, 0, 200], [200, 100, 60, 33], [0, 200, -17, 170], [-20, 0, 20, 0], [33, -33, 0, 33],
              [50, 49, 48, 47]]
    for coded in (0, CODED):
        for k in range(3):
            for block in blocks:
                yield quantise(block, component=k, flags=SLICE | coded, costs=MIXED)
                yield quantise(block, component=k, flags=SLICE | coded, costs=MIXED[::-1], d=1 / 8192)
            yield quantise(put(16, {0: 60, 1: -20, 3: 9, 4: 33, 8: -70, 9: 12, 15: 500}), 2, component=k,
                           flags=SLICE | coded, costs=MIXED)
    for block in blocks:
        yield quantise(block, costs=costs(0, run_1_1=900000, run_0_1=400000, level_0_1=100, level_1_1=70000))
        yield quantise(block, component=2, costs=costs(1000, run_3_0=900000, run_2_0=400000, last_1_0=5000,
                                                       cbf_3_0=1048576))


def scans():
    """One coefficient at each place in turn and then a few together: the price tells how many zeros the scan has before
    it."""
    for log2, places in ((1, range(4)), (2, range(16)), (3, (0, 1, 8, 16, 9, 2, 3, 7, 56, 62, 63)),
                         (4, (1, 16, 240, 255)), (5, (1, 32, 992, 31))):
        for p in places:
            yield quantise(put(1 << 2 * log2, {p: -900}), log2, qp=16, costs=MIXED, component=p % 3)
    for log2 in (2, 3, 4, 5):
        # a pattern of zeros and nonzeros without a period
        yield quantise([900 - 7 * i % 500 if i * i * (i + 7) % 11 < 5 else 0 for i in range(1 << 2 * log2)], log2,
                       qp=16, costs=MIXED)
    yield quantise(list(range(160, 0, -10)), 2, d=1 / 64, costs=MIXED)
    yield quantise(list(range(-5, 11)), 2, qp=0, d=0.0, costs=MIXED)


def ties():
    """QP 4 at side 2 has a step of 16 and exact errors. With d = 0 a coefficient of 8 costs the same as 0 and 1, one of
    24 as 1 and 2."""
    for block in ([16, 8, 0, 0], [16, -8, 8, 8], [24, 0, 0, 0], [-24, 24, 8, 40], [16, 40, 56, 8], [8, 8, 8, 10]):
        for k in range(3):
            yield quantise(block, d=0.0, component=k)
            yield quantise(block, d=0.0, costs=[0] * 28, component=k)
            yield quantise(block, d=USUAL, costs=[0] * 28, component=k)
    # 9 costs 2^23 more as 0 than as 1; lambda is 32, so that 2^18 of rate and flag evens it out and the earlier cut
    # wins
    even = costs(32768, level_0_0=65536, last_0_0=131072)
    yield quantise([20, 9, 0, 0], costs=even)
    yield quantise([20, 9, 0, 0], costs=costs(32768, level_0_0=65536, last_0_0=131071))
    yield quantise([20, 9, 0, 0], costs=costs(32768, level_0_0=65536, last_0_0=131073))
    yield quantise([20, 9, 20, 0], costs=even)
    # 12 costs 2^25 more as 0 than as 1, 2^20 of rate: the empty block at equal price, and one off on either side
    for more in (-1, 0, 1):
        yield quantise([12, 0, 0, 0], costs=costs(0, run_0_0=500000, level_0_0=500000, last_0_1=15808 + more))
        yield quantise([12, 0, 0, 0], costs=costs(0, run_0_0=500000, level_0_0=400000, cbf_1_1=115808 + more))
        yield quantise([12, 0, 0, 0], costs=costs(0, run_0_0=1000000, cbf_1_0=1000, cbf_1_1=16808 + more))
    # 12 costs the same as 0 and as 1 in the walk
    for more in (-1, 0, 1):
        yield quantise([40, 12, 0, 0], costs=costs(0, run_0_0=500000, level_0_0=520000, run_0_1=4192 + more))
    # 24 costs as much as 2 and as 1 when their rates are equal
    yield quantise([24, 0, 0, 0], costs=costs(32768, level_0_0=65536))
    yield quantise([24, 24, 0, 0], costs=costs(32768, level_0_0=65537))
    yield quantise([24, 24, 0, 0], costs=costs(32768, level_0_0=65535))


def cuts():
    """The walk keeps what a cut then drops: the last flag, or coding at all, is dear. A zero level can't be the end of
    a block, be it ever so cheap to end there."""
    for block in ([20, 9, 0, 12], [20, 0, 0, 12], [200, 12, 12, 12], [12, 12, 12, 200], [0, 0, 0, 12]):
        for table in (costs(100, last_0_0=900000), costs(100, last_0_1=900000), costs(100, cbf_1_1=1048576),
                      costs(100, cbf_1_0=1048576),
                      costs(100, cbf_1_0=1048576, run_0_1=0, run_1_1=0, last_0_1=0, cbf_1_1=0, run_1_0=500000,
                            level_0_0=600000),
                      costs(0, cbf_1_0=1048576, run_0_1=0, run_1_1=1048576, run_1_0=1048576, run_0_0=1048576)):
            yield quantise(block, costs=table)
            yield quantise(block, costs=table, d=1 / 256)
            yield quantise(block[::-1], costs=table)


def lowered():
    """Magnitudes just above and below a half step, dear ones: m, m-1 and 0 each win somewhere."""
    for c in (24, 25, 28, 31, 32, 39, 40, 41, 56, 57, 100, -24, -41):
        for d in (USUAL, 1 / 128, 1 / 16):
            yield quantise([c, 0, 0, 0], d=d, costs=costs(32768, level_1_1=400000, level_1_0=100000))
            yield quantise([c, c, 3 - c, 0], d=d, component=1, costs=costs(32768, level_3_1=300000, level_2_1=200000))


def negative_errors():
    """QPs whose error scale is no power of two: a magnitude above its coefficient leaves an error below 0 with a
    fraction, which falls."""
    for qp in (0, 1, 2, 3, 5, 11, 27):
        for log2 in (1, 2):
            for c in (7, 9, 13, 15, 17, 23, 27, 31):
                yield quantise(put(1 << 2 * log2, {0: c * 3, 1: -c * 5, 2: c * 2 + 1}), log2, qp=qp, d=0.0)


def wide_rates():
    """Rates past 31 bits. The first magnitude to pass is 2047 with every entry at its largest, 2050 with level[j+1][1]
    alone."""
    for d in (0.0, 1 / 8192, USUAL, 1.0):
        for c in (20456, 20466, 20476, 20496, 20506, 32767):
            yield quantise([c, 0, 0, 0], qp=0, d=d, costs=LARGEST)
        yield quantise([-20506, 20496, 0, 0], qp=0, d=d, costs=costs(0, level_1_1=1048576))
        yield quantise([-20506, 20496, 0, 0], qp=0, d=d, component=2, costs=costs(0, level_3_1=1048576))
        yield subblock([1023] * 24, qp=(0, 0, 0), d=(d, d, d), costs=LARGEST)
    yield quantise(put(1024, {0: 29183, 40: -29183}), 5, qp=3, d=0.5, costs=LARGEST)


# ---- the second mode

def in_the_second_mode(*sections, every=1):
    """Of these sections, every so manieth request of a call that has a second mode, in it."""
    for section in sections:
        yield from [least(line) for line in section() if not line.startswith(b"transform ")][::every]


def refusals_of_the_second_mode():
    """The nine in their order, and each limit with its neighbour."""
    yield from in_the_second_mode(order_of_the_quantiser, order_of_three_components, late_refusals_of_three_components,
                                  nothing_run, sides)
    yield from in_the_second_mode(qps, lengths, samples, every=3)
    yield from in_the_second_mode(lambdas, every=5)
    yield from in_the_second_mode(levels, prices, distortions)
    for at in range(28):
        table = FLAT[:at] + [1048577] + FLAT[at + 1:]
        yield least(quantise([20, 7, 0, 0], component=at % 3, costs=table))
        yield least(subblock(PICTURE, run=at % 8, costs=table))


def what_runs_in_the_second_mode():
    """Masks, flags, and the skip, which goes first."""
    yield from in_the_second_mode(masks)
    yield from in_the_second_mode(flags, thresholds, every=3)


def the_walks_choices_in_the_second_mode():
    """What tells levels apart in the walk: document 01's numbers, contexts, flags, errors, wide rates."""
    yield from in_the_second_mode(the_papers_numbers, ties, cuts)
    yield from in_the_second_mode(contexts, lowered, scans, every=2)
    yield from in_the_second_mode(negative_errors, widest_prices, every=3)
    yield from in_the_second_mode(wide_rates, every=2)


# At QP 4, side 2 and d = 1/1024 a coefficient c as magnitude a costs (c - 16a)², and so many UNITs of a rate cost the
# same. The sign is 4 of them.
UNIT = 8192


def in_units(**entries):
    """Entries in UNITs, the others 0."""
    return costs(0, **{name: UNIT * value for name, value in entries.items()})


def where_the_walk_is_dearer():
    """A nonzero level after a 0 is dear, so that the one before is coded for the sake of the next; so is the 0 after a
    0; a level in the middle is not worth its flag, or worth it only as it keeps another away from a 0; each also one
    unit of rate to either side, in every component."""
    for k in range(3):
        row, last = (0, 0) if k == 0 else (2, 1)
        name = lambda table, r, column: "%s_%d_%d" % (table, r, column)
        for more in (-1, 0, 1):
            # 12 as 1 costs 16 + 4 + 126 or so, as 0 it is 144
            dear = {name("level", row, 0): 126 + more}
            for block in ([12, 32, 0, 0], [12, -32, 12, 32], [0, 12, 12, -32], [12, 12, 12, 12], [32, 12, 12, 32],
                          [-12, 12, 32, 12]):
                yield least(quantise(block, component=k, costs=in_units(**dear, **{name("run", row + 1, 0): 50})))
                yield least(quantise(block, component=k, costs=in_units(**dear, **{name("run", row + 1, 1): 20})))
            for block in ([32, 12, 32, 0], [32, 12, 12, 32], [12, 32, -12, 32]):
                yield least(quantise(block, component=k, costs=in_units(**{name("last", last, 0): 124 + more})))
                yield least(quantise(block, component=k,
                                     costs=in_units(**{name("last", last, 0): 124 + more, name("run", row, 1): 3})))
    # the same in larger blocks: side 4 has a step of 8 and squares of 4 units, side 8 a step of 4 and squares of 16
    for log2, c in ((2, 6), (3, 3)):
        dear = in_units(level_0_0=126, run_1_0=50, run_1_1=4, last_0_0=1)
        for shift in range(4):
            yield least(quantise([(0, c, c, 2 * c, 0, -c, 0, 3 * c)[(i * i + shift) % 8] for i in range(1 << 2 * log2)],
                                 log2, costs=dear))
            yield least(quantise([(0, c, -c)[(i * (i + shift)) % 3] for i in range(1 << 2 * log2)], log2, costs=dear))


def ties_of_the_second_mode():
    """At equal price the first in dictionary order, of magnitudes in scan order."""
    dear = {"level_0_0": 126, "run_1_1": 20}
    # one of the two twelves is coded, at the same price: the later one, also where a search forwards would know only
    # that it comes after a 0
    for block in ([12, 12, 32, 0], [-12, 12, 32, 0], [12, -12, -32, 0], [12, 12, 32, 8], [12, 12, 12, 32]):
        yield least(quantise(block, costs=in_units(**dear)))
        yield least(quantise(block, costs=in_units(**dear, last_0_0=1)))
        yield least(quantise(block, component=2, costs=in_units(level_2_0=126, run_3_1=20)))
    # exactly one level is coded, since the empty block is dear: the last in scan order, not by rows and not by columns
    one = in_units(level_0_0=126, cbf_1_0=20)
    for places in ((0, 3), (1, 2), (0, 1, 2, 3)):
        yield least(quantise(put(4, {p: 12 for p in places}), costs=one))
        yield least(quantise(put(4, {p: -12 for p in places}), costs=one))
    for places in ((2, 8), (1, 4), (3, 12), (2, 4), (7, 13), (6, 9), (0, 15), (2, 5, 8)):
        yield least(quantise(put(16, {p: 6 for p in places}), 2, costs=one))
    for places in ((2, 16), (7, 56), (6, 49), (9, 10, 17)):
        yield least(quantise(put(64, {p: 3 if p % 2 else -3 for p in places}), 3, costs=one))
    # with a lambda of 0, or tables of zeros, halves of a step tie everywhere
    for block in ([8, 16, 8, 0], [-8, 16, -8, 24], [24, -24, 24, -24], [40, 8, 24, 16], [8, 24, 8, 12],
                  [-40, -24, -8, -16]):
        for k in range(3):
            yield least(quantise(block, component=k, d=0.0))
            yield least(quantise(block, component=k, d=0.0, costs=MIXED))
            yield least(quantise(block, component=k, d=1 / 32768, costs=[0] * 28))
    yield least(quantise([8, 12, 4, 0, -12, 20, -4, 8, 4, 4, -28, 0, 12, 8, 16, 4], 2, d=0.0))
    yield least(quantise([(4 * i * i + 2 * i) % 31 - 15 for i in range(256)], 4, d=0.0, qp=10))
    yield least(subblock([r // 8 * 8 for r in PICTURE], qp=(16, 16, 16), d=(0.0, 0.0, 0.0)))
    yield least(subblock([r // 8 * 8 for r in PICTURE], qp=(28, 22, 22), d=(0.0, 1 / 32768, 0.0), costs=[0] * 28))


def levels_at_equal_price():
    """Neither the number of levels nor their sum settles a tie: 0 1 1 comes before 1 0 0, and 0 2 before 1 0."""
    for more in (-1, 0, 1):
        two = {"level_0_0": 126, "run_1_0": 44, "last_0_0": 50, "run_1_1": 30, "cbf_1_0": 20}
        table = in_units(**two)
        table[2] += more
        yield least(quantise([12, 13, 14, 0], costs=table))
        yield least(quantise([-12, 13, -14, 0], costs=table))
        # at d = 1/256 the unit is a quarter
        table = [e // 4 for e in in_units(level_0_0=466, run_1_0=512, level_0_1=50, last_0_0=512, cbf_1_0=20)]
        table[9] += more
        yield least(quantise([23, 25, 0, 0], d=1 / 256, costs=table))


def close_prices():
    """907 at QP 63 costs 51,599,931 × 1,069,869 + 1 more as 0 than as 1: at that lambda and that rate, coding each
    place saves 1, of a price that has more digits than an f64. One unit of rate more, and nothing is coded."""
    for block in ([907] * 1024, [-907, 907, 0, 907] * 256):
        for rate in (1069868, 1069869, 1069870):
            yield least(quantise(block, 5, qp=63, d=51599931 / 32768, costs=costs(0, level_0_0=rate - 32768)))


# ---- malformed lines

GOOD = {
    b"transform": transform([1, 2, 3, 4]),
    b"quantise": quantise([20, 7, 0, 0]),
    b"subblock": subblock(PICTURE),
}
# the same of the viewer's half
GOOD_VIEWER = {
    b"scaleback": scaleback([3, -2, 0, 7]),
    b"inverse": inverse([80, -16, -32, 0]),
}
# the same of the second mode
GOOD_LEAST = {verb: least(line) for verb, line in GOOD.items() if verb in FLAGS_AT}
# what the words of a request are, after its verb
FIELDS = {
    b"transform": ["log2"] * 2 + ["n"] + ["sample"] * 4,
    b"quantise": ["component", "log2", "u32", "lambda", "flags"] + ["cost"] * 28 + ["n"] + ["sample"] * 4,
    b"subblock": ["log2", "u32"] + ["u32", "lambda"] * 3 + ["flags"] + ["cost"] * 28 + ["n"] + ["sample"] * 24,
    b"scaleback": ["log2", "u32", "n"] + ["sample"] * 4,
    b"inverse": ["log2"] * 2 + ["n"] + ["sample"] * 4,
    b"guarded": (["log2", "u32"] + ["u32", "lambda"] * 3 + ["flags"] + ["u32"] * 6 + ["cost"] * 28 + ["n"]
                 + ["sample"] * 24),
    b"measure": ["log2", "u32", "flags", "log2", "n"] + ["sample"] * 8,
    b"write": ["log2", "k"] + ["symbol"] * 3 + ["n"] + ["sample"] * 4,
    b"read": ["log2", "k"] + ["symbol"] * 3 + ["n"] + ["sample"] * 4,
}
# past each type, first one whose low bits would pass
PAST_TYPE = {
    "log2": [2 ** 64 + 2, 2 ** 64, 10 ** 20, 10 ** 30],
    "u32": [2 ** 32 + 4, 2 ** 32, 2 ** 64 + 4],
    "flags": [2 ** 32 + 4, 2 ** 32, 2 ** 64 + 4],
    "cost": [2 ** 64 + 32768, 2 ** 64, 10 ** 21],
    "sample": [65536 + 20, 32768, -32769, 20 - 65536, 2 ** 32 + 7, 2 ** 64 + 7],
    "component": [3, 4, 256, 2 ** 32, 2 ** 64 + 1],
    "n": [8193, 2 ** 32 + 4, 2 ** 64 + 4],
    "k": [4097, 8192, 8193, 2 ** 32 + 3, 2 ** 64 + 3],
    "symbol": [2 ** 32 + 1024, 2 ** 32, 2 ** 64 + 1024],
}


def chosen_fields(verb):
    """Every field's place among the words, but of costs and samples only the first, a middle one and the last."""
    kinds = FIELDS[verb]
    for at in flags_twice(verb, range(1, len(kinds) + 1)):
        kind = kinds[at - 1]
        same = [j for j, other in enumerate(kinds, 1) if other == kind]
        if kind not in ("cost", "sample") or at in (same[0], same[len(same) // 2], same[-1]):
            yield at, kind


def flags_twice(verb, places):
    """FLAGS stands for two fields that these requests once had: what was wrong with either is wrong with it."""
    return [at for at in places for _ in range(2 if at == FLAGS_AT.get(verb) else 1)]


def spaces(good=GOOD):
    """Exactly one space between words and none at the ends; a tab, a carriage return and the like are no spaces."""
    for line in good.values():
        verb, rest = line.split(b" ", 1)
        yield from (b" " + line, line + b" ", line + b"  ", verb + b"  " + rest, rest, verb + b"\t" + rest,
                    line + b"\r", line + b"\t", b"\t" + line)
        yield from (line.replace(b" ", b"  "), line.replace(b" ", b"\t"), line.replace(b" ", b""),
                    line.replace(b" ", b","), line.replace(b" ", b"\xc2\xa0"))
        yield from (line[:-2] + b"  " + line[-1:], line[:-2] + b"\v" + line[-1:], line[:-2] + b"\r" + line[-1:])


def verbs():
    """Unknown, alone, in upper case, cut or longer; an empty line, a space, bytes that are no text."""
    yield from (b"", b" ", b"\r", b"\t", b"\0", b"\xff", b"-", b"0", b":", b"accepted :", b"malformed",
                b"# transform 1 1 4 1 2 3 4", b"help", b"quit")
    yield from like_a_verb(GOOD)


def like_a_verb(good):
    for verb, line in good.items():
        rest = line.split(b" ", 1)[1]
        yield from (verb, verb + b" ", verb + b":", verb + b"\0", verb.upper(), verb.title())
        for other in (verb.upper(), verb.title(), verb[:-1], verb + b"s", b"\xef\xbb\xbf" + verb, b"\0" + verb,
                      verb[:-1] + bytes([verb[-1] | 128])):
            yield other + b" " + rest
    for verb in good:
        for other in good:
            if verb != other:
                yield verb + b" " + good[other].split(b" ", 1)[1]


def numbers_in_every_field():
    """No sign but a minus before a digit from 1 to 9, no leading zero, no point, no other base; and nothing past the
    field's type."""
    yield from like_a_number(GOOD)
    yield replaced(GOOD[b"transform"], 1, b"1" * 60000)
    yield replaced(GOOD[b"transform"], 3, b"0" * 60000 + b"4")
    yield replaced(GOOD[b"transform"], 7, b"-" + b"9" * 300)


def like_a_number(good):
    for verb, line in good.items():
        words = line.split(b" ")
        for at, kind in chosen_fields(verb):
            w = words[at]
            if kind == "lambda":
                continue
            bad = [b"+" + w, b"-0", b"00", b"0" + w, b"-", b"--1", b"-01", w + b".0", w + b".", b"0x" + w, w + b"e0",
                   b"a", w + b"a", b""]
            bad += [b"\xd9\xa1", w + b"\0", w + b"\xff", b"1-", b"1 ", b"'1'", b"1_0", b":", b"/"]
            bad += [b"%d" % n for n in PAST_TYPE[kind]] + ([b"-1"] if kind != "sample" else [])
            yield from (replaced(line, at, b) for b in bad)


def lambdas_in_hex(good=GOOD):
    """16 lower-case digits, no more and no less."""
    for verb in good:
        for at, kind in chosen_fields(verb):
            if kind == "lambda":
                for w in (b"3f5000000000000", b"3f500000000000000", b"3F50000000000000", b"3f5000000000000A",
                          b"0x3f500000000000", b"0x3f50000000000000",
                          b"3f5000000000000g", b"3f5000000000000`", b"3f5000000000000:", b"3f5000000000000/",
                          b"3f5000000000000@", b"-3f5000000000000",
                          b"+3f5000000000000", b"0.0009765625", b"nan", b"0", b"", b"1", b"3f50 000000000000",
                          b"3f5000000000000\0", b"3f5000000000000\xb0",
                          b"abcdefabcdefabcd", b"ABCDEFABCDEFABCD", b"0123456789abcdef", b"7FF8000000000000",
                          b"fFf8000000000000"):
                    yield replaced(good[verb], at, w)


def missing_and_more(good=GOOD):
    """Each field left out, or once more; N one more or less than the samples; a line that ends after each of its
    words."""
    for verb, line in good.items():
        words = line.split(b" ")
        n = len(FIELDS[verb]) - FIELDS[verb][::-1].index("n")
        for at in flags_twice(verb, range(1, n + 2)):
            yield b" ".join(words[:at] + words[at + 1:])
            yield b" ".join(words[:at] + words[at:at + 1] + words[at:])
            yield b" ".join(words[:at])
        count = int(words[n])
        for other in (0, 1, count - 1, count + 1, count + 2, 8192):
            yield replaced(line, n, b"%d" % other)
        yield from (line + b" 0", line + b" x", b" ".join(words[:-1]))
        yield b" ".join(words[:n] + [b"0"])
        yield line + b" " + line


def most_samples():
    """N of 8192 is read, of 8193 not, though the samples be there."""
    for n in (8191, 8192, 8193):
        yield transform([1, -2, 3, -4] + [5] * (n - 4))
        yield quantise([20, 7, 0, 0] + [0] * (n - 4))
        yield subblock(PICTURE + [1] * (n - 24))
    yield quantise([20, 7, 0, 0] + [-32768] * 8188)


def long_request(flags):
    """Every word as long as can be, but for FLAGS."""
    most = 2 ** 32 - 1
    return subblock([-32768] * 8192, 2 ** 64 - 1, most, (most,) * 3, (NAN,) * 3, flags, [2 ** 64 - 1] * 28)


def long_lines():
    """A line longer than 65,535 bytes is passed over to its end, and gets one answer: what stands in it behind the
    first 65,535 bytes, or any other number, is no request."""
    yield long_request(SLICE | CODED)
    good = GOOD[b"transform"]
    for n in (4096, 16384, 32768, 65535, 65536, 131070):
        yield b"x" * n + good
    yield b"x" * 65534 + b" " + good
    for n in (65535, 65536):
        yield good + b" " * (n - len(good))
        yield replaced(good, 3, b"0" * (n - len(good)) + b"4")
    yield b"transform " * 20000
    yield good


def malformed_in_the_second_mode():
    """Some of each kind; verbs that look like the two; a long request that can be read."""
    yield from spaces(GOOD_LEAST)
    yield from like_a_verb(GOOD_LEAST)
    for verb in (b"quantise-", b"quantise -least", b"quantise least", b"quantise_least", b"quantiseleast",
                 b"quantise--least", b"quantise-LEAST",
                 b"quantise-least-least", b"least", b"-least", b"least-quantise", b"quantise-lease", b"quantise-most",
                 b"quantise-l", b"subblock-leas",
                 b"sub-block-least", b"sub_block_least"):
        yield replaced(GOOD_LEAST[b"quantise" if verb.find(b"quantise") >= 0 else b"subblock"], 0, verb)
    yield replaced(GOOD[b"transform"], 0, b"transform-least")
    yield from list(like_a_number(GOOD_LEAST))[::5]
    yield from list(lambdas_in_hex(GOOD_LEAST))[::4]
    yield from list(missing_and_more(GOOD_LEAST))[::2]
    for n in (8192, 8193):
        yield least(quantise([20, 7, 0, 0] + [0] * (n - 4)))
        yield least(subblock(PICTURE + [1] * (n - 24)))
    yield long_request(SLICE | CODED | LEAST)
    yield from GOOD_LEAST.values()


# ---- FLAGS

def by_flags(flags):
    """Three requests whose answers tell the three bits: a block that is skipped but in an intra slice, luma whose walk
    is dearer than the cheapest block, and both together in three components; cbf_all and cbf_luma differ."""
    yield quantise([11, 0, 0, 0], flags=flags, costs=MIXED)
    yield quantise([12, 32, 0, 0], flags=flags, costs=in_units(level_0_0=126, run_1_0=50, cbf_0_1=3, cbf_1_1=5))
    yield subblock(put(16, {2: -3}) + [6, 1, 2, 1] + [11, 28, -9, 1], qp=(4, 22, 16), flags=flags,
                   costs=in_units(level_0_0=111, run_1_0=21, run_1_1=4, cbf_0_1=3, cbf_1_1=5))


def bits_of_flags():
    """None, each of the three alone, each pair and all. Then the other 29, which mean nothing: each alone and with all
    three, and all of them together with each of the eight; the last is 2^32 - 1."""
    for low in range(8):
        yield from by_flags(low)
    for bit in range(3, 32):
        yield from by_flags(1 << bit)
        yield from by_flags(SLICE | CODED | LEAST | 1 << bit)
    for low in range(8):
        yield from by_flags(2 ** 32 - 8 | low)


def flags_not_read():
    """2^32 and more, also where the low bits would pass; below 0; other texts of 3 and 7; none; two and three words, as
    bits by themselves; at another place. The transform has none."""
    past = [2 ** 32 + low for low in range(8)] + [2 ** 33, 2 ** 63, 2 ** 64 - 1, 2 ** 64, 2 ** 64 + 3, 10 ** 30]
    texts = [b"01", b"03", b"07", b"00", b"0000000003", b"000000000000000000000007", b"+3", b"-0", b"", b"0x3", b"0b11",
             b"3.", b"3.0", b"3u", b"3,", b"1,1", b"1|2", b"1+2", b"011", b"true", b"yes", b"I", b"least"]
    for verb, at in ((verb, FLAGS_AT[verb]) for verb in GOOD_LEAST):
        line = GOOD[verb]
        yield from (replaced(line, at, b"%d" % n) for n in past + [-1, -3, -7, -2 ** 31, -2 ** 32])
        yield from (replaced(line, at, text) for text in texts)
        yield from (replaced(line, at, some) for some in (b"3 3", b"3 0", b"0 3", b"7 7", b"1 1 0", b"1 1 1", b"1 2 4"))
        words = line.split(b" ")
        without = words[:at] + words[at + 1:]
        yield from (b" ".join(without[:i] + [b"3"] + without[i:]) for i in (1, at - 1, at + 29, len(without)))
        yield b" ".join(without)
    for at in (1, 3, 4):
        yield replaced(GOOD[b"transform"], at, b"3 " + GOOD[b"transform"].split(b" ")[at])


def two_flags():
    """The form that requests once had, with two words for FLAGS. They are FLAGS and the first entry of the tables, the
    last entry is N, and N is a sample: so it is malformed but where that entry is by chance one more than N. Then it is
    read as what it is."""
    for a, b in ((0, 0), (0, 1), (1, 0), (1, 1), (3, 3), (2 ** 32 - 1, 2 ** 32 - 1)):
        both = "%d %d" % (a, b)
        for last_entry in (32768, 0, 4, 5, 6, 24, 25, 26):
            yield quantise([20, 7, 0, 0], flags=both, costs=FLAT[:27] + [last_entry])
            yield subblock(PICTURE, flags=both, costs=FLAT[:27] + [last_entry])


def verbs_with_least():
    """The second mode has no verbs of its own: those that it once had are not read, with FLAGS or with two words."""
    for verb, at in ((verb, FLAGS_AT[verb]) for verb in GOOD_LEAST):
        yield verb + b"-least"
        for flags in (b"0", b"3", b"4", b"7", b"0 0", b"0 1", b"1 0", b"1 1"):
            yield replaced(replaced(GOOD[verb], at, flags), 0, verb + b"-least")
    yield replaced(quantise([20, 7, 0, 0], flags="1 1", costs=FLAT[:27] + [5]), 0, b"quantise-least")
    yield replaced(subblock(PICTURE, flags="1 1", costs=FLAT[:27] + [25]), 0, b"subblock-least")


def longest_requests():
    """58,072 bytes: with a FLAGS of ten digits, in either mode."""
    yield long_request(2 ** 32 - 1 - LEAST)
    yield long_request(2 ** 32 - 1)


# ---- the viewer's half: scaling back

SCALES_BACK = [40, 45, 51, 57, 64, 72]
EXTREMES = [-32768, 32767, -32767, 32766]


def numbers_of_the_viewers_half():
    """Document 01's numbers taken back: P1's and P2's coefficients, P3's of either sign, the levels of P5, P6 and P11,
    and what P5's level comes to."""
    yield inverse([80, -16, -32, 0])
    yield from (inverse([c] + [0] * 1023, 5, 5) for c in (32736, -32736))
    yield inverse([8, 11, 8, 4, 11, 14, 11, 6, 8, 11, 8, 4, 4, 6, 4, 2], 2, 2)
    yield inverse([-8, -10, -8, -4, -10, -14, -10, -6, -8, -10, -8, -4, -4, -6, -4, -2], 2, 2)
    yield scaleback([1, 0, 0, 0])
    yield scaleback([-1, 0, 0, 0])
    yield scaleback(put(1024, {0: 32767}), 5, 3)
    yield inverse([16, 0, 0, 0])


def a_scale_for_each_qp():
    """Every QP at sides 2 and 4, and one past; at the others one of each remainder and the last."""
    for qp in range(65):
        yield scaleback([1, -1, 3, -7], 1, qp)
        yield scaleback([0, 1, 2, -2, 5, -5, 9, 11, -13, 21, -33, 64, 100, -100, 127, -129], 2, qp)
    for log2, qps in ((3, (0, 1, 2, 3, 4, 5, 11, 17, 62, 63)), (4, (0, 1, 8, 9, 22, 35, 63)), (5, (2, 7, 40, 41, 63))):
        for qp in qps:
            yield scaleback([(i * i * 7 + 3 * i) % 61 - 30 for i in range(1 << 2 * log2)], log2, qp)


def halves_scaled_back():
    """At low QPs a product lies between two coefficients: every level from -8 to 7, from -32 to 31, and so on to side
    32. Halves go upward."""
    for qp in range(12):
        yield scaleback([-1, 1, -3, 3], 1, qp)
        yield scaleback(list(range(-8, 8)), 2, qp)
    for log2 in (3, 4, 5):
        for qp in range(6):
            yield scaleback(list(range(-(1 << 2 * log2 - 1), 1 << 2 * log2 - 1)), log2, qp)


def scaled_back_to_the_limits():
    """About the level that comes to 32767, and about the one that comes to -32768: the next ones are clipped. Then the
    largest levels there are, of either sign, at one place and at all; none is refused."""
    for qp in range(64):
        for log2 in (1,) if qp % 7 else (1, 2):
            n, factor = 1 << 2 * log2, SCALES_BACK[qp % 6] << qp // 6
            most = min(((2 * 32767 + 1) << log2) // factor, 32766)
            near = [most, most + 1, -most - 1, -most, most - 1, -most - 2]
            yield scaleback(near[:4] + [0] * (n - 4), log2, qp)
            yield scaleback(near[2:6] + [0] * (n - 4), log2, qp)
            yield scaleback(EXTREMES + [0] * (n - 4), log2, qp)
    for log2 in range(1, 6):
        n = 1 << 2 * log2
        for qp in (0, 5, 29, 63):
            yield scaleback([-32768] * n, log2, qp)
            yield scaleback([32767, -32768] * (n // 2), log2, qp)
            yield scaleback(put(n, {n - 1: -32768, n // 2: 32767}), log2, qp)


def refusals_of_scaling_back():
    """1, 2 and 5: each by itself with its neighbours, and every two and all three at once. A side or a QP whose low
    bits would pass is refused with the rest; the surplus is neither tested nor changed."""
    for log2 in (0, 1, 2, 3, 4, 5, 6, 7, 63, 64, 65, 2 ** 32 + 1, 2 ** 32 + 2, 2 ** 63, 2 ** 64 - 1):
        yield scaleback([5, -6, 7, -8] * (256 if log2 == 5 else 64), log2)
    for qp in (62, 63, 64, 65, 68, 127, 128, 255, 256, 260, 2 ** 31, 2 ** 32 - 1):
        yield scaleback([5, -6, 7, -8], 1, qp)
    for log2 in range(1, 6):
        n = 1 << 2 * log2
        levels = [(29 * i * i + 5 * i) % 17 - 8 for i in range(n)]
        for buffer in ([], levels[:1], levels[:n - 1], levels, levels + [-32768], levels + EXTREMES + [0, 1, -1]):
            yield scaleback(buffer, log2, 27)
    yield from (scaleback(buffer, log2, qp) for buffer, log2, qp in (
        ([9] * 16, 6, 64), ([9] * 16, 0, 64), ([9] * 16, 2 ** 64 - 1, 2 ** 32 - 1), ([9] * 3, 6, 4), ([], 0, 4),
        ([9] * 3, 1, 64), ([], 1, 64), ([9] * 15, 2, 255), ([], 6, 64), ([9], 0, 64), ([-32768] * 3, 1, 4),
        ([-32768] * 3, 1, 64), ([-32768] * 4, 1, 64), ([-32768] * 4, 6, 4), ([-32768] * 3, 6, 64)))


# ---- the viewer's half: the inverse transform

SHAPES = [(lw, lh) for lw in range(1, 6) for lh in range(1, 6)]


def one_coefficient():
    """The first alone, in every shape: 16 of it is half a unit, and halves go upward. Then 32767 or -32768 in each
    place of the first row, and of the first column: what an entry of the matrix is, and no other, shows 16 times. Then
    some places that lie in neither."""
    for lw, lh in SHAPES:
        for c in (16, -16, 15, -17, 48, -48, 32767, -32768):
            yield inverse(put(1 << lw + lh, {0: c}), lw, lh)
    for log2 in range(1, 6):
        side = 1 << log2
        for k in range(1, side):
            c = -32768 if k % 3 == 0 else 32767
            yield inverse(put(2 * side, {k: c}), log2, 1)
            yield inverse(put(2 * side, {2 * k: c}), 1, log2)
    for lw, lh in SHAPES:
        w, h = 1 << lw, 1 << lh
        for v, u in dict.fromkeys(((1, w - 1), (h - 1, 1), (h // 2, w // 2), (h - 1, w - 1))):
            yield inverse(put(w * h, {v * w + u: 20000 + 100 * v - 7 * u}), lw, lh)


def many_coefficients():
    """In every shape: all there are at their largest, of one sign and of both in turn; a few of the spectrum; a whole
    block without a period, small and large; with a surplus."""
    for lw, lh in SHAPES:
        w, h = 1 << lw, 1 << lh
        n = w * h
        yield inverse([32767] * n, lw, lh)
        yield inverse([-32768] * n, lw, lh)
        yield inverse([32767, -32768] * (n // 2), lw, lh)
        yield inverse([-32768 if (i // w + i % w) % 2 else 32767 for i in range(n)], lw, lh)
        yield inverse([3000 // (1 + i // w + 2 * (i % w)) * (-1) ** (i * i // 5) for i in range(n)], lw, lh)
        yield inverse([(i * i * 37 + 11 * i + 5) % 97 - 48 for i in range(n)], lw, lh)
        yield inverse([(i * i * 7919 + 104729 * i) % 65536 - 32768 for i in range(n)] + EXTREMES + [7], lw, lh)


def clipped_residuals():
    """Coefficients of the signs that one residual's factors have: it is as large as can be. In blocks of 64 places and
    more it is clipped; in smaller ones none can be. By the first coefficient it comes to 32767, to as much as three
    more and one less; and all of it once more with the other sign."""
    for (lw, lh), (y, x) in (((3, 3), (0, 0)), ((4, 2), (3, 15)), ((5, 1), (0, 0)), ((1, 5), (31, 1)), ((4, 3), (2, 9)),
                             ((4, 4), (7, 8)), ((5, 5), (0, 31)), ((2, 2), (1, 1)), ((3, 2), (0, 7))):
        w, n = 1 << lw, 1 << lw + lh
        factors = [entry(1 << lh, i // w, y) * entry(w, i % w, x) for i in range(n)]
        for most in (32767, 16384):
            yield inverse([most if f > 0 else -most for f in factors], lw, lh)
            yield inverse([-most if f > 0 else most for f in factors], lw, lh)
        others = sum(abs(f) for f in factors[1:])
        if others * 32767 < 32767 << 17:
            continue
        for sign in (1, -1):
            for residual in (32766, 32767, 32768, 32769, 32770):
                a = (residual << 17) // others
                left = (residual << 17) - a * others
                block = [sign * (a if f > 0 else -a) for f in factors]
                block[0] = sign * (left // 4096)
                yield inverse(block, lw, lh)


def entry(side, k, n):
    """Of a matrix: document 01's cosine, whose nearest whole numbers its entries are."""
    return round(64 * math.sqrt(2) * math.cos(math.pi * k * (2 * n + 1) / (2 * side))) if k else 64


def side_2_restored():
    """What the transform makes of residuals of side 2, eight times their sums and differences: the residuals come out
    again."""
    for r in ([1023] * 4, [-1023] * 4, [1023, -1023, 1023, -1023], [1023, 1023, -1023, -1023],
              [-1023, 1023, 1023, -1023], [1023, 0, 0, 0], [0, 0, 0, -1023], [1, 0, 0, 0], [0, -1, 0, 0], [0, 0, 1, 0],
              [1, 2, 3, 4], [-4, 3, -2, 1], [511, -512, 7, 1000], [-1, -1, -1, -1], [0, 0, 0, 0]):
        a, b, c, d = r
        yield inverse([8 * t for t in (a + b + c + d, a - b + c - d, a + b - c - d, a - b - c + d)])


def refusals_of_the_inverse():
    """1 and 5: each by itself with its neighbours, both sides wrong, and both refusals at once. Sides whose low bits or
    whose sum would pass are refused with the rest; no sample is refused, in the block or behind it."""
    for log2 in (0, 1, 2, 5, 6, 7, 63, 64, 65, 2 ** 32 + 1, 2 ** 32 + 2, 2 ** 63, 2 ** 64 - 1):
        yield inverse([7, -9] * 64, log2, 1)
        yield inverse([7, -9] * 64, 1, log2)
        yield inverse([7, -9] * 8, log2, log2)
    yield inverse([1, 2, 3, 4], 2 ** 64 - 1, 3)
    yield inverse([1, 2], 1, 0)
    for lw, lh in ((1, 1), (2, 1), (1, 2), (2, 2), (3, 1), (1, 5), (5, 1)):
        n = 1 << lw + lh
        block = [(37 * i * i + 11 * i) % 401 - 200 for i in range(n)]
        for buffer in ([], block[:1], block[:n - 1], block, block + [1024], block + [-32768], block + EXTREMES):
            yield inverse(buffer, lw, lh)
    yield from (inverse(buffer, lw, lh) for buffer, lw, lh in (
        ([], 0, 0), ([9], 0, 1), ([9], 1, 6), ([9] * 3, 6, 6), ([-32768] * 3, 1, 1), ([-32768] * 3, 0, 1),
        ([-32768] * 4, 1, 6), ([], 6, 1), ([9] * 7, 2, 1), ([9] * 7, 1, 2)))


def a_picture_decoded():
    """What a coded picture comes to: levels scaled back, in each component's QP, and then the inverse transform."""
    y = put(256, {0: 31, 1: -7, 2: 2, 16: 9, 17: -1, 18: 1, 32: -3, 48: 1, 5: 1, 80: -1})
    for qp in (22, 27, 34, 45):
        yield scaleback(y, 4, qp)
        scale = SCALES_BACK[qp % 6] << qp // 6
        yield inverse([(c * scale + 16) >> 5 for c in y], 4, 4)
        yield inverse([(c * scale + 16) >> 5 for c in y], 5, 3)
        yield inverse([(c * scale + 16) >> 5 for c in y], 3, 5)


def malformed_in_the_viewers_half():
    """The same as of the other verbs; words that look like the two; N of 8192 and 8193; other verbs' fields."""
    yield from spaces(GOOD_VIEWER)
    yield from like_a_verb(GOOD_VIEWER)
    for verb in (b"scale", b"scale-back", b"scale_back", b"scale back", b"scaleBack", b"backscale", b"rescale",
                 b"dequantise", b"scaleback4", b"scaleback-least"):
        yield replaced(GOOD_VIEWER[b"scaleback"], 0, verb)
    for verb in (b"inverse-transform", b"inverse_transform", b"inverse transform", b"transform inverse",
                 b"inversetrans", b"itransform", b"inv", b"inverse2", b"residuals", b"inverse-least"):
        yield replaced(GOOD_VIEWER[b"inverse"], 0, verb)
    yield from like_a_number(GOOD_VIEWER)
    yield from missing_and_more(GOOD_VIEWER)
    for verb in GOOD_VIEWER:
        for other in GOOD:
            yield verb + b" " + GOOD[other].split(b" ", 1)[1]
            yield other + b" " + GOOD_VIEWER[verb].split(b" ", 1)[1]
    for n in (8191, 8192, 8193):
        yield scaleback([3, -2, 0, 7] + [5] * (n - 4))
        yield inverse([80, -16, -32, 0] + [-32768] * (n - 4))
    yield from GOOD_VIEWER.values()


def last():
    """The file's last line, which has no newline behind it."""
    return quantise([200, 100, 60, 33, -32768], component=1, costs=MIXED)


SECTIONS = [
    the_papers_numbers, run_only, exact_halves, sides, lambdas, qps, cost_entries, lengths, samples, levels, prices,
    widest_prices, distortions, order_of_the_quantiser,
    order_of_the_transform, order_of_three_components, late_refusals_of_three_components, masks, nothing_run, flags,
    thresholds, contexts, scans, ties,
    cuts, lowered, negative_errors, wide_rates, spaces, verbs, numbers_in_every_field, lambdas_in_hex, missing_and_more,
    most_samples, long_lines,
    refusals_of_the_second_mode, what_runs_in_the_second_mode, the_walks_choices_in_the_second_mode,
    where_the_walk_is_dearer, ties_of_the_second_mode,
    levels_at_equal_price, close_prices, malformed_in_the_second_mode,
    bits_of_flags, flags_not_read, two_flags, verbs_with_least, longest_requests,
    numbers_of_the_viewers_half, a_scale_for_each_qp, halves_scaled_back, scaled_back_to_the_limits,
    refusals_of_scaling_back, one_coefficient, many_coefficients, clipped_residuals, side_2_restored,
    refusals_of_the_inverse, a_picture_decoded, malformed_in_the_viewers_half,
]


def requests():
    """(section's name, line) of every request, in the file's order."""
    return [(section.__name__.replace("_", " "), line) for section in SECTIONS for line in section()]
