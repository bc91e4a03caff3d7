"""Requests of the guarded call and of measure, made by hand and drawn by chance: every limit with its neighbour, each
candidate, each order of two refusals, malformed lines."""
from vectors.by_chance import RESIDUALS, Random, surplus, usual_costs
from vectors.by_hand import (GOOD, LARGEST, MIXED, NAN, PAST, PICTURE, lambdas_in_hex, like_a_number, like_a_verb,
                             missing_and_more, only, spaces)
from vectors.lines import CODED, FLAT, SLICE, USUAL, guarded, least, measure, put, replaced

ANY = 2 ** 32 - 1
# a light stroke on dark ground, of luma 4×4
STROKE = [0, 0, 0, 0, 0, 300, 0, 0, 0, 300, 0, 0, 0, 300, 0, 0]
CHROMA = [60, 20, -30, 5] + [-50, 40, 10, -5]
# much is taken away at these
COARSE = dict(qp=(46, 46, 46), d=(2000.0,) * 3)
GOOD_GUARDED = {
    b"guarded": guarded(PICTURE, heights=(500, 501, 502, 503, 504, 505)),
    b"measure": measure([100, 98, -40, 5], [3, -1, 4, 1], qp=34),
}


def heights(darker=ANY, lighter=ANY):
    """The same of Y, U and V."""
    return (darker,) * 3 + (lighter,) * 3


def patterned(n, seed, most):
    return [(seed * i * i + 7919 * i + 31 * seed) % (2 * most + 1) - most for i in range(n)]


# ---- measure

def numbers_of_measure():
    """Both extremes, each alone, and none; a block of zeros; the farthest that two samples of 16 bits can be; levels of
    every side, of pictures and without a period; residuals that no camera has; flags that mean nothing."""
    yield measure([100, 98, -40, 5], [3, -1, 4, 1], qp=34)
    yield from (measure([r] * 4, [1, 0, 0, 0]) for r in (-7, 0, 1, 2, 3, 4, 9))
    yield from (measure(put(4, {p: r}), [0] * 4) for p in range(4) for r in (-5, 5, 32767, -32768))
    yield from (measure([r] * 4, [c] * 4, qp=63) for r in (32767, -32768) for c in (32767, -32768, 1, 0))
    for log2 in range(1, 6):
        n = 1 << 2 * log2
        for qp in (0, 7, 22, 34, 46, 63):
            levels = [c // (1 + i % 9) for i, c in enumerate(patterned(n, 3 + qp, 40))]
            yield measure(patterned(n, 5 + qp, 1023), levels, log2, qp)
            yield measure(patterned(n, 11 + qp, 600), put(n, {0: 9, 1: -3, n // 2: 1}), log2, qp, flags=qp << 3)
        # one sample is off alone, in the first place, the last, and the last of a row
        for p in (0, (1 << log2) - 1, n - 1):
            yield from (measure(put(n, {p: r}), [0] * n, log2, 22) for r in (77, -77))
    yield from (measure([9, 9, 9, 9], [0, 0, 0, 0], flags=f) for f in (0, 1, 2, 4, 8, 16, 2 ** 32 - 1))


def refusals_of_measure():
    """1, 2 and 5: each by itself with its neighbours, of either list, and every two and all three at once; what lies
    behind either block is not looked at. RESIDUALS past N takes all."""
    for log2 in (0, 1, 2, 3, 5, 6, 7, 63, 64, 65, 2 ** 32 + 1, 2 ** 63, 2 ** 64 - 1):
        yield measure([5, -6, 7, -8] * (256 if log2 == 5 else 16), [1, 0, -1, 2] * (256 if log2 == 5 else 16), log2)
    for qp in (62, 63, 64, 65, 127, 255, 256, 260, 2 ** 31, 2 ** 32 - 1):
        yield measure([5, -6, 7, -8], [1, 0, -1, 2], qp=qp)
    for r in range(6):
        for c in range(6):
            yield measure([5, -6, 7, -8, 99, -99][:r], [1, 0, -1, 2, 99, -99][:c])
    yield from (measure([9] * r, [9] * c, log2, qp) for r, c, log2, qp in (
        (3, 4, 0, 64), (4, 3, 6, 64), (3, 4, 1, 64), (4, 3, 1, 64), (4, 4, 0, 64), (3, 3, 6, 4), (0, 0, 1, 4),
        (0, 0, 0, 64), (15, 16, 2, 63), (16, 15, 2, 63), (16, 16, 2, 63)))
    yield from (measure([5, -6, 7, -8], [1, 0, -1, 2], lent=m) for m in (
        0, 3, 4, 5, 8, 9, 2 ** 32 + 4, 2 ** 63, 2 ** 64 - 1))


# ---- the guarded call

def heights_and_their_neighbours():
    """At heights that nothing exceeds, the unguarded block; at an extreme and one less, of either side, of each
    component; each candidate in its turn; and with 0."""
    block = STROKE + CHROMA
    for flags in (SLICE | CODED, SLICE | CODED | 4):
        yield guarded(block, heights=heights(), flags=flags, **COARSE)
        for h in (33791, 300, 299, 200, 150, 120, 100, 90, 80, 70, 60, 50, 40, 30, 20, 16, 12, 10, 8, 6, 4, 3, 2, 1, 0):
            yield guarded(block, heights=heights(h, h), flags=flags, **COARSE)
            yield guarded(block, heights=heights(darker=h), flags=flags, **COARSE)
            yield guarded([-r for r in block], heights=heights(lighter=h), flags=flags, **COARSE)
    # past 16 bits and past a sign
    for h in (65536, 65546, 2 ** 31, 2 ** 31 + 10, 2 ** 32 - 1):
        yield guarded(block, heights=heights(h, h), **COARSE)
    for at in range(6):
        for h in (0, 5, 25, 50, 60, 61):
            yield guarded(block, heights=tuple(h if i == at else ANY for i in range(6)), **COARSE)


def extremes_of_each_component():
    """Blocks whose extremes are all different: an answer or a height of another component shows."""
    block = patterned(64, 3, 500) + patterned(16, 5, 250) + patterned(16, 7, 120)
    for qp in (34, 40, 46, 52):
        for more in ((0, 0, 0, 0, 0, 0), (9, 0, 0, 0, 0, 0), (0, 0, 9, 0, 0, 0), (0, 0, 0, 0, 9, 0),
                     (50, 40, 30, 20, 10, 5)):
            at = (170, 110, 60, 180, 120, 70)
            line = guarded(block, 3, qp=(qp, qp - 3, qp - 6), d=(400.0, 300.0, 200.0), costs=MIXED,
                           heights=tuple(a - m for a, m in zip(at, more)))
            yield from (line, least(line))


def what_is_put_back():
    """Places in scan order, which is not the block's: strokes along rows, columns and diagonals, of each side, at
    heights that fall until none fits."""
    ladders = {2: (250, 180, 120, 80, 50, 25), 3: (250, 180, 120, 80, 50), 4: (200, 120, 80), 5: (160, 90)}
    for log2, ladder in ladders.items():
        side = 1 << log2
        for stroke in (lambda x, y: x == 1, lambda x, y: y == side - 1, lambda x, y: (x + 2 * y) % 5 == 0):
            luma = [420 if stroke(i % side, i // side) else -35 for i in range(side * side)]
            for h in ladder:
                yield guarded(luma + [0] * (side * side // 2), log2, 1, heights=heights(h, h), qp=(44,) * 3,
                              d=(900.0,) * 3)


def skipped_blocks_put_back():
    """A block that the skip clears has levels of 1 put back where m is 1: one coefficient below the threshold and past
    half a step."""
    for r in (15, 16, 17, 18, 20, 22, 23):
        for h in (8, 9, 10, 11, 12, 13, 14, 15, 16, 17, 19, 20, 22):
            yield guarded([r] * 16 + [0] * 8, 2, 1, heights=heights(h, h), qp=(46,) * 3, flags=0)
    # m is 0 everywhere: nothing to put back
    yield from (guarded([1] * 16 + [0] * 8, 2, 1, heights=heights(h, h), qp=(40,) * 3) for h in (0, 1, 2))


def dear_candidates():
    """Levels put back that cost 2^62 and more: such a candidate is passed over, and where only it is near enough the
    call is refused. One unit of rate decides."""
    spread = [1023 * (1 if bit == "1" else -1) for bit in "1101001110001011"]
    for h in (2000, 1100, 1000, 800, 700, 600, 500, 400, 300, 200, 100, 50, 20, 8, 4):
        for entry in (1048576, 700000):
            table = [0] * 28
            table[11] = entry
            yield guarded(spread + [0] * 8, 2, 1, qp=(0,) * 3, d=(8192.0,) * 3, heights=heights(h, h), costs=table)
    # 2^64 and a little more
    wide = [1023 if (i * i * 7 + i * 3) % 11 < 5 else -1023 for i in range(64)]
    for h in (1100, 600, 300, 150, 60, 20, 8, 4, 2, 1):
        for entry in (1048576, 1000000, 950000, 900000, 850000, 800000, 750000):
            table = [0] * 28
            table[11] = entry
            yield guarded(wide + [0] * 32, 3, 1, qp=(0,) * 3, d=(8192.0,) * 3, heights=heights(h, h), costs=table)


def dearer_than_a_later_one():
    """Candidates that fit although one behind them is cheaper: the first is written."""
    r = Random(0x3c6ef372fe94f82b)
    for _ in range(900):
        table, lambda_ = [r.of((0, 200000, 1048576)) for _ in range(28)], r.of((0.2, 1.0, 4.0))
        residuals, h = [r.between(-160, 160) for _ in range(16)], r.of((12, 25, 40))
        line = guarded(residuals + [0] * 8, 2, 1, qp=(28,) * 3, d=(lambda_,) * 3, heights=heights(h, h), costs=table)
        if r.once_in(30):
            yield line


def order_of_the_guarded_call():
    """15 behind 9 of its component, before 7 of the next; all earlier refusals before it; components that are not run
    have none."""
    far, none = patterned(16, 3, 900), heights(0, 0)
    block = far + patterned(8, 5, 900)
    coarse = dict(qp=(50,) * 3, d=(100.0,) * 3)
    for run in range(8):
        yield guarded(block, run=run, heights=none, **coarse)
        yield guarded(block, run=run + 8, heights=(0, ANY, 0, 0, ANY, 0), **coarse)
        yield guarded(block, run=run, heights=(ANY, 0, ANY, ANY, 0, ANY), **coarse)
    # 8 of each component, with heights that none fits and with any
    for k, log2 in ((0, 4), (1, 5), (2, 5)):
        flat = [1023] * (3 << 2 * log2 - 1)
        for h in (none, heights()):
            yield guarded(flat, log2, qp=only(k, 0, 50), d=only(k, 8192.0, USUAL), heights=h)
    # 7 of luma of side 32, alone and with 15 of each
    bright = [1000 + v for v in patterned(1024, 3, 23)] + patterned(512, 5, 900)
    yield from (guarded(bright, 5, run, qp=(0, 50, 50), heights=none) for run in (1, 3, 7, 6, 4))
    faults = [dict(log2=1), dict(log2=6), dict(qp=(64, 50, 50)), dict(qp=(50, 50, 64)), dict(d=(NAN, 1.0, 1.0)),
              dict(d=(1.0, 1.0, -1.0)), dict(costs=PAST)]
    for fault in faults:
        yield guarded(block, heights=none, **{**coarse, **fault})
    yield guarded(block[:-1], heights=none, **coarse)
    yield guarded(block[:-1] + [1024], heights=none, **coarse)
    yield guarded([1024] + block[1:], heights=none, **coarse)
    yield guarded(block + [1024, -32768], heights=none, **coarse)
    yield guarded(block + [1024, -32768], heights=heights(), **coarse)


def what_the_guarded_call_leaves():
    """A component that is not run keeps its residuals and answers 0 four times; the surplus stays; a refusal of V
    leaves Y and U as they were."""
    for run in range(8):
        yield guarded(PICTURE + [7, -32768, 32767], run=run, heights=heights(40, 40), qp=(34, 35, 36), costs=MIXED)
        yield guarded(PICTURE, run=run, heights=(60, 60, 0, 60, 60, 0), qp=(40, 40, 40))


def malformed_guarded():
    """The same as of the other verbs; words that look like the two; other verbs' fields."""
    yield from list(spaces(GOOD_GUARDED))[::2]
    yield from like_a_verb(GOOD_GUARDED)
    for verb in (b"guard", b"guarded-", b"guarded_sub_block", b"guardedsubblock", b"guarded subblock",
                 b"subblock-guarded", b"measured", b"measures", b"meas", b"guardian"):
        yield replaced(GOOD_GUARDED[b"measure" if verb.startswith(b"m") else b"guarded"], 0, verb)
    yield from list(like_a_number(GOOD_GUARDED))[::3]
    yield from list(lambdas_in_hex(GOOD_GUARDED))[::5]
    yield from list(missing_and_more(GOOD_GUARDED))[::2]
    for verb in GOOD_GUARDED:
        for other in GOOD:
            yield verb + b" " + GOOD[other].split(b" ", 1)[1]
            yield other + b" " + GOOD_GUARDED[verb].split(b" ", 1)[1]
    for n in (8191, 8192, 8193):
        yield guarded(PICTURE + [5] * (n - 24), heights=heights(9, 9))
        yield measure([3, -2, 0, 7] + [5] * (n // 2 - 4), [1] * (n - n // 2))
    yield from GOOD_GUARDED.values()


SECTIONS = [
    numbers_of_measure, refusals_of_measure, heights_and_their_neighbours, extremes_of_each_component, what_is_put_back,
    skipped_blocks_put_back, dear_candidates, dearer_than_a_later_one, order_of_the_guarded_call,
    what_the_guarded_call_leaves, malformed_guarded,
]


def by_hand():
    """(section's name, line) of every request, in the file's order."""
    return [(section.__name__.replace("_", " "), line) for section in SECTIONS for line in section()]


# ---- by chance

def a_guarded(r, log2):
    side = 1 << log2
    parts = [r.of(RESIDUALS)(r, s, s) for s in (side, side // 2, side // 2)]
    residuals = [max(-1023, min(1023, v)) for part in parts for v in part]
    qp = tuple(r.between(10, 56) for _ in range(3))
    lambdas = tuple(min(8192.0, r.of((0.3, 1.0, 5.0, 30.0)) * 0.57 * 2 ** ((q - 24) / 3)) for q in qp)
    most = r.of((10, 60, 200, 800))
    held = tuple(r.of((ANY, r.below(most), r.below(most), most)) for _ in range(6))
    run, flags = r.of((7, 7, 7, 1, 2, 4, 3, 5, 6, 0)), r.below(8)
    table = r.of((FLAT, MIXED, usual_costs(r)))
    if r.once_in(12):
        fault = r.below(4)
        log2 = r.of((0, 1, 6, 64 + log2)) if fault == 0 else log2
        qp = (qp[0], r.of((64, 300)), qp[2]) if fault == 1 else qp
        residuals = residuals[:-r.between(1, 5)] if fault == 2 else residuals
        residuals[r.below(len(residuals))] = r.of((1024, -1024)) if fault == 3 else residuals[0]
    return guarded(residuals + surplus(r), log2, run, qp, lambdas, flags, held, table)


def a_measure(r, turn, log2):
    n, qp = 1 << 2 * log2, turn % 64
    residuals = r.of(RESIDUALS)(r, 1 << log2, 1 << log2)
    most = r.of((1, 8, 100, 32767))
    levels = [r.between(-most, most) if r.once_in(r.of((1, 4, 20))) else 0 for _ in range(n)]
    if r.once_in(9):
        residuals, levels = r.of(((residuals[:-1], levels), (residuals, levels[:-1]), ([], levels), (residuals, [])))
    return measure(residuals, levels + surplus(r), log2, qp)


# how many of each side
GUARDEDS = {2: 220, 3: 140, 4: 40, 5: 12}
MEASURES = {1: 80, 2: 80, 3: 64, 4: 20, 5: 8}


def by_chance():
    r = Random(0x6a09e667f3bcc909)
    lines = [a_guarded(r, log2) for log2, count in GUARDEDS.items() for _ in range(count)]
    turn = 0
    for log2, count in MEASURES.items():
        for _ in range(count):
            lines.append(a_measure(r, turn, log2))
            turn += 1
    return lines
