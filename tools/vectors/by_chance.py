"""Requests drawn from fixed seeds: every shape, QP, component and flag, with blocks and tables of many kinds; those of
the second mode come next to last, those of the viewer's half last. Most are small; of side 32 there are a few dozen.
About one in seven is refused."""
import math
from vectors.lines import BELOW_HALF, CODED, SLICE, inverse, least, quantise, scaleback, subblock, transform

SCALES = [26214, 23302, 20560, 18396, 16384, 14564]
NANS = ["7ff8000000000000", "fff8000000000000", "7ff0000000000001", "ffffffffffffffff"]
FAR_LAMBDAS = [math.nextafter(8192, 9000), 1e9, -1.0, -5e-324, "7ff0000000000000", "fff0000000000000"]


class Random:
    """A generator of its own, so that the requests stay the same wherever they are made."""

    def __init__(self, seed):
        self.state = seed

    def next(self):
        s = self.state
        s ^= s << 13 & (1 << 64) - 1
        s ^= s >> 7
        s ^= s << 17 & (1 << 64) - 1
        self.state = s
        return s >> 11

    def below(self, n):
        return self.next() % n

    def between(self, low, high):
        return low + self.below(high - low + 1)

    def of(self, choices):
        return choices[self.below(len(choices))]

    def once_in(self, n):
        return self.below(n) == 0


# ---- residuals

def whole_range(r, w, h):
    return [r.between(-1023, 1023) for _ in range(w * h)]


def small(r, w, h):
    return [r.between(-20, 20) for _ in range(w * h)]


def limits(r, w, h):
    return [r.of((1023, -1023)) for _ in range(w * h)]


def sparse(r, w, h):
    return [r.between(-1023, 1023) if r.once_in(12) else 0 for _ in range(w * h)]


def text(r, w, h):
    """Dark strokes on light ground."""
    pitch, width, ink = r.between(4, 9), r.between(1, 3), r.between(300, 800)
    stroke = lambda x, y: (x + y // 3) % pitch < width or y % (2 * pitch) < width
    return [(-ink if stroke(x, y) else ink // 4) + r.between(-6, 6) for y in range(h) for x in range(w)]


def ramp(r, w, h):
    slope, tilt = r.between(-60, 60), r.between(-60, 60)
    return [slope * (8 * x // w - 4) + tilt * (8 * y // h - 4) + r.between(-2, 2) for y in range(h) for x in range(w)]


def level(r, w, h):
    return [r.of((1023, -1023, 1, -1, 512, 0))] * (w * h)


RESIDUALS = [whole_range, small, small, limits, sparse, sparse, text, text, ramp, ramp, level]


# ---- coefficients

def step(log2, qp):
    return (1 << (19 - log2 + qp // 6)) / SCALES[qp % 6]


def spectrum(r, side, unit):
    """Falling off from the corner, as a transformed picture does."""
    top = r.between(1, 60) * unit
    return [int(r.between(-100, 100) * top / (100 * (1 + x + y))) for y in range(side) for x in range(side)]


def full(r, side, unit):
    return [r.between(-32767, 32767) for _ in range(side * side)]


def few(r, side, unit):
    return [r.between(-32767, 32767) if r.once_in(side + 2) else 0 for _ in range(side * side)]


def about_a_step(r, side, unit):
    return [int(r.between(-3, 3) * unit / 2) + r.between(-1, 1) for _ in range(side * side)]


def halves(r, side, unit):
    """Whole and half steps: at QPs of a whole step they tie."""
    return [int(r.of((0, 0, 1, -1, 2, 3, -3, 4, 5, -7)) * unit / 2) for _ in range(side * side)]


def about_the_threshold(r, side, unit):
    return [r.of((1, -1)) * (int(unit * r.of((311, 359)) / 512) + r.between(-1, 1)) if r.once_in(side)
            else r.between(-2, 2) for _ in range(side * side)]


def small_ones(r, side, unit):
    return [r.between(-40, 40) for _ in range(side * side)]


COEFFICIENTS = [spectrum, spectrum, full, few, about_a_step, about_a_step, halves, about_the_threshold, small_ones]


# ---- settings

def usual_costs(r):
    return [4096 + r.below(160000) for _ in range(28)]


def equal_costs(r):
    return [r.of((0, 1, 32768, 32768, 1048576))] * 28


def extreme_costs(r):
    return [r.of((0, 1, 1048576)) for _ in range(28)]


def one_large(r):
    table = [r.below(2000)] * 28
    table[r.below(28)] = r.between(500000, 1048576)
    return table


def even_costs(r):
    """Multiples of 8192: at exact errors they tie."""
    return [8192 * r.below(24) for _ in range(28)]


def any_costs(r):
    return [r.below(1048577) for _ in range(28)]


COSTS = [usual_costs, usual_costs, equal_costs, extreme_costs, one_large, even_costs, even_costs, any_costs]


def usual_lambda(r, qp):
    """Three QPs double it, up to the largest that is accepted."""
    return min(8192.0, math.ldexp(r.of((584, 735, 927)), qp // 3 - 14))


LAMBDAS = [
    lambda r, qp: 0.0,
    lambda r, qp: r.of((-0.0, 5e-324, BELOW_HALF, 0.5 / 32768, 1 / 32768)),
    lambda r, qp: r.of((1 / 1024, 1 / 256, 1 / 64)),
    usual_lambda,
    usual_lambda,
    lambda r, qp: usual_lambda(r, qp) / 64,
    lambda r, qp: (r.below(400) + r.of((0.25, 0.5, 0.75))) / 32768,
    lambda r, qp: r.below(1 << 20) / 4096,
    lambda r, qp: r.of((8192.0, 4096.0, 1000.5)),
]


def surplus(r):
    return [r.of((-32768, 32767, 1024, 0, r.between(-32768, 32767)))
            for _ in range(r.between(1, 6))] if r.once_in(6) else []


def flags(r):
    """Intra slice and intra-coded, each in two of three requests."""
    return SLICE * r.of((0, 1, 0, 1, 1, 1)) | CODED * r.of((0, 1, 0, 1, 1, 1))


# ---- requests

def a_transform(r, lw, lh):
    block = r.of(RESIDUALS)(r, 1 << lw, 1 << lh) + surplus(r)
    if r.once_in(8):
        fault = r.below(4)
        if fault == 0:
            return transform(block, *r.of(((0, lh), (lw, 0), (6, lh), (lw, 6), (lw + 32, lh))))
        if fault == 1:
            return transform(block[:r.below(1 << (lw + lh))], lw, lh)
        block[r.below(1 << (lw + lh))] = r.of((1024, -1024, 32767, -32768))
    return transform(block, lw, lh)


def a_quantise(r, turn, log2):
    component, qp, n = turn % 3, turn // 3 % 64, 1 << 2 * log2
    kind = r.of(COEFFICIENTS)
    if kind is halves and not r.once_in(3):
        qp = min(qp // 6 * 6 + 4, 58)
    table, d = r.of(COSTS)(r), r.of(LAMBDAS)(r, qp)
    block = [max(-32767, min(32767, c)) for c in kind(r, 1 << log2, step(log2, qp))] + surplus(r)
    given = {"log2": log2, "component": component, "qp": qp, "d": d, "flags": flags(r), "costs": table}
    if r.once_in(8):
        spoil(r, r.of((3, 4, 5, 6, 6)), given, block, n)
        if r.once_in(2):
            spoil(r, r.between(1, 4), given, block, n)
    return quantise(block, **given)


def spoil(r, number, given, block, n):
    """The fault of a refusal."""
    if number == 1:
        given["log2"] = r.of((0, 6, 64 + given["log2"]))
    elif number == 2:
        given["qp"] = r.of((64, 70, 256 + given["qp"]))
    elif number == 3:
        given["d"] = r.of(NANS + FAR_LAMBDAS)
    elif number == 4:
        given["costs"][r.below(28)] = r.of((1048577, 2 ** 32, 2 ** 64 - 1))
    elif number == 5:
        del block[r.below(n):]
    else:
        block[r.below(n)] = -32768


def a_subblock(r, turn, luma):
    qp = [(turn * 5 + 11 * k) % 64 if r.once_in(2) else (turn * 5) % 64 for k in range(3)]
    d = [r.of(LAMBDAS)(r, q) for q in qp]
    run = r.of((7, 7, 7, 7, 7, r.below(8), r.below(16), r.next() & 0xffffffff))
    table, at, buffer = r.of(COSTS)(r), [], []
    for k in range(3):
        side = 1 << (luma - (k != 0))
        at.append(len(buffer))
        buffer += r.of(RESIDUALS)(r, side, side)
    n = len(buffer)
    buffer += surplus(r)
    for k in range(3):
        if run >> k & 1 == 0 and r.once_in(2):
            qp[k], d[k], buffer[at[k]] = r.of((64, 2 ** 32 - 1)), r.of(NANS + FAR_LAMBDAS), r.of((1024, -32768))
    log2, some = luma, r.below(3)
    if r.once_in(7):
        fault = r.below(6)
        if fault == 0:
            log2 = r.of((0, 1, 6, 64 + luma))
        elif fault == 1:
            qp[some] = r.of((64, 100, 256))
        elif fault == 2:
            d[some] = r.of(NANS + FAR_LAMBDAS)
        elif fault == 3:
            table[r.below(28)] = r.of((1048577, 2 ** 32, 2 ** 64 - 1))
        elif fault == 4:
            del buffer[r.below(n):]
        else:
            buffer[at[some] + r.below(4)] = r.of((1024, -1024, 32767, -32768))
    return subblock(buffer, log2, run, qp, d, flags(r), table)


def late(r):
    """Refusals 7, 8 and 9, which chance alone seldom meets, and their neighbours that pass."""
    for qp in (0, 1, 2, 3):
        block = [0] * 1024
        block[r.below(1024)] = r.of((1, -1)) * (int(32767.5 * step(5, qp)) + r.between(-2, 2))
        yield quantise(block, 5, component=qp % 3, qp=qp, costs=usual_costs(r))
    for turn in range(12):
        block = few(r, 8, 0)
        yield quantise(block, 3, component=turn % 3, qp=turn % 4, d=8192.0 - turn * 300, costs=usual_costs(r))
    for turn in range(6):
        far = r.between(15800, 16900)
        yield quantise([r.of((far, -far)) for _ in range(256)], 4, component=turn % 3, qp=turn * 9, d=0.25,
                       costs=usual_costs(r))
    for turn in range(6):
        y, u, v = text(r, 16, 16), r.of((level, ramp))(r, 8, 8), [r.of((1023, -1023))] * 64
        yield subblock(y + u + v, 4, 7, (22, 0, turn % 4), (1.0, 2.0, 8192.0 - turn * 1000), costs=usual_costs(r))
    for turn in range(2):
        yield subblock(limits(r, 32, 32)[:8] + [1023] * 1016 + ramp(r, 16, 16) + small(r, 16, 16), 5, 7,
                       (turn * 4, 30, 30), (1.0, 60.0, 60.0), costs=usual_costs(r))


def even_cuts(r, count):
    """A coefficient that is worth coding by exactly what its level and a flag cost, or by one unit of rate more or
    less: as the second level of a block the earlier cut wins at equal price, as the only one the empty block. Step and
    lambda are powers of two."""
    for turn in range(count):
        component, log2, qp, alone = turn % 3, r.between(1, 2), 6 * r.between(1, 4) + 4, r.once_in(2)
        whole, row = int(step(log2, qp)), 0 if component == 0 else 2
        over = r.between(1, whole // 2 - 1)
        # what 1 saves against 0, in units of rate at the least lambda that leaves at most 700,000 of them
        saved, lambda_ = 2 * over * whole << (16 + 2 * log2), 1
        while saved // lambda_ > 700000:
            lambda_ *= 2
        rest = saved // lambda_ - 32768
        run_0, level_0 = r.between(1, rest // 3), r.between(1, rest // 3)
        table = [r.below(3000)] * 28
        # with cbf 0 to choose from, run and level as they are, the flag takes the rest: last[.][1] alone, last[.][0]
        # behind another level
        table[20:] = [0] * 8
        table[2 * row], table[8 + 2 * row], table[16 + row + alone] = run_0, level_0, rest - run_0 - level_0 + r.of(
            (0, 0, -1, 1))
        block = [0] * (1 << 2 * log2)
        block[0], block[1] = (whole // 2 + over, 0) if alone else (4 * whole, whole // 2 + over)
        yield quantise(block, log2, component, qp, lambda_ / 32768, costs=table)


def tied(r, count):
    """Steps, lambdas and costs that are powers of two, coefficients of quarters of a step, and costs of a few times
    what the square of a quarter costs: most blocks are not the only ones of least price."""
    for turn in range(count):
        log2, k = r.of((1, 1, 1, 1, 2, 2, 2, 3, 3, 4)), r.between(2, 5)
        quarter = 1 << (3 - log2 + k)
        block = [r.of((1, -1)) * quarter * r.of((0, 0, 1, 2, 3, 3, 4, 5, 6, 6, 7, 10)) for _ in range(1 << 2 * log2)]
        table = [8192 * r.below(r.of((3, 6, 9))) for _ in range(28)]
        yield quantise(block + surplus(r), log2, turn % 3, 6 * k + 4,
                       r.of((2.0 ** (2 * k - 6), 2.0 ** (2 * k - 6), 0.0)), flags(r), table)


def second_mode(r):
    """Both calls of it: chance, late refusals, and equal prices."""
    for sides, one in ((LEAST_QUANTISES, a_quantise), (LEAST_SUBBLOCKS, a_subblock)):
        for turn, log2 in enumerate(log2 for log2, count in sides.items() for _ in range(count)):
            yield least(one(r, 5 * turn, log2))
    for line in [*late(r), *even_cuts(r, 30), *tied(r, 120)]:
        yield least(line)


def viewers_spectrum(r, n):
    """Many small and a few large ones, as they are read from a stream."""
    return [r.of((r.between(-3, 3), 0, 0, r.between(-40, 40), r.between(-500, 500))) for _ in range(n)]


def viewers_samples(r, n):
    """Levels or coefficients: of any 16 bits, small, few, at their limits, or falling off."""
    kind = r.below(5)
    if kind == 0:
        return [r.between(-32768, 32767) for _ in range(n)]
    if kind == 1:
        return [r.between(-20, 20) for _ in range(n)]
    if kind == 2:
        return [r.between(-32768, 32767) if r.once_in(8) else 0 for _ in range(n)]
    if kind == 3:
        return [r.of((-32768, 32767, 0, 1, -1)) for _ in range(n)]
    return viewers_spectrum(r, n)


def a_scaleback(r, turn, log2):
    qp, levels = turn % 64, viewers_samples(r, 1 << 2 * log2) + surplus(r)
    if r.once_in(8):
        fault, n = r.below(4), 1 << 2 * log2
        log2 = r.of((0, 6, 32 + log2, 64 + log2)) if fault in (0, 3) else log2
        qp = r.of((64, 70, 256 + qp)) if fault in (1, 3) else qp
        levels = levels[:r.below(n)] if fault in (2, 3) else levels
    return scaleback(levels, log2, qp)


def an_inverse(r, lw, lh):
    n = 1 << lw + lh
    block = viewers_samples(r, n) + surplus(r)
    if r.once_in(8):
        fault = r.below(3)
        block = block[:r.below(n)] if fault != 0 else block
        lw, lh = r.of(((0, lh), (lw, 0), (6, lh), (lw, 6), (lw + 32, lh), (lh, 64 + lw))) if fault != 1 else (lw, lh)
    return inverse(block, lw, lh)


def viewers_half(r):
    """Both calls of it."""
    for turn, log2 in enumerate(log2 for log2, count in SCALEBACKS.items() for _ in range(count)):
        yield a_scaleback(r, turn, log2)
    for lw in range(1, 6):
        for lh in range(1, 6):
            yield from (an_inverse(r, lw, lh) for _ in range(INVERSES[lw + lh]))


# how many of each side
TRANSFORMS = {2: 26, 3: 22, 4: 18, 5: 13, 6: 11, 7: 8, 8: 7, 9: 6, 10: 8}
QUANTISES = {1: 400, 2: 380, 3: 230, 4: 80, 5: 40}
SUBBLOCKS = {2: 380, 3: 240, 4: 80, 5: 30}
LEAST_QUANTISES = {1: 90, 2: 90, 3: 60, 4: 24, 5: 12}
LEAST_SUBBLOCKS = {2: 80, 3: 50, 4: 16, 5: 6}
SCALEBACKS = {1: 96, 2: 80, 3: 64, 4: 24, 5: 10}
INVERSES = {2: 26, 3: 20, 4: 16, 5: 12, 6: 10, 7: 8, 8: 6, 9: 5, 10: 6}


def requests():
    """Every line, in the file's order."""
    r, lines = Random(0x9e3779b97f4a7c15), []
    for lw in range(1, 6):
        for lh in range(1, 6):
            lines += [a_transform(r, lw, lh) for _ in range(TRANSFORMS[lw + lh])]
    for sides, one in ((QUANTISES, a_quantise), (SUBBLOCKS, a_subblock)):
        turn = 0
        for log2, count in sides.items():
            for _ in range(count):
                lines.append(one(r, turn, log2))
                turn += 1
    lines += [*late(r), *even_cuts(r, 60), *second_mode(Random(0xd1342543de82ef95))]
    return lines + list(viewers_half(Random(0x2545f4914f6cdd1d)))
