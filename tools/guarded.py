"""The guarded call and measure once more, in another way than tools/paper.py's: its answers to requests that are not
refused before 15 must be these (tools/record).

Decoded is by tools/viewer.py, which has no table in common with the model. The block that the mode writes is not worked
out here: it is what the same request without heights is answered, which of the first mode the Rust that was ported
says. m is the nearest whole number to |c|·q/2^b as a fraction, the coefficients are by viewer.py's matrices, and the
candidates are made from the block by rows, a level at a time along the scan: what is put back once is never taken back.
What candidates cost is the model's.
"""
import math, struct
from fractions import Fraction
import viewer
from paper import Block, Costs, Paper

SCALES = [26214, 23302, 20560, 18396, 16384, 14564]


def coefficients(residuals, log2):
    side = 1 << log2
    rows = [residuals[i:i + side] for i in range(0, side * side, side)]
    sums = viewer.product(viewer.product(viewer.matrix(side), rows), viewer.transposed(viewer.matrix(side)))
    return [math.floor(Fraction(value, 1 << 7 + 2 * log2) + Fraction(1, 2)) for row in sums for value in row]


def along(side):
    """Rows and columns in scan order: by the diagonal, then by the column, upwards or downwards in turn."""
    places = [(x, y) for y in range(side) for x in range(side)]
    return sorted(places, key=lambda p: (sum(p), p[0] if sum(p) % 2 == 0 else -p[0]))


def extremes(residuals, levels, log2, qp):
    side = 1 << log2
    decoded = viewer.inverse(viewer.scaled_back(levels, log2, qp), side, side)
    apart = sorted(r - d for r, d in zip(residuals, decoded))
    return max(apart[-1], 0), max(-apart[0], 0)


def price(residuals, levels, log2, component, qp, d, flags, costs):
    """The model's, of levels by rows."""
    block = Block(Paper(), coefficients(residuals, log2), log2, component, qp, d, flags & 1 == 1, flags & 2 == 2, costs)
    return block.price([abs(levels[p]) for p in block.places])


def component(residuals, free, log2, k, qp, d, flags, costs, darker, lighter):
    """Count, price, extremes and levels of a component whose unguarded levels are `free`, or nothing."""
    side, spectrum, levels = 1 << log2, coefficients(residuals, log2), list(free)
    b = 19 - log2 + qp // 6
    places = along(side)
    for size in [0] + [2 ** i for i in range(2 * log2 + 1)]:
        for x, y in places[size // 2:size]:
            c = spectrum[y * side + x]
            m = math.floor(Fraction(abs(c) * SCALES[qp % 6], 1 << b) + Fraction(1, 2))
            levels[y * side + x] = m if c >= 0 else -m
        cost = price(residuals, levels, log2, k, qp, d, flags, costs)
        far = extremes(residuals, levels, log2, qp)
        if cost < 2 ** 62 and far[0] <= darker and far[1] <= lighter:
            return side * side - levels.count(0), cost, *far, levels


def answer(request, unguarded):
    """Of a request of the guarded call, by the answer to it without heights, where that is accepted."""
    words = request.split(b" ")
    luma, run = int(words[1]), int(words[2])
    qp, d = [int(w) for w in words[3:9:2]], [f64(w) for w in words[4:10:2]]
    flags, heights = int(words[9]), [int(w) for w in words[10:16]]
    costs, samples = Costs([int(w) for w in words[16:44]]), [int(w) for w in words[45:]]
    free, after, found, at = [int(w) for w in unguarded.split(b" :")[1].split()], list(samples), [], 0
    for k in range(3):
        log2 = luma if k == 0 else luma - 1
        end = at + (1 << 2 * log2)
        told = (0, 0, 0, 0, samples[at:end])
        if run >> k & 1:
            told = component(
                samples[at:end], free[at:end], log2, k, qp[k], d[k], flags, costs, heights[k], heights[3 + k])
            if told is None:
                return b" ".join([b"refused 15 %d :" % k] + [b"%d" % v for v in samples])
        *numbers, after[at:end] = told
        found.append(numbers)
        at = end
    numbers = [n for f in found for n in f[:2]] + [f[2] for f in found] + [f[3] for f in found]
    return b" ".join([b"accepted"] + [b"%d" % n for n in numbers] + [b":"] + [b"%d" % v for v in after])


def f64(word):
    return struct.unpack(">d", bytes.fromhex(word.decode()))[0]


def measured(request):
    """Of a request of measure that is accepted."""
    log2, qp, _, lent, _, *samples = [int(w) for w in request.split(b" ")[1:]]
    n = 1 << 2 * log2
    darker, lighter = extremes(samples[:lent][:n], samples[lent:][:n], log2, qp)
    return b" ".join([b"accepted %d %d :" % (darker, lighter)] + [b"%d" % v for v in samples])
