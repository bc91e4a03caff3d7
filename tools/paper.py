"""Document 01, document 02's run list, viewer's half and second mode (its tickets 1, 6 and 9), the guarded block and
the line protocol in Python's whole numbers, sentence by sentence. It shares nothing with the crates, and stands in for
nothing of theirs: recorded answers and the label's expected text are held against it.

    python3 tools/paper.py < requests     an answer line for each request line

Each rule of the paper is a method of its own, so that a wrong port is a class that changes one of them
(tools/wrong_ports.py).
"""
import functools, math, operator, re, struct, sys

Y, U, V = 0, 1, 2


@functools.cache
def products_back(th, tw, coefficients):
    """The inverse transform's sums, by rows: over v, u of T_h[v][y] · T_w[u][x] · coefficient(v, u). A coefficient of 0
    adds nothing and is passed over."""
    w, h = len(tw), len(th)
    terms = [(v, u, coefficients[v * w + u]) for v in range(h) for u in range(w) if coefficients[v * w + u]]
    return [sum(th[v][y] * tw[u][x] * c for v, u, c in terms) for y in range(h) for x in range(w)]


class Refused(Exception):
    def __init__(self, number, component):
        self.number, self.component = number, component


class Malformed(Exception):
    pass


class Costs:
    """28 entries: run 4 pairs, level 4, last 2, cbf 4 (all, luma, cb, cr)."""

    def __init__(self, entries):
        self.entries = entries
        self.run, self.level, self.last, self.cbf = (
            [entries[i:i + 2] for i in range(a, b, 2)] for a, b in ((0, 8), (8, 16), (16, 20), (20, 28)))


class Words:
    """The words of a request, taken one by one. `buffer` holds the samples and `listed` the symbols, where there is a
    list of them, for a refusal's answer."""
    WHOLE, BITS, LONGEST_LINE, MOST_SAMPLES = rb"0|-?[1-9][0-9]*", rb"[0-9a-f]{16}", 65535, 8192

    def __init__(self, line):
        self.words, self.at = self.split(line) if len(line) <= self.LONGEST_LINE else [], 0
        self.buffer, self.listed = [], None

    def split(self, line):
        return line.split(b" ")

    def word(self):
        if self.at == len(self.words):
            raise Malformed
        self.at += 1
        return self.words[self.at - 1]

    def whole(self, least, most):
        w = self.word()
        # no type's numbers have more than 20 digits
        if len(w) > 20 or not re.fullmatch(self.WHOLE, w) or not least <= int(w) <= most:
            raise Malformed
        return int(w)

    def component(self):
        return self.whole(0, 2)

    def log2(self):
        return self.whole(0, 2 ** 64 - 1)

    def u32(self):
        return self.whole(0, 2 ** 32 - 1)

    def flags(self):
        return self.u32()

    def f64(self):
        w = self.word()
        if not re.fullmatch(self.BITS, w):
            raise Malformed
        return struct.unpack(">d", bytes.fromhex(w.decode()))[0]

    def costs(self):
        return Costs([self.whole(0, 2 ** 64 - 1) for _ in range(28)])

    def sample(self):
        return self.whole(-32768, 32767)

    def symbol(self):
        return self.whole(0, 2 ** 32 - 1)

    def symbols(self):
        self.listed = [self.symbol() for _ in range(self.whole(0, self.MOST_SAMPLES))]
        return self.listed

    def most_samples(self):
        """A symbol takes the room of two."""
        return self.MOST_SAMPLES - 2 * len(self.listed or [])

    def samples(self):
        self.buffer = [self.sample() for _ in range(self.whole(0, self.most_samples()))]
        self.end()
        return self.buffer

    def end(self):
        if self.at != len(self.words):
            raise Malformed


class Block:
    """What a block is coded by, in scan order, and what levels of it cost."""

    def __init__(self, paper, coefficients, log2, component, qp, d, intra_slice, intra_coded, costs):
        self.paper, self.component, self.qp, self.costs, self.coefficients = paper, component, qp, costs, coefficients
        self.b, self.scale, self.lambda_ = paper.b(log2, qp), paper.error_scale(log2, qp), paper.lambda_of(d)
        self.places = paper.scan(1 << log2)
        self.scaled = [paper.scaled(coefficients[p], qp) for p in self.places]
        self.rounded = [paper.m(x, self.b) for x in self.scaled]
        self.skipped = paper.is_skipped(self, intra_slice, intra_coded)
        self.cbf, self.last = costs.cbf[paper.cbf_row(component, intra_coded)], costs.last[paper.last_row(component)]
        # the distortions of 0 from a place on; from place 0 that is D
        self.uncoded = [0]
        for p in reversed(range(len(self.scaled))):
            self.uncoded.append(self.uncoded[-1] + paper.zero_distortion(self, p))
        self.uncoded.reverse()

    def distortion(self, p, a):
        return self.paper.error(self.scaled[p] - (a << self.b), self.scale) ** 2

    def cost(self, p, a, before):
        return self.distortion(p, a) + self.lambda_ * self.paper.rate(a, self.component, before, self.costs)

    def empty_price(self):
        return self.uncoded[0] + self.lambda_ * self.paper.empty_flag(self.cbf)

    def cuts(self, levels):
        """The empty block, and the levels ended at each nonzero one: what each costs, and how many places it keeps."""
        found = [(self.empty_price(), 0)]
        spent, before = self.lambda_ * self.paper.coded_flag(self.cbf), self.paper.start()
        for p, a in enumerate(levels):
            spent += self.cost(p, a, before)
            if self.paper.may_end(a):
                found.append((spent + self.lambda_ * self.paper.last_flag(self.last) + self.uncoded[p + 1], p + 1))
            if a:
                spent += self.lambda_ * self.paper.more_flag(self.last)
            before = a
        return found

    def price(self, levels):
        """Of a finished block, whatever chose its levels."""
        nonzero = [p for p, a in enumerate(levels) if a]
        if not nonzero:
            return self.empty_price()
        end = nonzero[-1] + 1
        befores = [self.paper.start()] + levels
        places = sum(self.cost(p, levels[p], befores[p]) for p in range(end))
        flags = self.paper.coded_flag(self.cbf) + (len(nonzero) - 1) * self.paper.more_flag(
            self.last) + self.paper.last_flag(self.last)
        return places + self.uncoded[end] + self.lambda_ * flags


class Paper:
    Words = Words
    # what refusals 1, 2, 3, 4, 6, 7, 8 and 9 still let pass
    LEAST_SIDE, LEAST_LUMA, MOST_SIDE = 1, 2, 5
    QP, LAMBDA, COST = 63, 8192, 1048576
    RESIDUAL, COEFFICIENT, LEVEL, PRICE, DISTORTION = 1023, 32767, 32767, 1 << 41, 1 << 60

    # ---- transform
    # column 0 of T_32; every entry of every matrix follows from it
    COLUMN = [64, 90, 90, 90, 89, 88, 87, 85, 84, 82, 80, 78, 75, 73, 70, 67, 64, 61, 57, 54, 50, 47, 43, 39, 35, 30,
              26, 22, 18, 13, 9, 4]

    def entry(self, k, n):
        if k == 0:
            return 64
        a = (2 * n + 1) * k % 128
        if a > 64:
            a = 128 - a
        return self.COLUMN[a] if a < 32 else -self.COLUMN[64 - a]

    @functools.cache
    def matrix(self, log2):
        side = 1 << log2
        return [[self.entry(k * 32 // side, n) for n in range(side)] for k in range(side)]

    def first_stage(self, value, lw):
        return value

    def shift_right(self, value, bits):
        """Rounded, halves upward: flooring."""
        return (value + (1 << (bits - 1))) >> bits

    def coefficients(self, residuals, lw, lh):
        w, bits = 1 << lw, 7 + lw + lh
        product = lambda a, b: sum(map(operator.mul, a, b))
        rows = [residuals[i:i + w] for i in range(0, len(residuals), w)]
        staged = [[self.first_stage(product(t, row), lw) for row in rows] for t in self.matrix(lw)]
        return [self.shift_right(product(t, column), bits) for t in self.matrix(lh) for column in staged]

    # ---- the viewer's half: levels scaled back, and the inverse transform
    BACK = [40, 45, 51, 57, 64, 72]

    def s(self, qp):
        return self.BACK[qp % 6]

    def clip(self, value):
        """To 16 bits."""
        return max(-32768, min(32767, value))

    def coefficient_back(self, level, log2, qp):
        return self.clip((level * self.s(qp) * 2 ** (qp // 6) + 2 ** log2) >> (1 + log2))

    def coefficients_back(self, levels, log2, qp):
        return [self.coefficient_back(level, log2, qp) for level in levels]

    def residual(self, value):
        """Of a sum: one rounding."""
        return self.clip((value + 2 ** 16) >> 17)

    def residuals(self, coefficients, lw, lh):
        th, tw = (tuple(map(tuple, self.matrix(log2))) for log2 in (lh, lw))
        return [self.residual(value) for value in products_back(th, tw, tuple(coefficients))]

    # ---- quantiser: scales, skip, scan
    SCALES = [26214, 23302, 20560, 18396, 16384, 14564]

    def q(self, qp):
        return self.SCALES[qp % 6]

    def b(self, log2, qp):
        return 19 - log2 + qp // 6

    def scaled(self, c, qp):
        return abs(c) * self.q(qp)

    def m(self, scaled, b):
        return (scaled + (1 << (b - 1))) >> b

    def lambda_of(self, d):
        return math.floor(d * 32768.0 + 0.5)

    def error_scale(self, log2, qp):
        return (1 << (28 + log2)) // self.q(qp)

    def error(self, difference, scale):
        """Flooring, for negatives too."""
        return (difference * scale) >> 20

    def zero_distortion(self, block, p):
        return block.distortion(p, 0)

    def threshold(self, intra_slice, b):
        return (1 << b) - ((201 if intra_slice else 153) << (b - 9))

    def is_skipped(self, block, intra_slice, intra_coded):
        return all(x < self.threshold(intra_slice, block.b) for x in block.scaled)

    def skipped_price(self, block):
        return block.empty_price()

    def diagonal(self, d, side):
        """A diagonal's columns in scan order."""
        xs = [x for x in range(side) if 0 <= d - x < side]
        return xs[::-1] if d % 2 == 1 else xs

    @functools.cache
    def scan(self, side):
        return [(d - x) * side + x for d in range(2 * side - 1) for x in self.diagonal(d, side)]

    # ---- quantiser: rates
    SIGN = 32768

    def run_row(self, component):
        return 0 if component == Y else 2

    def level_row(self, component):
        return 0 if component == Y else 2

    def last_row(self, component):
        return 0 if component == Y else 1

    def cbf_row(self, component, intra_coded):
        if component == Y:
            return 1 if intra_coded else 0
        return 2 if component == U else 3

    def start(self):
        """What the first place counts as coming after."""
        return 1

    def run_context(self, component, before):
        return self.run_row(component) + (1 if before == 0 else 0)

    def rate(self, a, component, before, costs):
        k, j = self.run_context(component, before), self.level_row(component)
        if a == 0:
            return costs.run[k][1]
        if a == 1:
            return self.SIGN + costs.run[k][0] + costs.level[j][0]
        return self.SIGN + costs.run[k][0] + costs.level[j][1] + (a - 2) * costs.level[j + 1][1] + costs.level[j + 1][0]

    def empty_flag(self, cbf):
        return cbf[0]

    def coded_flag(self, cbf):
        return cbf[1]

    def more_flag(self, last):
        return last[0]

    def last_flag(self, last):
        return last[1]

    # ---- quantiser: walk, cut, price
    def allowed(self, m):
        """In the order in which ties prefer them."""
        return [0, m] + ([m - 1] if m >= 2 else [])

    def walk(self, block):
        levels, before = [], self.start()
        for p, m in enumerate(block.rounded):
            before = min(self.allowed(m), key=lambda a: block.cost(p, a, before))
            levels.append(before)
        return levels

    def may_end(self, a):
        return a != 0

    def cut(self, priced):
        """Of pairs (price, places kept), the empty block first: the first of least price."""
        return min(priced, key=lambda p: p[0])[1]

    def chosen(self, block):
        levels = self.walk(block)
        cut = self.cut(block.cuts(levels))
        return levels[:cut] + [0] * (len(levels) - cut)

    def price(self, block, levels):
        return block.price(levels)

    def count(self, block, levels):
        return sum(a != 0 for a in levels)

    # ---- quantiser: the cheapest block of all, in the second mode. A rate depends on the level before it only by
    # whether that is 0, so what may follow a place is known by two numbers: the least price of it after a 0 and after a
    # 1, which stands for every nonzero level.
    def in_order(self, m):
        """The magnitudes allowed, as the dictionary has them."""
        return sorted(set(self.allowed(m)))

    def ending(self, block, p):
        """What follows a nonzero level at place p that is the last one."""
        return block.lambda_ * self.last_flag(block.last) + block.uncoded[p + 1]

    def going_on(self, block, ahead):
        """What follows a nonzero level that is not the last one, at least."""
        return block.lambda_ * self.more_flag(block.last) + ahead[1]

    def goes_on(self, block, p, ahead):
        """At equal price the block ends: zeros come first."""
        return self.going_on(block, ahead) < self.ending(block, p)

    def least_with(self, block, p, a, before, ahead):
        """The least price of the magnitude a at place p and of what follows; with a 0, a nonzero level is still to
        come."""
        behind = min(self.ending(block, p), self.going_on(block, ahead)) if a else ahead[0]
        return block.cost(p, a, before) + behind

    def behind_the_last(self):
        """No nonzero level can come."""
        return math.inf, math.inf

    def ahead(self, block):
        """From each place on, after a 0 and after a 1: the least price of what has a nonzero level still to come. From
        behind forwards."""
        found = [self.behind_the_last()]
        for p, m in reversed(list(enumerate(block.rounded))):
            least = lambda before: min(self.least_with(block, p, a, before, found[-1]) for a in self.in_order(m))
            found.append((least(0), least(1)))
        return found[::-1]

    def is_coded(self, block, ahead):
        """At equal price the empty block is taken, which is the first of all."""
        return block.lambda_ * self.coded_flag(block.cbf) + ahead[self.start()] < block.empty_price()

    def cheapest(self, block):
        """Of all blocks of allowed magnitudes the one of least price, at equal price the first in dictionary order."""
        levels, before, ahead = [], self.start(), self.ahead(block)
        goes_on = self.is_coded(block, ahead[0])
        for p, m in enumerate(block.rounded):
            a = min(self.in_order(m), key=lambda a: self.least_with(
                block, p, a, before, ahead[p + 1])) if goes_on else 0
            goes_on = goes_on and (a == 0 or self.goes_on(block, p, ahead[p + 1]))
            levels.append(a)
            before = min(a, 1)
        return levels

    # ---- quantiser: the whole
    def coded(self, coefficients, *settings):
        """Count, price and levels of a block that refusals 1 to 6 let pass; settings as Block has them."""
        block = Block(self, coefficients, *settings)
        self.first_fault(self.late_tests(block.component, lambda: block))
        return self.finished(block)

    def finished(self, block, least=False):
        """The same of a block that all refusals let pass; least: in the second mode."""
        if block.skipped:
            return 0, self.skipped_price(block), self.cleared(block)
        levels = self.cheapest(block) if least else self.chosen(block)
        return self.count(block, levels), self.price(block, levels), self.laid(block, levels)

    def cleared(self, block):
        return [0] * len(block.coefficients)

    def laid(self, block, levels):
        """Magnitudes in scan order, by rows and with the coefficients' signs."""
        out = [0] * len(levels)
        for p, a in zip(block.places, levels):
            out[p] = -a if block.coefficients[p] < 0 else a
        return out

    # ---- the guarded block
    DEAR = 1 << 62

    def decoded(self, levels, log2, qp):
        return self.residuals(self.coefficients_back(levels, log2, qp), log2, log2)

    def darker(self, residuals, decoded):
        return max(0, max(r - d for r, d in zip(residuals, decoded)))

    def lighter(self, residuals, decoded):
        return max(0, max(d - r for r, d in zip(residuals, decoded)))

    def extremes(self, residuals, levels, log2, qp):
        decoded = self.decoded(levels, log2, qp)
        return self.darker(residuals, decoded), self.lighter(residuals, decoded)

    def written_by_mode(self, block, least):
        """The magnitudes, in scan order: the skip's zeros too."""
        return [0] * len(block.places) if block.skipped else self.cheapest(block) if least else self.chosen(block)

    def put_back(self, block, levels, p):
        """With the first p scan places put back to m."""
        return block.rounded[:p] + levels[p:]

    def counts_put_back(self, n):
        return [1 << i for i in range(n.bit_length())]

    def candidates(self, block, levels):
        return [levels] + [self.put_back(block, levels, p) for p in self.counts_put_back(len(levels))]

    def within(self, extremes, heights):
        return extremes[0] <= heights[0] and extremes[1] <= heights[1]

    def guarded(self, block, residuals, log2, heights, least):
        """Count, price, both extremes and levels of the first candidate that fits, or nothing."""
        for levels in self.candidates(block, self.written_by_mode(block, least)):
            price = self.price(block, levels)
            if price >= self.DEAR:
                continue
            extremes = self.extremes(residuals, self.laid(block, levels), log2, block.qp)
            if self.within(extremes, heights):
                return self.count(block, levels), price, *extremes, self.laid(block, levels)

    def guarded_tests(self, component, late, fits):
        """15 behind 9 of the same component."""
        return late + [(15, component, lambda: fits() is None)]

    # ---- the run list: a symbol for each nonzero level in scan order
    def packed(self, run, magnitude, negative, last):
        """The run lowest, 10 bits of it; 15 bits of magnitude, one for the sign, one for the last mark."""
        return run | magnitude << 10 | negative << 25 | last << 26

    def unpacked(self, symbol):
        return symbol & 1023, symbol >> 10 & 32767, symbol >> 25 & 1, symbol >> 26 & 1

    def unused(self, symbol):
        return symbol >> 27

    def in_scan_order(self, buffer, log2):
        return [buffer[p] for p in self.scan(1 << log2)]

    def by_rows(self, levels, log2):
        """Levels in scan order, laid where they belong."""
        out = [0] * len(levels)
        for p, level in zip(self.scan(1 << log2), levels):
            out[p] = level
        return out

    def run_before(self, places, i):
        """The zeros before a level: of the scan places of the nonzero ones, and which of them it is."""
        return places[i] - places[i - 1] - 1 if i else places[0]

    def is_last(self, places, i):
        return i == len(places) - 1

    def symbols_of(self, levels):
        """Of levels in scan order."""
        places = [p for p, level in enumerate(levels) if level]
        return [self.packed(self.run_before(places, i), abs(levels[p]), levels[p] < 0, self.is_last(places, i))
                for i, p in enumerate(places)]

    def symbol_count(self, levels):
        return sum(level != 0 for level in levels)

    def filled(self, symbols, made):
        """A list with the symbols made in front: the places behind them don't change."""
        return made + symbols[len(made):]

    def levels_of(self, symbols, n):
        """The levels that symbols tell, in scan order."""
        levels, p = [0] * n, -1
        for symbol in symbols:
            run, magnitude, negative, _ = self.unpacked(symbol)
            p += run + 1
            levels[p] = -magnitude if negative else magnitude
        return levels

    def zero_magnitude(self, symbols):
        return any(self.unpacked(symbol)[1] == 0 for symbol in symbols)

    def unused_bits(self, symbols):
        return any(self.unused(symbol) for symbol in symbols)

    def past_the_block(self, symbols, n):
        """Each symbol takes its run and a place."""
        return sum(self.unpacked(symbol)[0] + 1 for symbol in symbols) > n

    def missing_mark(self, marks):
        """The last symbol has none; an empty list has nothing to mark."""
        return marks != [] and not marks[-1]

    def behind_a_mark(self, marks):
        """A symbol stands after a last mark."""
        return any(marks[:-1])

    def symbol_fault(self, symbols, n):
        marks = [self.unpacked(symbol)[3] for symbol in symbols]
        return (self.zero_magnitude(symbols) or self.unused_bits(symbols) or self.past_the_block(symbols, n)
                or self.missing_mark(marks) or self.behind_a_mark(marks))

    # ---- refusals: a test is a number, a component and a question; the first that says yes is given
    def ordered(self, tests):
        return tests

    def first_fault(self, tests):
        for number, component, fault in self.ordered(tests):
            if fault():
                raise Refused(number, component)

    def side_fault(self, log2, least):
        return not least <= log2 <= self.MOST_SIDE

    def qp_fault(self, qp):
        return qp > self.QP

    def lambda_fault(self, d):
        return not 0 <= d <= self.LAMBDA

    def cost_fault(self, costs, run):
        return any(not 0 <= e <= self.COST for e in costs.entries)

    def residual_fault(self, residuals):
        return any(abs(r) > self.RESIDUAL for r in residuals)

    def coefficient_fault(self, coefficients):
        return any(c < -self.COEFFICIENT for c in coefficients)

    def level_fault(self, levels):
        """No symbol has room for its magnitude."""
        return -32768 in levels

    def room_fault(self, symbols, levels):
        return len(symbols) < self.symbol_count(levels)

    def late_tests(self, component, block):
        """7, 8 and 9; `block` is asked for only when 1 to 6 have passed."""
        walked = lambda: self.meets_late_tests(block())
        return [
            (7, component, lambda: walked() and max(block().rounded) > self.LEVEL),
            (8, component, lambda: walked() and block().lambda_ * (max(block().rounded) + 1) > self.PRICE),
            (9, component, lambda: walked() and block().uncoded[0] > self.DISTORTION),
        ]

    def meets_late_tests(self, block):
        return not block.skipped

    # ---- the calls. A side that is refused stands for any large number of places here: no buffer has 2^40.
    def places(self, lw, lh):
        return 1 << min(lw + lh, 40)

    def sampled(self, buffer, n):
        """What refusal 6 looks at."""
        return buffer[:n]

    def transform(self, buffer, lw, lh):
        n = self.places(lw, lh)
        self.first_fault([
            (1, 0, lambda: self.side_fault(lw, self.LEAST_SIDE) or self.side_fault(lh, self.LEAST_SIDE)),
            (5, 0, lambda: len(buffer) < n),
            (6, 0, lambda: self.residual_fault(self.sampled(buffer, n))),
        ])
        return self.coefficients(buffer[:n], lw, lh) + buffer[n:]

    def scale_back(self, buffer, log2, qp):
        n = self.places(log2, log2)
        self.first_fault([
            (1, 0, lambda: self.side_fault(log2, self.LEAST_SIDE)),
            (2, 0, lambda: self.qp_fault(qp)),
            (5, 0, lambda: len(buffer) < n),
        ])
        return self.coefficients_back(buffer[:n], log2, qp) + buffer[n:]

    def inverse(self, buffer, lw, lh):
        n = self.places(lw, lh)
        self.first_fault([
            (1, 0, lambda: self.side_fault(lw, self.LEAST_SIDE) or self.side_fault(lh, self.LEAST_SIDE)),
            (5, 0, lambda: len(buffer) < n),
        ])
        return self.residuals(buffer[:n], lw, lh) + buffer[n:]

    def quantise(self, buffer, log2, component, qp, d, intra_slice, intra_coded, costs, least=False):
        """Count, price and buffer; least: in the second mode."""
        n = self.places(log2, log2)
        block = functools.cache(lambda: Block(self, buffer[:n], log2, component, qp, d, intra_slice, intra_coded,
                                              costs))
        self.first_fault([
            (1, 0, lambda: self.side_fault(log2, self.LEAST_SIDE)),
            (2, component, lambda: self.qp_fault(qp)),
            (3, component, lambda: self.lambda_fault(d)),
            (4, 0, lambda: self.cost_fault(costs, 1 << component)),
            (5, 0, lambda: len(buffer) < n),
            (6, component, lambda: self.coefficient_fault(self.sampled(buffer, n))),
        ] + self.late_tests(component, block))
        count, price, levels = self.finished(block(), least)
        return count, price, levels + buffer[n:]

    def runs(self, run, component):
        return run >> component & 1 == 1

    def settings_read(self, run):
        return [k for k in (Y, U, V) if self.runs(run, k)]

    def samples_read(self, run):
        return [k for k in (Y, U, V) if self.runs(run, k)]

    def stretches(self, luma):
        """Where each component's stretch starts and ends."""
        n = self.places(luma, luma)
        return [(0, n), (n, n + n // 4), (n + n // 4, n + n // 2)]

    def needed(self, luma, run):
        n = self.places(luma, luma)
        return n + n // 2

    def side_of(self, luma, component):
        return luma if component == Y else luma - 1

    def three_tests(self, buffer, luma, run, qp, d, costs, late):
        """The tests of a call over three components; `late` has those of a component's coefficients."""
        at = self.stretches(luma)
        tests = [(1, 0, lambda: self.side_fault(luma, self.LEAST_LUMA))]
        tests += [(2, k, lambda k=k: self.qp_fault(qp[k])) for k in self.settings_read(run)]
        tests += [(3, k, lambda k=k: self.lambda_fault(d[k])) for k in self.settings_read(run)]
        tests += [(4, 0, lambda: self.cost_fault(costs, run)), (5, 0, lambda: len(buffer) < self.needed(luma, run))]
        tests += [(6, k, lambda k=k: self.residual_fault(self.sampled(buffer, at[k][1])[at[k][0]:]))
                  for k in self.samples_read(run)]
        for k in (Y, U, V):
            if self.runs(run, k):
                tests += late(k)
        return tests

    def blocks_of_three(self, buffer, luma, qp, d, intra_slice, intra_coded, costs):
        """A component's residuals, and its block."""
        at, side = self.stretches(luma), lambda k: self.side_of(luma, k)
        held = lambda k: buffer[at[k][0]:at[k][1]]
        block = functools.cache(lambda k: Block(self, self.coefficients(held(k), side(k), side(k)), side(k), k, qp[k],
                                                d[k], intra_slice, intra_coded, costs))
        return held, block

    def sub_block(self, buffer, luma, run, qp, d, intra_slice, intra_coded, costs, least=False):
        """Count and price of each component, and the buffer; least: in the second mode."""
        held, block = self.blocks_of_three(buffer, luma, qp, d, intra_slice, intra_coded, costs)
        late = lambda k: self.late_tests(k, lambda: block(k))
        self.first_fault(self.three_tests(buffer, luma, run, qp, d, costs, late))
        answers, after = [], list(buffer)
        for k in (Y, U, V):
            count, price, after[slice(*self.stretches(luma)[k])] = self.finished(
                block(k), least) if self.runs(run, k) else self.not_run(held(k))
            answers.append((count, price))
        return answers, after

    def heights_of(self, heights, component):
        """Of the six: how much darker Y, U, V may get, then how much lighter."""
        return heights[component], heights[3 + component]

    def guarded_sub_block(self, buffer, luma, run, qp, d, intra_slice, intra_coded, costs, heights, least=False):
        """Count, price and extremes of each component, and the buffer; least: in the second mode."""
        held, block = self.blocks_of_three(buffer, luma, qp, d, intra_slice, intra_coded, costs)
        fits = functools.cache(lambda k: self.guarded(block(k), held(k), self.side_of(luma, k),
                                                      self.heights_of(heights, k), least))
        late = lambda k: self.guarded_tests(k, self.late_tests(k, lambda: block(k)), lambda: fits(k))
        self.first_fault(self.three_tests(buffer, luma, run, qp, d, costs, late))
        answers, after = [], list(buffer)
        for k in (Y, U, V):
            told = fits(k) if self.runs(run, k) else self.not_guarded(held(k))
            *answer, after[slice(*self.stretches(luma)[k])] = told
            answers.append(answer)
        return answers, after

    def not_guarded(self, residuals):
        return 0, 0, 0, 0, residuals

    def measure(self, residuals, levels, log2, qp):
        n = self.places(log2, log2)
        self.first_fault([
            (1, 0, lambda: self.side_fault(log2, self.LEAST_SIDE)),
            (2, 0, lambda: self.qp_fault(qp)),
            (5, 0, lambda: len(residuals) < n or len(levels) < n),
        ])
        return self.extremes(residuals[:n], levels[:n], log2, qp)

    def not_run(self, residuals):
        return 0, 0, residuals

    def write(self, buffer, log2, symbols):
        """The number of symbols, and the list."""
        n = self.places(log2, log2)
        self.first_fault([
            (1, 0, lambda: self.side_fault(log2, self.LEAST_SIDE)),
            (5, 0, lambda: len(buffer) < n),
            (6, 0, lambda: self.level_fault(self.sampled(buffer, n))),
            (10, 0, lambda: self.room_fault(symbols, buffer[:n])),
        ])
        made = self.symbols_of(self.in_scan_order(buffer, log2))
        return self.symbol_count(buffer[:n]), self.filled(symbols, made)

    def read(self, symbols, buffer, log2):
        n = self.places(log2, log2)
        self.first_fault([
            (1, 0, lambda: self.side_fault(log2, self.LEAST_SIDE)),
            (5, 0, lambda: len(buffer) < n),
            (11, 0, lambda: self.symbol_fault(symbols, n)),
        ])
        return self.by_rows(self.levels_of(symbols, n), log2) + buffer[n:]

    # ---- the line protocol
    # the bits of FLAGS
    SLICE, CODED, LEAST = 0, 1, 2

    def intra_slice(self, flags):
        return flags >> self.SLICE & 1 == 1

    def intra_coded(self, flags):
        return flags >> self.CODED & 1 == 1

    def second_mode(self, flags, verb):
        return flags >> self.LEAST & 1 == 1

    def lines(self, data):
        """A last line may lack its newline."""
        lines = data.split(b"\n")
        return lines if lines[-1] else lines[:-1]

    def answer(self, line):
        """A request line, bytes without its newline, to its answer line."""
        words = self.Words(line)
        try:
            head, buffer = self.answered(words)
        except Malformed:
            return b"malformed"
        except Refused as refused:
            head, buffer = b"refused %d %d :" % (refused.number, refused.component), words.buffer
            head = head if words.listed is None else self.with_list(head, words.listed)
        return b" ".join([head] + [b"%d" % v for v in buffer])

    def with_list(self, head, symbols):
        return b" ".join([head] + [b"%d" % symbol for symbol in symbols] + [b":"])

    def answered(self, words):
        verb = words.word()
        if verb == b"transform":
            lw, lh = words.log2(), words.log2()
            return b"accepted :", self.transform(words.samples(), lw, lh)
        if verb == b"quantise":
            component, log2, qp, d, flags, costs = (words.component(), words.log2(), words.u32(), words.f64(),
                                                    words.flags(), words.costs())
            count, price, after = self.quantise(words.samples(), log2, component, qp, d, self.intra_slice(flags),
                                                self.intra_coded(flags), costs, self.second_mode(flags, verb))
            return b"accepted %d %d :" % (count, price), after
        if verb == b"subblock":
            log2, run = words.log2(), words.u32()
            qp, d = zip(*[(words.u32(), words.f64()) for k in (Y, U, V)])
            flags, costs = words.flags(), words.costs()
            answers, after = self.sub_block(words.samples(), log2, run, qp, d, self.intra_slice(flags),
                                            self.intra_coded(flags), costs, self.second_mode(flags, verb))
            return b"accepted %s :" % b" ".join(b"%d %d" % a for a in answers), after
        if verb == b"guarded":
            log2, run = words.log2(), words.u32()
            qp, d = zip(*[(words.u32(), words.f64()) for k in (Y, U, V)])
            flags, heights, costs = words.flags(), [words.u32() for _ in range(6)], words.costs()
            answers, after = self.guarded_sub_block(words.samples(), log2, run, qp, d, self.intra_slice(flags),
                                                    self.intra_coded(flags), costs, heights,
                                                    self.second_mode(flags, verb))
            numbers = [n for a in answers for n in a[:2]] + [a[2] for a in answers] + [a[3] for a in answers]
            return b"accepted %s :" % b" ".join(b"%d" % n for n in numbers), after
        if verb == b"measure":
            log2, qp, _, n = words.log2(), words.u32(), words.flags(), words.log2()
            samples = words.samples()
            darker, lighter = self.measure(samples[:n], samples[n:], log2, qp)
            return b"accepted %d %d :" % (darker, lighter), samples
        if verb == b"scaleback":
            log2, qp = words.log2(), words.u32()
            return b"accepted :", self.scale_back(words.samples(), log2, qp)
        if verb == b"inverse":
            lw, lh = words.log2(), words.log2()
            return b"accepted :", self.inverse(words.samples(), lw, lh)
        if verb == b"write":
            log2, symbols, levels = words.log2(), words.symbols(), words.samples()
            count, after = self.write(levels, log2, symbols)
            return self.with_list(b"accepted %d :" % count, after), levels
        if verb == b"read":
            log2, symbols, buffer = words.log2(), words.symbols(), words.samples()
            return self.with_list(b"accepted :", symbols), self.read(symbols, buffer, log2)
        raise Malformed


if __name__ == "__main__":
    paper = Paper()
    for line in paper.lines(sys.stdin.buffer.read()):
        sys.stdout.buffer.write(paper.answer(line) + b"\n")
