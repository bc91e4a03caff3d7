"""wrong_ports.py [--all] [WORDS ..]: which plausible wrong ports the recorded answers catch.

A wrong port is tools/paper.py with one rule changed. Each answers the stored requests of `tq`; printed are how many
answers it gets wrong (counted to 10, with --all to the end) of those made by hand and of those drawn by chance, and the
request that catches it first. A port that is wrong in the second mode alone, in the viewer's half alone, in the guarded
call and measure alone, or in the run list alone, is asked requests of these alone. With WORDS, only ports whose names
have one of them. Status 1 if a wrong port is caught by neither, or if the paper itself, or a port that can't differ,
gets an answer wrong.
"""
import copy, fractions, functools, itertools, math, multiprocessing, os, struct, sys
from paper import Block, Costs, Malformed, Paper, Refused, U, V, Words, Y, products_back
import vectors
from vectors import by_hand
from vectors.lines import CODED, FLAGS_AT, LEAST, SLICE, is_guarded, is_least, is_symbols, is_viewers

HERE = os.path.dirname(os.path.dirname(os.path.abspath(__file__)))
PORTS, EQUAL = [], []


def port(name, **rules):
    """The paper but for these methods."""
    PORTS.append(type(name, (Paper,), rules))


def reader(name, **rules):
    """The paper with a reader of lines that differs in these methods."""
    PORTS.append(type(name, (Paper,), {"Words": type("Words", (Words,), rules)}))


def equal(name, why, **rules):
    """No wrong port: no input tells it from the paper, for the reason given."""
    EQUAL.append(type(name, (Paper,), {**rules, "why": why}))


def signed(like, magnitude):
    return -magnitude if like < 0 else magnitude


# ---- transform
def staged(paper, value, lw):
    return ((value + (1 << lw)) >> (lw + 1)) << (lw + 1)


def by_columns(paper, residuals, lw, lh):
    out, w = Paper.coefficients(paper, residuals, lw, lh), 1 << lw
    return [c for u in range(w) for c in out[u::w]]


def wrapped(value, bits=32):
    return (value + (1 << (bits - 1))) % (1 << bits) - (1 << (bits - 1))


def halved(paper, residuals, lw, lh):
    """32×32 in halves, each product floored."""
    if (lw, lh) != (5, 5):
        return Paper.coefficients(paper, residuals, lw, lh)
    rows = Paper.matrix(paper, 5)
    first = [[sum(t * r for t, r in zip(row, residuals[y:y + 32])) for y in range(0, 1024, 32)] for row in rows]
    return [paper.shift_right(sum(t * v >> 1 for t, v in zip(row, column)), 16) for row in rows for column in first]


def off_by_one(log2, k, n):
    """One entry of one matrix."""
    def matrix(paper, side):
        rows = [list(row) for row in Paper.matrix(paper, side)]
        if side == log2:
            rows[k][n] += 1
        return rows
    return matrix


port("halves rounded away from zero", shift_right=lambda s, v, n: signed(v, (abs(v) + (1 << (n - 1))) >> n))
port("halves rounded toward zero", shift_right=lambda s, v, n: signed(v, (abs(v) + (1 << (n - 1)) - 1) >> n))
port("coefficients floored, not rounded", shift_right=lambda s, v, n: v >> n)
port("coefficients cut toward zero", shift_right=lambda s, v, n: signed(v, abs(v) >> n))
port("rounded after stage one, floored at the end", first_stage=staged, shift_right=lambda s, v, n: v >> n)
port("rounded after both stages", first_stage=staged)
port("width and height taken for each other", coefficients=lambda s, r, lw, lh: Paper.coefficients(s, r, lh, lw))
port("coefficients stored by columns", coefficients=by_columns)
port("last entry of the matrix's column one more", COLUMN=Paper.COLUMN[:31] + [5])
port("sums of the transform in 32 bits", shift_right=lambda s, v, n: Paper.shift_right(s, wrapped(v), n))
port("stage one in 16 bits", first_stage=lambda s, v, lw: wrapped(v, 16))
port("32×32 in halves, each floored", coefficients=halved)
port("an entry of T_32 one more", matrix=off_by_one(5, 17, 20))
port("an entry of T_16 one more", matrix=off_by_one(4, 15, 15))
port("an entry of T_8 one more", matrix=off_by_one(3, 7, 3))
port("a at or above 32 without its minus", entry=lambda s, k, n: abs(Paper.entry(s, k, n)))

# ---- scales, lambda, error
port("m rounded down", m=lambda s, x, b: x >> b)
port("m's halves rounded down", m=lambda s, x, b: (x + (1 << (b - 1)) - 1) >> b)
port("two scales exchanged", SCALES=[26214, 23302, 20560, 18396, 14564, 16384])
port("QP / 6 rounded to nearest", b=lambda s, l, qp: 19 - l + (qp + 3) // 6)
port("error scale rounded to nearest", error_scale=lambda s, l, qp: ((2 << (28 + l)) // s.q(qp) + 1) // 2)
port("error scale one more", error_scale=lambda s, l, qp: Paper.error_scale(s, l, qp) + 1)
port("fraction of a negative error dropped toward zero", error=lambda s, x, e: signed(x, (abs(x) * e) >> 20))
port("error rounded to nearest", error=lambda s, x, e: (x * e + (1 << 19)) >> 20)
port("lambda without the half", lambda_of=lambda s, d: math.floor(d * 32768.0))
port("lambda rounded to even", lambda_of=lambda s, d: round(d * 32768.0))
port("lambda's sum not rounded", lambda_of=lambda s, d: math.floor(
    fractions.Fraction(d) * 32768 + fractions.Fraction(1, 2)))
port("lambda by way of an f32", lambda_of=lambda s, d: math.floor(
    struct.unpack("f", struct.pack("f", d * 32768.0 + 0.5))[0]))
port("lambda at most 2^28 - 1", lambda_of=lambda s, d: min(Paper.lambda_of(s, d), 2 ** 28 - 1))
port("a NaN lambda taken as 0", lambda_fault=lambda s, d: d < 0 or d > 8192,
     lambda_of=lambda s, d: 0 if d != d else Paper.lambda_of(s, d))
port("a lambda below 0 taken as 0", lambda_fault=lambda s, d: not d <= 8192,
     lambda_of=lambda s, d: Paper.lambda_of(s, max(d, 0.0)))
port("a denormal below 0 taken as 0", lambda_fault=lambda s, d: not -1e-300 <= d <= 8192)
port("-0.0 refused", lambda_fault=lambda s, d: not 0 <= d <= 8192 or math.copysign(1, d) < 0)
port("a lambda above 8192 taken as 8192", lambda_fault=lambda s, d: not 0 <= d,
     lambda_of=lambda s, d: Paper.lambda_of(s, min(d, 8192.0)))

# ---- skip
port("skip tested with m", is_skipped=lambda s, block, i, c: not any(block.rounded))
port("skip's 201 and 153 exchanged", threshold=lambda s, i, b: Paper.threshold(s, not i, b))
port("intra slice taken from intra-coded", is_skipped=lambda s, block, i, c: Paper.is_skipped(s, block, c, c))
port("201 in every slice", threshold=lambda s, i, b: Paper.threshold(s, True, b))
port("a coefficient at the threshold skipped", threshold=lambda s, i, b: Paper.threshold(s, i, b) + 1)
port("nothing skipped", is_skipped=lambda s, *of: False)
port("skip asks the first coefficient alone", is_skipped=lambda s, block, i, c: block.scaled[0] < s.threshold(
    i, block.b))
port("skip leaves the last coefficient out", is_skipped=lambda s, block, i, c: all(
    x < s.threshold(i, block.b) for x in block.scaled[:-1]))
port("skip asks 64 coefficients at most", is_skipped=lambda s, block, i, c: all(
    abs(x) * s.q(block.qp) < s.threshold(i, block.b) for x in block.coefficients[:64]))
port("skip asks for one coefficient below", is_skipped=lambda s, block, i, c: any(
    x < s.threshold(i, block.b) for x in block.scaled))
port("a skipped block's price is D", skipped_price=lambda s, block: block.uncoded[0])
port("a skipped block's price is 0", skipped_price=lambda s, block: 0)
port("a skipped block's price without D", skipped_price=lambda s, block: block.lambda_ * block.cbf[0])
port("a skipped block priced as a coded one", skipped_price=lambda s, block: block.uncoded[0] +
     block.lambda_ * block.cbf[1])
port("a skipped block's D without its first place", skipped_price=lambda s, block: block.empty_price() -
     block.distortion(0, 0))
port("a skipped block's D over 64 places at most", skipped_price=lambda s, block: block.empty_price() -
     block.uncoded[min(64, len(block.places))])
port("a skipped block's D where m is above 0", skipped_price=lambda s, block: block.lambda_ * block.cbf[0] + sum(
    block.distortion(p, 0) for p, m in enumerate(block.rounded) if m))
port("lambda not multiplied into a skipped block's flag",
     skipped_price=lambda s, block: block.uncoded[0] + block.cbf[0])
port("a skipped block not cleared", cleared=lambda s, block: list(block.coefficients))

# ---- scan
def two_exchanged(places, at):
    return places if at is None else places[:at] + [places[at + 1], places[at]] + places[at + 2:]


port("odd and even diagonals exchanged", diagonal=lambda s, d, side: Paper.diagonal(s, d, side)[::-1])
port("every diagonal from small x to large", diagonal=lambda s, d, side: sorted(Paper.diagonal(s, d, side)))
port("every diagonal from large x to small", diagonal=lambda s, d, side: sorted(Paper.diagonal(s, d, side))[::-1])
port("scan by rows", scan=lambda s, side: list(range(side * side)))
port("scan by columns", scan=lambda s, side: [y * side + x for x in range(side) for y in range(side)])
port("side 2 turned", scan=lambda s, side: [0, 2, 1, 3] if side == 2 else Paper.scan(s, side))
port("two places of side 32 exchanged", scan=lambda s, side: two_exchanged(
    Paper.scan(s, side), 500 if side == 32 else None))
port("the last two places of side 16 exchanged", scan=lambda s, side: two_exchanged(
    Paper.scan(s, side), 254 if side == 16 else None))
port("the last two places of side 32 exchanged", scan=lambda s, side: two_exchanged(
    Paper.scan(s, side), 1022 if side == 32 else None))

# ---- contexts and rates
def exchanged(entries, start, end):
    return [entries[i ^ 1] if start <= i < end else e for i, e in enumerate(entries)]


def rate_with(more):
    """The paper's rate, but for magnitudes from 2 on."""
    def rate(paper, a, component, before, costs):
        if a < 2:
            return Paper.rate(paper, a, component, before, costs)
        run = costs.run[paper.run_context(component, before)][0]
        return paper.SIGN + run + more(a, costs.level, paper.level_row(component))
    return rate


port("the first place counted as after a zero", start=lambda s: 0)
port("luma's run rows for chroma", run_row=lambda s, k: 0)
port("chroma's run rows for luma", run_row=lambda s, k: 2)
port("run row 1 for chroma", run_row=lambda s, k: min(k, 1))
port("luma's level rows for chroma", level_row=lambda s, k: 0)
port("level row 1 for chroma", level_row=lambda s, k: min(k, 1))
port("luma's last row for chroma", last_row=lambda s, k: 0)
port("cbf_cb for V", cbf_row=lambda s, k, c: Paper.cbf_row(s, min(k, U), c))
port("cbf_cr for U", cbf_row=lambda s, k, c: Paper.cbf_row(s, V if k else Y, c))
port("cbf_cb and cbf_cr exchanged", cbf_row=lambda s, k, c: Paper.cbf_row(s, (Y, V, U)[k], c))
port("cbf_all for every luma block", cbf_row=lambda s, k, c: Paper.cbf_row(s, k, False))
port("cbf_luma for every luma block", cbf_row=lambda s, k, c: Paper.cbf_row(s, k, True))
port("cbf_all and cbf_luma exchanged", cbf_row=lambda s, k, c: Paper.cbf_row(s, k, not c))
port("cbf_all for chroma that is not intra-coded", cbf_row=lambda s, k, c: Paper.cbf_row(s, k, c) if c else 0)
port("run context turned", run_context=lambda s, k, before: s.run_row(k) + (before != 0))
port("run context one more after a level above 1 too", run_context=lambda s, k, before: s.run_row(k) + (before != 1))
port("run context never after a zero", run_context=lambda s, k, before: s.run_row(k))
port("level context j for j+1", rate=rate_with(lambda a, level, j: level[j][1] + (a - 2) * level[j][1] + level[j][0]))
port("a-1 for a-2", rate=rate_with(lambda a, level, j: level[j][1] + (a - 1) * level[j + 1][1] + level[j + 1][0]))
port("level[j][1] left out", rate=rate_with(lambda a, level, j: (a - 2) * level[j + 1][1] + level[j + 1][0]))
port("level[j+1][0] left out", rate=rate_with(lambda a, level, j: level[j][1] + (a - 2) * level[j + 1][1]))
port("a level of 2 without level[j+1][0]", rate=rate_with(
    lambda a, level, j: level[j][1] + (a - 2) * level[j + 1][1] + (a > 2) * level[j + 1][0]))
port("the sign's 32768 left out", SIGN=0)
port("a zero pays for a sign", rate=lambda s, a, *of: Paper.rate(s, a, *of) + (s.SIGN if a == 0 else 0))
port("run's two columns exchanged", rate=lambda s, a, k, before, costs: Paper.rate(
    s, a, k, before, Costs(exchanged(costs.entries, 0, 8))))
port("level's two columns exchanged", rate=lambda s, a, k, before, costs: Paper.rate(
    s, a, k, before, Costs(exchanged(costs.entries, 8, 16))))
port("the rate wraps to 32 bits", rate=lambda s, *of: wrapped(Paper.rate(s, *of)))
port("the rate stops at 32 bits", rate=lambda s, *of: min(Paper.rate(s, *of), 2 ** 31 - 1))


def by_other_rules(choice, **rules):
    """Levels chosen by these rules, and the price then worked out anew by the paper's."""
    other = type("Choosing", (Paper,), rules)()

    def chosen(paper, block):
        block.paper = other
        levels = getattr(Paper, choice)(other, block)
        block.paper = paper
        return levels
    return {choice: chosen}


port("levels chosen by rates of 32 bits", **by_other_rules("chosen", rate=lambda s, *of: wrapped(Paper.rate(s, *of))))

# ---- flags
port("last[0] charged for the last too", last_flag=lambda s, last: last[0] + last[1])
port("last[1] left out", last_flag=lambda s, last: 0)
port("last[0] left out", more_flag=lambda s, last: 0)
port("last's two columns exchanged", last_flag=lambda s, last: last[0], more_flag=lambda s, last: last[1])
port("cbf[1] left out", coded_flag=lambda s, cbf: 0)
port("cbf[0] left out of the empty block", empty_flag=lambda s, cbf: 0)
port("cbf's two columns exchanged", coded_flag=lambda s, cbf: cbf[0], empty_flag=lambda s, cbf: cbf[1])
port("D over places of m 1 and more alone", zero_distortion=lambda s, block, p: block.distortion(p, 0)
     if block.rounded[p] else 0)

# ---- walk, cut, count, price
def without_signs(paper, block, *mode):
    count, price, out = Paper.finished(paper, block, *mode)
    return count, price, [abs(a) for a in out]


port("m before 0", allowed=lambda s, m: [m, 0] + ([m - 1] if m >= 2 else []))
port("m-1 before m", allowed=lambda s, m: [0] + ([m - 1] if m >= 2 else []) + [m])
port("m-1 before 0", allowed=lambda s, m: ([m - 1] if m >= 2 else []) + [0, m])
port("m-1 not tried", allowed=lambda s, m: [0, m])
port("m+1 tried", allowed=lambda s, m: Paper.allowed(s, m) + [m + 1])
port("m+1 tried where m isn't 0", allowed=lambda s, m: Paper.allowed(s, m) + ([m + 1] if m else []))
port("m-2 tried", allowed=lambda s, m: Paper.allowed(s, m) + ([m - 2] if m > 2 else []))
port("0 not tried", allowed=lambda s, m: [m] + ([m - 1] if m >= 2 else []))
port("a later cut at equal price", cut=lambda s, priced: min(reversed(priced), key=lambda p: p[0])[1])
port("the empty block last at equal price", cut=lambda s, priced: min(priced[1:] + priced[:1], key=lambda p: p[0])[1])
port("the empty block not tried", cut=lambda s, priced: min(priced[1:] or priced, key=lambda p: p[0])[1])
port("no cut", cut=lambda s, priced: priced[-1][1])
port("the first cut that is dearer ends the search",
     cut=lambda s, priced: next((a[1] for a, b in zip(priced, priced[1:]) if b[0] > a[0]), priced[-1][1]))
port("a cut behind a zero level too", may_end=lambda s, a: True)
port("the count before the cut", count=lambda s, block, levels: sum(a != 0 for a in s.walk(block)))
port("the count of places to the last", count=lambda s, block, levels: max(
    (p + 1 for p, a in enumerate(levels) if a), default=0))
port("the count in 8 bits", count=lambda s, block, levels: Paper.count(s, block, levels) % 256)
port("the count in 10 bits", count=lambda s, block, levels: Paper.count(s, block, levels) % 1024)
port("the price by way of an f64", price=lambda s, block, levels: int(float(block.price(levels))))
port("the price in 32 bits", price=lambda s, block, levels: block.price(levels) % 2 ** 32)
port("the price before the cut", price=lambda s, block, levels: block.price(s.walk(block)))
port("the price without the cut's flag", price=lambda s, block, levels: block.price(
    levels) - block.lambda_ * block.last[1] * any(levels))
port("the price without what is cut off", price=lambda s, block, levels: block.price(levels) - block.uncoded[
    max((p + 1 for p, a in enumerate(levels) if a), default=0)])
port("an empty block's price is 0", price=lambda s, block, levels: block.price(levels) if any(levels) else 0)
port("the two flags exchanged", quantise=lambda s, *of: Paper.quantise(s, *of[:5], of[6], of[5], *of[7:]),
     sub_block=lambda s, *of: Paper.sub_block(s, *of[:5], of[6], of[5], *of[7:]))
port("every level without its sign", finished=without_signs)
port("always zeros", chosen=lambda s, block: [0] * len(block.places))


# ---- three components
def early(paper, buffer, luma, run, *settings):
    """Y is written before U is refused."""
    try:
        return Paper.sub_block(paper, buffer, luma, run, *settings)
    except Refused as refused:
        if refused.number >= 7:
            buffer[:] = Paper.sub_block(paper, buffer, luma, run & ((1 << refused.component) - 1), *settings)[1]
        raise


def left(paper, buffer, luma, run, *settings):
    """The coefficients stay in the buffer of a call that is refused by 7, 8 or 9."""
    try:
        return Paper.sub_block(paper, buffer, luma, run, *settings)
    except Refused as refused:
        for k, (start, end) in enumerate(paper.stretches(luma)):
            if refused.number >= 7 and k <= refused.component and paper.runs(run, k):
                buffer[start:end] = paper.coefficients(buffer[start:end], luma - (k != Y), luma - (k != Y))
        raise


def cleared_when_refused(paper, buffer, log2, *settings):
    try:
        return Paper.quantise(paper, buffer, log2, *settings)
    except Refused as refused:
        if refused.number >= 7:
            buffer[:paper.places(log2, log2)] = [0] * paper.places(log2, log2)
        raise


def sub_block_with(change):
    """The settings changed before the call."""
    return lambda paper, buffer, luma, run, qp, d, *rest: Paper.sub_block(
        paper, buffer, luma, run, *change(qp, d), *rest)


def read_by(run, at):
    """Whether an entry of the cost tables serves a component that runs."""
    luma, chroma = run & 1, run & 6
    if at < 16:
        return luma if at % 8 < 4 else chroma
    if at < 20:
        return luma if at < 18 else chroma
    return luma if at < 24 else run & (2 if at < 26 else 4)


def moved(by, of):
    def stretches(paper, luma):
        usual = Paper.stretches(paper, luma)
        return [(start + by, end + by) if k == of else (start, end) for k, (start, end) in enumerate(usual)]
    return stretches


port("Y written before U has been refused", sub_block=early)
port("coefficients left behind by a refusal", sub_block=left)
port("a block cleared, then refused", quantise=cleared_when_refused)
port("U and V merely zeroed", finished=lambda s, block, *mode: Paper.finished(s, block, *mode) if block.component == Y
     else (0, 0, [0] * len(block.places)))
port("settings read of a component not run", settings_read=lambda s, run: [Y, U, V])
port("samples read of a component not run", samples_read=lambda s, run: [Y, U, V])
port("what is not run is cleared", not_run=lambda s, residuals: (0, 0, [0] * len(residuals)))
port("bit 3 of the mask as V", runs=lambda s, run, k: run >> (3 if k == V else k) & 1 == 1)
port("bit 3 of the mask as V too", runs=lambda s, run, k: run >> k & 1 == 1 or k == V and run >> 3 & 1 == 1)
port("bit 3 of the mask as Y too", runs=lambda s, run, k: run >> k & 1 == 1 or k == Y and run >> 3 & 1 == 1)
port("the mask's bits from 1 on", runs=lambda s, run, k: run >> (k + 1) & 1 == 1)
port("a mask above 7 runs nothing", runs=lambda s, run, k: run < 8 and run >> k & 1 == 1)
port("everything runs", runs=lambda s, run, k: True)
port("bits 1 and 2 exchanged", runs=lambda s, run, k: run >> (Y, V, U)[k] & 1 == 1)
port("test 4 left out when nothing runs", cost_fault=lambda s, costs, run: run & 7 != 0
     and Paper.cost_fault(s, costs, run))
port("test 4 of entries that are read alone", cost_fault=lambda s, costs, run: any(
    e > s.COST and read_by(run, at) for at, e in enumerate(costs.entries)))
port("test 4 leaves the last entry out", cost_fault=lambda s, costs, run: any(e > s.COST for e in costs.entries[:27]))
port("V's stretch a place early", stretches=moved(-1, V))
port("U's stretch a place early", stretches=moved(-1, U))
port("U and V exchanged", stretches=lambda s, luma: [Paper.stretches(s, luma)[k] for k in (Y, V, U)])
port("Y's QP for all", sub_block=sub_block_with(lambda qp, d: ([qp[0]] * 3, d)))
port("Y's lambda for all", sub_block=sub_block_with(lambda qp, d: (qp, [d[0]] * 3)))
port("U's settings for V", sub_block=sub_block_with(lambda qp, d: ([qp[0], qp[1], qp[1]], [d[0], d[1], d[1]])))
port("refusal 5 by what is run", needed=lambda s, luma, run: max(
    [0] + [s.stretches(luma)[k][1] for k in (Y, U, V) if s.runs(run, k)]))
port("refusal 5 only if something runs", needed=lambda s, luma, run: Paper.needed(s, luma, run) if run & 7 else 0)
port("refusal 5 by luma alone", needed=lambda s, luma, run: s.places(luma, luma))


# ---- refusals
def place(number, component):
    """Sorted by this, the tests of every call stand in the paper's order."""
    return (number, component, 0) if number < 7 else (7, component, number)


def exchange(one, other):
    """Two numbers of the order exchanged."""
    return lambda paper, tests: sorted(tests, key=lambda t: place({one: other, other: one}.get(t[0], t[0]), t[1]))


def exchange_components(numbers, one, other):
    """Two components exchanged where these numbers are tested."""
    return lambda paper, tests: sorted(tests, key=lambda t: place(
        t[0], {one: other, other: one}.get(t[1], t[1]) if t[0] in numbers else t[1]))


def of_another(call, **rules):
    """A call of the paper with these rules."""
    other = type("Other", (Paper,), rules)()
    return lambda paper, *of: getattr(other, call)(*of)


def through(call, ordered):
    """One call with its tests in another order."""
    return {call: of_another(call, ordered=ordered)}


def by_component(number, component):
    """1; 2 and 3 of Y, of U, of V; 4; 5; 6 to 9 of Y, of U, of V."""
    return (2, component) if number in (2, 3) else (6, component) if number >= 6 else (number, 0)


def without_one(block):
    """A block whose largest magnitude counts one less in refusal 8, and in refusal 7 as it is."""
    lessened = copy.copy(block)
    lessened.lambda_ = fractions.Fraction(block.lambda_ * max(block.rounded), max(block.rounded) + 1)
    return lessened


def told(paper, buffer, log2, component, *settings):
    """1, 4 and 5 with the component that the quantiser was told."""
    try:
        return Paper.quantise(paper, buffer, log2, component, *settings)
    except Refused as refused:
        raise Refused(refused.number, component)


def lets_skipped_pass(paper, buffer, log2, *settings):
    """6 is not given where the block is skipped."""
    try:
        return Paper.quantise(paper, buffer, log2, *settings)
    except Refused as refused:
        n = paper.places(log2, log2)
        if refused.number == 6 and Block(paper, buffer[:n], log2, *settings[:6]).skipped:
            return 0, 0, [0] * n + buffer[n:]
        raise


for one in range(1, 9):
    port("quantiser: refusals %d and %d exchanged" % (one, one + 1), **through("quantise", exchange(one, one + 1)))
for one in range(1, 8):
    port("three components: refusals %d and %d exchanged" % (one, one + 1),
         **through("sub_block", exchange(one, one + 1)))
for numbers in ((2,), (3,), (6,), (7, 8, 9)):
    for one, other in ((Y, U), (U, V)):
        port("refusals %s: %s before %s" % (", ".join(map(str, numbers)), "YUV"[other], "YUV"[one]),
             ordered=exchange_components(numbers, one, other))
port("transform: refusals 1 and 5 exchanged", **through("transform", exchange(1, 5)))
port("transform: refusals 5 and 6 exchanged", **through("transform", exchange(5, 6)))
port("refusal 4 first of all", ordered=lambda s, tests: sorted(tests, key=lambda t: t[0] != 4))
port("every test of Y, then of U, then of V", ordered=lambda s, tests: sorted(
    tests, key=lambda t: by_component(t[0], t[1])))
port("U's 2 after Y's 3", ordered=lambda s, tests: sorted(
    tests, key=lambda t: (2, t[1]) if t[0] in (2, 3) else (min(t[0], 7), 0)))
port("refusal 6 in the surplus", sampled=lambda s, buffer, n: buffer)
port("refusal 6 not at the last place", sampled=lambda s, buffer, n: buffer[:n - 1])
port("refusal 6 not asked of the quantiser", coefficient_fault=lambda s, block: False)
port("a magnitude of -32768 wraps, so that it is skipped",
     scaled=lambda s, c, qp: (c if c == -32768 else abs(c)) * s.q(qp),
     coefficient_fault=lambda s, block: False)
port("M for M+1 in refusal 8", late_tests=lambda s, k, block: Paper.late_tests(s, k, lambda: without_one(block())))
port("component 1 for V", ordered=lambda s, tests: [(n, min(k, 1), fault) for n, k, fault in tests])
port("component of a refusal always 0", ordered=lambda s, tests: [(n, 0, fault) for n, k, fault in tests])
port("the quantiser's 1, 4 and 5 with its component", quantise=told)

# ---- limits
port("log2 side 0 taken", LEAST_SIDE=0)
port("log2 side 1 refused", LEAST_SIDE=2)
port("log2 side 6 taken", MOST_SIDE=6)
port("log2 side 5 refused", MOST_SIDE=4)
port("luma of log2 side 1 taken", LEAST_LUMA=1)
port("luma of log2 side 2 refused", LEAST_LUMA=3)
port("QP 64 taken", QP=64)
port("QP 63 refused", QP=62)
port("the f64 past 8192 taken", LAMBDA=math.nextafter(8192, 9000),
     lambda_of=lambda s, d: Paper.lambda_of(s, min(d, 8192.0)))
port("lambda 8192 refused", LAMBDA=math.nextafter(8192, 0))
port("a cost of 1,048,577 taken", COST=1048577)
port("a cost of 1,048,576 refused", COST=1048575)
port("a residual of 1024 taken", RESIDUAL=1024)
port("a residual of 1023 refused", RESIDUAL=1022)
port("a residual of -1024 taken", residual_fault=lambda s, residuals: any(not -1024 <= r <= 1023 for r in residuals))
port("a coefficient of -32767 refused", COEFFICIENT=32766)
port("a coefficient of 32767 refused", coefficient_fault=lambda s, block: any(abs(c) >= 32767 for c in block))
port("m of 32768 taken", LEVEL=32768)
port("m of 32767 refused", LEVEL=32766)
port("lambda × (M+1) of 2^41 refused", PRICE=(1 << 41) - 1)
port("the nearest lambda × (M+1) past 2^41 taken", PRICE=(lambda step, m: step * (m + 1))(
    *by_hand.nearest_past(1 << 41)))
port("D of 2^60 refused", DISTORTION=(1 << 60) - 1)
port("D of 2^60 + 1 taken", DISTORTION=(1 << 60) + 1)
port("D of 2^60 + 2,553,385 taken", DISTORTION=(1 << 60) + 2553385)
port("D of 2^60 + 2^26 taken", DISTORTION=(1 << 60) + (1 << 26))


# ---- the line protocol
def cut_to(bits, low=0):
    """A number of up to 20 digits, cut to its low bits."""
    return lambda words: (words.whole(-10 ** 19, 10 ** 20) - low) % (1 << bits) + low


def bits_read(words):
    """Hex digits, however many."""
    w = words.word()
    if not w or not set(w) <= set(b"0123456789abcdef"):
        raise Malformed
    return struct.unpack(">d", (int(w, 16) % 2 ** 64).to_bytes(8, "big"))[0]


def samples_there(words):
    """As many samples as there are, up to N."""
    n = words.whole(0, 8192)
    words.buffer = [words.sample() for _ in range(min(n, len(words.words) - words.at))]
    words.end()
    return words.buffer


def quantise_without_surplus(paper, buffer, log2, *settings):
    count, price, after = Paper.quantise(paper, buffer, log2, *settings)
    return count, price, after[:paper.places(log2, log2)]


def sub_block_without_surplus(paper, buffer, luma, run, *settings):
    answers, after = Paper.sub_block(paper, buffer, luma, run, *settings)
    return answers, after[:paper.needed(luma, run)]


def two_words(words):
    """FLAGS as two numbers, the second of which says whether the block is intra-coded."""
    return SLICE * (words.u32() != 0) | CODED * (words.u32() != 0)


def or_else(flags):
    """A line that is malformed read once more, with FLAGS read in this way."""
    other = type("Other", (Paper,), {"Words": type("Words", (Words,), {"flags": flags})})()

    def answer(paper, line):
        said = Paper.answer(paper, line)
        return other.answer(line) if said == b"malformed" else said
    return answer


def flags_through(change):
    """FLAGS changed before its bits are read."""
    return {
        "intra_slice": lambda s, flags: Paper.intra_slice(s, change(flags)),
        "intra_coded": lambda s, flags: Paper.intra_coded(s, change(flags)),
        "second_mode": lambda s, flags, verb: Paper.second_mode(s, change(flags), verb),
    }


def read_as(word, verb, bits=0):
    """A word read as a verb, and with it these bits of FLAGS as raised."""
    def answered(paper, words):
        if words.words and words.words[0] == word:
            words.words[0] = verb
            flags = words.words[FLAGS_AT[verb]:FLAGS_AT[verb] + 1] if bits else []
            if flags and flags[0].isdigit():
                words.words[FLAGS_AT[verb]] = b"%d" % (int(flags[0]) | bits)
        return Paper.answered(paper, words)
    return answered


reader("-0 read", WHOLE=rb"-?(0|[1-9][0-9]*)")
reader("a leading zero read", WHOLE=rb"-?[0-9]+")
reader("+1 read", WHOLE=rb"0|[-+]?[1-9][0-9]*")
reader("N above 8192 read", MOST_SAMPLES=9000)
reader("N of 8192 not read", MOST_SAMPLES=8191)
reader("upper-case hex read", BITS=rb"[0-9a-fA-F]{16}")
reader("LAMBDA of any length read", f64=bits_read)
reader("runs of spaces read as one", split=lambda s, line: [w for w in line.split(b" ") if w] or [b""])
reader("any white space read", split=lambda s, line: line.split() or [b""])
reader("a space at the end read", split=lambda s, line: line[:-1].split(b" ") if line.endswith(b" ")
       else line.split(b" "))
reader("a space at the front read", split=lambda s, line: line[1:].split(b" ") if line.startswith(b" ")
       else line.split(b" "))
reader("a carriage return at the end read", split=lambda s, line: line.rstrip(b"\r").split(b" "))
reader("verbs read in upper case too", split=lambda s, line: [
    w.lower() if i == 0 else w for i, w in enumerate(line.split(b" "))])
reader("what follows a NUL not read", split=lambda s, line: line.split(b"\0")[0].split(b" "))
reader("the high bit of a byte not read", split=lambda s, line: bytes(c & 127 for c in line).split(b" "))
reader("words behind the samples not read", end=lambda s: None)
reader("N above the number of samples read", samples=samples_there)
reader("samples cut to 16 bits", sample=cut_to(16, -32768))
reader("u32 fields cut to 32 bits", u32=cut_to(32))
reader("log2 sides cut to 32 bits", log2=lambda s: Words.log2(s) % 2 ** 32)
reader("log2 sides cut to 64 bits", log2=cut_to(64))
reader("costs cut to 32 bits", costs=lambda s: Costs([e % 2 ** 32 for e in Words.costs(s).entries]))
reader("costs of 63 bits alone read", costs=lambda s: Costs([s.whole(0, 2 ** 63 - 1) for _ in range(28)]))
reader("QP cut to 8 bits", u32=lambda s: Words.u32(s) % 256 if s.at in (3, 5, 7) else Words.u32(s))
reader("COMPONENT 3 read as V", component=lambda s: min(V, s.whole(0, 3)))
reader("COMPONENT above 2 cut to 8 bits", component=lambda s: s.whole(0, 2 ** 64) % 256 % 3)
reader("a line of 58,072 bytes not read", LONGEST_LINE=58071)
reader("FLAGS of 64 bits read", flags=lambda s: s.whole(0, 2 ** 64 - 1))
reader("FLAGS cut to 32 bits", flags=cut_to(32))
reader("FLAGS below 0 read", flags=lambda s: s.whole(-2 ** 31, 2 ** 32 - 1))
reader("FLAGS above 2^31 - 1 not read", flags=lambda s: s.whole(0, 2 ** 31 - 1))
reader("FLAGS above 7 not read", flags=lambda s: s.whole(0, 7))
reader("FLAGS above 3 not read", flags=lambda s: s.whole(0, 3))
reader("FLAGS read as two words", flags=two_words)
port("FLAGS read as two words where one doesn't do", answer=or_else(two_words))
port("FLAGS taken as 3 where it is not there", answer=or_else(lambda words: SLICE | CODED))
port("bits 0 and 1 of FLAGS exchanged", SLICE=1, CODED=0)
port("bits 0 and 2 of FLAGS exchanged", SLICE=2, LEAST=0)
port("bits 1 and 2 of FLAGS exchanged", CODED=2, LEAST=1)
port("the bits of FLAGS from 1 on", SLICE=1, CODED=2, LEAST=3)
port("the bits of FLAGS from the highest down", SLICE=31, CODED=30, LEAST=29)
port("bit 0 of FLAGS not read", intra_slice=lambda s, flags: False)
port("bit 0 of FLAGS taken as raised", intra_slice=lambda s, flags: True)
port("bit 1 of FLAGS not read", intra_coded=lambda s, flags: False)
port("bit 1 of FLAGS taken as raised", intra_coded=lambda s, flags: True)
port("bit 2 of FLAGS taken as raised by quantise", second_mode=lambda s, flags, verb: verb == b"quantise" or (
    Paper.second_mode(s, flags, verb)))
port("bit 2 of FLAGS taken as raised by subblock", second_mode=lambda s, flags, verb: verb == b"subblock" or (
    Paper.second_mode(s, flags, verb)))
for bit in (3, 8, 16, 31):
    port("bit %d of FLAGS for bit 0 too" % bit, intra_slice=lambda s, flags, bit=bit: Paper.intra_slice(
        s, flags | flags >> bit))
    port("bit %d of FLAGS for bit 1 too" % bit, intra_coded=lambda s, flags, bit=bit: Paper.intra_coded(
        s, flags | flags >> bit << 1))
    port("bit %d of FLAGS for bit 2 too" % bit, second_mode=lambda s, flags, verb, bit=bit: Paper.second_mode(
        s, flags | flags >> bit << 2, verb))
    port("bit %d of FLAGS for bit 2" % bit, LEAST=bit)
port("intra slice when FLAGS isn't 0", intra_slice=lambda s, flags: flags != 0)
port("intra slice when FLAGS is 1", intra_slice=lambda s, flags: flags == 1)
port("intra-coded when FLAGS is 2", intra_coded=lambda s, flags: flags == 2)
port("intra-coded when FLAGS is 2 or more", intra_coded=lambda s, flags: flags >= 2)
port("the second mode when FLAGS is 4", second_mode=lambda s, flags, verb: flags == 4)
port("the second mode when FLAGS is 4 or more", second_mode=lambda s, flags, verb: flags >= 4)
port("the second mode when FLAGS is 7", second_mode=lambda s, flags, verb: flags == 7)
port("the second mode of intra-coded blocks alone", second_mode=lambda s, flags, verb: flags & 6 == 6)
port("the second mode in intra slices alone", second_mode=lambda s, flags, verb: flags & 5 == 5)
port("in the second mode always intra slice", intra_slice=lambda s, flags: flags & 5 != 0)
port("in the second mode always intra-coded", intra_coded=lambda s, flags: flags & 6 != 0)
port("FLAGS above 7 taken as 0", **flags_through(lambda flags: flags if flags < 8 else 0))
port("FLAGS above 7 taken as 7", **flags_through(lambda flags: min(flags, 7)))
port("the bits of FLAGS turned into their opposites", **flags_through(lambda flags: ~flags))
port("quantise-least read as quantise", answered=read_as(b"quantise-least", b"quantise"))
port("subblock-least read as subblock", answered=read_as(b"subblock-least", b"subblock"))
port("quantise-least read as the second mode", answered=read_as(b"quantise-least", b"quantise", LEAST))
port("subblock-least read as the second mode", answered=read_as(b"subblock-least", b"subblock", LEAST))
port("transform-least read", answered=read_as(b"transform-least", b"transform"))
port("quantise-l read too", answered=read_as(b"quantise-l", b"quantise", LEAST))
port("quantise-most read too", answered=read_as(b"quantise-most", b"quantise", LEAST))
reader("verbs read by their first eight letters", split=lambda s, line: [
    w[:8] if i == 0 and w[:8] in FLAGS_AT else w for i, w in enumerate(line.split(b" "))])
port("the rest of a long line read as a line", lines=lambda s, data: [
    line[i:i + 65535] for line in Paper.lines(s, data) for i in range(0, max(1, len(line)), 65535)])
port("an empty line passed over", lines=lambda s, data: [line for line in Paper.lines(s, data) if line])
port("a last line without newline passed over", lines=lambda s, data: data.split(b"\n")[:-1])
port("the surplus not printed by the transform", transform=lambda s, buffer, lw, lh: Paper.transform(s, buffer, lw, lh)[
    :s.places(lw, lh)])
port("the surplus not printed by the quantiser", quantise=quantise_without_surplus)
port("the surplus not printed by three components", sub_block=sub_block_without_surplus)

# ---- the second mode: these differ from the paper there alone, and are asked its requests alone
def second(name, **rules):
    PORTS.append(type("second mode: " + name, (Paper,),
                      {**rules, "asked": staticmethod(is_least)}))


def searched(**rules):
    return by_other_rules("cheapest", **rules)


def in_it(call, wrong):
    """A call that is wrong in the second mode alone: whether it is that is said last."""
    return {call: lambda paper, *of: (wrong if of[-1] else getattr(Paper, call))(paper, *of)}


def nonzero_first(paper, m):
    zero, *levels = Paper.in_order(paper, m)
    return levels + [zero]


def exchanged_states(paper, block, p, a, before, ahead):
    return Paper.least_with(paper, block, p, a, before, ahead[::-1])


def place_by_place(rather):
    """Forwards, with a price and a front for each of the two states; of two fronts at equal price the one whose last
    level is of the state `rather` comes first, as if what stands before it didn't matter."""
    def cheapest(paper, block):
        of, fronts = block.lambda_, {1: (block.lambda_ * block.cbf[1], [])}
        least, found = block.empty_price(), []
        for p, m in enumerate(block.rounded):
            longer = {}
            for before in sorted(fronts, reverse=rather == 1):
                for a in paper.in_order(m):
                    price, levels = fronts[before][0] + block.cost(p, a, before), fronts[before][1] + [a]
                    state = min(a, 1)
                    if a and price + of * block.last[1] + block.uncoded[p + 1] < least:
                        least, found = price + of * block.last[1] + block.uncoded[p + 1], levels
                    price += of * block.last[0] if a else 0
                    if state not in longer or price < longer[state][0]:
                        longer[state] = price, levels
            fronts = longer
        return found + [0] * (len(block.rounded) - len(found))
    return cheapest


def at_equal_price(key):
    """Of all blocks of least price the one that comes first by the key of a block and its levels; where there are too
    many, the paper's."""
    def cheapest(paper, block):
        if math.prod(len(paper.in_order(m)) for m in block.rounded) > 243:
            return Paper.cheapest(paper, block)
        blocks = map(list, itertools.product(*map(paper.in_order, block.rounded)))
        return min(blocks, key=lambda levels: (block.price(levels), key(block, levels)))
    return cheapest


def by_rows(block, levels):
    return [a for p, a in sorted(zip(block.places, levels))]


def with_signs(block, levels):
    return [signed(block.coefficients[p], a) for p, a in zip(block.places, levels)]


def last_level(block, levels):
    return max((p for p, a in enumerate(levels) if a), default=-1)


def without_the_skip(paper, block, least):
    walked = copy.copy(block)
    walked.skipped = False
    return Paper.finished(paper, walked, least)


def skipped_for_nothing(paper, block, least):
    count, price, out = Paper.finished(paper, block, least)
    return count, 0 if block.skipped else price, out


def answer_of_the_walk(count_too):
    """The block is the cheapest one, but its price, or its count, is the walk's."""
    def finished(paper, block, least):
        (count, price, out), (walked, dearer, _) = Paper.finished(paper, block, least), Paper.finished(paper, block)
        return (walked, price, out) if count_too else (count, dearer, out)
    return finished


def by_the_walk_but(components):
    return lambda paper, block: Paper.cheapest(paper, block) if block.component in components else paper.chosen(block)


def by_a_call(call, **rules):
    """One call with these rules, in the second mode."""
    return in_it(call, of_another(call, **rules))


def not_tested(number):
    """Both calls without this test, in the second mode."""
    ordered = lambda s, tests: [t for t in tests if t[0] != number]
    return {**by_a_call("quantise", ordered=ordered), **by_a_call("sub_block", ordered=ordered)}


def not_behind(paper, block):
    """As many places searched as there are up to the last m above 0."""
    front = copy.copy(block)
    front.rounded = block.rounded[:last_level(block, block.rounded) + 1]
    return Paper.ahead(paper, front) + [paper.behind_the_last()] * (len(block.rounded) - len(front.rounded))


def not_for(of):
    """The second mode of a verb is not read."""
    def second_mode(paper, flags, verb):
        if verb == of and Paper.second_mode(paper, flags, verb):
            raise Malformed
        return Paper.second_mode(paper, flags, verb)
    return second_mode


second("0 after m at equal price", in_order=nonzero_first)
second("m before m-1 at equal price", in_order=lambda s, m: [0] + Paper.in_order(s, m)[:0:-1])
second("going on before ending at equal price", goes_on=lambda s, block, p, ahead: s.going_on(block, ahead) <= s.ending(
    block, p))
second("a coded block before the empty one at equal price",
       is_coded=lambda s, block, ahead: block.lambda_ * block.cbf[1] + ahead[1] <= block.empty_price())
second("the last in dictionary order", in_order=lambda s, m: Paper.in_order(s, m)[::-1],
       goes_on=lambda s, block, p, ahead: s.going_on(block, ahead) <= s.ending(block, p))
second("forwards, a 0 last at equal price", cheapest=place_by_place(1))
second("forwards, a 0 first at equal price", cheapest=place_by_place(0))
second("fewest levels at equal price", cheapest=at_equal_price(lambda block, levels: (sum(map(bool, levels)), levels)))
second("most zeros at the end at equal price", cheapest=at_equal_price(
    lambda block, levels: (last_level(block, levels), levels)))
second("least sum at equal price", cheapest=at_equal_price(lambda block, levels: (sum(levels), levels)))
second("dictionary order by rows", cheapest=at_equal_price(by_rows))
second("dictionary order from the last place on", cheapest=at_equal_price(lambda block, levels: levels[::-1]))
second("dictionary order with signs", cheapest=at_equal_price(with_signs))
second("after a 0 and after a level exchanged", least_with=exchanged_states)
second("searched as if never after a 0", **searched(run_context=lambda s, k, before: s.run_row(k)))
second("searched as if always after a 0", **searched(run_context=lambda s, k, before: s.run_row(k) + 1))
second("searched with the first place as after a 0", **searched(start=lambda s: 0))
second("what follows a level taken as after a 0", going_on=lambda s, block, ahead: Paper.going_on(
    s, block, (None, ahead[0])))
second("searched without last[1]", **searched(last_flag=lambda s, last: 0))
second("searched without last[0]", **searched(more_flag=lambda s, last: 0))
second("searched with last[0] for the last too", **searched(last_flag=lambda s, last: last[0] + last[1]))
second("searched without cbf[1]", **searched(coded_flag=lambda s, cbf: 0))
second("searched without cbf[0]", **searched(empty_flag=lambda s, cbf: 0))
second("searched without the sign", **searched(SIGN=0))
second("searched with luma's rows for chroma", **searched(run_row=lambda s, k: 0, level_row=lambda s, k: 0))
second("searched by rates of 32 bits", **searched(rate=lambda s, *of: wrapped(Paper.rate(s, *of))))
second("searched by way of f64", least_with=lambda s, *of: float(Paper.least_with(s, *of)))
second("searched by way of f32", least_with=lambda s, *of: struct.unpack(
    "f", struct.pack("f", Paper.least_with(s, *of)))[0])
second("uncoded places behind the last left out", ending=lambda s, block, p: block.lambda_ * block.last[1])
second("zeros behind the last level paid for", ending=lambda s, block, p: Paper.ending(s, block, p) + block.lambda_ * (
    len(block.rounded) - 1 - p))
second("a block may end with a 0", behind_the_last=lambda s: (0, 0))
second("the empty block not tried", is_coded=lambda s, block, ahead: ahead[1] < math.inf)
second("the empty block only where the walk has it", is_coded=lambda s, block, ahead: any(s.chosen(block)))
second("never ended before the last m above 0", ending=lambda s, block, p: math.inf if any(block.rounded[p + 1:])
       else Paper.ending(s, block, p))
second("m+1 allowed", in_order=lambda s, m: Paper.in_order(s, m) + [m + 1])
second("m+1 allowed where m isn't 0", in_order=lambda s, m: Paper.in_order(s, m) + [m + 1] * (m > 0))
second("m-1 not allowed", in_order=lambda s, m: sorted({0, m}))
second("m-1 allowed from m of 3 on", in_order=lambda s, m: sorted({0, m} | ({m - 1} if m > 2 else set())))
second("m-2 allowed", in_order=lambda s, m: sorted({*Paper.in_order(s, m), max(m - 2, 0)}))
second("0 not allowed where m isn't 0", in_order=lambda s, m: Paper.in_order(s, m)[m > 0:])
second("the walk's block", cheapest=lambda s, block: s.chosen(block))
second("the walk's block for U and V", cheapest=by_the_walk_but((Y,)))
second("the walk's block for Y", cheapest=by_the_walk_but((U, V)))
second("the walk's block for V", cheapest=by_the_walk_but((Y, U)))
second("the walk's price", **in_it("finished", answer_of_the_walk(False)))
second("the walk's count", **in_it("finished", answer_of_the_walk(True)))
second("always zeros", cheapest=lambda s, block: [0] * len(block.rounded))
second("the skip not asked", **in_it("finished", without_the_skip))
second("a skipped block's price 0", **in_it("finished", skipped_for_nothing))
second("every level without its sign", **in_it("finished", without_signs))
second("Y written before U has been refused", **in_it("sub_block", early))
second("a block cleared, then refused", **in_it("quantise", cleared_when_refused))
second("refusals 1, 4 and 5 with the component told", **in_it("quantise", told))
second("7 not tested", **not_tested(7))
second("8 not tested", **not_tested(8))
second("9 not tested", **not_tested(9))
for one in range(1, 9):
    second("refusals %d and %d exchanged" % (one, one + 1), **by_a_call("quantise", ordered=exchange(one, one + 1)))
for one in range(1, 8):
    second("three components: refusals %d and %d exchanged" % (one, one + 1),
           **by_a_call("sub_block", ordered=exchange(one, one + 1)))
second("settings read of a component not run", **by_a_call("sub_block", settings_read=lambda s, run: [Y, U, V]))
second("what is not run is cleared", **by_a_call("sub_block",
                                                 not_run=lambda s, residuals: (0, 0, [0] * len(residuals))))
second("the surplus not printed by the quantiser", **in_it("quantise", quantise_without_surplus))
second("the surplus not printed by three components", **in_it("sub_block", sub_block_without_surplus))
for verb in FLAGS_AT:
    second("bit 2 of FLAGS not read by %s" % verb.decode(), second_mode=lambda s, flags, verb, of=verb: verb != of)
    second("malformed for %s" % verb.decode(), second_mode=not_for(verb))

# ---- the viewer's half: these differ from the paper there alone, and are asked its requests alone
def viewers(name, **rules):
    PORTS.append(type("viewer's half: " + name, (Paper,), {**rules, "asked": staticmethod(is_viewers)}))


def back_by(scaled):
    """Scaling back, by a level, its log2 side and a QP, clipped."""
    return lambda paper, level, log2, qp: paper.clip(scaled(paper, level, log2, qp))


def factor(paper, qp):
    return paper.s(qp) * 2 ** (qp // 6)


def floored_twice(paper, level, log2, qp):
    """2^(QP/6) and 2^(1+l) cancelled first, what is left over dropped."""
    up = qp // 6 - 1 - log2
    return level * paper.s(qp) << up if up >= 0 else level * paper.s(qp) >> -up


def sums(first, tw, th, coefficients):
    """The sums of the inverse in two stages, `first` of each of the first stage, which goes along the rows."""
    w = len(tw)
    rows = [coefficients[i:i + w] for i in range(0, len(coefficients), w)]
    staged = [[first(sum(t[x] * c for t, c in zip(tw, row))) for x in range(w)] for row in rows]
    return [sum(t[y] * line[x] for t, line in zip(th, staged)) for y in range(len(th)) for x in range(w)]


def in_stages(first, last=Paper.residual, columns=False):
    """The inverse in two stages; columns: along the columns first."""
    def residuals(paper, coefficients, lw, lh):
        if columns:
            w, h = 1 << lw, 1 << lh
            by_columns = [coefficients[v * w + u] for u in range(w) for v in range(h)]
            out = in_stages(first, last)(paper, by_columns, lh, lw)
            return [out[x * h + y] for y in range(h) for x in range(w)]
        return [last(paper, v) for v in sums(first, paper.matrix(lw), paper.matrix(lh), coefficients)]
    return residuals


def rounded_to(bits):
    """After the first stage, so many bits rounded away."""
    return lambda v: (v + (1 << (bits - 1))) >> bits


def kept_wide(bits):
    """The same, and the sum as large as it was."""
    return lambda v: rounded_to(bits)(v) << bits


def with_matrices(change):
    """The inverse by other matrices: those of the height and the width, T[frequency][place], changed."""
    def residuals(paper, coefficients, lw, lh):
        th, tw = (tuple(map(tuple, change(paper.matrix(log2)))) for log2 in (lh, lw))
        return [paper.residual(v) for v in products_back(th, tw, tuple(coefficients))]
    return residuals


def turned(matrix):
    return list(zip(*matrix))


def one_more(side, k, n):
    """One entry of the matrix of a side, in the inverse alone."""
    def change(matrix):
        return [[e + (len(matrix) == side and (i, j) == (k, n)) for j, e in enumerate(row)]
                for i, row in enumerate(matrix)]
    return {"residuals": with_matrices(change)}


def in_front(n_of):
    """As many coefficients as n_of says, the others as if they were 0."""
    def residuals(paper, coefficients, lw, lh):
        n = n_of(lw, lh)
        return Paper.residuals(paper, coefficients[:n] + [0] * (len(coefficients) - n), lw, lh)
    return {"residuals": residuals}


def by_columns_back(paper, coefficients, lw, lh):
    """The residuals stored by columns."""
    out, w = Paper.residuals(paper, coefficients, lw, lh), 1 << lw
    return [r for x in range(w) for r in out[x::w]]


def refused_samples(fault):
    """Both calls with a refusal 6."""
    def call(name, block):
        def refusing(paper, buffer, *settings):
            after = getattr(Paper, name)(paper, buffer, *settings)
            if fault(buffer[:block(paper, *settings)]):
                raise Refused(6, 0)
            return after
        return refusing
    return {"scale_back": call("scale_back", lambda paper, log2, qp: paper.places(log2, log2)),
            "inverse": call("inverse", lambda paper, lw, lh: paper.places(lw, lh))}


def inverse_tested(side):
    """1 asked of one number alone."""
    def inverse(paper, buffer, lw, lh):
        n = paper.places(lw, lh)
        paper.first_fault([(1, 0, lambda: paper.side_fault(side(lw, lh), 1)), (5, 0, lambda: len(buffer) < n)])
        return paper.residuals(buffer[:n], lw, lh) + buffer[n:]
    return inverse


def written_when_refused(paper, buffer, log2, qp):
    """What there is of the block is scaled back, and then refused with 5."""
    try:
        return Paper.scale_back(paper, buffer, log2, qp)
    except Refused as refused:
        if refused.number == 5:
            buffer[:] = paper.coefficients_back(buffer, log2, qp)
        raise


viewers("2^l left out of scaling back", coefficient_back=back_by(lambda s, v, l, qp: v * factor(s, qp) >> (1 + l)))
viewers("2^(1+l) added", coefficient_back=back_by(lambda s, v, l, qp: (v * factor(s, qp) + (2 << l)) >> (1 + l)))
viewers("2^l - 1 added", coefficient_back=back_by(lambda s, v, l, qp: (v * factor(s, qp) + (1 << l) - 1) >> (1 + l)))
viewers("scaling back shifted by l", coefficient_back=back_by(lambda s, v, l, qp: (v * factor(s, qp) + (1 << l)) >> l))
viewers("scaling back shifted by l, and its half", coefficient_back=back_by(
    lambda s, v, l, qp: (v * factor(s, qp) + (1 << (l - 1))) >> l))
viewers("scaling back shifted by 2+l", coefficient_back=back_by(
    lambda s, v, l, qp: (v * factor(s, qp) + (2 << l)) >> (2 + l)))
viewers("scaling back shifted by 6", coefficient_back=back_by(lambda s, v, l, qp: (v * factor(s, qp) + 32) >> 6))
viewers("scaling back rounded away from zero", coefficient_back=back_by(
    lambda s, v, l, qp: signed(v, (abs(v) * factor(s, qp) + (1 << l)) >> (1 + l))))
viewers("scaling back cut toward zero", coefficient_back=back_by(
    lambda s, v, l, qp: signed(v, abs(v) * factor(s, qp) >> (1 + l))))
viewers("scaling back's shifts cancelled first", coefficient_back=back_by(floored_twice))
viewers("scaling back not clipped, in 16 bits", coefficient_back=lambda s, v, l, qp: wrapped(
    (v * factor(s, qp) + (1 << l)) >> (1 + l), 16))
viewers("scaling back not clipped below", coefficient_back=lambda s, v, l, qp: wrapped(min(
    (v * factor(s, qp) + (1 << l)) >> (1 + l), 32767), 16))
viewers("scaling back not clipped above", coefficient_back=lambda s, v, l, qp: wrapped(max(
    (v * factor(s, qp) + (1 << l)) >> (1 + l), -32768), 16))
viewers("scaling back clipped at -32767", coefficient_back=lambda s, v, l, qp: max(
    -32767, Paper.coefficient_back(s, v, l, qp)))
viewers("scaling back clipped before it is shifted", coefficient_back=lambda s, v, l, qp: (
    s.clip(v * factor(s, qp)) + (1 << l)) >> (1 + l))
viewers("a level times s in 16 bits", coefficient_back=back_by(
    lambda s, v, l, qp: (wrapped(v * s.s(qp), 16) * 2 ** (qp // 6) + (1 << l)) >> (1 + l)))
viewers("s by QP / 6", s=lambda s, qp: s.BACK[qp // 6 % 6])
viewers("s by QP mod 6 from the end", s=lambda s, qp: s.BACK[5 - qp % 6])
viewers("2^(QP mod 6)", coefficient_back=back_by(
    lambda s, v, l, qp: (v * s.s(qp) * 2 ** (qp % 6) + (1 << l)) >> (1 + l)))
viewers("2^(QP/6) left out", coefficient_back=back_by(lambda s, v, l, qp: (v * s.s(qp) + (1 << l)) >> (1 + l)))
viewers("QP / 6 rounded to nearest", coefficient_back=back_by(
    lambda s, v, l, qp: (v * s.s(qp) * 2 ** ((qp + 3) // 6) + (1 << l)) >> (1 + l)))
viewers("QP above 51 taken as 51", coefficient_back=lambda s, v, l, qp: Paper.coefficient_back(s, v, l, min(qp, 51)))
viewers("71 for remainder 5", BACK=[40, 45, 51, 57, 64, 71])
for one in range(5):
    viewers("s of remainders %d and %d exchanged" % (one, one + 1), BACK=two_exchanged(Paper.BACK, one))
for one in range(6):
    viewers("s of remainder %d one more" % one, BACK=[s + (k == one) for k, s in enumerate(Paper.BACK)])
viewers("levels behind the first row not scaled back", coefficients_back=lambda s, levels, log2, qp: (
    Paper.coefficients_back(s, levels[:1 << log2], log2, qp) + levels[1 << log2:]))
viewers("the last level not scaled back", coefficients_back=lambda s, levels, log2, qp: (
    Paper.coefficients_back(s, levels[:-1], log2, qp) + levels[-1:]))
viewers("the surplus scaled back too", scale_back=lambda s, buffer, log2, qp: Paper.scale_back(
    s, buffer, log2, qp) and s.coefficients_back(buffer, log2, qp))
viewers("scaling back stored by columns", coefficients_back=lambda s, levels, log2, qp: [
    c for x in range(1 << log2) for c in Paper.coefficients_back(s, levels, log2, qp)[x::1 << log2]])
viewers("2^16 left out of the inverse", residual=lambda s, v: s.clip(v >> 17))
viewers("2^17 added", residual=lambda s, v: s.clip((v + 2 ** 17) >> 17))
viewers("2^16 - 1 added", residual=lambda s, v: s.clip((v + 2 ** 16 - 1) >> 17))
viewers("the inverse shifted by 16", residual=lambda s, v: s.clip((v + 2 ** 15) >> 16))
viewers("the inverse shifted by 18", residual=lambda s, v: s.clip((v + 2 ** 17) >> 18))
viewers("the inverse rounded away from zero", residual=lambda s, v: s.clip(signed(v, (abs(v) + 2 ** 16) >> 17)))
viewers("the inverse cut toward zero", residual=lambda s, v: s.clip(signed(v, abs(v) >> 17)))
viewers("the inverse not clipped, in 16 bits", residual=lambda s, v: wrapped((v + 2 ** 16) >> 17, 16))
viewers("the inverse not clipped above", residual=lambda s, v: wrapped(max((v + 2 ** 16) >> 17, -32768), 16))
viewers("the inverse not clipped below", residual=lambda s, v: wrapped(min((v + 2 ** 16) >> 17, 32767), 16))
viewers("clipped at 32767 for both ends", clip=lambda s, v: max(-32767, min(32767, v)))
viewers("clipped at 32768 for both ends, in 16 bits", clip=lambda s, v: wrapped(max(-32768, min(32768, v)), 16))
viewers("clipped at -32769, in 16 bits", clip=lambda s, v: wrapped(max(-32769, min(32767, v)), 16))
viewers("residuals clipped to 1023", residual=lambda s, v: max(-1023, min(1023, (v + 2 ** 16) >> 17)))
viewers("sums of the inverse in 32 bits", residual=lambda s, v: s.clip((wrapped(v) + 2 ** 16) >> 17))
viewers("rows, rounded by 7, and then by 10", residuals=in_stages(
    rounded_to(7), lambda s, v: s.clip((v + 2 ** 9) >> 10)))
viewers("columns, rounded by 7, and then by 10", residuals=in_stages(
    rounded_to(7), lambda s, v: s.clip((v + 2 ** 9) >> 10), columns=True))
viewers("rows, rounded by 7 after the first stage", residuals=in_stages(kept_wide(7)))
viewers("rows, rounded by 5 after the first stage", residuals=in_stages(kept_wide(5)))
viewers("rows, the last bit rounded after the first stage", residuals=in_stages(kept_wide(1)))
viewers("columns, the last bit rounded after the first stage", residuals=in_stages(kept_wide(1), columns=True))
viewers("rows, shifted by 7 after the first stage", residuals=in_stages(lambda v: v >> 7, lambda s, v: s.clip(
    (v + 2 ** 9) >> 10)))
viewers("rows, clipped after the first stage", residuals=in_stages(lambda v: max(-2 ** 21, min(2 ** 21 - 1, v))))
viewers("columns, clipped after the first stage",
        residuals=in_stages(lambda v: max(-2 ** 21, min(2 ** 21 - 1, v)), columns=True))
viewers("rows, rounded by 7 and clipped to 16 bits", residuals=in_stages(
    lambda v: max(-32768, min(32767, rounded_to(7)(v))), lambda s, v: s.clip((v + 2 ** 9) >> 10)))
viewers("rows, the first stage in 24 bits", residuals=in_stages(lambda v: wrapped(v, 24)))
viewers("the shift of the transform, 7 and both logs", residuals=lambda s, c, lw, lh: [
    s.clip(s.shift_right(v, 7 + lw + lh)) for v in sums(lambda v: v, s.matrix(lw), s.matrix(lh), c)])
viewers("width and height taken for each other", residuals=lambda s, c, lw, lh: Paper.residuals(s, c, lh, lw))
viewers("width and height taken for each other throughout", inverse=lambda s, buffer, lw, lh: Paper.inverse(
    s, buffer, lh, lw))
viewers("residuals stored by columns", residuals=by_columns_back)
viewers("the matrix where its transpose belongs", residuals=with_matrices(turned))
viewers("the width's matrix alone turned", residuals=lambda s, c, lw, lh: [s.residual(v) for v in sums(
    lambda v: v, turned(s.matrix(lw)), s.matrix(lh), c)])
viewers("the height's matrix alone turned", residuals=lambda s, c, lw, lh: [s.residual(v) for v in sums(
    lambda v: v, s.matrix(lw), turned(s.matrix(lh)), c)])
viewers("the transform again", residuals=lambda s, c, lw, lh: list(map(s.clip, Paper.coefficients(s, c, lw, lh))))
viewers("the first row of the matrix 90 times", residuals=with_matrices(lambda m: [[90] * len(m)] + m[1:]))
viewers("odd rows with the other sign", residuals=with_matrices(
    lambda m: [[-e if k % 2 else e for e in row] for k, row in enumerate(m)]))
viewers("residuals from right to left", residuals=with_matrices(lambda m: [row[::-1] for row in m]))
for side, k, n in ((32, 17, 20), (32, 31, 31), (32, 0, 5), (32, 1, 0), (16, 15, 15), (16, 7, 2), (8, 7, 3), (8, 2, 6),
                   (4, 3, 1), (2, 1, 1)):
    viewers("an entry of T_%d one more: row %d, column %d" % (side, k, n), **one_more(side, k, n))
viewers("the last coefficient left out", **in_front(lambda lw, lh: (1 << lw + lh) - 1))
viewers("the last row left out", **in_front(lambda lw, lh: (1 << lw + lh) - (1 << lw)))
viewers("the first row alone", **in_front(lambda lw, lh: 1 << lw))
viewers("16 rows at most", **in_front(lambda lw, lh: min(1 << lw + lh, 16 << lw)))
viewers("the first coefficient of each 64 alone", residuals=lambda s, c, lw, lh: Paper.residuals(
    s, [v if i % 64 == 0 or len(c) < 256 else 0 for i, v in enumerate(c)], lw, lh))
viewers("the surplus turned round by inverse", inverse=lambda s, buffer, lw, lh: Paper.inverse(
    s, buffer[:s.places(lw, lh)], lw, lh) + buffer[s.places(lw, lh):][::-1])
viewers("the surplus not printed by scaleback", scale_back=lambda s, buffer, log2, qp: Paper.scale_back(
    s, buffer, log2, qp)[:s.places(log2, log2)])
viewers("the surplus not printed by inverse", inverse=lambda s, buffer, lw, lh: Paper.inverse(s, buffer, lw, lh)[
    :s.places(lw, lh)])
viewers("a coefficient of -32768 refused", **refused_samples(lambda block: -32768 in block))
viewers("a sample above 1023 refused", **refused_samples(lambda block: any(abs(v) > 1023 for v in block)))
viewers("scaled back, then refused", scale_back=written_when_refused)
for one, other in ((1, 2), (2, 5), (1, 5)):
    viewers("scaleback: refusals %d and %d exchanged" % (one, other), **through("scale_back", exchange(one, other)))
viewers("inverse: refusals 1 and 5 exchanged", **through("inverse", exchange(1, 5)))
for number in (1, 2, 5):
    viewers("scaleback: refusal %d left out" % number, scale_back=of_another(
        "scale_back", ordered=lambda s, tests, no=number: [t for t in tests if t[0] != no]))
viewers("inverse: the width's side alone tested", inverse=inverse_tested(lambda lw, lh: lw))
viewers("inverse: the height's side alone tested", inverse=inverse_tested(lambda lw, lh: lh))
viewers("inverse: the sum of the sides tested", inverse=inverse_tested(lambda lw, lh: (lw + lh) // 2))
viewers("inverse: sides refused as luma's", **{"inverse": of_another("inverse", LEAST_SIDE=2)})
viewers("scaleback: sides refused as luma's", **{"scale_back": of_another("scale_back", LEAST_SIDE=2)})
viewers("inverse: log2 side 6 taken", **{"inverse": of_another("inverse", MOST_SIDE=6)})
viewers("scaleback: log2 side 6 taken", **{"scale_back": of_another("scale_back", MOST_SIDE=6)})
viewers("inverse: log2 side 5 refused", **{"inverse": of_another("inverse", MOST_SIDE=4)})
viewers("scaleback: log2 side 5 refused", **{"scale_back": of_another("scale_back", MOST_SIDE=4)})
viewers("scaleback: QP 64 taken", **{"scale_back": of_another("scale_back", QP=64)})
viewers("scaleback: QP 63 refused", **{"scale_back": of_another("scale_back", QP=62)})
viewers("scaleback: QP cut to 8 bits", scale_back=lambda s, buffer, log2, qp: Paper.scale_back(
    s, buffer, log2, qp % 256))
viewers("scaleback: log2 side cut to 32 bits", scale_back=lambda s, buffer, log2, qp: Paper.scale_back(
    s, buffer, log2 % 2 ** 32, qp))
viewers("inverse: log2 sides cut to 32 bits", inverse=lambda s, buffer, lw, lh: Paper.inverse(
    s, buffer, lw % 2 ** 32, lh % 2 ** 32))
viewers("scaleback: a row is long enough", scale_back=lambda s, buffer, log2, qp: Paper.scale_back(
    s, buffer + [0] * (s.places(log2, log2) - len(buffer)) if log2 < 6 and len(buffer) >= 1 << log2 else buffer, log2,
    qp))
viewers("scaleback: a place more asked for", scale_back=lambda s, buffer, log2, qp: Paper.scale_back(
    s, buffer[:-1] if len(buffer) == s.places(log2, log2) else buffer, log2, qp))
viewers("inverse: a place more asked for", inverse=lambda s, buffer, lw, lh: Paper.inverse(
    s, buffer[:-1] if len(buffer) == s.places(lw, lh) else buffer, lw, lh))
for verb in (b"scaleback", b"inverse"):
    viewers("%s not read" % verb.decode(), answered=read_as(verb, b"malformed"))
viewers("inverse read as transform", answered=read_as(b"inverse", b"transform"))
viewers("scaleback read as inverse", answered=read_as(b"scaleback", b"inverse"))
for verb, word in ((b"scaleback", b"scale_back"), (b"scaleback", b"scale-back"), (b"scaleback", b"scale"),
                   (b"inverse", b"inv"), (b"inverse", b"inverse_transform"), (b"inverse", b"inverses")):
    port("%s read as %s" % (word.decode(), verb.decode()), answered=read_as(word, verb))
reader("QP of 64 bits read", u32=lambda s: s.whole(0, 2 ** 64 - 1) if s.words[0] == b"scaleback" else Words.u32(s))

# ---- the guarded call and measure
def guards(name, **rules):
    PORTS.append(type("guarded: " + name, (Paper,), {**rules, "asked": staticmethod(is_guarded)}))


def ten_bits(value):
    return max(-1023, min(1023, value))


def some_put_back(chosen):
    """Put back are the places of a block that `chosen` names, of its places in scan order and their number p."""
    return lambda paper, block, levels, p: [
        m if chosen(block, i, p) else a for i, (a, m) in enumerate(zip(levels, block.rounded))]


def price_of_the_first(paper, block, residuals, log2, heights, least):
    written = Paper.guarded(paper, block, residuals, log2, heights, least)
    return written and (written[0], paper.price(block, paper.written_by_mode(block, least)), *written[2:])


def count_of_the_first(paper, block, residuals, log2, heights, least):
    written = Paper.guarded(paper, block, residuals, log2, heights, least)
    return written and (paper.count(block, paper.written_by_mode(block, least)), *written[1:])


def nearest_instead(paper, block, residuals, log2, heights, least):
    """The last candidate where none fits, and no refusal."""
    written = Paper.guarded(paper, block, residuals, log2, heights, least)
    return written or Paper.guarded(paper, block, residuals, log2, (1 << 40, 1 << 40), least)


def cheapest_instead(paper, block, residuals, log2, heights, least):
    """Of the candidates that fit the one of least price."""
    found = []
    for levels in paper.candidates(block, paper.written_by_mode(block, least)):
        extremes = paper.extremes(residuals, paper.laid(block, levels), log2, block.qp)
        if paper.within(extremes, heights) and paper.price(block, levels) < paper.DEAR:
            found.append((paper.count(block, levels), paper.price(block, levels), *extremes, paper.laid(block, levels)))
    return min(found, key=lambda w: w[1]) if found else None


def of_pairs(chosen):
    """Extremes over those pairs of samples alone that `chosen` takes, of their place and the number of samples."""
    def of(rule):
        return lambda paper, residuals, decoded: rule(
            paper, *zip(*[(r, d) for i, (r, d) in enumerate(zip(residuals, decoded)) if chosen(i, len(residuals))]))
    return {"darker": of(Paper.darker), "lighter": of(Paper.lighter)}


def side_of(n):
    return 1 << (n.bit_length() - 1) // 2


def extremes_of(which):
    """What is answered of each component is another's."""
    def three(paper, *of):
        answers, after = Paper.guarded_sub_block(paper, *of)
        return [[*a[:2], answers[d][2], answers[l][3]] for a, (d, l) in zip(answers, which)], after
    return three


guards("the height of the wrong side", within=lambda s, e, h: e[0] <= h[1] and e[1] <= h[0])
guards("darker and lighter exchanged", darker=Paper.lighter, lighter=Paper.darker)
guards("the larger of both heights", within=lambda s, e, h: max(e) <= max(h))
guards("the smaller of both heights", within=lambda s, e, h: max(e) <= min(h))
guards("darker alone looked at", within=lambda s, e, h: e[0] <= h[0])
guards("lighter alone looked at", within=lambda s, e, h: e[1] <= h[1])
guards("the height itself too much", within=lambda s, e, h: e[0] < h[0] and e[1] < h[1])
guards("one more than the height", within=lambda s, e, h: e[0] <= h[0] + 1 and e[1] <= h[1])
guards("the sum of both", within=lambda s, e, h: sum(e) <= sum(h))
guards("heights cut to 16 bits", within=lambda s, e, h: e[0] <= h[0] % 65536 and e[1] <= h[1] % 65536)
guards("heights as signed numbers", within=lambda s, e, h: e[0] <= wrapped(h[0]) and e[1] <= wrapped(h[1]))
guards("the last row not looked at", **of_pairs(lambda i, n: i < n - side_of(n)))
guards("the last column not looked at", **of_pairs(lambda i, n: i % side_of(n) != side_of(n) - 1))
guards("the first sample not looked at", **of_pairs(lambda i, n: i != 0))
guards("the last sample not looked at", **of_pairs(lambda i, n: i != n - 1))
guards("the decoded clipped to 10 bits before it is compared",
       decoded=lambda s, *of: [ten_bits(v) for v in Paper.decoded(s, *of)])
guards("the difference cut to 16 bits", darker=lambda s, r, d: max(0, max(wrapped(a - b, 16) for a, b in zip(r, d))))
guards("the mean instead of the most", darker=lambda s, r, d: max(0, sum(a - b for a, b in zip(r, d)) // len(r)))
guards("coefficients compared instead of samples", extremes=lambda s, r, levels, log2, qp: Paper.extremes(
    s, r, levels, log2, qp) if not any(levels) else (0, 0))
guards("decoded at another QP", decoded=lambda s, levels, log2, qp: Paper.decoded(s, levels, log2, max(qp - 1, 0)))
guards("no candidate but the first", counts_put_back=lambda s, n: [])
guards("no candidate but all", counts_put_back=lambda s, n: [n])
guards("not all places put back", counts_put_back=lambda s, n: Paper.counts_put_back(s, n)[:-1])
guards("from 2 places on", counts_put_back=lambda s, n: Paper.counts_put_back(s, n)[1:])
guards("one place more each time", counts_put_back=lambda s, n: range(1, n + 1))
guards("four times as many each time", counts_put_back=lambda s, n: [4 ** i for i in range(n.bit_length() // 2 + 1)])
guards("candidates from the last back", candidates=lambda s, block, levels: Paper.candidates(s, block, levels)[:1]
       + Paper.candidates(s, block, levels)[:0:-1])
guards("put back in block order", put_back=some_put_back(lambda block, i, p: block.places[i] < p))
guards("put back from the end of the scan", put_back=some_put_back(lambda block, i, p: i >= len(block.places) - p))
guards("only the place itself put back", put_back=some_put_back(lambda block, i, p: p // 2 <= i < p))
guards("put back where the level was dropped alone", put_back=lambda s, block, levels, p: [
    m if i < p and a == 0 else a for i, (a, m) in enumerate(zip(levels, block.rounded))])
guards("put back where the level was lowered alone", put_back=lambda s, block, levels, p: [
    m if i < p and a else a for i, (a, m) in enumerate(zip(levels, block.rounded))])
guards("put back to m - 1",
       put_back=lambda s, block, levels, p: [max(m - 1, 0) for m in block.rounded[:p]] + levels[p:])
guards("a skipped block not put back", candidates=lambda s, block, levels: [levels] if block.skipped else
       Paper.candidates(s, block, levels))
guards("the price of the unrepaired block", guarded=price_of_the_first)
guards("the count of the unrepaired block", guarded=count_of_the_first)
guards("the cheapest candidate that fits", guarded=cheapest_instead)
guards("plain rounding where none fits", guarded=nearest_instead)
guards("prices of 2^62 taken", DEAR=1 << 70)
guards("prices in 64 bits", price=lambda s, block, levels: Paper.price(s, block, levels) % 2 ** 64)
guards("prices from 2^60 on refused", DEAR=1 << 60)
guards("15 before 7", guarded_tests=lambda s, k, late, fits: Paper.guarded_tests(s, k, [], fits) + late)
guards("15 of all behind 9 of all", ordered=lambda s, tests: sorted(tests, key=lambda t: t[0] == 15))
guards("15 told with component 0", guarded_tests=lambda s, k, late, fits: late + [(15, 0, lambda: fits() is None)])
guards("15 of a component that is not run", runs=lambda s, run, k: Paper.runs(s, run, k) or run == 1 << 2)
guards("heights by component, each darker and lighter", heights_of=lambda s, h, k: (h[2 * k], h[2 * k + 1]))
guards("luma's heights for all", heights_of=lambda s, h, k: (h[0], h[3]))
guards("heights of U and V exchanged", heights_of=lambda s, h, k: Paper.heights_of(s, h, (0, 2, 1)[k]))
guards("extremes of U and V exchanged", guarded_sub_block=extremes_of([(0, 0), (2, 2), (1, 1)]))
guards("luma's extremes for all", guarded_sub_block=extremes_of([(0, 0), (0, 0), (0, 0)]))
guards("darker of V told of U", guarded_sub_block=extremes_of([(0, 0), (2, 1), (2, 2)]))
guards("a component not run measured against 0",
       not_guarded=lambda s, r: (0, 0, max(0, *r), max(0, *[-v for v in r]), r))
guards("the second mode not taken", written_by_mode=lambda s, block, least: Paper.written_by_mode(s, block, False))
guards("always the second mode", written_by_mode=lambda s, block, least: Paper.written_by_mode(s, block, True))
guards("measure: lists exchanged", measure=lambda s, r, l, log2, qp: Paper.measure(s, l, r, log2, qp))
guards("measure: residuals' length not tested", measure=lambda s, r, l, log2, qp: Paper.measure(
    s, r + [0] * (1 << min(2 * log2, 12)), l, log2, qp))
guards("measure: levels' length not tested", measure=lambda s, r, l, log2, qp: Paper.measure(
    s, r, l + [0] * (1 << min(2 * log2, 12)), log2, qp))
guards("measure: lengths before the side", ordered=lambda s, tests: sorted(tests, key=lambda t: t[0] != 5) if len(
    tests) == 3 else tests)
guards("measure: QP 63 refused", measure=of_another("measure", QP=62))
guards("measure: QP 64 taken", measure=of_another("measure", QP=64))
guards("measure: residuals outside 1023 refused", measure=lambda s, r, l, log2, qp: s.first_fault(
    [(6, 0, lambda: s.residual_fault(r))]) or Paper.measure(s, r, l, log2, qp))
for verb in (b"guarded", b"measure"):
    guards("%s not read" % verb.decode(), answered=read_as(verb, b"malformed"))


# ---- the run list
def lists(name, **rules):
    PORTS.append(type("run list: " + name, (Paper,), {**rules, "asked": staticmethod(is_symbols)}))


def list_reader(name, **rules):
    """The paper with a reader of lines that differs in these methods."""
    lists(name, Words=type("Words", (Words,), rules))


def at_bits(run, magnitude, sign, last):
    """The fields from these bits on, in both calls."""
    return {"packed": lambda s, r, m, n, l: r << run | m << magnitude | n << sign | l << last,
            "unpacked": lambda s, u: (u >> run & 1023, u >> magnitude & 32767, u >> sign & 1, u >> last & 1)}


def by_columns_of(scan):
    """A scan with rows and columns exchanged."""
    side = math.isqrt(len(scan))
    return [p % side * side + p // side for p in scan]


def laid_along(scan):
    """Read levels laid by another scan, of the model's."""
    def by_rows(paper, levels, log2):
        out = [0] * len(levels)
        for p, level in zip(scan(paper.scan(1 << log2)), levels):
            out[p] = level
        return out
    return by_rows


def levels_within(paper, symbols, n):
    """What lies past the block dropped."""
    far = sum(paper.unpacked(symbol)[0] + 1 for symbol in symbols)
    return Paper.levels_of(paper, symbols, max(n, far))[:n]


def places_taken(wrong):
    """Refused by another test of the runs, and what lies past the block dropped."""
    return {"past_the_block": lambda s, symbols, n: wrong([s.unpacked(u)[0] for u in symbols], n),
            "levels_of": levels_within}


def up_to_the_mark(paper, symbols):
    marks = [paper.unpacked(symbol)[3] for symbol in symbols]
    return symbols[:marks.index(1) + 1] if 1 in marks else symbols


def without_zeros_behind(symbols):
    return symbols[:max((i + 1 for i, symbol in enumerate(symbols) if symbol), default=0)]


def some_symbols(test, chosen):
    """A test of some of the symbols alone."""
    return {test: lambda s, symbols, *of: getattr(Paper, test)(s, chosen(symbols), *of)}


def all_but_bit(bit):
    return lambda paper, symbol: Paper.unused(paper, symbol & ~(1 << bit))


def filled_when_refused(number):
    """What there is room for is written, up to a level of -32768, and then refused."""
    def write(paper, buffer, log2, symbols):
        try:
            return Paper.write(paper, buffer, log2, symbols)
        except Refused as refused:
            if refused.number == number:
                front = list(itertools.takewhile(lambda v: v != -32768, paper.in_scan_order(buffer, log2)))
                made = paper.symbols_of(front)[:len(symbols)]
                symbols[:len(made)] = made
            raise
    return write


def read_when_refused(paper, symbols, buffer, log2):
    """Symbols are read up to the first that is wrong by itself, and then the list is refused."""
    try:
        return Paper.read(paper, symbols, buffer, log2)
    except Refused as refused:
        if refused.number == 11:
            n, front = paper.places(log2, log2), []
            for symbol in symbols:
                if paper.symbol_fault(marked_last(front + [symbol]), n):
                    break
                front.append(symbol)
            buffer[:n] = paper.by_rows(paper.levels_of(front, n), log2)
        raise


def marked_last(symbols):
    return [symbol & ~(1 << 26) for symbol in symbols[:-1]] + [symbols[-1] | 1 << 26]


def cleared_then_refused(paper, symbols, buffer, log2):
    try:
        return Paper.read(paper, symbols, buffer, log2)
    except Refused as refused:
        if refused.number == 11:
            buffer[:paper.places(log2, log2)] = [0] * paper.places(log2, log2)
        raise


def read_over(keeps):
    """Some of the old levels stay: by the old ones and the new ones in scan order, and how many places the list takes,
    what is there then."""
    def read(paper, symbols, buffer, log2):
        new, n = Paper.read(paper, symbols, buffer, log2), paper.places(log2, log2)
        taken = sum(paper.unpacked(symbol)[0] + 1 for symbol in symbols)
        after = keeps(paper.in_scan_order(buffer, log2), paper.in_scan_order(new, log2), taken)
        return paper.by_rows(after, log2) + new[n:]
    return read


def by_their_places(paper, symbols, n):
    """The run taken as the level's place in the scan."""
    levels = [0] * n
    for run, magnitude, negative, _ in map(paper.unpacked, symbols):
        levels[run] = -magnitude if negative else magnitude
    return levels


def zeros_behind(paper, symbols, n):
    levels = []
    for run, magnitude, negative, _ in map(paper.unpacked, symbols):
        levels += [-magnitude if negative else magnitude] + [0] * run
    return levels + [0] * (n - len(levels))


def padded(call):
    """5 not tested: what is missing of the block is as if it were 0, and is not there then."""
    def write(paper, buffer, log2, symbols):
        return Paper.write(paper, buffer + [0] * max(0, (1 << min(2 * log2, 10)) - len(buffer)), log2, symbols)

    def read(paper, symbols, buffer, log2):
        longer = buffer + [0] * max(0, (1 << min(2 * log2, 10)) - len(buffer))
        return Paper.read(paper, symbols, longer, log2)[:len(buffer)]
    return write if call == "write" else read


def written_with(change):
    """The answer of the writer changed: by its count, the list after and before, and the buffer."""
    def write(paper, buffer, log2, symbols):
        count, after = Paper.write(paper, buffer, log2, symbols)
        return change(count, after, symbols, buffer, paper.places(log2, log2))
    return {"write": write}


def block_cleared(paper, buffer, log2, symbols):
    """The levels written are taken out of the block."""
    count, after = Paper.write(paper, buffer, log2, symbols)
    buffer[:paper.places(log2, log2)] = [0] * paper.places(log2, log2)
    return count, after


def list_cleared(paper, words):
    """The symbols read are taken out of the list."""
    head, buffer = Paper.answered(paper, words)
    if words.words[0] == b"read":
        head = paper.with_list(b"accepted :", [0] * len(words.listed))
    return head, buffer


def samples_first(paper, words):
    """N and its samples stand before K and its symbols."""
    verb, *rest = words.words
    if verb in (b"write", b"read") and len(rest) > 1 and rest[1].isdigit() and len(rest[1]) < 5:
        n = int(rest[1])
        words.words = [verb, rest[0]] + rest[n + 2:] + rest[1:n + 2]
    return Paper.answered(paper, words)


def numbered(one, other):
    """A refusal told by another number."""
    return lambda paper, tests: [(other if n == one else n, k, fault) for n, k, fault in tests]


# fields
lists("run and magnitude exchanged", **at_bits(15, 0, 25, 26))
lists("sign and last mark exchanged", **at_bits(0, 10, 26, 25))
lists("the sign in bit 24", **at_bits(0, 10, 24, 26))
lists("the sign in bit 26, the last mark in bit 27", **at_bits(0, 10, 26, 27))
lists("the last mark in bit 31", **at_bits(0, 10, 25, 31))
lists("the sign in bit 31", **at_bits(0, 10, 31, 26))
lists("the run in 9 bits", **at_bits(0, 9, 24, 25))
lists("the run in 11 bits", **at_bits(0, 11, 26, 27))
lists("the run in 12 bits", **at_bits(0, 12, 27, 28))
lists("the fields from the highest bit down", **at_bits(22, 7, 6, 5))
lists("the magnitude lowest, the run highest", **at_bits(17, 0, 15, 16))
lists("the sign over the last mark, written alone",
      packed=lambda s, r, m, n, l: r | m << 10 | l << 25 | n << 26)
lists("the sign over the last mark, read alone",
      unpacked=lambda s, u: (u & 1023, u >> 10 & 32767, u >> 26 & 1, u >> 25 & 1))
lists("the sign 1 when positive, written", packed=lambda s, r, m, n, l: Paper.packed(s, r, m, not n, l))
lists("the sign 1 when positive, read", unpacked=lambda s, u: Paper.unpacked(s, u ^ 1 << 25))
lists("the sign not written", packed=lambda s, r, m, n, l: Paper.packed(s, r, m, 0, l))
lists("the sign not read", unpacked=lambda s, u: Paper.unpacked(s, u & ~(1 << 25)))
lists("the last mark 1 when more come", packed=lambda s, r, m, n, l: Paper.packed(s, r, m, n, not l))
lists("a level in two's complement, written",
      packed=lambda s, r, m, n, l: Paper.packed(s, r, -m & 32767 if n else m, n, l))
lists("a level in two's complement, read", unpacked=lambda s, u: (
    u & 1023, -(u >> 10) & 32767 if u >> 25 & 1 else u >> 10 & 32767, u >> 25 & 1, u >> 26 & 1))
lists("the magnitude less 1", packed=lambda s, r, m, n, l: Paper.packed(s, r, m - 1, n, l))
lists("the magnitude in 14 bits", packed=lambda s, r, m, n, l: Paper.packed(s, r, m & 16383, n, l))
lists("the magnitude in 8 bits", packed=lambda s, r, m, n, l: Paper.packed(s, r, m & 255, n, l))
lists("the magnitude read in 14 bits", unpacked=lambda s, u: Paper.unpacked(s, u & ~(1 << 24)))
lists("a magnitude of 32767 as 32766", packed=lambda s, r, m, n, l: Paper.packed(s, r, min(m, 32766), n, l))
lists("-32767 without its sign", packed=lambda s, r, m, n, l: Paper.packed(s, r, m, n and m < 32767, l))
lists("-32767 read without its sign", levels_of=lambda s, symbols, n: [
    abs(v) if v == -32767 else v for v in Paper.levels_of(s, symbols, n)])
lists("a magnitude of 32767 not read", zero_magnitude=lambda s, symbols: any(
    s.unpacked(u)[1] in (0, 32767) for u in symbols))
lists("the run in 8 bits, written", packed=lambda s, r, m, n, l: Paper.packed(s, r & 255, m, n, l))
lists("the run written in 9 bits at most", packed=lambda s, r, m, n, l: Paper.packed(s, min(r, 511), m, n, l))
lists("the run in 8 bits, read", unpacked=lambda s, u: Paper.unpacked(s, u & ~(3 << 8)))
lists("the run in 9 bits, read", unpacked=lambda s, u: Paper.unpacked(s, u & ~(1 << 9)))

# runs, scan and marks
lists("the run counted along the rows, written", in_scan_order=lambda s, buffer, log2: buffer[:1 << 2 * log2])
lists("the levels laid along the rows, read", by_rows=lambda s, levels, log2: levels)
lists("the transposed scan, written", in_scan_order=lambda s, buffer, log2: [
    buffer[p] for p in by_columns_of(s.scan(1 << log2))])
lists("the transposed scan, read", by_rows=laid_along(by_columns_of))
lists("the last two places exchanged, read", by_rows=laid_along(lambda scan: two_exchanged(scan, len(scan) - 2)))
lists("two places in the middle exchanged, written", in_scan_order=lambda s, buffer, log2: [
    buffer[p] for p in two_exchanged(s.scan(1 << log2), (1 << 2 * log2) // 2)])
lists("the scan from the last place back, written", in_scan_order=lambda s, buffer, log2: Paper.in_scan_order(
    s, buffer, log2)[::-1])
lists("the symbols from the last back", symbols_of=lambda s, levels: Paper.symbols_of(s, levels)[::-1])
lists("the run from the block's beginning", run_before=lambda s, places, i: places[i])
lists("the zeros from the block's beginning", run_before=lambda s, places, i: places[i] - i)
lists("the run with the level itself", run_before=lambda s, places, i: Paper.run_before(s, places, i) + 1)
lists("the run one less behind a level", run_before=lambda s, places, i: max(0, Paper.run_before(s, places, i) - (
    i > 0)))
lists("the run behind a level", run_before=lambda s, places, i: Paper.run_before(s, places, i + 1) if i + 1 < len(
    places) else 0)
lists("the first run 0", run_before=lambda s, places, i: Paper.run_before(s, places, i) if i else 0)
lists("the last mark on the first", is_last=lambda s, places, i: i == 0)
lists("the last mark on none", is_last=lambda s, places, i: False)
lists("the last mark on all", is_last=lambda s, places, i: True)
lists("the last mark on the last place alone", is_last=lambda s, places, i: places[i] in (3, 15, 63, 255, 1023))
lists("the last mark one symbol early", is_last=lambda s, places, i: i == max(0, len(places) - 2))
lists("no last mark where there is one symbol", is_last=lambda s, places, i: 0 < i == len(places) - 1)
lists("levels of 1 left out", symbols_of=lambda s, levels: Paper.symbols_of(s, [
    v if abs(v) > 1 else 0 for v in levels]))
lists("the first level not written", symbols_of=lambda s, levels: Paper.symbols_of(s, [0] + levels[1:]))
lists("the last level not written", symbols_of=lambda s, levels: Paper.symbols_of(s, levels[:-1] + [0]))
lists("an empty block as one symbol", symbols_of=lambda s, levels: Paper.symbols_of(s, levels) or [1 << 26])

# what the writer leaves
lists("the list cleared behind the symbols", filled=lambda s, symbols, made: made + [0] * (len(symbols) - len(made)))
lists("a 0 behind the symbols", filled=lambda s, symbols, made: (made + [0] + symbols[len(made) + 1:])[:len(symbols)])
lists("the symbols at the list's end", filled=lambda s, symbols, made: symbols[:len(symbols) - len(made)] + made)
lists("the symbols pushed before what is there", filled=lambda s, symbols, made: (made + symbols)[:len(symbols)])
lists("what is behind the symbols not said", filled=lambda s, symbols, made: made)
lists("the list unchanged", filled=lambda s, symbols, made: symbols)
lists("the last symbol not written", filled=lambda s, symbols, made: made[:-1] + symbols[len(made[:-1]):])
lists("symbols put over those that are there by or", filled=lambda s, symbols, made: [
    a | b for a, b in zip(symbols, made)] + symbols[len(made):])
lists("the block cleared when written", write=block_cleared)
lists("the list's length told", **written_with(lambda count, after, before, buffer, n: (len(before), after)))
lists("the levels of the surplus counted too", **written_with(
    lambda count, after, before, buffer, n: (sum(map(bool, buffer)), after)))
lists("the count one less", **written_with(lambda count, after, before, buffer, n: (max(0, count - 1), after)))
lists("the places to the last level told", **written_with(lambda count, after, before, buffer, n: (
    max((p + 1 for p, v in enumerate(buffer[:n]) if v), default=0), after)))
lists("the count in 8 bits", **written_with(lambda count, after, before, buffer, n: (count % 256, after)))
lists("the count in 10 bits", **written_with(lambda count, after, before, buffer, n: (count % 1024, after)))
lists("the room that is left told", **written_with(
    lambda count, after, before, buffer, n: (len(before) - count, after)))

# refusals of the writer
def cut_to_room(paper, symbols, made):
    return Paper.filled(paper, symbols, made)[:len(symbols)]


lists("a list of exactly enough places refused", room_fault=lambda s, symbols, levels: len(symbols) <= s.symbol_count(
    levels))
lists("a list of exactly enough places refused where there are levels",
      room_fault=lambda s, symbols, levels: 0 < s.symbol_count(levels) >= len(symbols))
lists("a list one place too short filled", room_fault=lambda s, symbols, levels: len(symbols) + 1 < s.symbol_count(
    levels), filled=cut_to_room)
lists("10 not tested", room_fault=lambda s, symbols, levels: False, filled=cut_to_room)
lists("10 by the places to the last level", room_fault=lambda s, symbols, levels: len(symbols) < max(
    (p + 1 for p, v in enumerate(levels) if v), default=0))
lists("10 by the block's places", room_fault=lambda s, symbols, levels: len(symbols) < len(levels))
lists("an empty list refused", room_fault=lambda s, symbols, levels: not symbols or Paper.room_fault(
    s, symbols, levels))
lists("10 by the surplus too", write=lambda s, buffer, log2, symbols: of_another(
    "write", room_fault=lambda paper, lent, levels: len(lent) < sum(map(bool, buffer)))(s, buffer, log2, symbols))
lists("10 where there is a place too many", room_fault=lambda s, symbols, levels: len(symbols) != s.symbol_count(
    levels))
lists("6 not tested", level_fault=lambda s, levels: False)
lists("6 from -32767 on", level_fault=lambda s, levels: min(levels, default=0) < -32766)
lists("6 of 32767 too", level_fault=lambda s, levels: any(abs(v) > 32766 for v in levels))
lists("6 of a residual's limit", level_fault=lambda s, levels: any(abs(v) > 1023 for v in levels))
lists("6 in the surplus", **{"write": of_another("write", sampled=lambda s, buffer, n: buffer)})
lists("6 not at the first place", level_fault=lambda s, levels: -32768 in levels[1:])
lists("6 not at the last place", **{"write": of_another("write", sampled=lambda s, buffer, n: buffer[:n - 1])})
for one, other in ((1, 5), (5, 6), (6, 10), (1, 6), (5, 10), (1, 10)):
    lists("write: refusals %d and %d exchanged" % (one, other), **through("write", exchange(one, other)))
lists("write: 1 not tested", write=of_another("write", ordered=lambda s, tests: tests[1:]))
lists("write: 5 not tested", write=padded("write"))
lists("the list filled, then refused with 10", write=filled_when_refused(10))
lists("the list filled, then refused with 6", write=filled_when_refused(6))
lists("refusal 10 told as 9", ordered=numbered(10, 9))
lists("refusal 10 told as 11", ordered=numbered(10, 11))

# refusals of the reader
lists("a zero magnitude read", zero_magnitude=lambda s, symbols: False)
lists("a zero magnitude with a sign read", zero_magnitude=lambda s, symbols: any(
    s.unpacked(u)[1:3] == (0, 0) for u in symbols))
lists("a zero magnitude with a run read", zero_magnitude=lambda s, symbols: any(
    s.unpacked(u)[1] == 0 and s.unpacked(u)[0] == 0 for u in symbols))
lists("a zero magnitude read behind the first symbol", **some_symbols("zero_magnitude", lambda symbols: symbols[:1]))
lists("a zero magnitude read before the last symbol", **some_symbols("zero_magnitude", lambda symbols: symbols[-1:]))
lists("a zero magnitude read at the last symbol", **some_symbols("zero_magnitude", lambda symbols: symbols[:-1]))
lists("unused bits read", unused_bits=lambda s, symbols: False)
for bit in range(27, 32):
    lists("unused bit %d read" % bit, unused=all_but_bit(bit))
lists("unused bits tested as a number below 0", unused_bits=lambda s, symbols: any(u >> 31 for u in symbols))
lists("unused bits read behind the first symbol", **some_symbols("unused_bits", lambda symbols: symbols[:1]))
lists("unused bits read before the last symbol", **some_symbols("unused_bits", lambda symbols: symbols[-1:]))
lists("unused bits read at the last symbol", **some_symbols("unused_bits", lambda symbols: symbols[:-1]))
lists("unused bits read in the middle", **some_symbols("unused_bits", lambda symbols: symbols[:1] + symbols[-1:]))
lists("a run past the block read", **places_taken(lambda runs, n: False))
lists("a run one past the block read", **places_taken(lambda runs, n: sum(runs) + len(runs) > n + 1))
lists("a run to the block's end refused", **places_taken(lambda runs, n: sum(runs) + len(runs) >= n))
lists("runs alone added up", **places_taken(lambda runs, n: sum(runs) > n))
lists("runs alone added up, n refused", **places_taken(lambda runs, n: sum(runs) >= n))
lists("each run by itself compared", **places_taken(lambda runs, n: any(run >= n for run in runs)))
lists("the last run alone compared", **places_taken(lambda runs, n: runs != [] and runs[-1] + len(runs) > n))
lists("the last run not compared", **places_taken(lambda runs, n: sum(runs[:-1]) + len(runs[:-1]) > n))
lists("runs past 1024 refused alone", **places_taken(lambda runs, n: sum(runs) + len(runs) > 1024))
lists("as many symbols as places compared", **places_taken(lambda runs, n: len(runs) > n))
for bits in (8, 10, 11, 16):
    lists("places counted in %d bits" % bits, **places_taken(
        lambda runs, n, bits=bits: (sum(runs) + len(runs) - 1) % 2 ** bits + 1 > n if runs else False))
lists("a missing last mark read", missing_mark=lambda s, marks: False)
lists("a missing last mark read where one symbol is", missing_mark=lambda s, marks: len(marks) > 1 and not marks[-1])
lists("a missing last mark read where the block is full", symbol_fault=lambda s, symbols, n: Paper.symbol_fault(
    s, marked_last(symbols) if sum(s.unpacked(u)[0] + 1 for u in symbols) == n else symbols, n))
lists("a mark anywhere is enough", missing_mark=lambda s, marks: marks != [] and not any(marks),
      behind_a_mark=lambda s, marks: False)
lists("the empty list refused", missing_mark=lambda s, marks: not any(marks[-1:]))
lists("a symbol behind a last mark read", behind_a_mark=lambda s, marks: False)
lists("a symbol behind a last mark read where it is the second", behind_a_mark=lambda s, marks: any(marks[1:-1]))
lists("a mark right before the last symbol read", behind_a_mark=lambda s, marks: any(marks[:-2]))
lists("marks not looked at", missing_mark=lambda s, marks: False, behind_a_mark=lambda s, marks: False)
lists("what is behind a last mark not read", read=lambda s, symbols, buffer, log2: Paper.read(
    s, up_to_the_mark(s, symbols), buffer, log2))
lists("zeros behind the last mark passed over", read=lambda s, symbols, buffer, log2: Paper.read(
    s, without_zeros_behind(symbols), buffer, log2))
lists("refusal 11 told as 10", ordered=numbered(11, 10))
lists("refusal 11 told as 6", ordered=numbered(11, 6))
for one, other in ((1, 5), (5, 11), (1, 11)):
    lists("read: refusals %d and %d exchanged" % (one, other), **through("read", exchange(one, other)))
lists("read: 1 not tested", read=of_another("read", ordered=lambda s, tests: tests[1:]))
lists("read: 5 not tested", read=padded("read"))

# what the reader leaves
lists("old levels not cleared", read=read_over(lambda was, new, taken: [b or a for a, b in zip(was, new)]))
lists("old levels behind the last symbol not cleared", read=read_over(
    lambda was, new, taken: new[:taken] + was[taken:]))
lists("old levels cleared behind the last symbol alone", read=read_over(
    lambda was, new, taken: [b or a for a, b in zip(was[:taken], new)] + new[taken:]))
lists("levels added to the old ones", read=read_over(lambda was, new, taken: [
    wrapped(a + b, 16) for a, b in zip(was, new)]))
lists("an empty list leaves the block", read=read_over(lambda was, new, taken: new if taken else was))
lists("the surplus cleared too", read=lambda s, symbols, buffer, log2: Paper.read(s, symbols, buffer, log2)[
    :s.places(log2, log2)] + [0] * (len(buffer) - s.places(log2, log2)))
lists("the first place behind the block cleared too", read=lambda s, symbols, buffer, log2: (
    lambda after, n: after[:n] + [0] * (len(after) > n) + after[n + 1:])(Paper.read(s, symbols, buffer, log2), s.places(
        log2, log2)))
lists("the surplus not said", read=lambda s, symbols, buffer, log2: Paper.read(s, symbols, buffer, log2)[
    :s.places(log2, log2)])
lists("the block read until it is refused", read=read_when_refused)
lists("the block cleared, then refused", read=cleared_then_refused)
lists("the list cleared when read", answered=list_cleared)
lists("the last symbol not read", levels_of=lambda s, symbols, n: Paper.levels_of(s, symbols[:-1], n))
lists("the first symbol not read", levels_of=lambda s, symbols, n: Paper.levels_of(s, symbols[1:], n))
lists("the run read as the level's place", levels_of=by_their_places)
lists("the run read as the zeros behind the level", levels_of=zeros_behind)

# sides and lengths, each call by itself
for call in ("write", "read"):
    lists("%s: sides refused as luma's" % call, **{call: of_another(call, LEAST_SIDE=2)})
    lists("%s: log2 side 0 taken" % call, **{call: of_another(call, LEAST_SIDE=0)})
    lists("%s: log2 side 6 taken" % call, **{call: of_another(call, MOST_SIDE=6)})
    lists("%s: log2 side 5 refused" % call, **{call: of_another(call, MOST_SIDE=4)})
    lists("%s: a place more asked for" % call, **{call: of_another(call, places=lambda s, lw, lh: Paper.places(
        s, lw, lh) + 1, by_rows=lambda s, levels, log2: Paper.by_rows(s, levels[:-1], log2) + levels[-1:])})
lists("write: the log2 side cut to 32 bits", write=lambda s, buffer, log2, symbols: Paper.write(
    s, buffer, log2 % 2 ** 32, symbols))
lists("read: the log2 side cut to 32 bits", read=lambda s, symbols, buffer, log2: Paper.read(
    s, symbols, buffer, log2 % 2 ** 32))

# their lines
list_reader("K and N 8,192 together", most_samples=lambda s: 8192 - len(s.listed or []))
list_reader("K and N 8,192 each", most_samples=lambda s: 8192)
list_reader("2·K + N of 8,192 not read", most_samples=lambda s: 8191 - 2 * len(s.listed or []))
list_reader("2·K + N of 8,193 read", most_samples=lambda s: 8193 - 2 * len(s.listed or []))
list_reader("a symbol in the room of three", most_samples=lambda s: 8192 - 3 * len(s.listed or []))
list_reader("K + 2·N of 8,192", most_samples=lambda s: (8192 - len(s.listed or [])) // 2)
list_reader("symbols of 31 bits alone read", symbol=lambda s: s.whole(0, 2 ** 31 - 1))
list_reader("symbols of 27 bits alone read", symbol=lambda s: s.whole(0, 2 ** 27 - 1))
list_reader("symbols cut to 32 bits", symbol=cut_to(32))
list_reader("symbols below 0 read", symbol=lambda s: s.whole(-2 ** 31, 2 ** 32 - 1) % 2 ** 32)
list_reader("symbols as samples", symbol=lambda s: s.whole(-32768, 32767) % 2 ** 32)
lists("no colon where the list is empty", with_list=lambda s, head, symbols: Paper.with_list(
    s, head, symbols) if symbols else head)
lists("two spaces where the list is empty", with_list=lambda s, head, symbols: Paper.with_list(
    s, head, symbols) if symbols else head + b"  :")
lists("the list not said", with_list=lambda s, head, symbols: head)
lists("symbols said in hex", with_list=lambda s, head, symbols: b" ".join(
    [head] + [b"%x" % symbol for symbol in symbols] + [b":"]))
lists("symbols said as signed numbers", with_list=lambda s, head, symbols: Paper.with_list(
    s, head, [wrapped(symbol) for symbol in symbols]))
lists("N before K", answered=samples_first)
for verb in (b"write", b"read"):
    lists("%s not read" % verb.decode(), answered=read_as(verb, b"malformed"))
for word, verb in ((b"write", b"read"), (b"read", b"write")):
    lists("%s read as %s" % (word.decode(), verb.decode()), answered=read_as(word, verb))
for word, verb in ((b"write_symbols", b"write"), (b"write-symbols", b"write"), (b"writ", b"write"),
                   (b"writer", b"write"), (b"read_symbols", b"read"), (b"read-symbols", b"read"), (b"rea", b"read"),
                   (b"reader", b"read")):
    lists("%s read as %s" % (word.decode(), verb.decode()), answered=read_as(word, verb))
    PORTS[-1].asked = staticmethod(lambda line, word=word: line.startswith(word))


# ---- ports that can't differ: what is said of them is checked as far as the stored requests go
equal("7, 8 and 9 asked of a skipped block too", "there m is at most 1, lambda × 2 at most 2^29, D below 2^57",
      meets_late_tests=lambda s, block: True)
equal("-32768 let through where the block is skipped", "no QP skips a magnitude of 32768", quantise=lets_skipped_pass)
equal("7 of Y, U, V, then 8, then 9", "of three components only luma of side 32 reaches 7, and none reaches 9",
      ordered=lambda s, tests: sorted(tests, key=lambda t: t[0]), asked=staticmethod(lambda line: not is_guarded(line)))
equal("three components: refusals 8 and 9 exchanged", "no residuals reach 9", **through("sub_block", exchange(8, 9)))
equal("the source's cap on L", "32767 × 26214 is below it",
      scaled=lambda s, c, qp: min(Paper.scaled(s, c, qp), 2 ** 31 - 1 - (1 << 13)))
equal("m-1 tried where m is 1", "it is 0 once more", allowed=lambda s, m: [0, m] + ([m - 1] if m else []))
equal("second mode: m-1 allowed where m is 1", "it is 0 once more",
      in_order=lambda s, m: [0] + [m - 1] * (m > 0) + [m] * (m > 0))
equal("second mode: not searched behind the last m above 0", "no nonzero level can come there", ahead=not_behind)
equal("a line of more than 65,535 bytes read", "the longest request that can be read has 58,072",
      Words=type("Words", (Words,), {"LONGEST_LINE": 10 ** 9}))
equal("lambda × (M+1) of 2^41 + 3 taken", "the nearest product past 2^41 is 2^41 + 4", PRICE=(1 << 41) + 3)
equal("run list: the run cut to 10 bits", "a block has 1,024 places at most, and a level is one of them",
      packed=lambda s, r, m, n, l: Paper.packed(s, r & 1023, m, n, l), asked=staticmethod(is_symbols))
equal("run list: the magnitude cut to 15 bits", "6 has refused -32768",
      packed=lambda s, r, m, n, l: Paper.packed(s, r, m & 32767, n, l), asked=staticmethod(is_symbols))
equal("run list: as many symbols as places compared first", "each takes a place",
      past_the_block=lambda s, symbols, n: len(symbols) > n or Paper.past_the_block(s, symbols, n),
      asked=staticmethod(is_symbols))
equal("viewer's half: a level's product in 32 bits", "32768 × 57 × 2^10 + 2^5 is below 2^31",
      coefficient_back=back_by(lambda s, v, l, qp: wrapped(wrapped(v * factor(s, qp)) + (1 << l)) >> (1 + l)))
equal("viewer's half: clipped from 64 places on alone", "the sums of smaller blocks stay below 32767 × 2^17",
      residuals=lambda s, c, lw, lh: Paper.residuals(s, c, lw, lh) if lw + lh >= 6 else [
          (v + 2 ** 16) >> 17 for v in sums(lambda v: v, s.matrix(lw), s.matrix(lh), c)])


# ---- the stored requests, and who gets them wrong
@functools.cache
def stored():
    """Of the requests made by hand, and of those drawn by chance: their part of the file as `tq` reads it, the last
    line of the former without a newline, and the recorded answers."""
    files = []
    for name in ("stdin", "stdout"):
        with open(os.path.join(HERE, "crates", "tq", name), "rb") as f:
            files.append(Paper().lines(f.read()))
    parts = []
    for is_chance in (False, True):
        asked = [(section == vectors.BY_CHANCE) == is_chance for section, _ in vectors.requests()]
        requests, answers = ([line for line, of_it in zip(lines, asked) if of_it] for lines in files)
        parts.append((b"\n".join(requests) + (b"\n" if is_chance else b""), answers))
    same = len(files[0]) == len(files[1]) == len(asked)
    assert same, "the stored requests are those of tools/vectors: run tools/record"
    return parts


def wrong_answers(paper, requests, recorded, enough):
    """How many answers are wrong, up to enough, and the number of the first."""
    wrong, first = 0, None
    asked = getattr(paper, "asked", lambda line: True)
    for i, (request, answer) in enumerate(itertools.zip_longest(requests, recorded)):
        if request is not None and not asked(request):
            continue
        if request is None or answer is None or paper.answer(request) != answer:
            wrong, first = wrong + 1, first or i + 1
            if wrong == enough:
                break
    return wrong, first


def tried(job):
    at, enough = job
    paper = ([Paper] + PORTS + EQUAL)[at]()
    return at, *[wrong_answers(paper, paper.lines(data), said, enough) for data, said in stored()]


def row(paper, hand, chance, enough, sections):
    count = lambda wrong: "%d%s" % (wrong, "+" if wrong == enough else "")
    first = "by hand %d, %s" % (hand[1], sections[hand[1] - 1]) if hand[0] else "by chance %d" % chance[1] if chance[
        0] else "-"
    name = "the paper itself" if paper is Paper else paper.__name__
    return "%-66s %7s %9s  %s" % (name, count(hand[0]), count(chance[0]), first)


def main():
    words = [w for w in sys.argv[1:] if w != "--all"]
    enough = 0 if "--all" in sys.argv else 10
    everyone = [Paper] + PORTS + EQUAL
    asked = [i for i, p in enumerate(everyone) if not words or any(w in p.__name__ for w in words)]
    sections = [name for name, _ in vectors.requests() if name != vectors.BY_CHANCE]
    bad, caught = [], [0, 0, 0]
    print("%-66s %7s %9s  %s" % ("", "by hand", "by chance", "first"))
    with multiprocessing.Pool(2) as pool:
        for at, hand, chance in pool.imap(tried, [(i, enough) for i in asked]):
            paper, wrong = everyone[at], 1 <= at <= len(PORTS)
            print(row(paper, hand, chance, enough, sections), flush=True)
            if wrong != (hand[0] + chance[0] > 0):
                bad.append(paper.__name__)
            if wrong:
                caught = [n + 1 if c else n for n, c in zip(caught, (hand[0], chance[0], hand[0] + chance[0]))]
    ports = sum(1 <= at <= len(PORTS) for at in asked)
    print("%d wrong ports: %d caught by hand, %d by chance, %d by one of them" % (ports, *caught))
    for paper in EQUAL if not words else []:
        print("can't differ: %s: %s" % (paper.__name__, paper.why))
    if bad:
        sys.exit("not as it must be: " + "; ".join(bad))


if __name__ == "__main__":
    main()
