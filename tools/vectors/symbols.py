"""Requests of the run list's two calls, made by hand and drawn by chance: every field of a symbol, every limit with its
neighbour, each fault of a list at each of its symbols, each order of two refusals, both calls undone by each other,
malformed lines. Blocks that the quantiser leaves are those of the model's."""
import functools, itertools
from paper import Costs, Paper, Refused
from vectors.by_chance import COEFFICIENTS, COSTS, LAMBDAS, Random, flags, step, surplus
from vectors.by_hand import GOOD, like_a_number, like_a_verb, missing_and_more, spaces
from vectors.guarded import patterned
from vectors.lines import FLAT, put, read, replaced, write

PAPER = Paper()
SIDES = range(1, 6)
PAST_SIDES = (0, 6, 7, 8, 31, 32, 33, 63, 64, 65, 2 ** 31, 2 ** 32 + 1, 2 ** 63, 2 ** 64 - 1)


def symbol(run=0, level=1, last=0, unused=0):
    return run + 2 ** 10 * abs(level) + 2 ** 25 * (level < 0) + 2 ** 26 * last + 2 ** 27 * unused


def marked(*symbols):
    """The last one with its mark."""
    return [*symbols[:-1], symbols[-1] | 2 ** 26]


def junk(k):
    """What a list held before: no two neighbours are equal, and none is a symbol that a test writes."""
    return list(itertools.islice(itertools.cycle((2 ** 32 - 1, 3, 0, 2 ** 27 + 5, 77, 2 ** 31, 2 ** 26 + 1, 6)), k))


def old(n):
    """What a buffer held before."""
    return [v or 1 for v in patterned(n, 3, 999)]


def placed(log2, levels):
    """A block with levels at scan places, 0 at the others."""
    scan = PAPER.scan(1 << log2)
    return put(len(scan), {scan[p]: level for p, level in levels.items()})


def list_of(block, log2):
    return PAPER.symbols_of(PAPER.in_scan_order(block, log2))


def both(block, log2, more=1):
    """A block written into a list of some places more, and its list read over what was there."""
    symbols = list_of(block, log2)
    yield write(block, junk(len(symbols) + more), log2)
    yield read(symbols, old(1 << 2 * log2), log2)


# ---- fields, runs and marks

def empty_blocks():
    """Of every side: no symbol, whatever room there is; an empty list clears what was there."""
    for log2 in SIDES:
        n = 1 << 2 * log2
        yield from (write([0] * n, junk(k), log2) for k in (0, 1, 3))
        yield from (read([], buffer, log2) for buffer in ([0] * n, old(n), old(n) + [7, -32768]))


def one_level():
    """At every scan place of sides 2, 4 and 8, at some of 16 and 32: its run is its place."""
    for log2 in SIDES:
        n, side = 1 << 2 * log2, 1 << log2
        some = (0, 1, 2, 3, side - 1, side, n // 2 - 1, n // 2, n // 2 + side // 2, n - 3, n - 2, n - 1)
        for p in range(n) if log2 < 4 else some:
            yield from both(placed(log2, {p: (p + 2) * (-1) ** p}), log2, p % 3)


def magnitudes_and_signs():
    """Powers of two and one less, up to 32767, of either sign; -32768 and what is next to it."""
    magnitudes = sorted({2 ** k for k in range(15)} | {2 ** k - 1 for k in range(1, 16)})
    for i, magnitude in enumerate(magnitudes):
        for level in (magnitude, -magnitude):
            yield from both(placed(1, {i % 4: level}), 1)
    for levels in itertools.product((32767, -32767, 1, -1), repeat=2):
        yield from both(placed(1, dict(zip((1, 3), levels))), 1)
    yield from (write(placed(1, {p: level}), junk(2)) for p in range(4) for level in (-32768, -32767, -32766, 32767))


def runs_between():
    """Every two scan places of sides 2 and 4; runs of each power of two and about it at the larger sides, behind the
    first place and before the last; equal levels, so that runs alone tell them apart."""
    for log2 in (1, 2):
        for i, (p, q) in enumerate(itertools.combinations(range(1 << 2 * log2), 2)):
            told = list(both(placed(log2, {p: 5, q: -5}), log2))
            yield from told if log2 == 1 else told[i % 2:i % 2 + 1]
    for log2 in (3, 4, 5):
        n = 1 << 2 * log2
        for run in sorted({r for k in range(2, 2 * log2) for r in (2 ** k - 1, 2 ** k) if r < n - 1}):
            yield from list(both(placed(log2, {0: 1, run + 1: 1}), log2))[run % 2:][:1]
            yield from list(both(placed(log2, {n - 2 - run: -1, n - 1: -1}), log2))[1 - run % 2:][:1]


def largest_runs():
    """Of every side: all places but the last are zeros; but the first and the last; three levels; and a run one past
    each."""
    for log2 in SIDES:
        n = 1 << 2 * log2
        for levels in ({n - 1: 1}, {n - 1: -32767}, {0: 9, n - 1: -9}, {0: 1, 1: 1, n - 1: 1}, {n - 2: 4}):
            yield from both(placed(log2, levels), log2)
        yield from (read(symbols, old(n), log2) for symbols in (
            [symbol(min(n, 1023), 1, 1), symbol(0, 1, 1)], marked(symbol(0), symbol(n - 1)),
            marked(symbol(0), symbol(0), symbol(n - 2)), marked(symbol(n - 1), symbol(0)),
            marked(symbol(n - 2), symbol(0), symbol(0))))
        if n < 1024:
            yield from (read([symbol(run, 1, 1)], old(n), log2) for run in (n, n + 1, 2 * n - 1, 2 * n, 1023))


def full_blocks():
    """Of every side: runs of 0, and as many symbols as places; one level missing at the first, a middle and the last
    place."""
    for log2 in SIDES:
        n = 1 << 2 * log2
        yield from both([1] * n, log2)
        yield from both([-32767 if p % 3 else 32767 for p in range(n)], log2, 0)
        yield from both([v or -7 for v in patterned(n, 7, 90)], log2)
        for p in (0, n // 2, n - 1):
            block = placed(log2, {q: q % 9 - 9 for q in range(n) if q != p})
            yield from list(both(block, log2))[::1 if log2 < 5 else 2]
        yield write([3] * n, junk(n - 1), log2)
        yield read([symbol()] * n, old(n), log2)
        yield read(marked(*[symbol()] * (n + 1)), old(n), log2)


def last_marks():
    """Every pattern of marks on up to four symbols; a mark alone, two lists one behind the other."""
    for k in range(5):
        for marks in itertools.product((0, 1), repeat=k):
            yield read([symbol(0, 3 + i, last) for i, last in enumerate(marks)], old(4))
    for k in (1, 5, 15, 16):
        yield from (read([symbol(0, 2, i == at) for i in range(k)], old(16), 2) for at in sorted({0, k // 2, k - 1}))
        yield read([symbol(0, 2, 1)] * k, old(16), 2)
        yield read([symbol(0, 2, 0)] * k, old(16), 2)
    yield from (read(some, old(16), 2) for some in (
        marked(symbol(2)) * 2, marked(symbol(), symbol()) * 2, [2 ** 26], [2 ** 26, 2 ** 26], marked(symbol(2)) + [0]))


# ---- what is lent: room, surplus, what was there

def room_of_the_list():
    """Every number of levels of side 2 with every number of places; of the other sides exactly enough, one place fewer,
    one more, none and many."""
    for count in range(5):
        for k in range(7):
            block = placed(1, {3 - p: -p - 1 for p in range(count)})
            yield write(block, junk(k))
    for log2 in SIDES[1:]:
        n = 1 << 2 * log2
        for levels in ({n - 1: 1}, {p: p + 1 for p in range(0, n, 3)}, {p: -1 for p in range(n // 2, n // 2 + 7)}):
            count = len(levels)
            yield from (write(placed(log2, levels), junk(k), log2) for k in sorted(
                {0, 1, count - 2 if count > 1 else 0, count - 1, count, count + 1, 2 * count, n}))


def surplus_of_both():
    """Behind the block any samples, -32768 among them: they are not counted, nor refused. Behind the symbols any
    numbers, such as look like symbols too."""
    behind = ([1], [0], [-32768], [32767, -32768, 0, 5], [-32768] * 12, [1] * 60)
    for log2 in (1, 2, 3):
        n = 1 << 2 * log2
        block = placed(log2, {0: 8, n // 2: -1, n - 1: 300})
        symbols = list_of(block, log2)
        for more in behind:
            yield from (write(block + more, junk(k), log2) for k in (2, 3, 5))
            yield write([0] * n + more, [], log2)
            yield read(symbols, old(n) + more, log2)
            yield read([], old(n) + more, log2)
        for places in ([0], [0] * 5, [2 ** 32 - 1] * 4, symbols, symbols * 2, [symbol(0, 1, 1)], junk(200), junk(2000)):
            yield write(block, symbols + places, log2)
            yield write(block, places + symbols, log2)
    for k in (1000, 1023, 1024, 1025, 3000):
        yield write(old(1024), junk(k), 5)


def what_is_read_over():
    """Old levels at every place: the block is the list's alone, with or without a surplus; a list refused leaves
    them."""
    for log2 in SIDES:
        n = 1 << 2 * log2
        for buffer in (old(n), [-32768] * n, [32767] * (n + 3)) if log2 < 5 else (old(n) + [9, -9],):
            yield from (read(symbols, buffer, log2) for symbols in (
                [], [symbol(n // 2, -3, 1)], marked(symbol(1, 4), symbol(0, -4)), [symbol(n // 2, -3, 0)],
                [symbol(0, 5, 0), symbol(1, 0, 1)], marked(symbol(0, 6), symbol(n - 1, 1))))
        # the levels that are there and in the list once more
        block = placed(log2, {0: 2, n - 1: -2})
        yield from (read(symbols, block, log2) for symbols in (list_of(block, log2), [], marked(symbol(1, 2))))


# ---- refusals

def refusals_of_the_writer():
    """1, 5, 6 and 10: each by itself with its neighbours, at every side; -32768 at every place of side 2, at some of
    the others."""
    for log2 in (*SIDES, *PAST_SIDES):
        block = [2, 0, 0, -1] * (256 if log2 == 5 else 64 if log2 == 4 else 16)
        yield write(block, junk(max(1, len(block) // 2)), log2)
        yield write([], [], log2)
    for log2 in SIDES:
        n = 1 << 2 * log2
        block = placed(log2, {0: 1, n - 1: -1})
        for length in sorted({0, 1, n // 4, n // 2, n - 1, n, n + 1}):
            yield write((block + [4])[:length], junk(3), log2)
        for p in sorted({0, 1, n // 2, n - 2, n - 1}):
            yield write(put(n, {p: -32768}), junk(2), log2)
            yield write(put(n, {0: 5, p: -32768}), junk(2), log2)
        yield write([0] * n + [-32768], junk(2), log2)
        yield write([-32768] * n, junk(n if log2 < 5 else 9), log2)


def order_of_the_writer():
    """1, 5, 6, 10: every two, three and all four at once, with a list too short by one and an empty one."""
    good = placed(1, {0: 3, 1: -3, 3: 4})
    for log2 in (1, 0, 6, 64):
        for block in (good, good[:3], [], [-32768] + good[1:], [-32768, 1, 1], [-32768], good + [-32768],
                      good[:3] + [-32768]):
            yield from (write(block, junk(k), log2) for k in (0, 2, 3, 4))
    for log2 in (2, 3):
        n = 1 << 2 * log2
        full = [-32768] + [1] * (n - 1)
        yield from (write(some, junk(k), log2) for some in (full, full[:-1], full[1:], full[1:] + [1], full[1:] + [
            -32768]) for k in (0, n - 1, n))


def refusals_of_the_reader():
    """1 and 5 with their neighbours, at every side, with lists that are good and with lists that are not."""
    for log2 in (*SIDES, *PAST_SIDES):
        buffer = [5, -6, 7, -8] * (256 if log2 == 5 else 64 if log2 == 4 else 16)
        yield from (read(symbols, buffer, log2) for symbols in (marked(symbol(2, 9)), [symbol(2, 0, 1)]))
        yield read([], [], log2)
    for log2 in SIDES:
        n = 1 << 2 * log2
        for length in sorted({0, 1, n // 4, n // 2, n - 1, n, n + 1}):
            yield read(marked(symbol(1, 9)), old(n + 1)[:length], log2)
            yield read([symbol(1, 9)], old(n + 1)[:length], log2)
    for log2 in (0, 6, 64):
        yield from (read(symbols, old(k), log2) for symbols in ([], [0], marked(symbol()), [2 ** 32 - 1])
                    for k in (0, 3, 4))


def bits_of_a_symbol():
    """Each of the 32 bits alone, and exchanged in a symbol that is alone, the first, the middle one and the last of
    three."""
    good = [symbol(2, 5), symbol(1, -6), symbol(3, 7, 1)]
    for bit in range(32):
        yield read([2 ** bit], old(16), 2)
        yield read([2 ** bit | symbol(0, 0, 1)], old(16), 2)
        yield read([symbol(3, 21845, 1) ^ 2 ** bit], old(16), 2)
        yield from (read([s ^ 2 ** bit if i == at else s for i, s in enumerate(good)], old(16), 2) for at in range(3))
    yield from (read([u], old(16), 2) for u in (
        0, 2 ** 32 - 1, 2 ** 27 - 1, 2 ** 27, 2 ** 26 - 1, symbol(15, 32767, 1), symbol(15, -32767, 1),
        symbol(15, 32767, 1, 31), symbol(15, 32767, 1, 1), 2 ** 26 + 2 ** 25, 2 ** 26 + 2 ** 25 + 1024))


SPOILT = {
    "zero magnitude": lambda s: s & ~(32767 << 10),
    "zero magnitude and sign": lambda s: s & ~(32767 << 10) | 1 << 25,
    "run past the block": lambda s: s | 1023,
    "run past the block by little": lambda s: s & ~1023 | 14,
    "mark turned": lambda s: s ^ 1 << 26,
    **{"unused bit %d" % bit: lambda s, bit=bit: s | 1 << bit for bit in range(27, 32)},
    "all unused bits": lambda s: s | 31 << 27,
}


def faults_of_a_list():
    """Each fault at the first, the middle and the last of one, three and five symbols; every two faults together, at
    one symbol and at two."""
    for k in (1, 3, 5):
        good = marked(*[symbol(i % 2, i - 9) for i in range(k)])
        for spoil in SPOILT.values():
            for at in sorted({0, k // 2, k - 1}):
                yield read([spoil(s) if i == at else s for i, s in enumerate(good)], old(16), 2)
        yield read(good, old(16), 2)
    good = marked(symbol(1, 3), symbol(0, -4), symbol(2, 5))
    for one, other in itertools.combinations(list(SPOILT.values())[::2], 2):
        yield read([other(one(good[0])), *good[1:]], old(16), 2)
        yield read([one(good[0]), good[1], other(good[2])], old(16), 2)
        yield read([other(good[0]), good[1], one(good[2])], old(16), 2)


def runs_past_the_block():
    """Exactly to the end and one past it, by one, two, three symbols and by as many as there are places; past it by so
    much that fewer bits would not show it."""
    for log2 in SIDES:
        n = 1 << 2 * log2
        for past in (-1, 0, 1, 2):
            end = n + past
            yield from (read(marked(*[symbol(run, 2) for run in runs]), old(n), log2) for runs in (
                (0, end - 2), (end - 2, 0), (end // 2 - 1, end - end // 2 - 1), (0, end - 3, 0)) if max(runs) < 1024)
        yield from (read(marked(*[symbol()] * k), old(n), log2) for k in (n - 1, n, n + 1) if log2 < 5)
    # 1,024, 2,048 and 65,536 places, and a few more
    for k, log2 in ((1, 1), (1, 4), (1, 5), (2, 5), (64, 5), (64, 1), (4, 1)):
        n = 1 << 2 * log2
        yield read(marked(*[symbol(1023)] * k), old(n), log2)
        yield read(marked(symbol(), *[symbol(1023)] * k), old(n), log2)
        yield read(marked(*[symbol(1023)] * k, symbol(1)), old(n), log2)
    yield read(marked(symbol(250), symbol(255)), old(256), 4)
    yield read(marked(symbol(255), symbol(1023), symbol(1023)), old(256), 4)
    yield read(marked(*[symbol(1023)] * 4094), old(4))
    yield read(marked(*[symbol()] * 4094), old(4))


# ---- both calls, one behind the other

@functools.cache
def left_by_the_quantiser():
    """(log2 side, block) of spectra at many QPs, as they are written."""
    found = []
    for log2, qps in ((1, (4, 16, 28, 40)), (2, (4, 16, 28, 34, 46)), (3, (10, 22, 34, 46)), (4, (22, 34, 46)), (5, (
            28, 40))):
        side, n = 1 << log2, 1 << 2 * log2
        for qp in qps:
            unit = step(log2, qp)
            coefficients = [int(unit * v / (20 + 9 * (i % side + i // side)))
                            for i, v in enumerate(patterned(n, 3 + qp, 150))]
            least = qp % 12 == 4
            _, _, block = PAPER.quantise(coefficients, log2, qp % 3, qp, 0.5 * 2 ** ((qp - 24) / 3), True, True,
                                         Costs(FLAT), least)
            found.append((log2, block))
    return found


def round_trips():
    """A block written; its symbols read; what was read written once more, with room for exactly that. The whole list
    with what is behind the symbols is another list, and refused."""
    for log2, block in left_by_the_quantiser():
        n, symbols = 1 << 2 * log2, list_of(block, log2)
        yield write(block, junk(len(symbols) + 3), log2)
        yield read(symbols, old(n), log2)
        yield write(PAPER.read(symbols, old(n), log2), [0] * len(symbols), log2)
        if log2 < 5:
            yield read(symbols + junk(3), old(n), log2)
            yield read(symbols + [0], old(n), log2)
            yield read(symbols[:-1], old(n), log2)
            yield read(symbols[1:], old(n), log2)
            yield read(symbols * 2, old(n), log2)
            yield write(block, symbols[:-1], log2)
            yield write(block, symbols, log2)
            yield read(symbols, block, log2)
        # of the next smaller side, and of the next larger one
        yield from (read(symbols, old(n), other) for other in (log2 - 1, log2 + 1))


# ---- malformed lines

GOOD_SYMBOLS = {
    b"write": write([3, 0, -1, 7], [9, 8, 7]),
    b"read": read(marked(symbol(0, 3), symbol(0, -1), symbol(1, 7)), [5, 6, 7, 8]),
}


def malformed_lists():
    """The same as of the other verbs; words that look like the two; other verbs' fields; K and N exchanged, missing,
    one more and one less than there are, by chance as much as what stands in its place."""
    yield from spaces(GOOD_SYMBOLS)
    yield from like_a_verb(GOOD_SYMBOLS)
    for verb in (b"write-symbols", b"write_symbols", b"writesymbols", b"write symbols", b"writ", b"writer", b"written",
                 b"wread", b"read-symbols", b"read_symbols", b"read symbols", b"readsymbols", b"rea", b"reader",
                 b"reads", b"list", b"symbols"):
        yield replaced(GOOD_SYMBOLS[b"read" if verb.startswith(b"r") else b"write"], 0, verb)
    yield from like_a_number(GOOD_SYMBOLS)
    yield from missing_and_more(GOOD_SYMBOLS)
    for verb in GOOD_SYMBOLS:
        for other in GOOD:
            yield verb + b" " + GOOD[other].split(b" ", 1)[1]
            yield other + b" " + GOOD_SYMBOLS[verb].split(b" ", 1)[1]
        line = GOOD_SYMBOLS[verb]
        yield from (replaced(line, 2, b"%d" % k) for k in (0, 1, 2, 4, 5, 7, 8, 9))
        for rest in (b"", b" 0", b" 0 0", b" 1 0", b" 0 1", b" 0 4 1 2 3 4", b" 4 1 2 3 4", b" 4 1 2 3 4 0",
                     b" 4 4 3 2 1 4 4 3 2 1", b" 1 4 4 1 2 3 4", b" 2 4 4 1 2 3 4", b" 3 1 2 3 4 4 3 2 1 0",
                     b" 1 4 3 1 2 3", b" 0 0 4 1 2 3 4", b" -1 4 1 2 3 4", b" 1 -1 4 1 2 3 4", b" 1 -1024 4 1 2 3 4",
                     b" 1 4294967295 4 1 2 3 4", b" 1 4294967296 4 1 2 3 4", b" 1 04294967295 4 1 2 3 4",
                     b" 1 67109888 4 1 2 3 4", b" 01 67109888 4 1 2 3 4", b" 1 067109888 4 1 2 3 4",
                     b" 1 67109888 04 1 2 3 4", b" 1 : 4 1 2 3 4", b" : 1 5 : 4 1 2 3 4"):
            yield verb + b" 1" + rest
    yield from GOOD_SYMBOLS.values()


def most_symbols():
    """A symbol takes the room of two samples, and both together have 8,192: at that, and one more, with every share of
    either; each as long as it can be."""
    for k, n in ((0, 8191), (0, 8192), (0, 8193), (1, 8190), (1, 8191), (2, 8188), (2, 8189), (2, 8190), (3, 8186),
                 (2000, 4192), (2000, 4193), (2729, 2734), (2729, 2735), (2731, 2731), (4000, 192), (4000, 193),
                 (4094, 4), (4094, 5), (4095, 2), (4095, 3), (4096, 0), (4096, 1), (4097, 0), (4097, 4), (8190, 4),
                 (8191, 0), (8192, 0), (8192, 4), (8193, 0), (4096, 4096), (4, 8188)):
        yield write([1, 0, 0, 0][:n] + [5] * (n - 4), [7] * k)
        if n < 5000 and k < 4098:
            yield read([symbol(0, 4 + i % 2, i == k - 1) for i in range(k)], [1, 0, 0, 0][:n] + [5] * (n - 4))
    yield write([-32767] * 4 + [-32768] * 4188, [2 ** 32 - 1] * 2000)
    yield read(marked(*[symbol(1023, -32767)] * 2000), [-32768] * 4192, 5)
    yield write([-32768] * 8190, [2 ** 32 - 1], 2 ** 64 - 1)
    yield read([2 ** 32 - 1] * 4096, [], 2 ** 64 - 1)


SECTIONS = [
    empty_blocks, one_level, magnitudes_and_signs, runs_between, largest_runs, full_blocks, last_marks,
    room_of_the_list, surplus_of_both, what_is_read_over, refusals_of_the_writer, order_of_the_writer,
    refusals_of_the_reader, bits_of_a_symbol, faults_of_a_list, runs_past_the_block, round_trips, malformed_lists,
    most_symbols,
]


@functools.cache
def made_by_hand():
    return [(section.__name__.replace("_", " "), line) for section in SECTIONS for line in section()]


def by_hand():
    """(section's name, line) of every request, in the file's order."""
    return list(made_by_hand())


# ---- by chance

def quantised(r, turn, log2):
    """A block of coefficients as the quantiser leaves it, in either mode; where it is refused, as it was."""
    qp, n = r.between(4, 50), 1 << 2 * log2
    spectrum = [max(-32767, min(32767, c)) for c in r.of(COEFFICIENTS)(r, 1 << log2, step(log2, qp))]
    said, d, table, least = flags(r), r.of(LAMBDAS)(r, qp), Costs(r.of(COSTS)(r)), log2 < 4 and r.once_in(3)
    try:
        return PAPER.quantise(spectrum, log2, turn % 3, qp, d, said & 1 == 1, said & 2 == 2, table, least)[2]
    except Refused:
        return spectrum


def any_levels(r, n):
    """Few or many, small or large."""
    most, once = r.of((1, 3, 100, 32767)), r.of((1, 2, 5, 20, n))
    return [r.of((1, -1)) * r.between(1, most) if r.once_in(once) else 0 for _ in range(n)]


def a_block(r, turn, log2):
    return quantised(r, turn, log2) if turn % 2 else any_levels(r, 1 << 2 * log2)


def any_symbols(r, k):
    kind = r.below(3)
    return [(r.below(2 ** 32), r.below(2 ** 27), r.of((0, 1, 2 ** 32 - 1, symbol(r.below(9), 1))))[kind]
            for _ in range(k)]


def a_write(r, turn, log2):
    block = a_block(r, turn, log2)
    n, count = len(block), sum(map(bool, block))
    k = count + r.of((0, 0, 1, 2, r.below(9)))
    block += surplus(r)
    if r.once_in(6):
        fault = r.below(5)
        log2 = r.of((0, 6, 64 + log2)) if fault == 0 else log2
        block = block[:r.below(n)] if fault == 1 else block
        if fault == 2:
            block[r.below(n)] = -32768
        k = max(0, count - 1 - r.of((0, 0, r.below(count + 1)))) if fault >= 2 else k
    return write(block, any_symbols(r, k), log2)


def spoilt(r, symbols, n):
    """A list with something done to it, that may be wrong or not."""
    kind, at = r.below(9), r.below(len(symbols)) if symbols else 0
    if kind == 0 or not symbols:
        return symbols + [r.of((0, r.below(2 ** 32), symbol(r.below(n), 1, 1)))]
    if kind == 1:
        return any_symbols(r, r.between(1, 5))
    if kind == 2:
        return symbols[:at] + symbols[at + 1:]
    if kind == 3:
        return symbols[:at] + [symbols[at]] + symbols[at:]
    if kind == 4:
        return symbols[at:] + symbols[:at]
    if kind == 5:
        return symbols[:at] + [symbols[at] + r.between(1, 3) & 2 ** 32 - 1] + symbols[at + 1:]
    if kind == 6:
        return symbols[:at] + [r.of(list(SPOILT.values()))(symbols[at])] + symbols[at + 1:]
    return symbols[:at] + [symbols[at] ^ 1 << r.below(32)] + symbols[at + 1:]


def runs_drawn(r, n):
    """A list that ends about the block's end."""
    symbols, places, most = [], 0, r.of((1, 3, n // 2))
    while places < n and len(symbols) < 40:
        run = r.below(most + 1)
        places += run + 1
        symbols.append(symbol(run, r.of((1, -1)) * r.of((1, 2, 32767))))
    if places > n and not r.once_in(4):
        symbols.pop()
    return marked(*symbols) if symbols else []


def a_read(r, turn, log2):
    n = 1 << 2 * log2
    symbols = runs_drawn(r, n) if r.once_in(4) else list_of(a_block(r, turn, log2), log2)
    buffer = r.of(([0] * n, any_levels(r, n), [r.between(-32768, 32767) for _ in range(n)])) + surplus(r)
    if r.once_in(4):
        symbols = spoilt(r, symbols, n)
    elif r.once_in(9):
        buffer, log2 = r.of(((buffer[:r.below(n)], log2), (buffer, 0), (buffer, 6), (buffer, 64 + log2)))
    return read(symbols, buffer, log2)


# how many of each side
WRITES = {1: 100, 2: 90, 3: 60, 4: 20, 5: 8}
READS = {1: 120, 2: 110, 3: 70, 4: 24, 5: 8}


@functools.cache
def drawn():
    r, lines = Random(0xbb67ae8584caa73b), []
    for sides, one in ((WRITES, a_write), (READS, a_read)):
        for turn, log2 in enumerate(log2 for log2, count in sides.items() for _ in range(count)):
            lines.append(one(r, turn, log2))
    return lines


def by_chance():
    return list(drawn())
