"""Request lines of the protocol, as bytes without a newline. What is not said is as in the paper's P5: QP 4, luma,
intra-coded, intra slice, d 1/1024, every cost entry 32768."""
import math, struct

# the bits of FLAGS that mean something: intra slice, intra-coded, the second mode
SLICE, CODED, LEAST = 1, 2, 4
USUAL_FLAGS = SLICE | CODED
# which word it is
FLAGS_AT = {b"quantise": 5, b"subblock": 9, b"guarded": 9}
FLAT = [32768] * 28
USUAL = 1 / 1024
BELOW_HALF = math.nextafter(0.5, 0) / 32768


def bits(d):
    """LAMBDA: of a number its 16 digits; a text stands as it is."""
    return d if isinstance(d, str) else struct.pack(">d", d).hex()


def numbers(values, n=None):
    return " ".join(map(str, [len(values) if n is None else n, *values]))


def transform(residuals, lw=1, lh=1, n=None):
    return f"transform {lw} {lh} {numbers(residuals, n)}".encode()


def quantise(coefficients, log2=1, component=0, qp=4, d=USUAL, flags=USUAL_FLAGS, costs=FLAT, n=None):
    settings = f"{component} {log2} {qp} {bits(d)} {flags}"
    return f"quantise {settings} {' '.join(map(str, costs))} {numbers(coefficients, n)}".encode()


def subblock(residuals, log2=2, run=7, qp=(4, 4, 4), d=(USUAL,) * 3, flags=USUAL_FLAGS, costs=FLAT, n=None):
    settings = " ".join(f"{a} {bits(b)}" for a, b in zip(qp, d))
    return f"subblock {log2} {run} {settings} {flags} {' '.join(map(str, costs))} {numbers(residuals, n)}".encode()


def guarded(residuals, log2=2, run=7, qp=(4, 4, 4), d=(USUAL,) * 3, flags=USUAL_FLAGS, heights=(33791,) * 6, costs=FLAT,
            n=None):
    settings = " ".join(f"{a} {bits(b)}" for a, b in zip(qp, d))
    before = f"{log2} {run} {settings} {flags} {' '.join(map(str, heights))}"
    return f"guarded {before} {' '.join(map(str, costs))} {numbers(residuals, n)}".encode()


def measure(residuals, levels, log2=1, qp=4, flags=0, n=None, lent=None):
    samples = [*residuals, *levels]
    return f"measure {log2} {qp} {flags} {len(residuals) if lent is None else lent} {numbers(samples, n)}".encode()


def scaleback(levels, log2=1, qp=4, n=None):
    return f"scaleback {log2} {qp} {numbers(levels, n)}".encode()


def inverse(coefficients, lw=1, lh=1, n=None):
    return f"inverse {lw} {lh} {numbers(coefficients, n)}".encode()


def write(levels, symbols=(), log2=1, n=None, k=None):
    return f"write {log2} {numbers(symbols, k)} {numbers(levels, n)}".encode()


def read(symbols, buffer=(0, 0, 0, 0), log2=1, n=None, k=None):
    return f"read {log2} {numbers(symbols, k)} {numbers(buffer, n)}".encode()


def is_viewers(line):
    """A request of the viewer's half."""
    return line.split(b" ")[0] in (b"scaleback", b"inverse")


def is_guarded(line):
    """A request of the guarded call or of measure."""
    return line.split(b" ")[0] in (b"guarded", b"measure")


def is_symbols(line):
    """A request of the run list's two calls."""
    return line.split(b" ")[0] in (b"write", b"read")


def unguarded(line):
    """The same request without its heights."""
    words = line.split(b" ")
    return b" ".join([b"subblock"] + words[1:10] + words[16:])


def replaced(line, at, word):
    words = line.split(b" ")
    return b" ".join(words[:at] + [word] + words[at + 1:])


def flags_of(line):
    """Its FLAGS; 0 of a line that has no such number."""
    words = line.split(b" ")
    at = FLAGS_AT.get(words[0], 0)
    word = words[at] if at < len(words) else b""
    return int(word) if word.isdigit() and len(word) <= 10 else 0


def is_least(line):
    return flags_of(line) & LEAST != 0


def least(line):
    """The same request in the second mode."""
    return replaced(line, FLAGS_AT[line.split(b" ")[0]], b"%d" % (flags_of(line) | LEAST))


def walked(line):
    """The same request in the first mode."""
    return replaced(line, FLAGS_AT[line.split(b" ")[0]], b"%d" % (flags_of(line) & ~LEAST))


# where each table starts among the 28 entries
RUN, LEVEL, LAST, CBF = 0, 8, 16, 20


def entry(table, row, column):
    return table + 2 * row + column


def costs(base=32768, **entries):
    """All `base` but for entries as run_0_1=5: table, row, column."""
    whole = [base] * 28
    for name, value in entries.items():
        table, row, column = name.split("_")
        whole[entry({"run": RUN, "level": LEVEL, "last": LAST, "cbf": CBF}[table], int(row), int(column))] = value
    return whole


def put(n, values):
    """n zeros but for the values at their places."""
    block = [0] * n
    for place, value in values.items():
        block[place] = value
    return block
