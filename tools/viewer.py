"""The viewer's two calls once more, in another way than tools/paper.py's: its answers to accepted requests of scaleback
and inverse must be these (tools/record).

    python3 tools/viewer.py < requests     an answer line for each request line of the two verbs that is accepted

What is multiplied comes from no table: s is 64 × 2^((QP mod 6 - 4)/6) to the nearest whole number, and an entry of a
matrix is 64√2 × cos(πk(2n+1)/2N), or 64 in its first row, to the nearest. The inverse transform is two matrix products,
columns first. Nothing is shifted: what is rounded is a fraction, half added and its floor taken.
"""
import functools, math, sys
from fractions import Fraction


def to_16_bits(value):
    return sorted((-32768, value, 32767))[1]


def rounded(value, parts):
    return to_16_bits(math.floor(Fraction(value, parts) + Fraction(1, 2)))


def scaled_back(levels, log2, qp):
    s = round(64 * 2 ** ((qp % 6 - 4) / 6))
    return [rounded(level * s << qp // 6, 2 << log2) for level in levels]


@functools.cache
def matrix(side):
    angle = lambda k, n: math.pi * k * (2 * n + 1) / (2 * side)
    return [[round(64 * math.sqrt(2) * math.cos(angle(k, n))) if k else 64 for n in range(side)] for k in range(side)]


def product(a, b):
    columns = list(zip(*b))
    return [[sum(x * y for x, y in zip(row, column)) for column in columns] for row in a]


def transposed(a):
    return list(zip(*a))


def inverse(coefficients, w, h):
    rows = [coefficients[i:i + w] for i in range(0, w * h, w)]
    sums = product(product(transposed(matrix(h)), rows), matrix(w))
    return [rounded(value, 1 << 17) for row in sums for value in row]


def answer(request):
    """Of a request that is accepted."""
    verb, first, second, _, *samples = request.split(b" ")
    first, second, samples = int(first), int(second), list(map(int, samples))
    if verb == b"scaleback":
        n = 1 << 2 * first
        made = scaled_back(samples[:n], first, second)
    else:
        n = 1 << first + second
        made = inverse(samples[:n], 1 << first, 1 << second)
    return b" ".join([b"accepted :"] + [b"%d" % v for v in made + samples[n:]])


if __name__ == "__main__":
    for line in sys.stdin.buffer.read().splitlines():
        sys.stdout.buffer.write(answer(line) + b"\n")
