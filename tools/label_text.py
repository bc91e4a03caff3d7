"""label_text.py [QP [MILLIONTHS [HEIGHT]]] < crates/label/stdin > crates/label/stdout: what the program `label` must
write when it is called with the words of crates/label/args, worked out by tools/paper.py and, for what the viewer does,
by the two formulas of ticket 6 as they stand there: each level by itself, and the double sum over all coefficients. A
block that no candidate brings within the height ends it, with what `label` says then.

The program's own answer is no part of it.
"""
import sys
from decimal import Decimal, getcontext, ROUND_HALF_UP
from paper import Paper, Costs, Refused, Y

getcontext().prec = 60
SIDE, LOG2, GUESS, WHITE = 8, 3, 700, 1023
LUMA = 1
UNBOUNDED = 65535
COSTS = Costs(
    [21000, 48000, 37000, 26000, 21000, 48000, 37000, 26000]
    + [18000, 52000, 24000, 40000, 18000, 52000, 24000, 40000]
    + [12000, 70000, 12000, 70000]
    + [60000, 14000, 60000, 14000, 60000, 14000, 60000, 14000])
BACK = [40, 45, 51, 57, 64, 72]
GREYS = "@%#*+=-:. "
ACROSS = 56
LEGEND = """QP is the slice's plus 12; lambda is what a bit may cost, in squared error of samples of 8 bits.
%sSamples are of 10 bits, 0 (black) to 1023 (white), scaled from the picture's 0 to %d. Coded is the sample
less a guess, 700 everywhere. Left is what the camera saw, right what the viewer shows of the levels.
Where the picture ends inside a block its last column and row are repeated, and not compared.
Darker and lighter under a block are of all its samples, the repeated ones too, before they are clipped.
Under a block stand its levels by rows, one for each pattern: the coefficient by its step, to the
nearest (kept), one less (v: lowered), or 0 where that is not 0 (x: dropped). Others never come.
A price is squared error plus lambda times bits; in brackets as the call reports it, times 2^30."""
OF_HEIGHT = "Height is how much darker and how much lighter than the camera saw it a sample may be shown.\n"
PROVED = """No sample of an accepted block can be off by more than the height, %d: that is proved, before clipping
and any filter, with the picture's last column and row repeated outside."""


# ---- the viewer's half, by ticket 6
def clip(value, least=-32768, most=32767):
    return min(max(value, least), most)


def scaled_back(level, qp):
    return clip((level * BACK[qp % 6] * 2 ** (qp // 6) + 2 ** LOG2) >> (1 + LOG2))


def restored(matrix, coefficients, y, x):
    total = sum(
        matrix[v][y] * matrix[u][x] * coefficients[v * SIDE + u] for v in range(SIDE) for u in range(SIDE))
    return clip((total + 2 ** 16) >> 17)


# ---- the picture
class Picture:
    """A PGM: its width, height and maxval, and its samples of 10 bits by rows."""

    def __init__(self, data):
        self.data, self.at = data, 2
        if data[:2] not in (b"P2", b"P5"):
            sys.exit("label_text: no PGM")
        self.width, self.height, self.most = self.number(), self.number(), self.number()
        count = self.width * self.height
        if data[:2] == b"P2":
            samples = [self.number() for _ in range(count)]
        else:
            size = 1 if self.most < 256 else 2
            raw = data[self.at + 1:self.at + 1 + size * count]
            samples = [int.from_bytes(raw[k:k + size], "big") for k in range(0, len(raw), size)]
        self.samples = [(v * WHITE + self.most // 2) // self.most for v in samples]

    def number(self):
        """The next number, behind blanks and comments."""
        while self.data[self.at:self.at + 1].isspace() or self.data[self.at:self.at + 1] == b"#":
            if self.data[self.at:self.at + 1] == b"#":
                while self.data[self.at] not in b"\r\n":
                    self.at += 1
            self.at += 1
        start = self.at
        while self.data[self.at:self.at + 1].isdigit():
            self.at += 1
        return int(self.data[start:self.at])

    def sample(self, y, x):
        """The sample there, or the nearest one."""
        return self.samples[min(y, self.height - 1) * self.width + min(x, self.width - 1)]


def usual(qp):
    """An encoder's lambda in millionths: 0.57 * 2^((QP - 24)/3), its number for QP mod 3 rounded first."""
    root = (Decimal(570000) * Decimal(2) ** (Decimal(qp % 3) / 3)).quantize(Decimal(1), ROUND_HALF_UP)
    return int((root * 2 ** (qp // 3) / 256).quantize(Decimal(1), ROUND_HALF_UP))


def fate(m, level):
    """The mark behind a level, and the count that it belongs to."""
    if m == 0 and level == 0:
        return " ", "nothing to code"
    if level == 0:
        return "x", "dropped"
    if abs(level) == m:
        return " ", "kept"
    if abs(level) == m - 1:
        return "v", "lowered"
    return "!", "other"


def tally(counts):
    return "kept %d, lowered %d, dropped %d, other %d" % tuple(
        counts[k] for k in ("kept", "lowered", "dropped", "other"))


def row_of(samples):
    return "".join("%4d " % v for v in samples)


class Page:
    """The page of a picture at a QP and lambda, within a height or None, and what it shows."""

    def __init__(self, picture, qp, millionths, height):
        self.picture, self.qp, self.millionths, self.height = picture, qp, millionths, height
        self.paper = Paper()
        self.shown = [None] * len(picture.samples)
        self.counts = {}

    def levels(self, coefficients, levels):
        """The levels by rows with their marks, and how many became what."""
        counts = dict.fromkeys(("kept", "lowered", "dropped", "nothing to code", "other"), 0)
        for y in range(SIDE):
            line = ""
            for place in range(y * SIDE, (y + 1) * SIDE):
                m = self.paper.m(self.paper.scaled(coefficients[place], self.qp), self.paper.b(LOG2, self.qp))
                mark, kind = fate(m, levels[place])
                counts[kind] += 1
                line += "%6d%s" % (levels[place], mark)
            print(line)
        return counts

    def difference(self, top, left, seen, view):
        """Keeps what is shown of a block, and gives the largest difference of a sample that the picture has."""
        apart = 0
        for i, (a, b) in enumerate(zip(seen, view)):
            y, x = top + i // SIDE, left + i % SIDE
            if y < self.picture.height and x < self.picture.width:
                self.shown[y * self.picture.width + x] = b
                apart = max(apart, abs(a - b))
        return apart

    def coded(self, at, residuals):
        """Count, price, both extremes and levels of block `at`."""
        height = UNBOUNDED if self.height is None else self.height
        room = residuals + [0] * (SIDE * SIDE // 2)
        try:
            answers, after = self.paper.guarded_sub_block(
                room, LOG2, LUMA, [self.qp] * 3, [self.millionths / 1e6] * 3, True, True, COSTS, [height] * 6)
        except Refused as refused:
            sys.stdout.flush()
            sys.exit("label: block %d can't be brought within the height at this QP" % (at + 1)
                     if refused.number == 15 else "label: the quantiser refuses a block at this QP and lambda")
        return *answers[Y], after[:SIDE * SIDE]

    def block(self, at, top, left):
        paper, qp = self.paper, self.qp
        seen = [self.picture.sample(top + y, left + x) for y in range(SIDE) for x in range(SIDE)]
        residuals = [v - GUESS for v in seen]
        coefficients = paper.coefficients(residuals, LOG2, LOG2)
        count, price, darker, lighter, levels = self.coded(at, residuals)
        back = [scaled_back(level, qp) for level in levels]
        matrix = paper.matrix(LOG2)
        view = [
            clip(GUESS + restored(matrix, back, y, x), 0, WHITE) for y in range(SIDE) for x in range(SIDE)]
        print("\nblock %d: camera                               shown" % (at + 1))
        for k in range(0, SIDE * SIDE, SIDE):
            print(row_of(seen[k:k + SIDE]) + "    " + row_of(view[k:k + SIDE]))
        print("largest difference of a sample %d" % self.difference(top, left, seen, view))
        print("darker by %d at most, lighter by %d at most" % (darker, lighter))
        counts = self.levels(coefficients, levels)
        hundredths = price * 100 >> 30
        print("%s; %d levels, price %d.%02d (%d)" % (
            tally(counts), count, hundredths // 100, hundredths % 100, price))
        for key, n in counts.items():
            self.counts[key] = self.counts.get(key, 0) + n

    def whole(self):
        picture, width = self.picture, self.picture.width
        step = -(-width // ACROSS)
        print("\nthe whole as the camera saw it, and as it is shown; dark is @; a character stands for %d by %d:" % (
            step, step))
        for y in range(0, picture.height, step):
            row = slice(y * width, (y + 1) * width, step)
            left, right = ("".join(GREYS[v // 103] for v in of[row]) for of in (picture.samples, self.shown))
            print(left.ljust(width // step + 5) + right)
        print("largest difference of a sample in the whole %s; both count from 0." % self.worst(
            [abs(a - b) for a, b in zip(picture.samples, self.shown)]))
        print("largest darkening of a sample in the whole %s." % self.worst(
            [max(a - b, 0) for a, b in zip(picture.samples, self.shown)]))
        print("They are what came of this picture: nothing is proved of how large they can be."
              if self.height is None else PROVED % self.height)

    def worst(self, by):
        """The largest of numbers of samples, and where the first such is."""
        at, width = by.index(max(by)), self.picture.width
        return "%d, in row %d, column %d, where the camera saw %d" % (
            by[at], at // width, at % width, self.picture.samples[at])

    def pgm(self):
        picture, width = self.picture, self.picture.width
        print("\nthe picture shown, as a PGM:\nP2\n%d %d\n%d" % (width, picture.height, WHITE))
        for y in range(picture.height):
            for x in range(0, width, 14):
                print(row_of(self.shown[y * width + x:y * width + min(x + 14, width)])[:-1])

    def write(self):
        picture = self.picture
        print("A picture of %d by %d in blocks of 8 by 8, coded at QP %d, lambda %d.%06d%s, "
              "and shown as the viewer shows it." % (
                  picture.width, picture.height, self.qp, self.millionths // 10 ** 6, self.millionths % 10 ** 6,
                  "" if self.height is None else ", height %d" % self.height))
        print(LEGEND % ("" if self.height is None else OF_HEIGHT, picture.most))
        corners = [(y, x) for y in range(0, picture.height, SIDE) for x in range(0, picture.width, SIDE)]
        for at, (top, left) in enumerate(corners):
            self.block(at, top, left)
        print("\nin all: " + tally(self.counts))
        self.whole()
        self.pgm()


def main():
    qp = int(sys.argv[1]) if len(sys.argv) > 1 else 34
    millionths = int(sys.argv[2]) if len(sys.argv) > 2 else usual(qp)
    height = int(sys.argv[3]) if len(sys.argv) > 3 else None
    Page(Picture(sys.stdin.buffer.read()), qp, millionths, height).write()


main()
