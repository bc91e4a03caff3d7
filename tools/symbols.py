"""The run list once more, in another way than tools/paper.py's: its answers to requests of write and read must be these
(tools/record).

A line is taken as a whole: its words behind the verb must all be numbers, and as many as two of them say. Nothing is
shifted or masked: a symbol is its 32 digits in base 2, a text, and its fields are pieces of that. A block's list is
made from its last level back. Whether a list is one is found in two ways, which must agree:

    pattern     the digits of all its symbols, one behind the other, are those that a list may have
    own         there is a block whose list it is: of each symbol's fields, whatever they are, the level that they would
                tell; and of these levels the list, which must be this one

Run alone it holds the model against a listing: all lists of few symbols, from the empty one on, over symbols of every
fault and of none, and all blocks of side 2 whose levels these tell. A list must be accepted where it is that of one of
the blocks, and told apart from every other. Status 1 if the two differ.
"""
import itertools, re, sys
from guarded import along
from paper import Paper, Refused

# the digits from the highest on: unused, last mark, sign, magnitude, run
SYMBOL = "00000%s[01](?!0{15})[01]{15}[01]{10}"
LIST = re.compile("((%s)*%s)?" % (SYMBOL % 0, SYMBOL % 1))


def digits(symbol):
    return format(symbol, "032b")


def listed(block, log2):
    """The list of a block of side 2^log2, from its last level back."""
    side, made, mark = 1 << log2, [], "1"
    levels = [block[y * side + x] for x, y in along(side)]
    while levels:
        level = levels.pop()
        if level:
            run = len(list(itertools.takewhile(lambda before: before == 0, reversed(levels))))
            sign = "1" if level < 0 else "0"
            made.append(int("00000" + mark + sign + "{:015b}{:010b}".format(abs(level), run), 2))
            mark = "0"
    return made[::-1]


def told(symbols, log2):
    """The block that a list would tell, whatever is wrong with it; none where a level lies behind the block."""
    side, levels = 1 << log2, []
    for text in map(digits, symbols):
        magnitude = int(text[7:22], 2)
        levels += [0] * int(text[22:], 2) + [-magnitude if text[6] == "1" else magnitude]
        if len(levels) > side * side:
            return None
    block = dict.fromkeys(along(side), 0)
    block.update(zip(along(side), levels))
    return [block[x, y] for y in range(side) for x in range(side)]


def by_pattern(symbols, log2):
    return LIST.fullmatch("".join(map(digits, symbols))) is not None and told(symbols, log2) is not None


def by_its_block(symbols, log2):
    block = told(symbols, log2)
    return block is not None and listed(block, log2) == symbols


def is_a_list(symbols, log2):
    found = by_pattern(symbols, log2)
    assert found == by_its_block(symbols, log2), "the two ways of reading a list: %s" % symbols
    return found


def is_request(line):
    """Whether a line that has one of the two verbs is not malformed."""
    if len(line) > 65535 or not re.fullmatch(rb"[a-z]+( (0|-?[1-9][0-9]{0,19}))+", line):
        return False
    log2, *numbers = [int(w) for w in line.split(b" ")[1:]]
    k = numbers[0] if numbers else 0
    if not (0 <= log2 < 2 ** 64 and 0 <= k <= len(numbers) - 2):
        return False
    symbols, n, samples = numbers[1:k + 1], numbers[k + 1], numbers[k + 2:]
    return (all(0 <= u < 2 ** 32 for u in symbols) and all(-2 ** 15 <= v < 2 ** 15 for v in samples)
            and n == len(samples) and 2 * k + n <= 8192)


def line(head, symbols, samples):
    """Of an answer."""
    return " ".join(map(str, [head, ":", *symbols, ":", *samples])).encode()


def answer(request):
    if not is_request(request):
        return b"malformed"
    verb, log2, k, *rest = request.split(b" ")
    log2, symbols, samples = int(log2), [int(w) for w in rest[:int(k)]], [int(w) for w in rest[int(k) + 1:]]
    refused = lambda number: line("refused %d 0" % number, symbols, samples)
    if log2 not in (1, 2, 3, 4, 5):
        return refused(1)
    block, surplus = samples[:4 ** log2], samples[4 ** log2:]
    if len(block) != 4 ** log2:
        return refused(5)
    if verb == b"read":
        return line("accepted", symbols, told(symbols, log2) + surplus) if is_a_list(symbols, log2) else refused(11)
    if min(block) == -32768:
        return refused(6)
    count = len(block) - block.count(0)
    if count > len(symbols):
        return refused(10)
    return line("accepted %d" % count, listed(block, log2) + symbols[count:], samples)


def lists_of(line):
    """The two lists of an answer, symbols and samples."""
    return [[int(w) for w in part.split()] for part in line.split(b":")[1:]]


def not_undone(request, answer):
    """What is wrong with an accepted answer taken back by the other call, if something is."""
    log2, (symbols, samples) = int(request.split(b" ")[1]), lists_of(answer)
    block, surplus = samples[:4 ** log2], samples[4 ** log2:]
    if request.startswith(b"write"):
        count = int(answer.split(b" ")[1])
        if Paper().read(symbols[:count], [5] * 4 ** log2 + surplus, log2) != samples:
            return "read back it is another block"
        return None
    if Paper().write(block, log2, [7] * (len(symbols) + 2)) != (len(symbols), symbols + [7, 7]):
        return "written again it is another list"


# ---- all lists of a few symbols, and all blocks of side 2 that have such

def alphabets():
    """(symbols, how many of them in a list at most): many symbols in short lists, few in long ones."""
    yield [Paper().packed(run, magnitude, negative, last) | bit for run in (0, 1, 2, 3, 4, 1023)
           for magnitude in (0, 1, 32767) for negative in (0, 1) for last in (0, 1) for bit in (0, 1 << 27, 1 << 31)], 2
    yield [Paper().packed(run, magnitude, negative, last) for run in (0, 1, 2, 3) for magnitude in (1, 32767)
           for negative in (0, 1) for last in (0, 1)], 3
    yield [Paper().packed(run, 1, 0, last) for run in (0, 1, 2, 3) for last in (0, 1)], 5


def compared():
    """Prints what came; gives the number of differences."""
    levels, paper, different, tried, taken = (0, 1, -1, 32767, -32767), Paper(), 0, 0, 0
    blocks = {tuple(listed(block, 1)): list(block) for block in itertools.product(levels, repeat=4)}
    different += len(blocks) != len(levels) ** 4
    for alphabet, most in alphabets():
        for symbols in itertools.chain(*(itertools.product(alphabet, repeat=k) for k in range(most + 1))):
            try:
                found = paper.read(list(symbols), [9, 9, 9, 9], 1)
            except Refused:
                found = None
            tried, taken = tried + 1, taken + (found is not None)
            if found != blocks.get(symbols):
                different += 1
                print("    DIFFERENT:", symbols, found)
    print("symbols: %d lists read, %d accepted, each that of one of %d blocks; %d different" % (
        tried, taken, len(blocks), different))
    return different


if __name__ == "__main__":
    sys.exit(1 if compared() else 0)
