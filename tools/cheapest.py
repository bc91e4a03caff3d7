"""cheapest.py: the cheapest block of the second mode, found in two other ways than tools/paper.py's search, and the
three held against each other.

    Listed      all blocks of allowed magnitudes in dictionary order, and the first of least price
    Forwards    from the first place on, after a 0 and after a nonzero level, the cheapest front of a block, kept with
                all its levels

What levels cost is paper.py's (Block). The first way is the definition's own words, and takes a block of few nonzero m;
the second takes any. Of two fronts that leave the same to come, the cheaper one serves every block at least as well,
and at equal price the first in dictionary order does.

Run alone it compares them on 2×2 blocks over a grid and on some of side 4 and 8; status 1 if two differ, or if no tie
of some kind has come.
"""
import collections, itertools, math, sys
from paper import Block, Costs, Paper
from vectors.by_chance import Random

# as many blocks are listed at most: nine places of three magnitudes
MOST_LISTED = 3 ** 9


def number_of_blocks(block):
    return math.prod(len(block.paper.in_order(m)) for m in block.rounded)


class Listed(Paper):
    """Where a block has too many to list, `passed_over` counts it, and the search's is taken."""
    listed = passed_over = 0

    def cheapest(self, block):
        if number_of_blocks(block) > MOST_LISTED:
            self.passed_over += 1
            return super().cheapest(block)
        self.listed += 1
        # what min gives of equals is the first
        return min(map(list, itertools.product(*map(self.in_order, block.rounded))), key=block.price)


class Forwards(Paper):
    def cheapest(self, block):
        of = block.lambda_
        # (price, levels) is compared by price, then in dictionary order; a finished block has no zeros behind its last
        # level
        finished = [(block.empty_price(), ())]
        fronts = {1: (of * block.cbf[1], ())}
        for p, m in enumerate(block.rounded):
            longer = {0: [], 1: []}
            for before, (price, levels) in fronts.items():
                for a in self.in_order(m):
                    here, now = price + block.cost(p, a, before), levels + (a,)
                    if a == 0:
                        longer[0].append((here, now))
                    else:
                        finished.append((here + of * block.last[1] + block.uncoded[p + 1], now))
                        longer[1].append((here + of * block.last[0], now))
            finished = [min(finished)]
            fronts = {before: min(some) for before, some in longer.items() if some}
        levels = list(finished[0][1])
        return levels + [0] * (len(block.rounded) - len(levels))


# ---- the comparison

def ties_of(block, levels):
    """By what the block at hand differs from those of equal price that come later: the kinds of a tie."""
    least, kinds = block.price(levels), set()
    for other in map(list, itertools.product(*map(block.paper.in_order, block.rounded))):
        if other == levels or block.price(other) != least:
            continue
        at = next(p for p, (a, b) in enumerate(zip(levels, other)) if a != b)
        if not any(levels):
            kinds.add("empty and coded")
        elif levels[at] == 0:
            kinds.add("0 and m" if any(levels[at:]) else "ending and going on")
        else:
            kinds.add("m-1 and m")
    return kinds


KINDS = ("0 and m", "m-1 and m", "ending and going on", "empty and coded")


def cost_tables(r):
    """All 0; all equal; multiples of a unit that exact errors come in, so that sums of them meet; any."""
    yield [0] * 28
    yield [32768] * 28
    for _ in range(3):
        yield [8192 * r.below(24) for _ in range(28)]
    yield [4096 + r.below(160000) for _ in range(28)]


def small_blocks(r):
    """The inputs of 2×2 blocks over a grid of half and whole steps of 16 and what lies between them, of such at equal
    price with the empty block, and of 4×4 and 8×8 with a few coefficients."""
    for turn, entries in enumerate(cost_tables(r)):
        for d in (0.0, 1 / 1024, 1 / 256):
            for values in itertools.product((0, 8, -12, 16, 24, -40), repeat=4):
                yield list(values), 1, turn % 3, 4, d, True, turn % 2 == 0, Costs(entries)
    for turn in range(600):
        block = [r.of((0, 8, -12, 16, 24, -40, r.between(-60, 60))) for _ in range(4)]
        even = evened((block, 1, turn % 3, 4, 1 / 64, True, turn % 2 == 0, Costs(r.of(list(cost_tables(r))))))
        if even:
            yield even
    for turn in range(1500):
        log2 = 2 + (turn % 5 == 0)
        block = [0] * (1 << 2 * log2)
        for _ in range(r.between(1, 6)):
            block[r.below(len(block))] = r.of((1, -1)) * r.of((4, 6, 8, 8, 12, 16, 20, r.between(1, 40)))
        entries = r.of(list(cost_tables(r)))
        yield block, log2, turn % 3, 4 + 6 * r.below(2), r.of(
            (0.0, 1 / 1024, 1 / 256, 1 / 64)), turn % 2 == 0, turn % 4 < 2, Costs(entries)


def evened(inputs):
    """The same block with the cbf pair moved so that the empty block and the cheapest other one cost the same, if that
    can be."""
    block, table = Block(Paper(), *inputs), Costs(list(inputs[7].entries))
    if block.skipped or block.lambda_ == 0:
        return None
    coded = min(block.price(levels) for levels in map(list,
                                                      itertools.product(*map(block.paper.in_order, block.rounded)))
                if any(levels))
    dearer, rest = divmod(coded - block.empty_price(), block.lambda_)
    pair = 20 + 2 * block.paper.cbf_row(block.component, inputs[6])
    table.entries[pair + (dearer < 0)] += abs(dearer)
    even = rest == 0 and table.entries[pair + (dearer < 0)] <= Paper.COST
    return (*inputs[:7], Costs(table.entries)) if even else None


def compared():
    """Prints what came; gives the number of differences, and of kinds of ties that never came."""
    paper, others, seen, different = Paper(), (Listed(), Forwards()), collections.Counter(), 0
    for inputs in small_blocks(Random(20_260_917)):
        block = Block(paper, *inputs)
        if block.skipped:
            continue
        found = paper.cheapest(block)
        seen["cheaper than the walk's"] += block.price(found) < block.price(paper.chosen(block))
        if any(other.cheapest(Block(other, *inputs)) != found for other in others):
            different += 1
            print("    DIFFERENT:", inputs[:5], inputs[7].entries, found)
        if others[0].listed % 7 == 0 and number_of_blocks(block) <= 243:
            seen.update("ties of " + kind for kind in ties_of(block, found))
    print("cheapest: %d blocks searched, listed and taken forwards, %d different" % (others[0].listed, different))
    for what in sorted(seen):
        print("    %-32s %6d" % (what, seen[what]))
    return different + others[0].passed_over + sum(not seen["ties of " + kind] for kind in KINDS)


if __name__ == "__main__":
    sys.exit(1 if compared() else 0)
