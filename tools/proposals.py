"""Figures for docs/DATA-SHEET.md on the window: what a proposal does not mean.

Each is a run over second/ that starts with an empty window.  The share of stray
faults is seeded, with the exact figure beside it.

    python3 tools/proposals.py [--seed N] [--trials N]
"""

import random
from collections import Counter
from fractions import Fraction
from math import factorial

from odds import BLOCK, CHIPS, mark_record, percent, settings

import damage
import reference as ref
import window

CARD = 3                       # the bad card, where a figure has one
ON_CARD = tuple(ref.card_places(CARD))
EVERY = {1: "every block", 2: "every second block", 3: "every third block"}

# Stray faults, and the times that some chip stands in the window.
STRAYS = ((8, 4), (16, 4), (32, 4), (64, 4), (64, 6), (64, 8))


class Bench:
    """A block of zeros that is damaged and got or patrolled, and a window.

    What a reading changes depends on the damage alone, and a patrol mends, so
    that the one block stands for as many as are patrolled.
    """

    def __init__(self, marks=ref.FRESH):
        self.block, self.marks = bytearray(BLOCK), marks
        self.window = bytearray(window.START)

    def hit(self, places):
        for p in places:
            self.block[p] ^= 1 + p
        return self

    def get(self):
        window.get(self.block, 0, bytearray(BLOCK), self.marks, self.window)

    def patrol(self):
        return window.patrol(self.block, 0, self.marks, self.window)

    def held(self):
        return [p for p in self.window if p != window.NONE]

    def proposed(self):
        chip = window.propose(self.window, self.marks)[1]
        return None if chip == window.NONE else chip


# ---------------------------------------------------------------- the figures

def one_block():
    """one bad chip in one block, from 1 to 100 gets or patrols of it"""
    for call in (Bench.get, Bench.patrol):
        bench, first = Bench().hit([20]), None
        for count in range(1, 101):
            call(bench)
            if bench.proposed() is not None and first is None:
                first = count
        said = f"proposed from call {first} on" if first else "never proposed"
        yield f"{call.__name__:<8} {said}, {len(bench.held())} held at the end"


def bad_card():
    """card 3 bad in all nine chips, its blocks patrolled"""
    bench = Bench()
    for blocks in range(1, 9):
        bench.hit(ON_CARD).patrol()
        if blocks in (3, 4, 7, 8):
            chip = bench.proposed()
            said = "no chip" if chip is None else f"position {chip}"
            yield f"{blocks} blocks  {len(bench.held())} held, proposed: {said}"


def beside_bad_card(further, every):
    """The most times that a further chip stands in the window, 30 blocks."""
    bench, most = Bench(mark_record(CARD)), 0
    for blocks in range(30):
        bench.hit([*ON_CARD, further] if blocks % every == 0 else ON_CARD).patrol()
        most = max(most, bench.window.count(further))
    return most


def marked_card():
    """card 3 marked and bad in all nine chips, and a chip off it bad too"""
    for every, said in EVERY.items():
        low, high = (max(beside_bad_card(p, every) for p in places)
                     for places in (range(ON_CARD[0]), range(ON_CARD[-1] + 1, BLOCK)))
        yield (f"in {said:<19} held {low} times at most, {high} if its card's "
               f"number is above {CARD}")


def masked_by(marks):
    """The positions that are marked, or on the marked card, in order."""
    return [p for p in range(BLOCK) if p in marks.chips or p // CHIPS == marks.card]


def nothing_left(rng):
    """two chips and no card marked, or a card and a chip off it; up to two more bad"""
    added = beside = 0
    for shape in (damage.two_chips, damage.card_and_chip_off_it) * 500:
        bench = Bench(bytes(shape(rng)))
        masked = masked_by(ref.open_marks(bench.marks))
        for p in masked + rng.sample(range(BLOCK), rng.randrange(3)):
            bench.block[p] = rng.randrange(256)
        bench.patrol()
        added += len(bench.held())
        beside += sum(p not in masked for p in bench.held())
    yield f"1,000 blocks  {added:,} positions added, {beside} of them not marked"


def most_after_strays(rng):
    """{faults: the most times that a chip then stands in the window}"""
    bench, most = Bench(), {}
    for count in range(1, window.SIZE + 1):
        bench.hit([rng.randrange(BLOCK)]).patrol()
        most[count] = max(Counter(bench.held()).values())
    return most


def all_below(times, count):
    """Share of the 45^count runs in which each position stands fewer times."""
    series = [Fraction(1)]            # by faults, each position's share added
    for _ in range(BLOCK):
        longer = [Fraction(0)] * (len(series) + times - 1)
        for at, term in enumerate(series):
            for more in range(times):
                longer[at + more] += term / factorial(more)
        series = longer[:count + 1]
    return series[count] * factorial(count) / BLOCK ** count


def strays(rng, trials):
    """stray faults, each in any chip, none worse than another, patrolled"""
    runs = [most_after_strays(rng) for _ in range(trials)]
    for count, times in STRAYS:
        found = sum(most[count] >= times for most in runs)
        yield (f"{count:>2} faults, some chip {times} times or more: {found:>3,} "
               f"of {trials:,}, exact {percent(1 - all_below(times, count))}")


def main():
    args = settings("proposals.py", __doc__, 500)
    for figure, more in ((one_block, ()), (bad_card, ()), (marked_card, ()),
                         (nothing_left, (random.Random(args.seed),)),
                         (strays, (random.Random(args.seed), args.trials))):
        print(f"{figure.__doc__}:")
        for line in figure(*more):
            print(f"    {line}")


if __name__ == "__main__":
    main()
