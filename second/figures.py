"""Figures for a data sheet: how often damage reads as what.

Each figure is printed with the command that makes it again.  Where a count
settles it, the exact figure stands beside the seeded run.

A reading adds up: the answer for a lawful block plus some damage depends on
the damage alone.  So most runs start from 45 zeros, which are lawful.
"""

import argparse
import random
from collections import Counter
from fractions import Fraction
from itertools import combinations, product

import damage
import reference as ref
from reference import BLOCK, CARDS, CHIPS, FRESH, RULES

ZEROS = bytes(BLOCK)
WORDS = ("clean", "chips", "card", "none", "several")


# ------------------------------------------------------------------ printing

def percent(part):
    return f"{float(100 * part):.6g} %"


def show(title, tally):
    trials = sum(tally.values())
    print(f"  {title}: {trials:,} readings")
    for name, count in sorted(tally.items(), key=lambda item: -item[1]):
        print(f"    {name:<28} {count:>9,}   {percent(Fraction(count, trials))}")


def exactly(name, part):
    print(f"    exact: {name} {percent(part)}")


def word(answer):
    return WORDS[ref.total_of(answer)]


def against_zeros(block, marks):
    """A reading of damaged zeros: right, wrong, or which refusal."""
    answer, member = ref.reading(block, marks)
    if member is None:
        return word(answer)
    return "right record" if member == ZEROS else "wrong record"


# ---------------------------------------------------------------- the counts

def uniform_sums_on(places):
    """Random bytes in places give random sums if all rules are independent."""
    ref.eliminate(places)
    return len(places) == RULES


def common_changes():
    """Cards fit one at a time or all five; 256^7 changes of a card fit all.

    The lawful blocks on cards j and m are spanned by seven, one for each of
    seven chips of m, since the other eleven places are independent.  Card j's
    half of each fits every card, and halves add up.
    """
    for j, m in product(range(CARDS), repeat=2):
        if j == m:
            continue
        other = ref.card_places(m)
        base = tuple(sorted([*ref.card_places(j), other[0], other[1]]))
        for free in other[2:]:
            unit = bytearray(BLOCK)
            unit[free] = 1
            whole = ref.reached(base, unit, ref.sums(unit))
            half = bytearray(BLOCK)
            for p in ref.card_places(j):
                half[p] = whole[p]
            fits = ref.fitting_cards(half, ref.open_marks(FRESH))
            assert len(fits) == CARDS
    return 256 ** (CHIPS - 2)


# ------------------------------------------------------------------- figures

def bad_card(rng, trials):
    """(a) nine random bytes on one card, no marks."""
    tally = Counter()
    for _ in range(trials):
        j = rng.randrange(CARDS)
        block = bytearray(BLOCK)
        block[CHIPS * j:CHIPS * j + CHIPS] = rng.randbytes(CHIPS)
        answer, member = ref.reading(block, FRESH)
        name = word(answer)
        if name == "card":
            name = ("that card, right record"
                    if answer.card == j and member == ZEROS else "wrong")
        tally[name] += 1
    show("one card of random bytes, no marks", tally)
    all_changes, common = 256 ** CHIPS, common_changes()
    one_chip = CHIPS * 255          # damage of one byte only reads as chips
    several = Fraction(common - 1, all_changes)
    exactly("several", several)
    exactly("that card", 1 - several - Fraction(one_chip + 1, all_changes))


def random_block(rng, trials):
    """(b) 45 random bytes, no marks."""
    tally = Counter(word(ref.reading(rng.randbytes(BLOCK), FRESH)[0])
                    for _ in range(trials))
    show("45 random bytes, no marks", tally)
    exactly("a record", corrected_without_marks())
    exactly("several", Fraction(common_changes() - 1, 256 ** RULES))


def corrected_without_marks():
    """Share of the 256^11 sums that are corrected.

    256^9 sums fit a given card, 256^7 of them fit all five; those that fit
    all are several, save the sums of a clean block.
    """
    assert uniform_sums_on(ref.CHECK_PLACES)
    one_card = 256 ** CHIPS - common_changes()
    return Fraction(CARDS * one_card + 1, 256 ** RULES)


def two_bad_cards(rng, trials):
    """(c) two cards of random bytes, no marks."""
    tally = Counter()
    for _ in range(trials):
        block = bytearray(BLOCK)
        for j in rng.sample(range(CARDS), 2):
            block[CHIPS * j:CHIPS * j + CHIPS] = rng.randbytes(CHIPS)
        tally[against_zeros(block, FRESH)] += 1
    show("two cards of random bytes, no marks", tally)
    # A card and two chips of another are eleven independent places, so the
    # sums are random; a right record takes a card of nine right bytes.
    right = Fraction(2 * (256 ** CHIPS - common_changes()) + 1,
                     256 ** (2 * CHIPS))
    exactly("wrong record", corrected_without_marks() - right)


def marked_card_and_two_chips(rng, trials):
    """(c) the marked card random and two further chips bad."""
    tally = Counter()
    for _ in range(trials):
        j = rng.randrange(CARDS)
        block = bytearray(BLOCK)
        damage.card_and_two_chips(rng, block, ref.Marks(j, ()))
        tally[against_zeros(block, bytes((j, 0, 255, 255)))] += 1
    show("the marked card and two bad chips", tally)
    # As one change runs through 255 values beside the other, the sums pass
    # once through all but two of 257 directions; 34 belong to other chips.
    exactly("wrong record, 34 in 255", Fraction(34, 255))
    pairs = [some_pair(rng) for _ in range(20)]
    good = all(wrong_for_pair(*pair) == 34 for pair in pairs)
    print("    20 pairs of chips, every ratio of the two changes: "
          + ("34 of 255 wrong for each" if good else "NOT 34 of 255 for each"))


def some_pair(rng):
    j = rng.randrange(CARDS)
    off = [p for p in range(BLOCK) if p not in ref.card_places(j)]
    return (j, *rng.sample(off, 2))


def wrong_for_pair(j, p, q):
    """Wrong records over all ratios of the changes in p and q, j marked."""
    wrong = 0
    for change in range(1, 256):
        block = bytearray(BLOCK)
        block[p], block[q] = 1, change
        said = against_zeros(block, bytes((j, 0, 255, 255)))
        wrong += said == "wrong record"
    return wrong


def random_block_marked_card(rng, trials):
    """(c) 45 random bytes under a card mark."""
    tally = Counter()
    for _ in range(trials):
        record = bytes((rng.randrange(CARDS), 0, 255, 255))
        tally[word(ref.reading(rng.randbytes(BLOCK), record)[0])] += 1
    show("45 random bytes, a card marked", tally)
    # Past the marked card two sums remain: both 0, or one of 36 directions.
    exactly("a record, 9,181 in 65,536", Fraction(1 + 36 * 255, 65536))


def two_bad_chips(rng, trials, every):
    """(d) two bad chips, no marks.

    Multiplying a block by a factor keeps its places and its lawful blocks,
    so one change is 1 and only the other runs through 255 values.
    """
    same, apart = [], []
    for pair in combinations(range(BLOCK), 2):
        one_card = pair[0] // CHIPS == pair[1] // CHIPS
        (same if one_card else apart).append(pair)
    tally = Counter(two_chip_reading(p, q, change)
                    for p, q in same for change in range(1, 256))
    show("two bad chips on one card, every case up to a factor", tally)
    if every:
        cases = ((p, q, change) for p, q in apart for change in range(1, 256))
        title = "two bad chips on two cards, every case up to a factor"
    else:
        cases = ((*rng.choice(apart), rng.randrange(1, 256))
                 for _ in range(trials))
        title = "two bad chips on two cards (--every for every case)"
    show(title, Counter(two_chip_reading(*case) for case in cases))


def two_chip_reading(p, q, change):
    block = bytearray(BLOCK)
    block[p], block[q] = 1, change
    answer, member = ref.reading(block, FRESH)
    if answer.number:
        return word(answer)
    right = (member == ZEROS and answer.card == p // CHIPS and answer.n == 2)
    return "that card, right record" if right else "wrong"


def random_block_any_marks(rng, trials):
    """(e) 45 random bytes under each shape of lawful marks."""
    print(f"  45 random bytes under each shape of marks: {trials:,} each")
    for shape in damage.LAWFUL_SHAPES:
        tally = Counter(
            word(ref.reading(rng.randbytes(BLOCK), bytes(shape(rng)))[0])
            for _ in range(trials))
        said = ", ".join(f"{name} {percent(Fraction(count, trials))}"
                         for name, count in tally.most_common())
        print(f"    {shape.__name__:<30} {said}")


# -------------------------------------------------------------- command line

FIGURES = {
    "a": lambda rng, args: bad_card(rng, args.trials),
    "b": lambda rng, args: random_block(rng, args.trials),
    "c": lambda rng, args: (two_bad_cards(rng, args.trials),
                            marked_card_and_two_chips(rng, args.trials),
                            random_block_marked_card(rng, args.trials)),
    "d": lambda rng, args: two_bad_chips(rng, args.trials, args.every),
    "e": lambda rng, args: random_block_any_marks(rng, max(1, args.trials // 10)),
}


def _parser():
    parser = argparse.ArgumentParser(
        description="Print how often damage reads as what.")
    parser.add_argument("--seed", type=int, default=1,
                        help="seed of the random choices (default 1)")
    parser.add_argument("--trials", type=int, default=50_000,
                        help="readings of each seeded run (default 50000)")
    parser.add_argument("--figure", choices=FIGURES,
                        help="only this figure (default: all)")
    parser.add_argument("--every", action="store_true",
                        help="figure d on two cards: every case, not a sample")
    return parser


def main():
    args = _parser().parse_args()
    for name in args.figure or FIGURES:
        command = (f"python3 second/figures.py --figure {name} "
                   f"--seed {args.seed} --trials {args.trials}"
                   + (" --every" if args.every and name == "d" else ""))
        print(f"({name}) {command}")
        # Each figure starts from the seed afresh, so it can be made alone.
        FIGURES[name](random.Random(args.seed), args)


if __name__ == "__main__":
    main()
