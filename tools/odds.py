"""More figures for docs/DATA-SHEET.md, beside those of second/figures.py.

How often damage that the marks do not allow gives a wrong record, under each
shape of marks.  Each figure is a seeded run over second/reference.py, with the
exact figure beside it where a count settles it.

    python3 tools/odds.py [--seed N] [--trials N]
"""

import argparse
import random
import sys
from collections import Counter
from fractions import Fraction
from pathlib import Path

sys.dont_write_bytecode = True
sys.path.insert(0, str(Path(__file__).resolve().parent.parent / "second"))

import reference as ref                       # noqa: E402
from reference import BLOCK, CARDS, CHIPS     # noqa: E402

ZEROS = bytes(BLOCK)          # lawful; an answer depends on the damage alone
WORDS = ("clean", "chips", "card", "none", "several")


def verdict(block, marks):
    """Right record, wrong record, none or several, for damaged zeros."""
    answer, member = ref.reading(block, marks)
    if member is None:
        return WORDS[ref.total_of(answer)]
    return "right record" if member == ZEROS else "wrong record"


def mark_record(card=255, *chips):
    return bytes([card, len(chips), *chips, *[255] * (2 - len(chips))])


def off_card(rng, card, count, but=()):
    """Different positions off a card, none of them in `but`."""
    free = [p for p in range(BLOCK) if p // CHIPS != card and p not in but]
    return rng.sample(free, count)


def bad(rng, block, places):
    for p in places:
        block[p] = rng.randrange(1, 256)


def random_card(rng, block, card):
    block[CHIPS * card:CHIPS * card + CHIPS] = rng.randbytes(CHIPS)


# ---------------------------------------------------------------- the figures
#
# Each gives a damaged block of zeros and the marks it is read under.

def three_bad_chips(rng):
    """no marks, three bad chips, on any cards"""
    block = bytearray(BLOCK)
    bad(rng, block, rng.sample(range(BLOCK), 3))
    return block, mark_record()


def chip_marked_two_more(rng):
    """one chip marked, two further bad chips on two cards"""
    block = bytearray(BLOCK)
    first, second = rng.sample(range(CARDS), 2)
    hit = [CHIPS * j + rng.randrange(CHIPS) for j in (first, second)]
    marked = rng.choice([p for p in range(BLOCK) if p not in hit])
    bad(rng, block, [marked, *hit])
    return block, mark_record(255, marked)


def chip_marked_random_bytes(rng):
    """one chip marked, 45 random bytes"""
    return rng.randbytes(BLOCK), mark_record(255, rng.randrange(BLOCK))


def two_chips_marked_one_more(rng):
    """two chips marked, a further bad chip"""
    block = bytearray(BLOCK)
    *marked, further = rng.sample(range(BLOCK), 3)
    bad(rng, block, [*marked, further])
    return block, mark_record(255, *marked)


def chip_of_bad_card(rng):
    """one chip marked, its card of random bytes"""
    block = bytearray(BLOCK)
    card = rng.randrange(CARDS)
    random_card(rng, block, card)
    return block, mark_record(255, CHIPS * card + rng.randrange(CHIPS))


def card_marked_another_bad(rng):
    """a card marked, another card of random bytes"""
    block = bytearray(BLOCK)
    card, other = rng.sample(range(CARDS), 2)
    random_card(rng, block, other)
    return block, mark_record(card)


def card_and_chip_one_more(rng):
    """a card and a chip off it marked, a further bad chip"""
    return card_and_chips(rng, 1, 1)


def card_and_chip_two_more(rng):
    """a card and a chip off it marked, two further bad chips"""
    return card_and_chips(rng, 1, 2)


def card_and_two_chips_one_more(rng):
    """a card and two chips off it marked, a further bad chip"""
    return card_and_chips(rng, 2, 1)


def own_chips(rng, card):
    """One or two chips of a card, in any order."""
    return rng.sample(list(ref.card_places(card)), rng.choice((1, 2)))


def own_chips_one_more(rng):
    """a card and one or two of its chips marked, a further bad chip"""
    return own_chips_and(rng, 1)


def own_chips_two_more(rng):
    """a card and one or two of its chips marked, two further bad chips"""
    return own_chips_and(rng, 2)


def own_chips_another_bad(rng):
    """a card and one or two of its chips marked, another card of random bytes"""
    block, marks = card_marked_another_bad(rng)
    return block, mark_record(marks[0], *own_chips(rng, marks[0]))


def own_chips_random_bytes(rng):
    """a card and one or two of its chips marked, 45 random bytes"""
    card = rng.randrange(CARDS)
    return rng.randbytes(BLOCK), mark_record(card, *own_chips(rng, card))


def own_chips_and(rng, further):
    card = rng.randrange(CARDS)
    block = bytearray(BLOCK)
    random_card(rng, block, card)
    bad(rng, block, off_card(rng, card, further))
    return block, mark_record(card, *own_chips(rng, card))


def card_and_chips(rng, marked_count, further):
    card = rng.randrange(CARDS)
    block = bytearray(BLOCK)
    random_card(rng, block, card)
    marked = off_card(rng, card, marked_count)
    bad(rng, block, marked + off_card(rng, card, further, marked))
    return block, mark_record(card, *marked)


def one_chip_exactly():
    """Corrected share of the 256^11 sums with one chip marked, no card.

    Each of the four cards without the chip fits 256^10 sums, any two of them
    256^9 together, and any three, or one and the chip's own card, the same
    256^8.  The chip's own card fits 256^9.  Sums that fit two ways are
    several, save the 256 of a change in the marked chip alone.
    """
    alone = 256 ** 10 - 3 * (256 ** 9 - 256 ** 8) - 256 ** 8
    own = 256 ** 9 - 256 ** 8
    return Fraction(4 * alone + own + 256, 256 ** 11)


# Past a marked card two sums remain: both 0, or one of 36 directions.  Less the
# damage, on another card or in all bytes, that reads as zeros.
BESIDE_CARD = Fraction(1 + 36 * 255, 65536)
ANOTHER_BAD = BESIDE_CARD - Fraction(1 + 9 * 255, 256 ** 9)
ALL_RANDOM = BESIDE_CARD - Fraction(1 + 36 * 255, 256 ** 36)

# Figure, and where a count settles it the exact share of one verdict.
FIGURES = (
    (three_bad_chips, None),
    (chip_marked_two_more, None),
    (chip_marked_random_bytes, ("wrong record", one_chip_exactly())),
    (two_chips_marked_one_more, ("several", Fraction(1))),
    (card_marked_another_bad, ("wrong record", ANOTHER_BAD)),
    (own_chips_one_more, ("right record", Fraction(1))),
    (own_chips_two_more, ("wrong record", Fraction(34, 255))),
    (own_chips_another_bad, ("wrong record", ANOTHER_BAD)),
    (own_chips_random_bytes, ("wrong record", ALL_RANDOM)),
    (card_and_chip_one_more, ("none", Fraction(1))),
    (card_and_chip_two_more, ("wrong record", Fraction(1, 255))),
    (card_and_two_chips_one_more, ("wrong record", Fraction(1))),
    # The other cards fit the card's 256^7 changes that fit them with no mark,
    # each with any change in the chip; no change but in the chip is one record.
    (chip_of_bad_card, ("several", Fraction(256 * (256 ** 7 - 1), 256 ** 9))),
)


def percent(part):
    return f"{float(100 * part):.4g} %"


def settings(name, doc, trials):
    """Seed and trials from the command line, printed as a command again."""
    parser = argparse.ArgumentParser(description=doc.splitlines()[0])
    parser.add_argument("--seed", type=int, default=1)
    parser.add_argument("--trials", type=int, default=trials)
    args = parser.parse_args()
    print(f"python3 tools/{name} --seed {args.seed} --trials {args.trials}")
    return args


def main():
    args = settings("odds.py", __doc__, 50_000)
    for figure, exact in FIGURES:
        rng = random.Random(args.seed)
        tally = Counter(verdict(*figure(rng)) for _ in range(args.trials))
        print(f"{figure.__doc__}:")
        for name, count in tally.most_common():
            print(f"    {name:<14} {count:>8,}   "
                  f"{percent(Fraction(count, args.trials))}")
        if exact:
            print(f"    exact: {exact[0]} {percent(exact[1])}")


if __name__ == "__main__":
    main()
