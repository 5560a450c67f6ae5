"""Order 11's cases, for reference.py; selftest.py runs them.

Every pair of positions is read with a few values, and six pairs, at the corners of
the cards, with every ratio of the two changes.  Multiplying a block by a factor
keeps its places and its lawful blocks, so for these one change is 1.
"""

from collections import Counter

import reference as ref
import two_chips
from checking import check, zeros_with
from reference import Answer, BLOCK, CARDS, CHIPS, FRESH, IN_CARD
from two_chips import PAIRS, damaged, expected

ZEROS = bytes(BLOCK)

# What two positions hold in place of 0, and the answer, by hand.
BY_HAND = (
    ({0: 1, 1: 1}, Answer(0, IN_CARD, 0, 2)),
    ({0: 255, 8: 1}, Answer(0, IN_CARD, 0, 2)),
    ({9: 1, 17: 128}, Answer(0, IN_CARD, 1, 2)),
    ({26: 3, 18: 3}, Answer(0, IN_CARD, 2, 2)),
    ({36: 1, 44: 1}, Answer(0, IN_CARD, 4, 2)),
    ({0: 1, 9: 1}, Answer(10)),
    ({8: 1, 9: 1}, Answer(10)),
    ({35: 7, 36: 9}, Answer(10)),
    ({0: 255, 44: 255}, Answer(10)),
)
CORNERS = (0, 1), (36, 44), (0, 9), (8, 9), (35, 36), (0, 44)


def check_by_hand():
    for held, answer in BY_HAND:
        member = None if answer.number else ZEROS
        check(f"order 11 on {held}", expected(ZEROS, held), (answer, member))
        check(f"a reading of {held}", ref.reading(zeros_with(held), FRESH),
              (answer, member))


def every_ratio(rng, p, q):
    return [(1, change) for change in range(1, 256)]


def check_readings(rng):
    """The second implementation reads each case as the order says."""
    said, wrong = Counter(), []
    for pairs, some in ((PAIRS, two_chips.a_few), (CORNERS, every_ratio)):
        for good, held in two_chips.cases(rng, pairs, some):
            block = damaged(good, held)
            if ref.changed(block, good) != sorted(held) or not ref.lawful(good):
                wrong.append(("no case of the order", good.hex(), held))
            answer, member = ref.reading(block, FRESH)
            if (answer, member) != expected(good, held):
                wrong.append((good.hex(), held, answer))
            said[answer] += 1
    check("two chips, no marks", wrong, [])
    # Nine chips make 36 pairs, five cards ten pairs of 81.
    check("how often each is said", said, {
        Answer(10): 810 * 4 + 4 * 255,
        **{Answer(0, IN_CARD, card, 2): 36 * 4 + 255 * (card in (0, 4))
           for card in range(CARDS)}})


def check_nearly_fitting(rng):
    """They are what they say: one label sum is 0, and the other is not."""
    wrong = []
    for p, q in PAIRS:
        cards = two_chips.other_cards(p, q)
        near = iter(two_chips.near_a_card(rng, p, q))
        for card in cards:
            for which in (1, 2):
                by_p, by_q = next(near)
                _, left = two_chips.left_by(card, zeros_with({p: by_p, q: by_q}))
                if [total == 0 for total in left] != [which == 1, which == 2]:
                    wrong.append((p, q, card, which))
        if len(cards) != (4 if p // CHIPS == q // CHIPS else 3) or any(near):
            wrong.append((p, q))
    check("cases that nearly fit another card", wrong, [])


def check_sample(rng):
    """All that use/single_two_chips.py goes through."""
    check("pairs", len(set(PAIRS)), 990)
    made = list(two_chips.cases(rng))
    check("cases", len(made), 180 * (9 + 8 + 2) + 810 * (9 + 6 + 2))
    check("pairs of all cases", {tuple(held) for _, held in made}, set(PAIRS))
    check("lawful blocks", len({good for good, _ in made}), 5)
    rows = [held for good, held in made if len({p % CHIPS for p in held}) == 1
            and len({good[p] ^ value for p, value in held.items()}) == 1]
    check("alike in one row", {tuple(held) for held in rows},
          {(p, q) for p, q in PAIRS if p % CHIPS == q % CHIPS})


def check_two_chips(rng):
    check_by_hand()
    check_readings(rng)
    check_nearly_fitting(rng)
    check_sample(rng)
