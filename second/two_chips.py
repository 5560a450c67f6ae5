"""Order 11, two bad chips and no marks, by the order's text alone.

"For a lawful block changed in exactly two chips, with no marks: if both chips are
on one card, the reading is that card with n = 2 and the lawful block; if on two
cards, it is always "none".  For no such damage may another record come out."

What is expected follows from where the two chips are; nothing here reads a block.
The cases are all pairs of positions with some values each: the limits, those that
nearly fit a card on which neither chip is, and seeded ones.
"""

from itertools import combinations, cycle, product

from reference import (Answer, BLOCK, CARDS, CHIPS, IN_CARD, LABEL, NONE, RECORD,
                       TIMES, inverse, store, sums)

PAIRS = tuple(combinations(range(BLOCK), 2))     # 990
LIMITS = (0x01, 0x80, 0xFF)                      # a change of one bit, or of all


# ------------------------------------------------------------------ the order

def expected(good, held):
    """What the order says of a lawful block of which two positions hold other
    values: (answer, block that comes out or None), as a reading has it."""
    p, q = held
    assert all(good[at] != value for at, value in held.items())
    if p // CHIPS == q // CHIPS:
        return Answer(kind=IN_CARD, card=p // CHIPS, n=2), bytes(good)
    return Answer(NONE), None


def damaged(good, held):
    """The block, where these positions hold these values."""
    block = bytearray(good)
    for at, value in held.items():
        block[at] = value
    return bytes(block)


# -------------------------------------------------------------------- changes

def entry(card, p):
    """What a change of 1 at p leaves of the first label sum, once this card has
    made up for it in its row.  The second label sum has the square of it."""
    return LABEL[p] ^ LABEL[CHIPS * card + p % CHIPS]


def other_cards(p, q):
    """The cards on which neither chip is."""
    return [card for card in range(CARDS) if card not in (p // CHIPS, q // CHIPS)]


def nearly_fitting(p, q, card, which, change):
    """The change at q, beside this one at p, after which this card makes up for all
    row sums and for the first (which = 1) or the second label sum (2), but not for
    the other: whoever looks at one of them takes the card for the bad one."""
    off_p, off_q = entry(card, p), entry(card, q)
    ratio = TIMES[off_p][inverse(off_q)]
    return TIMES[change][ratio if which == 1 else TIMES[ratio][ratio]]


def left_by(card, block):
    """The block that this card makes of it by the row sums, and the label sums that
    are left then."""
    made = bytearray(block)
    for chip, total in enumerate(sums(block)[:CHIPS]):
        made[CHIPS * card + chip] ^= total
    return bytes(made), tuple(sums(made)[CHIPS:])


def at_the_limits():
    """Nine; in three of them both chips change alike, so that in one row no row sum
    sees it."""
    return list(product(LIMITS, repeat=2))


def near_a_card(rng, p, q):
    """Two for each card on which neither chip is: eight or six."""
    for card, which in product(other_cards(p, q), (1, 2)):
        change = rng.randrange(1, 256)
        yield change, nearly_fitting(p, q, card, which, change)


def at_random(rng):
    return rng.randrange(1, 256), rng.randrange(1, 256)


def changes(rng, p, q):
    """By what the two chips are changed: of each sort all, or two at random."""
    return [*at_the_limits(), *near_a_card(rng, p, q), at_random(rng), at_random(rng)]


def a_few(rng, p, q):
    """Four of them: one at the limits, two that nearly fit one card, one at random."""
    near = list(near_a_card(rng, p, q))
    at = 2 * rng.randrange(len(near) // 2)
    return [rng.choice(at_the_limits()), *near[at:at + 2], at_random(rng)]


# ---------------------------------------------------------------------- cases

def lawful_blocks(rng):
    """The cleared block, the record of all bits, and three seeded ones."""
    return (bytes(BLOCK), store(b"\xFF" * RECORD),
            *(store(rng.randbytes(RECORD)) for _ in range(3)))


def cases(rng, pairs=PAIRS, some=changes):
    """(lawful block, what two of its positions hold) for each of these pairs, with
    the changes that `some` makes for it; the lawful blocks take turns."""
    blocks = cycle(lawful_blocks(rng))
    for p, q in pairs:
        for by_p, by_q in some(rng, p, q):
            good = next(blocks)
            yield good, {p: good[p] ^ by_p, q: good[q] ^ by_q}
