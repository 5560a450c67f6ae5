"""Order 7's figures, for sound_per_thousand; selftest.py runs them.

Some are worked out by hand.  Of each share that shares() has it is seen, in whole
numbers, that no other number is nearer and that at an exact half the number is
even; Python's own round, which takes halves to the even neighbour too, must say
the same.
"""

from fractions import Fraction

from checking import check
from reference import MOST_BLOCKS, sound_per_thousand

# Sound blocks, all blocks, per thousand.  The first two are the order's.
WORKED = (
    (1, 16, 62), (3, 16, 188), (5, 16, 312), (7, 16, 438), (9, 16, 562),
    (11, 16, 688), (13, 16, 812), (15, 16, 938), (2, 16, 125), (8, 16, 500),
    (1, 80, 12), (3, 80, 38), (77, 80, 962), (79, 80, 988), (1, 400, 2),
    (3, 400, 8), (64, 1024, 62), (192, 1024, 188), (960, 1024, 938),
    (0, 1, 0), (1, 1, 1000), (1, 2, 500), (1, 3, 333), (2, 3, 667),
    (0, 1024, 0), (1, 1024, 1), (1023, 1024, 999), (1024, 1024, 1000),
)


def per_thousand(sound, blocks):
    return sound_per_thousand((sound, 0, 0, blocks - sound, 0))


def shares():
    """Sound blocks, all, and whether that is an exact half: every share of at most 64
    blocks, and of any number none, one, all but one, all and every exact half."""
    for blocks in range(1, MOST_BLOCKS + 1):
        for sound in range(blocks + 1):
            half = 2000 * sound % blocks == 0 and 2000 * sound // blocks % 2 == 1
            if half or blocks <= 64 or sound in (0, 1, blocks - 1, blocks):
                yield sound, blocks, half


def check_rounding():
    for sound, blocks, wanted in WORKED:
        check(f"{sound} sound of {blocks}", per_thousand(sound, blocks), wanted)
    check("which totals are sound", sound_per_thousand((1, 2, 4, 8, 16)), 226)
    halves = set()
    for sound, blocks, half in shares():
        name, q = f"{sound} sound of {blocks}", per_thousand(sound, blocks)
        off = abs(1000 * sound - q * blocks)
        check(name + ": none is nearer", 2 * off <= blocks)
        check(name + ": at a half", 2 * off == blocks, half)
        check(name + ": by Python", q, round(1000 * Fraction(sound, blocks)))
        check(name + ": with the rest", q + per_thousand(blocks - sound, blocks),
              1000)
        if half:
            check(name + ": even at a half", q % 2, 0)
            halves.add((sound, blocks))
    check("exact halves that a bank can have", len(halves), 1216)
    check("their numbers of blocks", {blocks for _, blocks in halves},
          set(range(16, MOST_BLOCKS + 1, 16)))
