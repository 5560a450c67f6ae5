"""Seeded inputs for the comparison: mark records, registers, damaged banks, windows.

Every choice comes from the random.Random that is handed in, so a seed gives
the same input again.  MARK_SHAPES names the ways of making a mark record,
DAMAGE the ways of damaging a lawful block under it, WINDOWS those of filling a
window.

Command line: writes a mark record and a damaged bank to standard output.
"""

import argparse
import random
import sys

import reference as ref
import window
from reference import BLOCK, CARDS, CHIPS, RECORD, UNUSED


# ------------------------------------------------------------ mark records

def _two(rng, places=range(BLOCK)):
    return rng.sample(list(places), 2)


def _on(card):
    return list(ref.card_places(card))


def _off(card):
    return [p for p in range(BLOCK) if p not in ref.card_places(card)]


def fresh(rng):
    return list(ref.FRESH)


def one_chip(rng):
    return [UNUSED, 1, rng.randrange(BLOCK), UNUSED]


def two_chips(rng):
    return [UNUSED, 2, *_two(rng)]


def two_chips_of_one_card(rng):
    return [UNUSED, 2, *_two(rng, _on(rng.randrange(CARDS)))]


def two_chips_of_one_row(rng):
    chip = rng.randrange(CHIPS)
    return [UNUSED, 2, *_two(rng, range(chip, BLOCK, CHIPS))]


def card(rng):
    return [rng.randrange(CARDS), 0, UNUSED, UNUSED]


def card_and_chip_off_it(rng):
    j = rng.randrange(CARDS)
    return [j, 1, rng.choice(_off(j)), UNUSED]


def card_and_chip_on_it(rng):
    j = rng.randrange(CARDS)
    return [j, 1, rng.choice(_on(j)), UNUSED]


def card_and_two_chips_off_it(rng):
    j = rng.randrange(CARDS)
    return [j, 2, *_two(rng, _off(j))]


def card_and_two_chips_on_it(rng):
    j = rng.randrange(CARDS)
    return [j, 2, *_two(rng, _on(j))]


def card_and_chips_on_and_off_it(rng):
    j = rng.randrange(CARDS)
    both = [rng.choice(_on(j)), rng.choice(_off(j))]
    rng.shuffle(both)
    return [j, 2, *both]


def unlawful_card(rng):
    """6: a card byte that is neither 0 to 4 nor 255."""
    marks = lawful_marks(rng)
    return [rng.choice([5, 6, 254, rng.randrange(5, 255)]), *marks[1:]]


def unlawful_count(rng):
    """6: a count above 2."""
    marks = lawful_marks(rng)
    return [marks[0], rng.choice([3, 255, rng.randrange(3, 256)]), *marks[2:]]


def unlawful_used_place(rng):
    """6: a used chip place that holds no position."""
    marks = rng.choice([one_chip, two_chips, card_and_chip_off_it,
                        card_and_two_chips_off_it])(rng)
    at = 2 + rng.randrange(marks[1])
    marks[at] = rng.choice([45, 254, 255, rng.randrange(45, 256)])
    return marks


def unlawful_unused_place(rng):
    """6: an unused chip place that holds anything but 255."""
    marks = rng.choice([fresh, one_chip, card, card_and_chip_off_it])(rng)
    at = rng.randrange(2 + marks[1], 4)
    marks[at] = rng.choice([0, 44, 45, 254, rng.randrange(255)])
    return marks


def equal_chips(rng):
    """7: both chip marks equal, everything within its range."""
    chip = rng.randrange(BLOCK)
    return [rng.choice([UNUSED, rng.randrange(CARDS)]), 2, chip, chip]


def equal_chips_out_of_range(rng):
    """6 before 7: equal chips, and a byte outside its range."""
    chip = rng.randrange(BLOCK)
    beyond = rng.randrange(BLOCK, 256)
    return rng.choice([[UNUSED, 2, beyond, beyond],
                       [rng.randrange(5, 255), 2, chip, chip],
                       [UNUSED, 1, chip, chip],
                       [UNUSED, rng.randrange(3, 256), chip, chip]])


def any_four_bytes(rng):
    return list(rng.randbytes(4))


LAWFUL_SHAPES = (fresh, one_chip, two_chips, two_chips_of_one_card,
                 two_chips_of_one_row, card, card_and_chip_off_it,
                 card_and_chip_on_it, card_and_two_chips_off_it,
                 card_and_two_chips_on_it, card_and_chips_on_and_off_it)
UNLAWFUL_SHAPES = (unlawful_card, unlawful_count, unlawful_used_place,
                   unlawful_unused_place, equal_chips,
                   equal_chips_out_of_range)
MARK_SHAPES = {shape.__name__: shape for shape in
               LAWFUL_SHAPES + UNLAWFUL_SHAPES + (any_four_bytes,)}


def lawful_marks(rng):
    return rng.choice(LAWFUL_SHAPES)(rng)


def unlawful_marks(rng):
    return rng.choice(UNLAWFUL_SHAPES)(rng)


def any_marks(rng):
    """Mostly lawful, since a refusal looks at no block."""
    shape = rng.choices([lawful_marks, unlawful_marks, any_four_bytes],
                        [16, 3, 1])[0]
    return bytes(shape(rng))


# --------------------------------------------------------------- registers

def any_registers(rng):
    """Twelve registers, mostly such that a command on a small bank is done."""
    held = bytearray(rng.randbytes(8) + any_marks(rng))
    if rng.random() < 0.8:
        held[1:3] = rng.choice([0, 0, 1, 2]), 0
    if rng.random() < 0.8:
        held[3] = rng.choice([*held[8:], *range(CARDS), rng.randrange(BLOCK)])
    return bytes(held)


# --------------------------------------------------------- damage to a block
#
# Each kind takes the lawful block as a bytearray and the opened marks, and
# alters the block in place.  "Bad" means surely changed, "random" means any
# byte, perhaps the right one.

def _bad(rng, block, places):
    for p in places:
        block[p] ^= rng.randrange(1, 256)


def _random(rng, block, places):
    for p in places:
        block[p] = rng.randrange(256)


def _add(block, other, places):
    for p in places:
        block[p] ^= other[p]


def _card_of(rng, marks):
    return rng.randrange(CARDS) if marks.card is None else marks.card


def no_damage(rng, block, marks):
    pass


def one_bad_chip(rng, block, marks):
    _bad(rng, block, [rng.randrange(BLOCK)])


def two_bad_chips_of_one_card(rng, block, marks):
    _bad(rng, block, _two(rng, _on(rng.randrange(CARDS))))


def two_bad_chips_of_two_cards(rng, block, marks):
    for j in rng.sample(range(CARDS), 2):
        _bad(rng, block, [rng.choice(_on(j))])


def two_equal_changes_in_one_row(rng, block, marks):
    """The row sums stay 0; only the two label sums see it."""
    chip, change = rng.randrange(CHIPS), rng.randrange(1, 256)
    for p in _two(rng, range(chip, BLOCK, CHIPS)):
        block[p] ^= change


def three_bad_chips(rng, block, marks):
    _bad(rng, block, rng.sample(range(BLOCK), 3))


def whole_random_card(rng, block, marks):
    _random(rng, block, _on(rng.randrange(CARDS)))


def part_of_a_card(rng, block, marks):
    chips = rng.sample(_on(rng.randrange(CARDS)), rng.randrange(2, CHIPS + 1))
    _bad(rng, block, chips)


def one_value_on_a_card(rng, block, marks):
    """A missing card that reads as the same byte everywhere."""
    value = rng.choice([0, 255, rng.randrange(256)])
    for p in _on(rng.randrange(CARDS)):
        block[p] = value


def card_and_chip(rng, block, marks):
    j = _card_of(rng, marks)
    _random(rng, block, _on(j))
    _bad(rng, block, [rng.choice(_off(j))])


def card_and_two_chips(rng, block, marks):
    j = _card_of(rng, marks)
    _random(rng, block, _on(j))
    _bad(rng, block, _two(rng, _off(j)))


def marked_chips(rng, block, marks):
    _bad(rng, block, marks.chips)


def marked_chips_and_one(rng, block, marks):
    _bad(rng, block, {*marks.chips, rng.randrange(BLOCK)})


def marked_chips_and_card(rng, block, marks):
    _bad(rng, block, marks.chips)
    _random(rng, block, _on(rng.randrange(CARDS)))


def marked_card(rng, block, marks):
    _random(rng, block, _on(_card_of(rng, marks)))


def another_card(rng, block, marks):
    """A whole card other than the marked one."""
    _random(rng, block, _on((_card_of(rng, marks) + rng.randrange(1, CARDS))
                            % CARDS))


def two_random_cards(rng, block, marks):
    for j in rng.sample(range(CARDS), 2):
        _random(rng, block, _on(j))


def allowed_by_marks(rng, block, marks):
    """Some of the places of one allowed set, changed at random."""
    places = rng.choice(ref.allowed_sets(marks))
    _random(rng, block, rng.sample(places, rng.randrange(len(places) + 1)))


def allowed_in_full(rng, block, marks):
    """All the places of one allowed set."""
    _bad(rng, block, rng.choice(ref.allowed_sets(marks)))


def one_chip_too_many(rng, block, marks):
    """All the places of one allowed set and one place outside it."""
    places = rng.choice(ref.allowed_sets(marks))
    outside = [p for p in range(BLOCK) if p not in places]
    _bad(rng, block, [*places, rng.choice(outside)])


def random_bytes(rng, block, marks):
    _random(rng, block, range(BLOCK))


def another_lawful_block(rng, block, marks):
    """Unseen by any check rule: reads as clean."""
    block[:] = ref.store(rng.randbytes(RECORD))


def lawful_on_two_cards(rng, j, m, more=()):
    """A random lawful block that is 0 off cards j and m and the places more."""
    block = bytearray(BLOCK)
    first, second = _two(rng, _on(m))
    base = tuple(sorted(_on(j) + [first, second]))
    _random(rng, block, [*_on(m), *more])
    for p in base:
        block[p] = 0
    return ref.reached(base, block, ref.sums(block))


def half_way(rng, block, j, m, chips=()):
    """Card j's half of a lawful difference on cards j and m and in these chips:
    both cards fit, with the chips."""
    _add(block, lawful_on_two_cards(rng, j, m, chips), {*_on(j), *chips})


def half_way_between_cards(rng, block, marks):
    half_way(rng, block, *rng.sample(range(CARDS), 2))


def half_way_with_marked_chips(rng, block, marks):
    half_way(rng, block, *rng.sample(range(CARDS), 2), marks.chips)


def three_chips_that_fit_every_card(rng, block, marks):
    """01's 8, 6, 1 in three neighbouring chips, times any factor."""
    at, factor = rng.randrange(CHIPS - 2), rng.randrange(1, 256)
    start = ref.position(rng.randrange(CARDS), at)
    for step, value in enumerate((8, 6, 1)):
        block[start + step] ^= ref.TIMES[factor][value]


def lawful_in_one_row(rng):
    """A lawful block of four bytes, the fewest: one row, four cards."""
    chip = rng.randrange(CHIPS)
    first, *base = rng.sample(range(chip, BLOCK, CHIPS), 4)
    block = bytearray(BLOCK)
    _bad(rng, block, [first])
    return ref.reached(tuple(sorted(base)), block, ref.sums(block))


def part_of_a_lawful_row(rng, block, marks):
    """One to three bytes of a lawful difference of four."""
    row = lawful_in_one_row(rng)
    places = [p for p in range(BLOCK) if row[p]]
    _add(block, row, rng.sample(places, rng.randrange(1, 4)))


def near_another_lawful_block(rng, block, marks):
    """Allowed damage to another lawful block: corrected, but wrongly."""
    another_lawful_block(rng, block, marks)
    allowed_by_marks(rng, block, marks)


DAMAGE = {kind.__name__: kind for kind in (
    no_damage, one_bad_chip, two_bad_chips_of_one_card,
    two_bad_chips_of_two_cards, two_equal_changes_in_one_row,
    three_bad_chips, whole_random_card, part_of_a_card, one_value_on_a_card,
    card_and_chip, card_and_two_chips, marked_chips, marked_chips_and_one,
    marked_chips_and_card, marked_card, another_card, two_random_cards,
    allowed_by_marks, allowed_in_full, one_chip_too_many, random_bytes,
    another_lawful_block, half_way_between_cards, half_way_with_marked_chips,
    three_chips_that_fit_every_card, part_of_a_lawful_row,
    near_another_lawful_block)}


# ------------------------------------------------------------ blocks, banks

def any_record(rng):
    """Zeros now and then: most banks begin so."""
    return bytes(RECORD) if rng.random() < 0.2 else rng.randbytes(RECORD)


def _marks_for_damage(record):
    """Opened marks; fresh ones stand in for a record that is refused."""
    lawful = len(record) == 4 and ref.marks_cause(record) == 0
    return ref.open_marks(record if lawful else ref.FRESH)


def damaged_block(rng, marks, kind=None):
    """A stored record with damage of the named kind, or of any."""
    block = bytearray(ref.store(any_record(rng)))
    name = kind or rng.choice(list(DAMAGE))
    DAMAGE[name](rng, block, _marks_for_damage(marks))
    return bytes(block)


def damaged_bank(rng, marks, blocks, kind=None):
    return b"".join(damaged_block(rng, marks, kind) for _ in range(blocks))


def case(rng, blocks=None, marks=None, kind=None):
    """(mark record, bank) with whatever isn't given chosen at random."""
    record = any_marks(rng) if marks is None else bytes(marks)
    count = rng.choice([1, 2, 3, 16]) if blocks is None else blocks
    return record, damaged_bank(rng, record, count, kind)


def every_pair(rng, rounds=1):
    """Each shape of marks with each kind of damage, one block each.

    Gives (shape name, kind name, mark record, block).
    """
    for _ in range(rounds):
        for shape, make in MARK_SHAPES.items():
            for kind in DAMAGE:
                record = bytes(make(rng))
                yield shape, kind, record, damaged_block(rng, record, kind)


def program_input(rng):
    """Standard input for the bank program, of a wrong length now and then."""
    sort = rng.randrange(12)
    if sort == 0:
        return rng.randbytes(rng.randrange(4))
    if sort == 1:
        return any_marks(rng)
    record, bank = case(rng)
    if sort == 2:
        cut = rng.choice([1, 44, rng.randrange(1, BLOCK)])
        return record + bank[:-cut]
    if sort == 3:
        return record + bank + rng.randbytes(rng.choice([1, 44]))
    if sort == 4:
        return record + bytes(BLOCK * rng.choice([0, 1025, 1026]))
    return record + bank


# ----------------------------------------------------------------- windows
#
# Each sort takes the opened marks, since a marked chip is passed over, and gives
# 64 bytes of any content.

def _window(rng, bytes_of_it):
    return bytes(rng.choices(bytes_of_it, k=window.SIZE))


def empty_window(rng, marks):
    return window.START


def positions_at_the_end(rng, marks):
    first = rng.randrange(1, window.SIZE)
    return window.START[:first] + full_window(rng, marks)[first:]


def full_window(rng, marks):
    return _window(rng, range(BLOCK))


def a_few_chips(rng, marks):
    return _window(rng, [*rng.sample(range(BLOCK), rng.randrange(1, 6)), UNUSED])


def around_four(rng, marks):
    """Chips three to five times, marked ones too, among bytes that are none."""
    chips = {*marks.chips, *rng.sample(range(BLOCK), 3)}
    if marks.card is not None:
        chips.add(rng.choice(_on(marks.card)))
    run = [chip for chip in chips for _ in range(rng.choice([3, 4, 5]))]
    run += rng.choices(range(BLOCK, 256), k=window.SIZE - len(run))
    rng.shuffle(run)
    return bytes(run)


def no_positions(rng, marks):
    return _window(rng, [BLOCK, UNUSED, *rng.sample(range(BLOCK, 256), 9)])


def any_64_bytes(rng, marks):
    return rng.randbytes(window.SIZE)


WINDOWS = {sort.__name__: sort for sort in (
    empty_window, positions_at_the_end, full_window, a_few_chips, around_four,
    no_positions, any_64_bytes)}


def any_window(rng, record, sort=None):
    """A window of the named sort, or of any, under a mark record of any bytes."""
    return WINDOWS[sort or rng.choice(list(WINDOWS))](rng, _marks_for_damage(record))


# ------------------------------------------------------------ command line

def mark_argument(words):
    """A mark record from the command line, lawful or not."""
    parts = words.split(",")
    if len(parts) != 4 or not all(part.isdecimal() and int(part) <= 255
                                  for part in parts):
        raise argparse.ArgumentTypeError("four numbers, each 0 to 255")
    return bytes(int(part) for part in parts)


def _parser():
    parser = argparse.ArgumentParser(
        formatter_class=argparse.RawDescriptionHelpFormatter,
        description="Write a mark record (4 bytes) and a damaged bank to "
                    "standard output.\nThe same arguments give the same "
                    "bytes again.",
        epilog="example:\n"
               "  python3 second/damage.py --seed 1 --blocks 16 > input\n"
               "  python3 second/bank.py < input\n\n"
               "kinds of damage:\n  " + "\n  ".join(DAMAGE))
    parser.add_argument("--seed", type=int, default=0,
                        help="seed of the random choices (default 0)")
    parser.add_argument("--blocks", type=int, default=16,
                        help="blocks of the bank (default 16); the bank "
                             "program takes 1 to 1024")
    parser.add_argument("--marks", type=mark_argument, default=ref.FRESH,
                        metavar="CARD,COUNT,FIRST,SECOND",
                        help="mark record, lawful or not; 255 for an unused "
                             "place (default 255,0,255,255)")
    parser.add_argument("--kind", choices=DAMAGE, metavar="KIND",
                        help="one kind of damage for every block (default: "
                             "any kind, block by block)")
    return parser


def main():
    wanted = _parser().parse_args()
    record, bank = case(random.Random(wanted.seed), wanted.blocks,
                        wanted.marks, wanted.kind)
    sys.stdout.buffer.write(record + bank)


if __name__ == "__main__":
    main()
