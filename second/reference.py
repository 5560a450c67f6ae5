"""The call memory of document 01, written a second time for comparison.

This module is the outside check of the proved library.  It finds the set S of
demand 3 by Gaussian elimination: for every set of places that the marks allow
to differ, it solves the eleven check rules for the changes in those places.

Words: a block is 45 bytes, five cards of nine chips; a chip's position is
9 * card + chip; a record is the first 34 bytes of a lawful block; a mark
record is 4 bytes (card, count, first, second) with 255 for "none".

The parts, in order: field, labels, check rules, elimination, storing, marks,
allowed changes, the set S, reading, the calls on lent bytes.  registers.py has
order 1's registers, window.py order 2's window, slips.py order 8's slips,
book.py the book.
"""

import math
from collections import namedtuple
from fractions import Fraction
from functools import lru_cache

CARDS = 5
CHIPS = 9
BLOCK = CARDS * CHIPS          # bytes of a block
RECORD = 34                    # bytes of a record
RULES = CHIPS + 2              # nine row sums and two label sums
MOST_BLOCKS = 1024             # of one bank
UNUSED = 255                   # no card mark, or an unused chip place
FRESH = bytes((UNUSED, 0, UNUSED, UNUSED))   # 01: "a fresh record"

CLEAN, IN_CHIPS, IN_CARD = 0, 1, 2           # 01: the kinds of "corrected"
NONE, SEVERAL = 10, 11                       # 01: the refusals of a reading


# ---------------------------------------------------------------- the field

MODULUS = 0x11D                # x^8 + x^4 + x^3 + x^2 + 1
G = 2                          # 01: "let g be 2"


def polynomial_product(a, b):
    """Product of two polynomials over bits, not yet reduced."""
    total = 0
    while b:
        if b & 1:
            total ^= a
        a <<= 1
        b >>= 1
    return total


def remainder(value):
    """Remainder of a polynomial over bits after division by the modulus."""
    while value.bit_length() > 8:
        value ^= MODULUS << (value.bit_length() - 9)
    return value


def product(a, b):
    """01's product, straight from its definition; the tables are for speed."""
    return remainder(polynomial_product(a, b))


def _powers():
    powers = [1]
    for _ in range(254):
        powers.append(product(G, powers[-1]))
    return powers


POWER = _powers()                                       # POWER[e] = g^e
EXPONENT = {value: e for e, value in enumerate(POWER)}  # the inverse of POWER


def _times(a):
    if a == 0:
        return bytes(256)
    e = EXPONENT[a]
    return bytes([0] + [POWER[(e + EXPONENT[b]) % 255] for b in range(1, 256)])


TIMES = [_times(a) for a in range(256)]                 # TIMES[a][b] = a * b


def inverse(a):
    """The b with a * b = 1, for a other than 0."""
    return POWER[-EXPONENT[a] % 255]


# --------------------------------------------------------------- the labels

def position(card, chip):
    return CHIPS * card + chip


def label(card, chip):
    """01: "the label of card j, chip i is g^(i + 17 j)"."""
    return POWER[(chip + 17 * card) % 255]


# LABEL[p] is the label at position p.
LABEL = [label(p // CHIPS, p % CHIPS) for p in range(BLOCK)]


# ---------------------------------------------------------- the check rules

def _rules():
    """One row of 45 factors for each rule; a rule holds if its sum is 0."""
    rows = [[int(p % CHIPS == chip) for p in range(BLOCK)]
            for chip in range(CHIPS)]
    rows.append(list(LABEL))
    rows.append([TIMES[x][x] for x in LABEL])
    return rows


def _terms(factors):
    """A row of factors as (index, table) pairs, zeros left out for speed."""
    return tuple((at, TIMES[f]) for at, f in enumerate(factors) if f)


def _combine(terms, values):
    total = 0
    for at, table in terms:
        total ^= table[values[at]]
    return total


RULE = _rules()
_RULE_TERMS = [_terms(row) for row in RULE]


def sums(block):
    """The eleven sums of a block: nine rows, then the two label sums."""
    return tuple([_combine(terms, block) for terms in _RULE_TERMS])


def lawful(block):
    """01: "a block is lawful if all hold"."""
    return len(block) == BLOCK and not any(sums(block))


# ------------------------------------------------------------- elimination

@lru_cache(maxsize=None)
def eliminate(places):
    """Solve the check rules, once for all blocks, for changes in places.

    Returns two lists of rows over the eleven sums of a block.  The first
    gives the change in each place; every row of the second must give 0, or
    no change in these places alone makes the block lawful.
    """
    width = len(places)
    # Beside each rule stands a unit row that records what was added to it.
    rows = [[RULE[r][p] for p in places] + [int(r == c) for c in range(RULES)]
            for r in range(RULES)]
    for column in range(width):
        pivot = next((r for r in range(column, RULES) if rows[r][column]), None)
        if pivot is None:
            # With these labels the marks never allow such a set of places.
            raise AssertionError(f"more than one solution in places {places}")
        rows[column], rows[pivot] = rows[pivot], rows[column]
        scale = TIMES[inverse(rows[column][column])]
        rows[column] = [scale[x] for x in rows[column]]
        for r in range(RULES):
            factor = rows[r][column]
            if r != column and factor:
                rows[r] = [x ^ TIMES[factor][y]
                           for x, y in zip(rows[r], rows[column])]
    done = [_terms(row[width:]) for row in rows]
    return done[:width], done[width:]


def solve(places, block_sums):
    """The changes in places that make all eleven sums 0, or None."""
    values, tests = eliminate(places)
    for terms in tests:
        if _combine(terms, block_sums):
            return None
    return [_combine(terms, block_sums) for terms in values]


def reached(places, block, block_sums):
    """The lawful block that differs from block only in places, or None."""
    changes = solve(places, block_sums)
    if changes is None:
        return None
    mended = bytearray(block)
    for place, change in zip(places, changes):
        mended[place] ^= change
    return bytes(mended)


# ----------------------------------------------------------------- storing

CHECK_PLACES = tuple(range(RECORD, BLOCK))   # 01: the check bytes


def store(record):
    """The only lawful block that begins with this record of 34 bytes."""
    assert len(record) == RECORD
    start = bytes(record) + bytes(BLOCK - RECORD)
    return reached(CHECK_PLACES, start, sums(start))


# ------------------------------------------------------------------- marks

# A mark record opened up: card is None or 0 to 4, chips the marked positions
# in order of placing.  Only lawful records are opened.
Marks = namedtuple("Marks", "card chips")


def _mark_ranges_hold(record):
    card, count, *places = record
    if not (card < CARDS or card == UNUSED) or count > 2:
        return False
    return all(place < BLOCK if at < count else place == UNUSED
               for at, place in enumerate(places))


def marks_cause(record):
    """0 if the mark record is lawful, else its number of refusal, 6 or 7."""
    if not _mark_ranges_hold(record):
        return 6
    card, count, first, second = record
    return 7 if count == 2 and first == second else 0


def open_marks(record):
    """A lawful mark record of 4 bytes as Marks."""
    assert marks_cause(record) == 0
    card, count, *places = record
    return Marks(None if card == UNUSED else card, tuple(places[:count]))


def close_marks(marks):
    """Marks as a mark record of 4 bytes."""
    places = list(marks.chips) + [UNUSED] * (2 - len(marks.chips))
    card = UNUSED if marks.card is None else marks.card
    return bytes([card, len(marks.chips)] + places)


# --------------------------------------------------------- allowed changes

def card_places(card):
    return range(CHIPS * card, CHIPS * card + CHIPS)


def _places(*parts):
    return tuple(sorted(set().union(*parts)))


def counted(marks):
    """u of 01's table.  Order 5: "u, under a card mark, counts only the chip
    marks outside the marked card".
    """
    return sum(p // CHIPS != marks.card for p in marks.chips)


def chip_kind_sets(marks):
    """Places of 01's chip kind, no card marked."""
    if counted(marks) == 2:
        return [_places(marks.chips)]
    return [_places(marks.chips, [further]) for further in range(BLOCK)]


def card_kind_set(marks, card):
    """Places of 01's card kind for one card, no card marked."""
    return _places(card_places(card), marks.chips)


def card_mark_sets(marks):
    """Places of the table's last row, a card marked."""
    fixed = _places(card_places(marks.card), marks.chips)
    if counted(marks):
        return [fixed]
    return [_places(fixed, [further]) for further in range(BLOCK)]


@lru_cache(maxsize=None)
def allowed_sets(marks):
    """Every set of places that may differ together, by 01's table."""
    if marks.card is not None:
        sets = card_mark_sets(marks)
    else:
        sets = chip_kind_sets(marks)
        sets += [card_kind_set(marks, card) for card in range(CARDS)]
    return tuple(dict.fromkeys(sets))


def changed(block, other):
    """The positions at which two blocks differ."""
    return [p for p in range(BLOCK) if block[p] != other[p]]


def _unmarked(places, marks):
    return [p for p in places if p not in marks.chips]


def is_chip_kind(places, marks):
    """Is a change in exactly these places of 01's chip kind?

    Under a card mark the chip kind is allowed and off the marked card.
    """
    further = len(_unmarked(places, marks))
    if marks.card is None:
        return further <= (0 if len(marks.chips) == 2 else 1)
    on_card = any(p in card_places(marks.card) for p in places)
    return is_allowed(places, marks) and not on_card


def is_allowed(places, marks):
    """Does 01's table allow a change in exactly these places?

    Said without the sets above, so that each can be checked by the other.
    """
    unmarked = _unmarked(places, marks)
    if marks.card is None:
        one_card = len({p // CHIPS for p in unmarked}) <= 1
        return is_chip_kind(places, marks) or one_card
    further = [p for p in unmarked if p not in card_places(marks.card)]
    off_card = [p for p in marks.chips if p not in card_places(marks.card)]
    return len(further) <= (0 if off_card else 1)


# --------------------------------------------------------------- the set S

def lawful_blocks(block, marks):
    """S of demand 3: the lawful blocks that block may stand for."""
    block_sums = sums(block)
    if not any(block_sums):
        # Each allowed set has one solution at most, here "no change".
        return {bytes(block)}
    found = {reached(places, block, block_sums)
             for places in allowed_sets(marks)}
    found.discard(None)
    return found


def fitting_cards(block, marks):
    """Cards whose card-kind change reaches a lawful block, no card marked."""
    block_sums = sums(block)
    return frozenset(card for card in range(CARDS)
                     if solve(card_kind_set(marks, card), block_sums) is not None)


# ----------------------------------------------------------------- reading

# What a call says.  number is 0 or 01's number of refusal; kind, card and n
# are 0 where 01 names none.
Answer = namedtuple("Answer", "number kind card n", defaults=(0, 0, 0, 0))


def describe(places, marks):
    """01's kind, card and n of a correction that changes these places."""
    n = len(places)
    if n == 0:
        return Answer(kind=CLEAN)
    if marks.card is not None:
        if any(p in card_places(marks.card) for p in places):
            return Answer(kind=IN_CARD, card=marks.card, n=n)
        return Answer(kind=IN_CHIPS, n=n)
    if is_chip_kind(places, marks):
        return Answer(kind=IN_CHIPS, n=n)
    holders = {p // CHIPS for p in places if p not in marks.chips}
    assert len(holders) == 1
    return Answer(kind=IN_CARD, card=holders.pop(), n=n)


def read_opened(block, marks):
    """A reading of 45 bytes under opened marks: (answer, lawful block or None)."""
    found = lawful_blocks(block, marks)
    if not found:
        return Answer(NONE), None
    if len(found) > 1:
        assert marks.card is None      # under a card mark S has one at most
        # Order 6: "the lowest-numbered one whose card-kind change reaches a
        # lawful block".
        return Answer(SEVERAL, card=min(fitting_cards(block, marks))), None
    member = found.pop()
    return describe(changed(block, member), marks), member


def reading(block, marks):
    """Read a block under a mark record: (answer, corrected block or None)."""
    number = lowest(length_cause(block, BLOCK, 1), marks_cause(marks))
    if number:
        return Answer(number), None
    return read_opened(block, open_marks(marks))


# ------------------------------------------------- the calls on lent bytes
#
# Output, bank and marks are bytearrays; a call writes only what it says, and
# on any refusal nothing.

def lowest(*causes):
    """01: "where several causes hold, the lowest number is given"."""
    return min((number for number in causes if number), default=0)


def length_cause(part, length, number):
    return 0 if len(part) == length else number


def bank_cause(bank):
    n, rest = divmod(len(bank), BLOCK)
    return 0 if rest == 0 and 1 <= n <= MOST_BLOCKS else 4


def number_cause(bank, k):
    return 0 if k < len(bank) // BLOCK else 5


def asked_cause(asked, limit):
    """01: "a card asked for is 0 to 4 and a chip asked for 0 to 44"."""
    return 0 if asked < limit else 6


def block_of(bank, k):
    return bytes(bank[BLOCK * k:BLOCK * k + BLOCK])


def _write_block(bank, k, block):
    bank[BLOCK * k:BLOCK * k + BLOCK] = block


def store_into(output, record):
    """Store a record in the output.  Refusals 2, 3."""
    number = lowest(length_cause(output, BLOCK, 2),
                    length_cause(record, RECORD, 3))
    if number == 0:
        output[:] = store(record)
    return Answer(number)


def read_into(output, block, marks):
    """Read a block into the output.  Refusals 1, 2, 6, 7, then 10, 11."""
    number = lowest(length_cause(block, BLOCK, 1),
                    length_cause(output, BLOCK, 2), marks_cause(marks))
    if number:
        return Answer(number)
    answer, member = read_opened(block, open_marks(marks))
    if member is not None:
        output[:] = member
    return answer


def record_part(output, answer):
    """The record as a part of the output itself; empty on a refusal."""
    good = answer.number == 0 and len(output) == BLOCK
    return memoryview(output)[:RECORD if good else 0]


def place_chip(marks, chip):
    """Add a chip mark after those there, unless it is one of them.

    Refusals 6, 7, 8.

    Order 3: "Placing a mark that is already there is now accepted and changes
    nothing", so 7 comes from the record alone, here and in place_card.
    """
    number = lowest(marks_cause(marks), asked_cause(chip, BLOCK))
    if number:
        return Answer(number)
    now = open_marks(marks)
    if chip in now.chips:
        return Answer()
    if len(now.chips) == 2:
        return Answer(8)
    marks[:] = close_marks(Marks(now.card, now.chips + (chip,)))
    return Answer()


def place_card(marks, card):
    """Mark a card.  Refusals 6, 7, 8."""
    number = lowest(marks_cause(marks), asked_cause(card, CARDS))
    if number:
        return Answer(number)
    now = open_marks(marks)
    if now.card is not None:
        return Answer(0 if now.card == card else 8)
    marks[:] = close_marks(Marks(card, now.chips))
    return Answer()


def lift_chip(marks, chip):
    """Take out a chip mark; a second one moves down.  Refusals 6, 7, 9."""
    number = lowest(marks_cause(marks), asked_cause(chip, BLOCK))
    if number:
        return Answer(number)
    now = open_marks(marks)
    if chip not in now.chips:
        return Answer(9)
    left = tuple(other for other in now.chips if other != chip)
    marks[:] = close_marks(Marks(now.card, left))
    return Answer()


def lift_card(marks):
    """Take out the card mark, whichever it is.  Refusals 6, 7, 9."""
    number = marks_cause(marks)
    if number:
        return Answer(number)
    now = open_marks(marks)
    if now.card is None:
        return Answer(9)
    marks[:] = close_marks(Marks(None, now.chips))
    return Answer()


def clear(bank):
    """Make every block 45 zeros.  Refusal 4."""
    number = bank_cause(bank)
    if number == 0:
        bank[:] = bytes(len(bank))
    return Answer(number)


def put(bank, k, record):
    """Store a record as block k.  Refusals 3, 4, 5."""
    number = lowest(length_cause(record, RECORD, 3), bank_cause(bank),
                    number_cause(bank, k))
    if number == 0:
        _write_block(bank, k, store(record))
    return Answer(number)


def get(bank, k, output, marks):
    """Read block k into the output.  Refusals 2, 4, 5, 6, 7, then 10, 11."""
    number = lowest(length_cause(output, BLOCK, 2), bank_cause(bank),
                    number_cause(bank, k), marks_cause(marks))
    if number:
        return Answer(number)
    answer, member = read_opened(block_of(bank, k), open_marks(marks))
    if member is not None:
        output[:] = member
    return answer


def patrol(bank, k, marks):
    """Read block k and put it back.  Refusals 4, 5, 6, 7, then 10, 11."""
    number = lowest(bank_cause(bank), number_cause(bank, k),
                    marks_cause(marks))
    if number:
        return Answer(number)
    answer, member = read_opened(block_of(bank, k), open_marks(marks))
    if member is not None:
        _write_block(bank, k, member)
    return answer


def total_of(answer):
    """Which of the five totals a reading counts in."""
    return {0: answer.kind, NONE: 3, SEVERAL: 4}[answer.number]


def report(bank, marks):
    """(answer, totals): blocks clean, chips, card, none, several.

    Refusals 4, 6, 7, with totals None; 10 and 11 are counted, never given.
    """
    number = lowest(bank_cause(bank), marks_cause(marks))
    if number:
        return Answer(number), None
    now = open_marks(marks)
    totals = [0] * 5
    for k in range(len(bank) // BLOCK):
        answer, _ = read_opened(block_of(bank, k), now)
        totals[total_of(answer)] += 1
    return Answer(), tuple(totals)


def sound_per_thousand(totals):
    """The first three totals per thousand of all: the nearest whole number, and at
    an exact half the even one (order 7).

    By exact fractions, so that it shares no formula with the library.
    """
    share = 1000 * Fraction(sum(totals[:3]), sum(totals))
    below = math.floor(share)
    return min(below, below + 1, key=lambda q: (abs(share - q), q % 2))
