"""Checks of the second implementation against document 01 and the orders.

Those of reference.py and bank.py are here; those of the registers, the window,
the rounding, the slips, two bad chips, the tables and the lists in
selftest_registers.py, selftest_window.py, selftest_rounding.py,
selftest_slips.py, selftest_two_chips.py, selftest_tables.py and
selftest_lists.py.

Prints 'N checks, 0 failed', or a message for each failure and exit 1.
"""

import os
import random
import subprocess
import sys
from collections import Counter
from itertools import combinations, product
from unittest import mock

import bank as program
import damage
import reference as ref
import selftest_lists
import selftest_registers
import selftest_rounding
import selftest_slips
import selftest_tables
import selftest_two_chips
import selftest_window
from checking import check, counts, marks, zeros_with
from reference import (Answer, BLOCK, CARDS, CHIPS, CLEAN, FRESH, IN_CARD,
                       IN_CHIPS, Marks, RECORD)


def all_lawful_marks():
    for card in (None, *range(CARDS)):
        yield Marks(card, ())
        for p in range(BLOCK):
            yield Marks(card, (p,))
        for pair in combinations(range(BLOCK), 2):
            yield Marks(card, pair)


# ------------------------------------------------------- field, labels, rules

def check_field():
    for a in range(256):
        wanted = bytes(ref.product(a, b) for b in range(256))
        check(f"row {a} of the product table", ref.TIMES[a], wanted)
    check("powers of g", sorted(ref.POWER), list(range(1, 256)))
    check("g^255", ref.product(ref.G, ref.POWER[254]), 1)
    for a in range(1, 256):
        check(f"inverse of {a}", ref.product(a, ref.inverse(a)), 1)


def check_labels():
    check("labels of chip 0", [ref.label(j, 0) for j in range(CARDS)],
          [1, 152, 78, 10, 153])
    check("label of card 0, chip 8", ref.label(0, 8), 29)
    check("label of card 1, chip 8", ref.label(1, 8), 3)
    for j in range(CARDS):
        found = {ref.label(m, i) ^ ref.label(j, i)
                 for m in range(CARDS) if m != j for i in range(CHIPS)}
        check(f"36 sums of card {j}, all different", len(found), 36)
        check(f"36 sums of card {j}, none 0", 0 in found, False)


def plainly_lawful(block):
    """The check rules word for word, without tables."""
    rows = [0] * CHIPS
    first = second = 0
    for j in range(CARDS):
        for i in range(CHIPS):
            x, byte = ref.label(j, i), block[9 * j + i]
            rows[i] ^= byte
            first ^= ref.product(x, byte)
            second ^= ref.product(ref.product(x, x), byte)
    return not any(rows) and first == 0 and second == 0


def check_rules(rng):
    for _ in range(200):
        block = ref.store(rng.randbytes(RECORD))
        check("a stored block is lawful", plainly_lawful(block))
        p = rng.randrange(BLOCK)
        hit = bytearray(block)
        hit[p] ^= rng.randrange(1, 256)
        check("a stored block with one hit is not", plainly_lawful(hit), False)
        check("lawful and its plain form", ref.lawful(hit), False)
    check("44 bytes are no lawful block", ref.lawful(bytes(44)), False)


def check_store(rng):
    for _ in range(100):
        record, other = rng.randbytes(RECORD), rng.randbytes(RECORD)
        block, second = ref.store(record), ref.store(other)
        check("a block begins with its record", block[:RECORD], record)
        total = bytes(a ^ b for a, b in zip(record, other))
        output = bytearray(BLOCK)
        check("store call", ref.store_into(output, record), Answer())
        check("store call, output", bytes(output), block)
        check("storing is additive", ref.store(total),
              bytes(a ^ b for a, b in zip(block, second)))
        check("a stored block reads as clean",
              ref.reading(block, bytes(damage.lawful_marks(rng))),
              (Answer(), block))


def check_distance():
    """Any three places are independent: lawful blocks differ in four."""
    good = True
    for places in combinations(range(BLOCK), 3):
        try:
            ref.eliminate.__wrapped__(places)
        except AssertionError:
            good = False
    check("two lawful blocks differ in four bytes", good)


# ----------------------------------------------------------- blocks of 01

# Marks, bytes set, the answer, and the bytes of the corrected block that are
# not 0 (None on a refusal).  A star in 01 is True here; chip 10 is not in 01.
TABLE = (
    (True, marks(), {}, Answer(), {}),
    (True, marks(), {20: 7}, Answer(0, IN_CHIPS, 0, 1), {}),
    (True, marks(), {0: 8, 1: 6, 2: 1}, Answer(11, card=0), None),
    (True, marks(0), {0: 8, 1: 6, 2: 1}, Answer(0, IN_CARD, 0, 3), {}),
    (True, marks(1), {0: 8, 1: 6, 2: 1}, Answer(0, IN_CARD, 1, 3),
     {0: 8, 1: 6, 2: 1, 9: 8, 10: 6, 11: 1}),
    (True, marks(), {0: 1, 9: 1}, Answer(10), None),
    (True, marks(), {0: 1, 1: 1}, Answer(0, IN_CARD, 0, 2), {}),
    (True, marks(255, 0), {0: 1, 9: 1}, Answer(0, IN_CHIPS, 0, 2), {}),
    (True, marks(255, 0, 9), {20: 7}, Answer(11, card=2), None),
    (True, marks(0), {0: 1, 9: 1}, Answer(0, IN_CARD, 0, 2), {}),
    (False, marks(0, 1), {9: 1}, Answer(0, IN_CHIPS, 0, 1), {}),   # order 5
    (False, marks(0, 10), {9: 1}, Answer(10), None),
    (False, marks(0, 1, 10), {9: 1}, Answer(10), None),
    (False, marks(255, 0, 0), {}, Answer(7), None),
)

# The cards that fit, of which order 6 names the lowest: 01's two rows of
# "several", and one for each card that can be named.
FITTING = (
    (marks(), {0: 8, 1: 6, 2: 1}, {0, 1, 2, 3, 4}),
    (marks(255, 0, 9), {20: 7}, {2, 3, 4}),
    (marks(255, 9), {0: 1, 2: 2}, {0, 3}),
    (marks(255, 0), {10: 1, 12: 1}, {1, 2}),
    (marks(255, 0), {20: 1, 24: 1}, {2, 4}),
    (marks(255, 7), {36: 1, 43: 7}, {3, 4}),
)

# Further readings of the words on kinds and n.
KINDS = (
    (marks(255, 0), {0: 5, 9: 6, 10: 7}, Answer(0, IN_CARD, 1, 3)),
    (marks(255, 0), {0: 5, 1: 6}, Answer(0, IN_CHIPS, 0, 2)),
    (marks(255, 0), {1: 6}, Answer(0, IN_CHIPS, 0, 1)),
    (marks(255, 0, 9), {0: 5, 9: 6}, Answer(0, IN_CHIPS, 0, 2)),
    (marks(0), {9: 1}, Answer(0, IN_CHIPS, 0, 1)),
    (marks(0), {0: 1, 9: 1}, Answer(0, IN_CARD, 0, 2)),
    (marks(0, 1, 9), {9: 1}, Answer(0, IN_CHIPS, 0, 1)),
    (marks(0, 1, 9), {1: 4, 9: 1}, Answer(0, IN_CARD, 0, 2)),
    (marks(4, 44), {44: 9}, Answer(0, IN_CARD, 4, 1)),
    # Order 5: chips marked on the marked card, and one further chip.
    (marks(0, 1), {1: 4, 9: 1}, Answer(0, IN_CARD, 0, 2)),
    (marks(0, 1, 8), {9: 1}, Answer(0, IN_CHIPS, 0, 1)),
    (marks(4, 36, 44), {35: 1}, Answer(0, IN_CHIPS, 0, 1)),
    (marks(2, 18, 26), {17: 1, 22: 3}, Answer(0, IN_CARD, 2, 2)),
)


def check_blocks():
    for star, record, changes, answer, corrected in TABLE:
        block = zeros_with(changes)
        member = None if corrected is None else zeros_with(corrected)
        name = f"01's block {changes} under {tuple(record)}, star {star}"
        check(name, ref.reading(block, record), (answer, member))
        output = bytearray(b"\xA5" * BLOCK)
        check(name, ref.read_into(output, block, record), answer)
        check(name, bytes(output), member or b"\xA5" * BLOCK)
    for record, changes, fit in FITTING:
        name = f"cards that fit {changes} under {tuple(record)}"
        block, now = zeros_with(changes), ref.open_marks(record)
        check(name, ref.fitting_cards(block, now), fit)
        check(name + ": the one named", ref.reading(block, record),
              (Answer(11, card=min(fit)), None))
    for record, changes, answer in KINDS:
        check(f"kind of {changes} under {tuple(record)}",
              ref.reading(zeros_with(changes), record),
              (answer, bytes(BLOCK)))


# ------------------------------------------------------------------- marks

MARK_CAUSES = (
    (FRESH, 0), (marks(4, 44), 0), (marks(255, 0, 44), 0), (marks(0, 3, 4), 0),
    (bytes((5, 0, 255, 255)), 6), (bytes((254, 0, 255, 255)), 6),
    (bytes((255, 3, 1, 2)), 6), (bytes((255, 255, 255, 255)), 6),
    (bytes((255, 1, 45, 255)), 6), (bytes((255, 2, 1, 45)), 6),
    (bytes((255, 1, 255, 255)), 6), (bytes((255, 2, 1, 255)), 6),
    (bytes((255, 0, 7, 255)), 6), (bytes((255, 0, 255, 7)), 6),
    (bytes((255, 1, 7, 7)), 6), (bytes((255, 2, 45, 45)), 6),
    (bytes((255, 2, 7, 7)), 7), (bytes((4, 2, 7, 7)), 7),
    (bytes((9, 2, 7, 7)), 6),
)

# Record before, call, number, record after (None: as before).
MARK_CALLS = (
    (FRESH, ("place_chip", 44), 0, marks(255, 44)),
    (FRESH, ("place_chip", 45), 6, None),
    (FRESH, ("place_chip", 255), 6, None),
    (marks(255, 7), ("place_chip", 7), 0, marks(255, 7)),
    (marks(255, 7), ("place_chip", 3), 0, marks(255, 7, 3)),
    (marks(255, 7, 3), ("place_chip", 7), 0, marks(255, 7, 3)),
    (marks(255, 7, 3), ("place_chip", 3), 0, marks(255, 7, 3)),
    (marks(2, 7, 3), ("place_chip", 3), 0, marks(2, 7, 3)),
    (marks(255, 7, 3), ("place_chip", 5), 8, None),
    (marks(255, 7, 3), ("place_chip", 45), 6, None),
    (marks(2, 7, 3), ("place_chip", 5), 8, None),
    (FRESH, ("place_card", 4), 0, marks(4)),
    (FRESH, ("place_card", 5), 6, None),
    (FRESH, ("place_card", 255), 6, None),
    (marks(2, 7), ("place_card", 2), 0, marks(2, 7)),
    (marks(2, 7, 3), ("place_card", 2), 0, marks(2, 7, 3)),
    (marks(2, 7, 3), ("place_card", 0), 8, None),
    (marks(2, 7), ("place_card", 3), 8, None),
    (marks(2, 7), ("place_card", 5), 6, None),
    (marks(255, 7, 3), ("place_card", 0), 0, marks(0, 7, 3)),
    (marks(255, 7, 3), ("lift_chip", 7), 0, marks(255, 3)),
    (marks(255, 7, 3), ("lift_chip", 3), 0, marks(255, 7)),
    (marks(255, 7), ("lift_chip", 7), 0, FRESH),
    (marks(255, 7), ("lift_chip", 8), 9, None),
    (FRESH, ("lift_chip", 0), 9, None),
    (FRESH, ("lift_chip", 45), 6, None),
    (FRESH, ("lift_chip", 255), 6, None),
    (marks(3, 7, 3), ("lift_card",), 0, marks(255, 7, 3)),
    (marks(255, 7, 3), ("lift_card",), 9, None),
    (bytes((255, 2, 7, 7)), ("place_chip", 1), 7, None),
    (bytes((255, 2, 7, 7)), ("place_chip", 7), 7, None),
    (bytes((2, 2, 7, 7)), ("place_card", 2), 7, None),
    (bytes((255, 2, 7, 7)), ("place_chip", 45), 6, None),
    (bytes((255, 2, 7, 7)), ("place_card", 1), 7, None),
    (bytes((255, 2, 7, 7)), ("lift_chip", 7), 7, None),
    (bytes((255, 2, 7, 7)), ("lift_card",), 7, None),
    (bytes((5, 0, 255, 255)), ("place_chip", 1), 6, None),
    (bytes((5, 2, 7, 7)), ("place_chip", 7), 6, None),
    (bytes((5, 0, 255, 255)), ("place_card", 5), 6, None),
    (bytes((5, 0, 255, 255)), ("lift_card",), 6, None),
)


def check_marks():
    for record, cause in MARK_CAUSES:
        check(f"mark record {tuple(record)}", ref.marks_cause(record), cause)
        if cause == 0:
            again = ref.close_marks(ref.open_marks(record))
            check(f"opening and closing {tuple(record)}", again, record)
    for before, (call, *asked), number, after in MARK_CALLS:
        record = bytearray(before)
        answer = getattr(ref, call)(record, *asked)
        name = f"{call} {asked} on {tuple(before)}"
        check(name, answer, Answer(number))
        check(name + ", record after", bytes(record), after or before)


# ------------------------------------------------------------------ limits

def check_limits():
    for length, number in ((0, 1), (44, 1), (45, 0), (46, 1)):
        check(f"block of {length}",
              ref.reading(bytes(length), FRESH)[0], Answer(number))
    for length in (0, 44, 45, 46):
        output = bytearray(b"x" * length)
        number = 0 if length == 45 else 2
        wanted = bytes(45) if length == 45 else b"x" * length
        check(f"output of {length}",
              ref.read_into(output, bytes(45), FRESH), Answer(number))
        check(f"output of {length} after", bytes(output), wanted)
        output = bytearray(b"x" * length)
        check(f"store to {length}", ref.store_into(output, bytes(33)),
              Answer(2 if number else 3))
        check(f"store to {length} after", bytes(output), b"x" * length)
    for length, number in ((0, 4), (44, 4), (45, 0), (46, 4), (46080, 0),
                           (46081, 4), (46125, 4)):
        lent = bytearray(b"\1" * length)
        check(f"clear of {length}", ref.clear(lent), Answer(number))
        wanted = bytes(length) if number == 0 else b"\1" * length
        check(f"bank of {length} after", bytes(lent), wanted)
        check(f"report on {length}", ref.report(lent, FRESH)[0],
              Answer(number))
    lowest_numbers()
    record_parts()


BAD6, BAD7 = bytes((5, 0, 255, 255)), marks(255, 7, 7)

# Bytes of output and of bank, the call, its number.  The bank's block 0 has
# one bad chip, block 1 reads as none, block 2 as several.
REFUSALS = (
    (44, 44, lambda o, b: ref.read_into(o, b, BAD6), 1),
    (44, 45, lambda o, b: ref.read_into(o, b, BAD6), 2),
    (45, 45, lambda o, b: ref.read_into(o, b, BAD6), 6),
    (45, 45, lambda o, b: ref.read_into(o, b, BAD7), 7),
    (45, 44, lambda o, b: ref.put(b, 9, bytes(33)), 3),
    (45, 44, lambda o, b: ref.put(b, 9, bytes(34)), 4),
    (45, 135, lambda o, b: ref.put(b, 0, bytes(35)), 3),
    (45, 135, lambda o, b: ref.put(b, 3, bytes(34)), 5),
    (44, 44, lambda o, b: ref.get(b, 9, o, BAD6), 2),
    (45, 44, lambda o, b: ref.get(b, 9, o, BAD6), 4),
    (45, 135, lambda o, b: ref.get(b, 3, o, BAD6), 5),
    (45, 135, lambda o, b: ref.get(b, 0, o, BAD6), 6),
    (45, 135, lambda o, b: ref.get(b, 0, o, BAD7), 7),
    (45, 135, lambda o, b: ref.get(b, 1, o, FRESH), 10),
    (45, 135, lambda o, b: ref.get(b, 2, o, FRESH), 11),
    (45, 44, lambda o, b: ref.patrol(b, 9, BAD6), 4),
    (45, 135, lambda o, b: ref.patrol(b, 3, BAD6), 5),
    (45, 135, lambda o, b: ref.patrol(b, 0, BAD6), 6),
    (45, 135, lambda o, b: ref.patrol(b, 0, BAD7), 7),
    (45, 135, lambda o, b: ref.patrol(b, 1, FRESH), 10),
    (45, 135, lambda o, b: ref.patrol(b, 2, FRESH), 11),
    (45, 44, lambda o, b: ref.report(b, BAD6)[0], 4),
    (45, 135, lambda o, b: ref.report(b, BAD6)[0], 6),
    (45, 135, lambda o, b: ref.report(b, BAD7)[0], 7),
)


def lowest_numbers():
    """Several causes at once: the lowest; and nothing altered."""
    blocks = (zeros_with({3: 1}) + zeros_with({0: 1, 9: 1})
              + zeros_with({0: 8, 1: 6, 2: 1}))
    for at, (out, size, call, number) in enumerate(REFUSALS):
        lent, output = bytearray(blocks[:size]), bytearray(b"\xA5" * out)
        answer = call(output, lent)
        check(f"refusal {at}", answer.number, number)
        check(f"refusal {at}: kind, card, n", answer[1:], (0, 0, 0))
        check(f"refusal {at} alters nothing",
              (bytes(lent), bytes(output)), (blocks[:size], b"\xA5" * out))


def record_parts():
    output = bytearray(range(BLOCK))
    part = ref.record_part(output, Answer())
    check("record part", bytes(part), bytes(range(RECORD)))
    output[0] = 99
    check("record part is the output itself", part[0], 99)
    check("record part on a refusal",
          len(ref.record_part(output, Answer(10))), 0)
    check("record part of 44 bytes",
          len(ref.record_part(bytearray(44), Answer())), 0)


# ------------------------------------------------------------- the set S

def check_allowed_sets(rng):
    """The sets of places and the table's words say the same."""
    for now in all_lawful_marks():
        for places in ref.allowed_sets(now):
            if not ref.is_allowed(places, now):
                check(f"{places} under {now}", False)
            ref.eliminate(places)     # raises if a solution isn't the only one
        if now.card is None:
            for places in ref.chip_kind_sets(now):
                if not ref.is_chip_kind(places, now):
                    check(f"chip kind: {places} under {now}", False)
    check("each allowed set has at most one solution", True)
    for _ in range(3000):
        now = ref.open_marks(bytes(damage.lawful_marks(rng)))
        block = bytearray(BLOCK)
        damage.DAMAGE[rng.choice(list(damage.DAMAGE))](rng, block, now)
        places = set(ref.changed(block, bytes(BLOCK)))
        within = any(places <= set(p) for p in ref.allowed_sets(now))
        check(f"allowed: {places} under {now}",
              ref.is_allowed(places, now), within)


def check_members(rng):
    """Each member of S is lawful and allowed; the good block is in S."""
    for shape, kind, record, block in damage.every_pair(rng, rounds=3):
        name = f"{kind} under {shape} {tuple(record)}"
        answer, member = ref.reading(block, record)
        cause = ref.marks_cause(record)
        if cause:
            check(name, (answer, member), (Answer(cause), None))
            continue
        now = ref.open_marks(record)
        found = ref.lawful_blocks(block, now)
        for one in found:
            places = ref.changed(block, one)
            check(name + ": lawful", plainly_lawful(one))
            check(name + ": allowed", ref.is_allowed(places, now))
        check(name + ": number", answer.number,
              10 if not found else 0 if len(found) == 1 else 11)
        if answer.number == 11:
            check(name + ": the lowest card", answer.card,
                  min(card for one in found for card in range(CARDS)
                      if all(p // CHIPS == card or p in now.chips
                             for p in ref.changed(block, one))))
            check(name + ": no card mark", now.card, None)
        if now.card is None and len(now.chips) == 2:
            check(name + ": not none, not card",
                  answer.number != 10 and answer.kind != IN_CARD)


def check_good_block(rng):
    """Allowed damage: the good block is in S, alone if of the chip kind."""
    for _ in range(3000):
        good = ref.store(damage.any_record(rng))
        now = ref.open_marks(bytes(damage.lawful_marks(rng)))
        block = bytearray(good)
        damage.allowed_by_marks(rng, block, now)
        found = ref.lawful_blocks(block, now)
        check(f"good block under {now}", good in found)
        places = ref.changed(block, good)
        if now.card is not None or ref.is_chip_kind(places, now):
            check(f"sure damage {places} under {now}", found, {good})


def by_trial(block, card, off):
    """Lawful blocks at a change in one card and the places off it.

    No elimination: every value in the places off the card is tried, and the
    row sums then leave one choice for each byte of the card.
    """
    found = set()
    tried = bytearray(block)
    for values in product(range(256), repeat=len(off)):
        for p, value in zip(off, values):
            tried[p] = value
        for i in range(CHIPS):
            at = ref.position(card, i)
            tried[at] = 0
            for p in range(i, BLOCK, CHIPS):
                if p != at:
                    tried[at] ^= tried[p]
        if ref.lawful(tried):
            found.add(bytes(tried))
    return found


def all_by_trial(block, now):
    """S by trial.  A further chip is part of its card, so cards suffice."""
    found = set()
    for card in range(CARDS) if now.card is None else [now.card]:
        off = [p for p in now.chips if p // CHIPS != card]
        further = [()]
        if now.card is not None and not off:
            further += [(p,) for p in range(BLOCK) if p // CHIPS != card]
        for more in further:
            found |= by_trial(block, card, [*off, *more])
    return found


def check_by_trial(rng):
    """S by elimination and S by trial."""
    for shape, rounds in ((damage.fresh, 200), (damage.one_chip, 20),
                          (damage.card, 4), (damage.card_and_chip_off_it, 60),
                          (damage.card_and_chip_on_it, 2),
                          (damage.card_and_two_chips_on_it, 2),
                          (damage.card_and_chips_on_and_off_it, 60),
                          (damage.card_and_two_chips_off_it, 1)):
        for _ in range(rounds):
            record = bytes(shape(rng))
            now = ref.open_marks(record)
            block = damage.damaged_block(rng, record)
            check(f"S of {block.hex()} under {now}",
                  ref.lawful_blocks(block, now), all_by_trial(block, now))


def sets_before(now):
    """01's table before order 5: u is the count of chip marks, on any card."""
    with mock.patch.object(ref, "counted", lambda now: len(now.chips)):
        return ref.allowed_sets.__wrapped__(now)


def check_before_order_5(rng):
    """What the old rule corrected is corrected still, to the same block."""
    for now in all_lawful_marks():
        on_it = [p // CHIPS == now.card for p in now.chips]
        same = sets_before(now) == ref.allowed_sets(now)
        check(f"sets before under {now}", same, not on_it or not all(on_it))
    found = Counter()
    for shape, kind, record, block in damage.every_pair(rng, rounds=3):
        if ref.marks_cause(record):
            continue
        now, sums = ref.open_marks(record), ref.sums(block)
        before = {ref.reached(places, block, sums) for places in sets_before(now)}
        before.discard(None)
        members = ref.lawful_blocks(block, now)
        check(f"S grows: {kind} under {now}", before <= members)
        if len(before) == 1:
            check(f"corrected still: {kind} under {now}", members, before)
        found[shape, len(before), len(members)] += 1
    for shape in ("card_and_chip_on_it", "card_and_two_chips_on_it"):
        check(f"corrected and was not, under {shape}", found[shape, 0, 1] > 0)
        check(f"corrected still, under {shape}", found[shape, 1, 1] > 0)


def check_single_chips():
    """All 45 * 255 blocks at one byte from a lawful one."""
    for p in range(BLOCK):
        wrong = [value for value in range(1, 256)
                 if ref.reading(zeros_with({p: value}), FRESH)
                 != (Answer(0, IN_CHIPS, 0, 1), bytes(BLOCK))]
        check(f"one bad chip at {p}", wrong, [])


# ------------------------------------------------------------- bank program

SAMPLE = FRESH + bytes(45) + bytes((8, 6, 1)) + bytes(42)
SAMPLE_TEXT = """blocks 2
1 several 0
clean 1 chips 0 card 0 none 0 several 1
sound 500
"""

BAD = zeros_with({0: 1, 9: 1})

PROGRAM = (
    (SAMPLE, SAMPLE_TEXT),
    (b"", "refused 6\n"),
    (b"\xff\0\xff", "refused 6\n"),
    (FRESH, "refused 4\n"),
    (bytes((5, 0, 255, 255)), "refused 4\n"),
    (FRESH + bytes(44), "refused 4\n"),
    (FRESH + bytes(46), "refused 4\n"),
    (FRESH + bytes(46125), "refused 4\n"),
    (bytes((5, 0, 255, 255)) + bytes(45), "refused 6\n"),
    (bytes((5, 2, 1, 1)) + bytes(45), "refused 6\n"),
    (marks(255, 1, 1) + bytes(45), "refused 7\n"),
    (marks(255, 1, 1) + bytes(44), "refused 4\n"),
    (FRESH + bytes(45), "blocks 1\nclean 1 chips 0 card 0 none 0 several 0\n"
                        "sound 1000\n"),
    (FRESH + BAD, "blocks 1\n0 none\n"
                  "clean 0 chips 0 card 0 none 1 several 0\nsound 0\n"),
    (FRESH + zeros_with({20: 7}) + zeros_with({36: 1, 44: 1}),
     "blocks 2\n0 chips 1\n1 card 4 2\n"
     "clean 0 chips 1 card 1 none 0 several 0\nsound 1000\n"),
    (FRESH + bytes(46080), "blocks 1024\n"
     "clean 1024 chips 0 card 0 none 0 several 0\nsound 1000\n"),
    (FRESH + bytes(45) + 15 * BAD, "blocks 16\n"
     + "".join(f"{k} none\n" for k in range(1, 16))
     + "clean 1 chips 0 card 0 none 15 several 0\nsound 62\n"),
)


def check_program(rng):
    for data, text in PROGRAM:
        check(f"program on {len(data)} bytes", program.text(data), text)
    path = os.path.join(os.path.dirname(os.path.abspath(__file__)), "bank.py")
    for data, text in PROGRAM[:3] + PROGRAM[-3:]:
        ran = subprocess.run([sys.executable, path], input=data,
                             capture_output=True, check=True)
        check(f"program run on {len(data)} bytes", ran.stdout, text.encode())
    for _ in range(300):
        data = damage.program_input(rng)
        said = program.lines(data)
        if len(data) >= 4 and not said[0].startswith("refused"):
            answer, totals = ref.report(bytearray(data[4:]), data[:4])
            check("report and program", (answer.number, totals),
                  (0, tuple(int(word) for word in said[-2].split()[1::2])))
            check("a line for each block not clean", len(said) - 3,
                  sum(totals) - totals[CLEAN])


def check_damage(rng):
    """The same seed gives the same input; the kinds are what they say."""
    first, second = random.Random(7), random.Random(7)
    check("a seed gives the same case", damage.case(first), damage.case(second))
    fresh = ref.open_marks(FRESH)
    for name, number in (("half_way_between_cards", 11),
                         ("three_chips_that_fit_every_card", 11),
                         ("two_bad_chips_of_two_cards", 10),
                         ("two_bad_chips_of_one_card", 0),
                         ("another_lawful_block", 0)):
        block = bytearray(ref.store(rng.randbytes(RECORD)))
        damage.DAMAGE[name](rng, block, fresh)
        check(name, ref.reading(block, FRESH)[0].number, number)
    for shape in damage.LAWFUL_SHAPES + damage.UNLAWFUL_SHAPES:
        causes = {ref.marks_cause(bytes(shape(rng))) for _ in range(50)}
        wanted = ({0} if shape in damage.LAWFUL_SHAPES
                  else {7} if shape is damage.equal_chips else {6})
        check(f"marks {shape.__name__}", causes, wanted)


def main():
    rng = random.Random(1)
    check_field()
    check_labels()
    check_rules(rng)
    check_store(rng)
    check_distance()
    check_blocks()
    check_marks()
    check_limits()
    check_allowed_sets(rng)
    check_members(rng)
    check_good_block(rng)
    check_by_trial(rng)
    check_before_order_5(rng)
    check_single_chips()
    check_damage(rng)
    selftest_registers.check_registers(rng)
    selftest_window.check_window()
    selftest_lists.check_lists(rng)
    check_program(rng)
    selftest_rounding.check_rounding()
    selftest_slips.check_slips(rng)
    selftest_two_chips.check_two_chips(rng)
    selftest_tables.check_tables()
    print(f"{counts['done']} checks, {counts['failed']} failed")
    return 1 if counts["failed"] else 0


if __name__ == "__main__":
    sys.exit(main())
