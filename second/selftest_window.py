"""Order 2's figures, for window.py and for the book; selftest.py runs them.

Runs and proposals are worked out by hand from the order's words.
"""

import reference as ref
import registers
import window
from checking import check, marks, zeros_with
from reference import BLOCK, CARDS, FRESH
from selftest_lists import Both

NO_CHIP = 255
OUTPUT, SHORT = b"\xA5" * BLOCK, b"\xA5" * 44
UNLAWFUL = ((bytes((5, 0, 255, 255)), 6), (bytes((255, 1, 45, 255)), 6),
            (bytes((255, 0, 7, 255)), 6), (marks(255, 7, 7), 7), (marks(2, 7, 7), 7))


def get(k, output=OUTPUT):
    return "get", k, output


def write(address, value, output=OUTPUT):
    return "write", address, value, output


def hit(k, p, value):
    return "hits", (BLOCK * k + p, value)


def on(*blocks):
    """A list on a bank of zeros with these changes, block by block."""
    both = Both(len(blocks))
    both.do("hits", *((BLOCK * k + p, value) for k, changes in enumerate(blocks)
                      for p, value in changes.items()))
    return both


def one_chip_each():
    """Chip p of block p is bad, so that a get of block p adds p."""
    return on(*({p: 1} for p in range(BLOCK)))


def follow(name, both, *steps):
    """Each step: an entry, the positions that it adds or None if it empties the
    window, and the chip proposed then.  The 64 bytes come from the whole run."""
    run = ()
    for entry, added, chip in steps:
        both.do(*entry)
        run = () if added is None else run + added
        wanted = bytes((255,) * 64 + run)[-64:]
        check(f"{name}, {entry}: window", bytes(both.window), wanted)
        check(f"{name}, {entry}: proposal", both.book.proposal(), chip)


# ------------------------------------------------------------ when and which

def check_empty():
    both = Both(1)
    check("the window at first", both.window, bytes((255,)) * 64)
    check("the book's window at first", both.book.window(), bytes((255,)) * 64)
    check("the book's proposal at first", both.book.proposal(), NO_CHIP)
    follow("nothing to correct", both, (get(0), (), NO_CHIP),
           (("patrol", 0), (), NO_CHIP))


def check_four_times():
    follow("four times", one_chip_each(),
           *[(get(20), (20,), NO_CHIP)] * 3, *[(get(20), (20,), 20)] * 2)
    follow("in turns", one_chip_each(),
           *[(get(p), (p,), NO_CHIP) for p in (44, 0, 20) * 3],
           (get(44), (44,), 44), (get(20), (20,), 20), (get(0), (0,), 0))


def check_among_several():
    """The lowest, whichever came first; what is marked is passed over."""
    follow("among several", one_chip_each(),
           *[(get(28), (28,), NO_CHIP)] * 3, (get(28), (28,), 28),
           *[(get(27), (27,), 28)] * 3, (get(27), (27,), 27),
           *[(get(20), (20,), 27)] * 3, (get(20), (20,), 20),
           (("place_chip", 20), (), 27), (get(20), (20,), 27),
           (("place_card", 3), (), NO_CHIP), (get(20), (20,), NO_CHIP),
           (("lift_card",), (), 27), (("place_chip", 27), (), 28),
           (("place_chip", 28), (), 28), (("lift_chip", 20), (), 20),
           (("place_card", 2), (), 28), (("lift_chip", 27), (), 27),
           (("lift_card",), (), 20))


def check_64_held():
    """60 others push none out of the four, the next ones do, one by one."""
    follow("64 held", one_chip_each(),
           *[(get(20), (20,), NO_CHIP)] * 3, (get(20), (20,), 20),
           *[(get(p), (p,), 20) for p in range(21, 41) for _ in range(3)],
           (get(44), (44,), NO_CHIP), *[(get(20), (20,), NO_CHIP)] * 3,
           (get(20), (20,), 20))


def check_each_chip_and_mark():
    """Each chip under each card mark and each chip mark, first or second."""
    for p in range(BLOCK):
        for count in range(7):
            recent = bytes((p,) * count + (255,) * (64 - count))
            check(f"{p} {count} times", window.propose(recent, FRESH),
                  (0, p if count >= 4 else NO_CHIP))
        recent = bytes((255,) * 60 + (p,) * 4)
        for card in range(CARDS):
            check(f"{p} under card {card}", window.propose(recent, marks(card)),
                  (0, NO_CHIP if 9 * card <= p < 9 * card + 9 else p))
        for q in range(BLOCK):
            other = next(r for r in range(3) if r not in (p, q))
            said = {window.propose(recent, marks(255, *chips))
                    for chips in ((q,), (q, other), (other, q))}
            check(f"{p} with chip {q} marked", said, {(0, NO_CHIP if p == q else p)})


# ------------------------------------------------------------- what is added

# Block 0 is clean, 1 has one bad chip, 2 is 01's 8, 6, 1, 3 fits no record.
FOUR = {}, {20: 7}, {0: 8, 1: 6, 2: 1}, {0: 1, 9: 1}


def check_nothing_added():
    """By a report, by what is refused, by marks, puts, hits and the bank's clear."""
    calls = (("report",), get(1, SHORT), get(4), ("patrol", 4), get(2), get(3),
             ("patrol", 2), ("patrol", 3), get(0), ("patrol", 0),
             ("place_chip", 45), ("place_card", 0), ("place_card", 1),
             ("lift_card",), ("put", 9, bytes(34)), ("put", 0, b"\1" * 34),
             hit(1, 21, 5), hit(1, 21, 0), write(1, 1), write(0, 1, SHORT),
             write(12, 0), write(4, 0), write(0, 7), write(7, 255), write(0, 6),
             ("clear",), get(1), ("patrol", 1), ("report",))
    follow("nothing added", on(*FOUR), *[(get(1), (20,), NO_CHIP)] * 3,
           (get(1), (20,), 20), *[(call, (), 20) for call in calls],
           (("clear_window",), None, NO_CHIP), (("clear_window",), None, NO_CHIP),
           (hit(3, 44, 1), (), NO_CHIP), *[(get(3), (44,), NO_CHIP)] * 3,
           (get(3), (44,), 44))
    follow("several under two chip marks", on({20: 7}),
           *[(get(0), (20,), NO_CHIP)] * 3, (("place_chip", 0), (), NO_CHIP),
           (("place_chip", 9), (), NO_CHIP), (get(0), (), NO_CHIP))


def check_patrols():
    """A patrol adds once, as the block is clean then; a get adds each time."""
    follow("patrols", on(*FOUR), (get(1), (20,), NO_CHIP), (get(1), (20,), NO_CHIP),
           (("patrol", 1), (20,), NO_CHIP), (("patrol", 1), (), NO_CHIP),
           (get(1), (), NO_CHIP), (hit(1, 20, 9), (), NO_CHIP),
           (("patrol", 1), (20,), 20), (("patrol", 1), (), 20), (get(1), (), 20))


def check_commands():
    """Each adds what its call adds, to the same run."""
    get_it, patrol_it = write(0, registers.GET), write(0, registers.PATROL)
    follow("commands", on(*FOUR), (write(1, 1), (), NO_CHIP),
           (get_it, (20,), NO_CHIP), (get_it, (20,), NO_CHIP),
           (write(0, registers.GET, SHORT), (), NO_CHIP),
           (write(0, registers.PATROL, SHORT), (20,), NO_CHIP),
           (patrol_it, (), NO_CHIP), (get_it, (), NO_CHIP),
           (write(1, 2), (), NO_CHIP), (get_it, (), NO_CHIP),
           (patrol_it, (), NO_CHIP), (write(1, 3), (), NO_CHIP),
           (get_it, (), NO_CHIP), (patrol_it, (), NO_CHIP),
           (write(1, 4), (), NO_CHIP), (get_it, (), NO_CHIP),
           (patrol_it, (), NO_CHIP), (hit(1, 20, 3), (), NO_CHIP),
           (get(1), (20,), 20), (write(3, 20), (), 20),
           (write(0, registers.MARK_CHIP), (), NO_CHIP),
           (write(0, registers.LIFT_CHIP), (), 20), (write(3, 2), (), 20),
           (write(0, registers.MARK_CARD), (), NO_CHIP),
           (write(0, registers.LIFT_CARD), (), 20))


# Marks in order of placing, changed bytes, and the positions added.
CARD_1 = {p: p for p in range(9, 18)}
ORDER = (
    (marks(2), {p: p for p in range(18, 27)}, tuple(range(18, 27))),
    (marks(1), {3: 5, **CARD_1}, (3, *range(9, 18))),
    (marks(1), {40: 5, **CARD_1}, (*range(9, 18), 40)),
    (marks(1, 40, 3), {40: 5, 3: 5, **CARD_1}, (3, *range(9, 18), 40)),
    (marks(1, 3, 2), {2: 5, 3: 6, **CARD_1}, (2, 3, *range(9, 18))),
    (marks(1, 44, 43), {43: 5, 44: 6, **CARD_1}, (*range(9, 18), 43, 44)),
    (marks(255, 44, 3), {44: 1, 3: 2}, (3, 44)),
    (marks(255, 44), {44: 9, 0: 1, 1: 1}, (0, 1, 44)),
    (FRESH, {27: 1, 28: 1}, (27, 28)),
    (marks(0), {0: 8, 1: 6, 2: 1}, (0, 1, 2)),
    (marks(1), {0: 8, 1: 6, 2: 1}, (9, 10, 11)),     # what changes, not what was hit
)


def check_order():
    """A get and then a patrol add the same positions, lowest first."""
    for record, changes, added in ORDER:
        both, now = on(changes), ref.open_marks(record)
        for chip in now.chips:
            both.do("place_chip", chip)
        if now.card is not None:
            both.do("place_card", now.card)
        follow(f"{changes} under {tuple(record)}", both, (get(0), added, NO_CHIP),
               (("patrol", 0), added, NO_CHIP), (get(0), (), NO_CHIP))


# ------------------------------------------------- unlawful marks, any 64 bytes

def check_unlawful_marks():
    """Propose refuses them; a get or patrol that does adds nothing."""
    for record, number in UNLAWFUL:
        name = f"marks {tuple(record)}"
        for recent in (window.START, bytes((0,) * 64), bytes(range(64))):
            check(name, window.propose(recent, record), (number, 0))
        bank, output = bytearray(zeros_with({20: 7})), bytearray(OUTPUT)
        recent = bytearray(range(64))
        said = (window.get(bank, 0, output, record, recent).number,
                window.patrol(bank, 0, record, recent).number)
        check(name + ", get and patrol", said, (number, number))
        check(name + ", nothing added", recent, bytes(range(64)))


ANY_64 = (
    (bytes(range(64)), FRESH, NO_CHIP),
    (bytes(range(45, 61)) * 4, FRESH, NO_CHIP),
    (bytes((45,)) * 64, FRESH, NO_CHIP), (bytes((254,)) * 64, FRESH, NO_CHIP),
    (bytes((44, 255)) * 4 + bytes((255,)) * 56, FRESH, 44),
    (bytes((44, 255)) * 3 + bytes((255,)) * 58, FRESH, NO_CHIP),
    (bytes((0,)) * 4 + bytes((255,)) * 60, FRESH, 0),
    (bytes((45,)) * 60 + bytes((0,)) * 4, FRESH, 0),
    (bytes((45,)) * 61 + bytes((0,)) * 3, FRESH, NO_CHIP),
    (bytes((7, 9, 200, 255)) * 16, FRESH, 7),
    (bytes((7, 9, 200, 255)) * 16, marks(255, 7), 9),
    (bytes((7, 9, 200, 255)) * 16, marks(0), 9),
    (bytes((7, 9, 200, 255)) * 16, marks(1, 7), NO_CHIP),
    (bytes((0,)) * 64, marks(255, 44, 0), NO_CHIP),
)


def check_any_bytes():
    """Bytes that are no positions are never proposed, and leave in their turn."""
    for recent, record, chip in ANY_64:
        check(f"{recent.hex()} under {tuple(record)}",
              window.propose(recent, record), (0, chip))
        for changes, added in (({20: 7}, (20,)), (ORDER[0][1], range(18, 27))):
            bank, output = bytearray(zeros_with(changes)), bytearray(OUTPUT)
            for call in (lambda now: window.get(bank, 0, output, marks(2), now),
                         lambda now: window.patrol(bank, 0, marks(2), now)):
                now = bytearray(recent)
                call(now)
                check(f"{tuple(added)} added to {recent.hex()}", now,
                      recent[len(added):] + bytes(added))
        now = bytearray(recent)
        window.clear(now)
        check(f"{recent.hex()} cleared", now, bytes((255,)) * 64)


def check_window():
    check_empty()
    check_four_times()
    check_among_several()
    check_64_held()
    check_each_chip_and_mark()
    check_nothing_added()
    check_patrols()
    check_commands()
    check_order()
    check_unlawful_marks()
    check_any_bytes()
