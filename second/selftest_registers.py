"""Order 1's figures, for registers.py and for the book; selftest.py runs them.

Where order 1 leaves a point open, the figures are those of the reading taken.
"""

import reference as ref
import registers
import window
from book import Book
from checking import check, marks, zeros_with
from damage import any_registers
from reference import BLOCK, FRESH
from registers import (GET, LIFT_CARD, LIFT_CHIP, MARK_CARD, MARK_CHIP, MARKS,
                       PATROL)

# Block 0 is clean, 1 has one bad chip, 2 is 01's 8, 6, 1, 3 fits no record, 4
# has two bad chips on card 3, 5 has chips 0 and 1 and all of card 4 changed.
BLOCKS = ({}, {20: 7}, {0: 8, 1: 6, 2: 1}, {0: 1, 9: 1}, {27: 1, 28: 1},
          {p: p + 1 for p in (0, 1, *range(36, 45))})
BANK = b"".join(zeros_with(changes) for changes in BLOCKS)
OUTPUT = b"\xA5" * BLOCK

ENABLED, WAITING = 0x5A, 0xA4      # bytes 6 and 7 before each command below
BAD6, BAD7 = bytes((5, 0, 255, 255)), marks(255, 7, 7)
FAR = (*range(12, 301), 2 ** 16 + 4, 2 ** 31, 2 ** 32 - 1)


def held(record, asked):
    """Registers with these marks and bytes 1 to 3."""
    return bytes((0, *asked, 9, 9, ENABLED, WAITING)) + record


def book_with(before):
    """A book whose list has led to BANK and these registers."""
    book, now = Book(len(BLOCKS)), ref.open_marks(before[MARKS])
    for at, value in enumerate(BANK):
        book.hit(at, value)
    book.eight[:] = before[:8]
    book.card, book.chips = now.card, list(now.chips)
    return book


def lent(before, bank=BANK, output=OUTPUT):
    """What a write is lent: registers, bank, output and window."""
    return [bytearray(part) for part in (before, bank, output, window.START)]


# -------------------------------------------------------------- the commands

# Marks, bytes 1 to 3, command; then bytes 4 and 5, and the marks after it
# (None: as before).  The card with 27 is order 6's.
COMMANDS = (
    (FRESH, (0, 0, 0), GET, 0, 0, None),
    (FRESH, (1, 0, 0), GET, 1, 1, None),
    (FRESH, (2, 0, 0), GET, 27, 0, None),
    (FRESH, (3, 0, 0), GET, 26, 0, None),
    (FRESH, (4, 0, 0), GET, 2, 2 + 16 * 3, None),
    (FRESH, (6, 0, 0), GET, 21, 0, None),
    (FRESH, (0, 1, 0), GET, 21, 0, None),
    (FRESH, (255, 255, 0), GET, 21, 0, None),
    (marks(0), (2, 0, 0), GET, 2, 3, None),
    (marks(1), (2, 0, 0), GET, 2, 3 + 16, None),
    (marks(255, 0), (3, 0, 0), GET, 1, 2, None),
    (marks(255, 0, 9), (1, 0, 0), GET, 27, 16 * 2, None),
    (marks(4, 0, 1), (5, 0, 0), GET, 2, 11 + 16 * 4, None),
    (FRESH, (0, 0, 0), PATROL, 0, 0, None),
    (FRESH, (1, 0, 0), PATROL, 1, 1, None),
    (FRESH, (2, 0, 0), PATROL, 27, 0, None),
    (FRESH, (3, 0, 0), PATROL, 26, 0, None),
    (FRESH, (4, 0, 0), PATROL, 2, 2 + 16 * 3, None),
    (FRESH, (6, 0, 0), PATROL, 21, 0, None),
    (marks(4, 0, 1), (5, 0, 0), PATROL, 2, 11 + 16 * 4, None),
    (FRESH, (0, 0, 44), MARK_CHIP, 3, 0, marks(255, 44)),
    (FRESH, (0, 0, 45), MARK_CHIP, 22, 0, None),
    (FRESH, (0, 0, 255), MARK_CHIP, 22, 0, None),
    (marks(255, 7), (0, 0, 7), MARK_CHIP, 3, 0, marks(255, 7)),
    (marks(255, 7), (0, 0, 3), MARK_CHIP, 3, 0, marks(255, 7, 3)),
    (marks(255, 7, 3), (0, 0, 7), MARK_CHIP, 3, 0, marks(255, 7, 3)),
    (marks(255, 7, 3), (0, 0, 3), MARK_CHIP, 3, 0, marks(255, 7, 3)),
    (marks(255, 7, 3), (0, 0, 4), MARK_CHIP, 24, 0, None),
    (FRESH, (0, 0, 4), MARK_CARD, 3, 0, marks(4)),
    (FRESH, (0, 0, 5), MARK_CARD, 22, 0, None),
    (marks(2), (0, 0, 2), MARK_CARD, 3, 0, marks(2)),
    (marks(2), (0, 0, 3), MARK_CARD, 24, 0, None),
    (marks(255, 7, 3), (0, 0, 7), LIFT_CHIP, 3, 0, marks(255, 3)),
    (marks(255, 7, 3), (0, 0, 4), LIFT_CHIP, 25, 0, None),
    (FRESH, (0, 0, 45), LIFT_CHIP, 22, 0, None),
    (marks(3, 7), (0, 0, 3), LIFT_CARD, 3, 0, marks(255, 7)),
    (marks(3, 7), (0, 0, 255), LIFT_CARD, 3, 0, marks(255, 7)),
    (FRESH, (0, 0, 0), LIFT_CARD, 25, 0, None),
    (FRESH, (0, 0, 255), LIFT_CARD, 25, 0, None),
)


def plain_call(command, before):
    """Bank, output and window after the call that the command does."""
    _, bank, output, recent = lent(before)
    k, record = before[1] + 256 * before[2], before[MARKS]
    if command == GET:
        window.get(bank, k, output, record, recent)
    if command == PATROL:
        window.patrol(bank, k, record, recent)
    return bank, output, recent


def check_commands():
    for record, asked, command, last, detail, after in COMMANDS:
        before = held(record, asked)
        name = f"command {command} with {tuple(before)}"
        pending = WAITING | (1 if last < 16 else 2)
        now, bank, output, recent = lent(before)
        number, answer = registers.write(now, 0, command, bank, output, recent)
        check(name, number, 0)
        check(name + ": registers", bytes(now),
              bytes((command, *asked, last, detail, ENABLED, pending))
              + (after or record))
        check(name + ": bank, output, window", (bank, output, recent),
              plain_call(command, before))
        book = book_with(before)
        said = book.write_register(0, command, OUTPUT)
        check(name + ": the book says", said, (0, answer, bytes(output)))
        check(name + ": the book after it",
              (book.bank(), book.registers(), book.window()), (bank, now, recent))


# Bytes of output and bank, marks, block number, command; then byte 4.
CAUSES = (
    (44, 44, BAD6, 9, GET, 18), (46, 270, FRESH, 0, GET, 18),
    (0, 270, FRESH, 0, GET, 18), (45, 44, BAD6, 9, GET, 20),
    (45, 0, FRESH, 0, GET, 20), (45, 270, BAD6, 9, GET, 21),
    (45, 270, BAD6, 0, GET, 22), (45, 270, BAD7, 0, GET, 23),
    (44, 44, BAD6, 9, PATROL, 20), (44, 270, BAD6, 9, PATROL, 21),
    (44, 270, BAD6, 0, PATROL, 22), (44, 270, BAD7, 0, PATROL, 23),
    (44, 270, FRESH, 0, PATROL, 0), (0, 0, FRESH, 9, MARK_CHIP, 3),
    (0, 0, FRESH, 9, MARK_CARD, 3), (0, 0, marks(2, 0), 9, LIFT_CHIP, 3),
    (0, 0, marks(2, 0), 9, LIFT_CARD, 3), (44, 44, BAD6, 0, MARK_CHIP, 22),
    (44, 44, BAD6, 0, MARK_CARD, 22), (44, 44, BAD6, 0, LIFT_CHIP, 22),
    (44, 44, BAD6, 0, LIFT_CARD, 22), (44, 44, BAD7, 0, MARK_CHIP, 23),
    (44, 44, BAD7, 0, MARK_CARD, 23), (44, 44, BAD7, 0, LIFT_CHIP, 23),
    (44, 44, BAD7, 0, LIFT_CARD, 23),
)


def check_causes():
    """Lent bytes of any length; a refused command changes only registers."""
    for out, size, record, k, command, last in CAUSES:
        before = held(record, (k, 0, 0))
        now, bank, output, recent = lent(before, BANK[:size], bytes(out))
        name = f"command {command}, {out} and {size} bytes, {tuple(before)}"
        check(name, registers.write(now, 0, command, bank, output, recent)[0], 0)
        bit = 1 if last < 16 else 2
        check(name + ": registers", (now[0], now[4], now[5], now[6], now[7]),
              (command, last, 0, ENABLED, WAITING | bit))
        check(name + ": bank, output, window", (bank, output, recent),
              (BANK[:size], bytes(out), window.START))
        if last > 15:
            check(name + ": marks", now[MARKS], record)


def check_equal_chips():
    """Order 3: a record with equal chips is 7, whichever mark is to be placed."""
    for record, asked, command in (
            (BAD7, 7, MARK_CHIP), (BAD7, 8, MARK_CHIP), (marks(2, 7, 7), 2, MARK_CARD),
            (marks(2, 7, 7), 3, MARK_CARD), (marks(2, 7, 7), 7, MARK_CHIP)):
        now, bank, output, recent = lent(held(record, (0, 0, asked)))
        registers.write(now, 0, command, bank, output, recent)
        check(f"command {command} for {asked} with {tuple(record)}",
              (now[4], now[7], now[MARKS]), (23, WAITING | 2, record))


# ----------------------------------------------------- addresses and refusals

def write_number(address, value):
    """Order 1's last sentence, by enumeration."""
    if address not in range(12):
        return 12
    if address in (4, 5, 8, 9, 10, 11):
        return 13
    return 14 if address == 0 and value not in (1, 2, 3, 4, 5, 6) else 0


def check_refusals(rng):
    """12, 13, 14 come before all other numbers and change nothing."""
    for address in (*range(12), *FAR):
        for value in (0, 1, 6, 7, 8, 255) if address else range(256):
            number = write_number(address, value)
            for before in (registers.START, held(BAD6, (9, 9, 9)),
                           any_registers(rng)):
                now, *others = lent(before, bytes(44), bytes(44))
                said = registers.write(now, address, value, *others)
                name = f"write {value} to {address} of {tuple(before)}"
                check(name, said[0], number)
                check(name + ": runs a command", said[1] is not None,
                      address == 0 and number == 0)
                if number:
                    check(name + " changes nothing", [now, *others],
                          [before, bytes(44), bytes(44), window.START])
            book = Book(1)
            check(f"the book's write {value} to {address}",
                  book.write_register(address, value, b"")[0], number)
            if number:
                check(f"the book's write {value} to {address} changes nothing",
                      book.registers(), registers.START)


def check_reads(rng):
    for before in (registers.START, any_registers(rng), rng.randbytes(12)):
        for address in range(12):
            check(f"read {address} of {tuple(before)}",
                  registers.read(before, address), (0, before[address]))
        said = {registers.read(before, address) for address in FAR}
        check(f"read beyond {tuple(before)}", said, {(12, 0)})


# ---------------------------------------------------------- bits and plain bytes

def written(before, address, value):
    """The registers after one write, by both ways of writing it."""
    now, *others = lent(before)
    registers.write(now, address, value, *others)
    book = book_with(before)
    book.write_register(address, value, OUTPUT)
    check(f"the book and write {value} to {address}", book.registers(), now)
    check(f"write {value} to {address}: bank, output, window",
          address == 0 or others == [BANK, OUTPUT, window.START])
    return bytes(now)


def with_byte(before, address, value):
    return before[:address] + bytes((value,)) + before[address + 1:]


def check_start():
    check("registers at the start", registers.START,
          bytes((0, 0, 0, 0, 0, 0, 0, 0, 255, 0, 255, 255)))
    check("the book's registers at the start", Book(1).registers(), registers.START)
    check("no interrupt at the start", registers.interrupt(registers.START), False)


def check_plain_bytes():
    """Bytes 1, 2, 3 and 6 take all eight bits and nothing else changes."""
    before = held(marks(2, 7), (1, 0, 3))
    for address in (1, 2, 3, 6):
        for value in (0, 1, 2, 4, 8, 16, 32, 64, 128, 255):
            check(f"write {value} to {address}", written(before, address, value),
                  with_byte(before, address, value))


def check_pending():
    """Writing ones clears them; a command sets its own bit and no other."""
    for bits in (0, 1, 2, 3, 4, 128, 0x55, 0xAA, 252, 253, 254, 255):
        before = with_byte(held(FRESH, (0, 0, 0)), 7, bits)
        for value in (0, 1, 2, 3, 4, 8, 16, 32, 64, 128, 254, 255):
            left = sum(1 << bit for bit in range(8)
                       if bits >> bit & 1 and not value >> bit & 1)
            check(f"write {value} over pending {bits}", written(before, 7, value),
                  with_byte(before, 7, left))
        check(f"done over pending {bits}", written(before, 0, GET)[7], bits | 1)
        check(f"refused over pending {bits}", written(before, 0, LIFT_CARD)[7],
              bits | 2)


def check_interrupt():
    """Each enable bit with each pending bit, alone and among the others."""
    def raised(enabled, pending):
        before = bytes((255, 255, 255, 255, 255, 255, enabled, pending)) + FRESH
        check(f"the book's interrupt {enabled} {pending}",
              book_with(before).interrupt(), registers.interrupt(before))
        return registers.interrupt(before)

    for i in range(8):
        for j in range(8):
            name = f"interrupt, bit {i} enabled, bit {j}"
            check(name + " pending", raised(1 << i, 1 << j), i == j)
            check(name + " alone not pending", raised(1 << i, 255 - (1 << j)), i != j)
    for enabled, pending, wanted in ((0, 0, False), (0, 255, False), (255, 0, False),
                                     (255, 255, True), (0x55, 0xAA, False)):
        check(f"interrupt {enabled} {pending}", raised(enabled, pending), wanted)


def check_registers(rng):
    check_start()
    check_commands()
    check_equal_chips()
    check_causes()
    check_refusals(rng)
    check_reads(rng)
    check_plain_bytes()
    check_pending()
    check_interrupt()
