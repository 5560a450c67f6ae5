"""Order 1's registers, written a second time for comparison.

The cabinet's processor sees the corrector as twelve bytes: 0 command, 1 and 2
block number, 3 chip or card, 4 last answer, 5 its n and card, 6 enable bits,
7 pending bits, 8 to 11 the mark record.  They are lent as a bytearray, as bank
and output are; a write of byte 0 runs a call of reference.py on them, get and
patrol with order 2's window.
"""

import reference as ref
from window import get, patrol

SIZE = 12
COMMAND, LOW, HIGH, ASKED, LAST, DETAIL, ENABLE, PENDING = range(8)
MARKS = slice(8, SIZE)
START = bytes(8) + ref.FRESH           # all 0 but the mark record
READ_ONLY = (LAST, DETAIL, 8, 9, 10, 11)

GET, PATROL, MARK_CHIP, MARK_CARD, LIFT_CHIP, LIFT_CARD = range(1, 7)
MARKED = 3                             # last answer: a mark placed or lifted
REFUSED = 16                           # last answer: this plus the number
DONE_BIT, REFUSED_BIT = 1, 2           # bits 0 and 1 of the pending bits

# Each command as a call: block number, byte 3, marks, bank, output, window.
CALLS = {
    GET: lambda k, asked, marks, bank, output, window: get(
        bank, k, output, marks, window),
    PATROL: lambda k, asked, marks, bank, output, window: patrol(
        bank, k, marks, window),
    MARK_CHIP: lambda k, asked, marks, *_: ref.place_chip(marks, asked),
    MARK_CARD: lambda k, asked, marks, *_: ref.place_card(marks, asked),
    LIFT_CHIP: lambda k, asked, marks, *_: ref.lift_chip(marks, asked),
    LIFT_CARD: lambda k, asked, marks, *_: ref.lift_card(marks),
}


def write_cause(address, value):
    """0, or the write's own refusal; no other number comes before it."""
    if address >= SIZE:
        return 12
    if address in READ_ONLY:
        return 13
    return 14 if address == COMMAND and value not in CALLS else 0


def write(registers, address, value, bank, output, window):
    """Write one byte: (number, answer of the command or None if none ran).

    Refusals 12, 13, 14.  A command that is refused by another number is a
    write that was done; the refusal then stands in the registers.
    """
    number = write_cause(address, value)
    if number:
        return number, None
    if address == COMMAND:
        return 0, run(registers, value, bank, output, window)
    if address == PENDING:
        value = registers[PENDING] & ~value
    registers[address] = value
    return 0, None


def run(registers, command, bank, output, window):
    """Run a command and enter its answer.  The card with 11 is the lowest."""
    k = registers[LOW] + 256 * registers[HIGH]
    marks = bytearray(registers[MARKS])
    answer = CALLS[command](k, registers[ASKED], marks, bank, output, window)
    registers[MARKS] = marks
    registers[COMMAND] = command
    registers[LAST] = last_answer(command, answer)
    registers[DETAIL] = answer.n + 16 * answer.card
    registers[PENDING] |= REFUSED_BIT if answer.number else DONE_BIT
    return answer


def refusal_in(registers):
    """The number that byte 4 tells: 0 where the last command was done."""
    return max(0, registers[LAST] - REFUSED)


def last_answer(command, answer):
    """Byte 4 after a command."""
    if answer.number:
        return REFUSED + answer.number
    return answer.kind if command in (GET, PATROL) else MARKED


def read(registers, address):
    """One byte by its address: (number, byte).  Refusal 12, with 0."""
    if address >= SIZE:
        return 12, 0
    return 0, registers[address]


def interrupt(registers):
    """Raised exactly while enable and pending bits share a set bit."""
    return registers[ENABLE] & registers[PENDING] != 0
