"""Single calls on bytes of their own, the library's against second/.

Every length of every slice, every number of a chip or card, reads under each card
mark with each set of chips, every address and value of a register, the interrupt's
bits, and windows of every sort.
"""

import itertools

import damage
import library
import reference as ref
import registers
import window
from agree import Difference, expect, expect_answer
from reference import BLOCK, CARDS, CHIPS, RECORD

SHORT = range(100)                        # lengths of a slice
LARGEST = BLOCK * ref.MOST_BLOCKS         # 46,080
AROUND_THE_LARGEST = range(LARGEST - 3, LARGEST + 48)
WIDE = (2 ** 16 + 4, 2 ** 31, library.WIDEST)
ADDRESSES = (*range(301), *WIDE)
VALUES = (0, 1, 6, 7, 255)                # for an address beyond the registers


# ------------------------------------------- calls on lent bytes of any kind

def on_any_marks(call):
    """A mark call for a marks slice of any length; 6 if it isn't 4."""
    return lambda marks, *rest: (ref.Answer(6) if len(marks) != 4
                                 else call(marks, *rest))


def lowest_with_marks(marks, causes, call):
    """01's order where the marks slice may be of any length."""
    if len(marks) == 4:
        return call()
    return ref.Answer(ref.lowest(*causes, 6))


def ref_read(block, marks, output):
    causes = (ref.length_cause(block, BLOCK, 1),
              ref.length_cause(output, BLOCK, 2))
    return lowest_with_marks(
        marks, causes, lambda: ref.read_into(output, block, marks))


def ref_get(bank, k, marks, output, recent):
    causes = (ref.length_cause(output, BLOCK, 2), ref.bank_cause(bank),
              ref.number_cause(bank, k))
    return lowest_with_marks(
        marks, causes, lambda: window.get(bank, k, output, marks, recent))


def ref_patrol(bank, k, marks, recent):
    causes = (ref.bank_cause(bank), ref.number_cause(bank, k))
    return lowest_with_marks(
        marks, causes, lambda: window.patrol(bank, k, marks, recent))


def ref_report(bank, marks):
    if len(marks) == 4:
        return ref.report(bank, marks)
    return ref.Answer(ref.lowest(ref.bank_cause(bank), 6)), None


def ref_propose(recent, marks):
    return window.propose(recent, marks) if len(marks) == 4 else (6, 0)


REFERENCE = {
    "store": lambda record, output: ref.store_into(output, record),
    "read": ref_read,
    "clear": ref.clear,
    "put": ref.put,
    "get": ref_get,
    "patrol": ref_patrol,
    "report": ref_report,
    "place_chip": on_any_marks(ref.place_chip),
    "lift_chip": on_any_marks(ref.lift_chip),
    "place_card": on_any_marks(ref.place_card),
    "lift_card": on_any_marks(ref.lift_card),
    "write_register": registers.write,
    "read_register": registers.read,
    "interrupt": lambda held: int(registers.interrupt(held)),
    "clear_window": window.clear,
    "propose": ref_propose,
}


def lent(argument):
    return bytearray(argument) if isinstance(argument, bytes) else argument


def compare_call(lib, name, *arguments):
    """One call on bytes of its own: the answer, and every byte after it; gives the
    library's, the answer and then its arguments."""
    ours = [lent(argument) for argument in arguments]
    theirs = [lent(argument) for argument in arguments]
    said = lib.call(name, *ours)
    wanted = REFERENCE[name](*theirs)
    if name == "write_register":
        wanted, _ = wanted
    try:
        expect_answer("answer", said, wanted)
        for mine, yours in zip(ours, theirs):
            expect("bytes after it", mine, yours)
    except Difference as difference:
        shown = [argument.hex() if isinstance(argument, bytes) else argument
                 for argument in arguments]
        raise Difference(f"{name} {shown}: {difference}") from None
    return said, *ours


# ------------------------------------------------------- lengths and numbers

def every_length(lib, name, arguments, at, lengths):
    """The call with each length of one slice, the others as they are."""
    part = arguments[at] * (lengths[-1] // len(arguments[at]) + 1)
    for length in lengths:
        compare_call(lib, name, *arguments[:at], part[:length],
                     *arguments[at + 1:])
    return len(lengths)


def lengths_of_calls(lib, rng):
    """Every length of each slice of the calls, the others being right."""
    block = damage.damaged_block(rng, ref.FRESH, "one_bad_chip")
    record, marks = rng.randbytes(RECORD), ref.FRESH
    out, bank = rng.randbytes(BLOCK), block + bytes(BLOCK)
    recent = damage.any_window(rng, marks, "full_window")
    made = 0
    for name, arguments in (("store", (record, out)),
                            ("read", (block, marks, out)),
                            ("clear", (bank,)), ("put", (bank, 0, record)),
                            ("get", (bank, 0, marks, out, recent)),
                            ("patrol", (bank, 0, marks, recent)),
                            ("report", (bank, marks)),
                            ("propose", (recent, marks)),
                            ("place_chip", (marks, 0)),
                            ("lift_chip", (marks, 0)),
                            ("place_card", (marks, 0)),
                            ("lift_card", (marks,))):
        for at, argument in enumerate(arguments):
            if isinstance(argument, bytes) and argument is not recent:
                made += every_length(lib, name, arguments, at, SHORT)
            if argument is bank:
                made += every_length(lib, name, arguments, at,
                                     AROUND_THE_LARGEST)
    return made


# None, one and two chips marked; one of them twice, and that beside a card outside
# its range.
MARKED = (ref.FRESH, bytes((4, 1, 44, 255)), bytes((2, 2, 44, 0)),
          bytes((2, 2, 7, 7)), bytes((5, 2, 7, 7)))


def mark_numbers(lib):
    """Chips and cards 0 to 600 and the widest, under each of these records."""
    made = 0
    for name in ("place_chip", "lift_chip", "place_card"):
        for marks in MARKED:
            for asked in (*range(601), *WIDE):
                compare_call(lib, name, marks, asked)
                made += 1
    return made


def mark_commands(lib):
    """Every chip and card that byte 3 can ask for, under each of these records, with
    no pending bit and with the one of a refusal."""
    made = 0
    for command in (registers.MARK_CHIP, registers.MARK_CARD, registers.LIFT_CHIP):
        for marks in MARKED:
            for asked, pending in itertools.product(range(256), (0, 2)):
                held = bytes((0, 0, 0, asked, 0, 0, 0, pending)) + marks
                compare_call(lib, "write_register", held, 0, command, bytes(BLOCK),
                             bytes(BLOCK), window.START)
                made += 1
    return made


# ---------------------------------------------------- marks beside a marked card

def under_each_card(lib, rng):
    """Each card marked with each set of chips: a read with one further chip bad, and
    one with a second further chip, or with the card and the marked chips bad too."""
    sets = [chips for count in range(3)
            for chips in itertools.combinations(range(BLOCK), count)]
    for card, chips in itertools.product(range(CARDS), sets):
        chips = rng.sample(chips, len(chips))
        marks = ref.close_marks(ref.Marks(card, tuple(chips)))
        on = ref.card_places(card)
        off = [p for p in range(BLOCK) if p not in on and p not in chips]
        one, two = rng.sample(off, 2)
        for bad in (one,), rng.choice(((one, two), (*on, *chips, one))):
            block = bytearray(BLOCK)
            for p in bad:
                block[p] = rng.randrange(1, 256)
            compare_call(lib, "read", bytes(block), marks, rng.randbytes(BLOCK))
    return 2 * CARDS * len(sets)


# -------------------------------------------------- the card with "several"

# A get or a patrol of a bank of one block, by call and by command.
READINGS = (
    lambda bank, marks, out: ("get", bank, 0, marks, out, window.START),
    lambda bank, marks, out: ("patrol", bank, 0, marks, window.START),
    lambda bank, marks, out: ("write_register", bytes(8) + marks, 0, registers.GET,
                              bank, out, window.START),
    lambda bank, marks, out: ("write_register", bytes(8) + marks, 0,
                              registers.PATROL, bank, out, window.START),
)


def two_cards_fit(lib, rng):
    """Blocks that two cards fit beside marked chips: each two cards beside each chip,
    and three pairs of cards beside each two chips.  Each block is read, and got or
    patrolled, by call or by command."""
    pairs = itertools.cycle(itertools.permutations(range(CARDS), 2))
    sets = [(p,) for p in range(BLOCK) for _ in range(20)] \
        + [two for two in itertools.combinations(range(BLOCK), 2) for _ in range(3)]
    for chips in sets:
        marks = ref.close_marks(ref.Marks(None, tuple(rng.sample(chips, len(chips)))))
        block, out = bytearray(ref.store(rng.randbytes(RECORD))), rng.randbytes(BLOCK)
        damage.half_way(rng, block, *next(pairs), chips)
        compare_call(lib, "read", bytes(block), marks, out)
        compare_call(lib, *rng.choice(READINGS)(bytes(block), marks, out))
    return 2 * len(sets)


# ---------------------------------------------------------------- registers

def some_registers(rng):
    """At the start, with every bit set before the marks, and any two."""
    return (registers.START, b"\xFF" * 8 + ref.FRESH,
            damage.any_registers(rng), rng.randbytes(registers.SIZE))


def register_addresses(lib, rng):
    """Each address, read and written; every value where there is a register."""
    bank, out = damage.damaged_bank(rng, ref.FRESH, 3), rng.randbytes(BLOCK)
    recent = damage.any_window(rng, ref.FRESH)
    made = 0
    for held in some_registers(rng):
        for address in ADDRESSES:
            compare_call(lib, "read_register", held, address)
            values = range(256) if address < registers.SIZE else VALUES
            for value in values:
                compare_call(lib, "write_register", held, address, value, bank, out,
                             recent)
            made += 1 + len(values)
    return made


def register_lengths(lib, rng):
    """Every length of bank and output behind each command and a plain write."""
    block = damage.damaged_block(rng, ref.FRESH, "one_bad_chip")
    bank, out = block + bytes(BLOCK), rng.randbytes(BLOCK)
    marked, recent = bytes(8) + bytes((0, 1, 0, 255)), bytes(range(window.SIZE))
    made = 0
    for address, value, held in ((0, registers.GET, registers.START),
                                 (0, registers.PATROL, registers.START),
                                 (0, registers.MARK_CHIP, registers.START),
                                 (0, registers.MARK_CARD, registers.START),
                                 (0, registers.LIFT_CHIP, marked),
                                 (0, registers.LIFT_CARD, marked),
                                 (registers.LOW, 9, registers.START)):
        arguments = held, address, value, bank, out, recent
        made += every_length(lib, "write_register", arguments, 3, SHORT)
        made += every_length(lib, "write_register", arguments, 3,
                             AROUND_THE_LARGEST)
        made += every_length(lib, "write_register", arguments, 4, SHORT)
    return made


def register_block_numbers(lib, rng):
    """Blocks of the largest bank, and beyond it, by both bytes."""
    bank = damage.damaged_bank(rng, ref.FRESH, 8) * (ref.MOST_BLOCKS // 8)
    numbers = [(low, high) for low in (0, 1, 2, 4, 255) for high in (0, 1, 3, 4, 255)]
    for low, high in numbers:
        held = bytes((0, low, high, 0, 0, 0, 0, 0)) + ref.FRESH
        for command in (registers.GET, registers.PATROL):
            compare_call(lib, "write_register", held, 0, command, bank,
                         rng.randbytes(BLOCK), window.START)
    return 2 * len(numbers)


def interrupt_bits(lib, rng):
    """Each enable bit with each pending bit, alone and among all others."""
    single = [1 << bit for bit in range(8)]
    values = [0, 255, *single, *(255 - one for one in single)]
    for enabled in values:
        for pending in values:
            held = rng.randbytes(6) + bytes((enabled, pending)) + rng.randbytes(4)
            compare_call(lib, "interrupt", held)
    return len(values) ** 2


# ------------------------------------------------------------------- windows

def around_four(lib):
    """Each chip up to five times beside one of another card, at the window's end
    and at its start, with each of the two marked or its card, or none."""
    made = 0
    for chip in range(BLOCK):
        other = (chip + CHIPS) % BLOCK
        records = [bytes(record) for record in (
            ref.FRESH, (255, 1, chip, 255), (255, 1, other, 255),
            (255, 2, other, chip), (255, 2, chip, other),
            (chip // CHIPS, 0, 255, 255), (other // CHIPS, 0, 255, 255),
            (chip // CHIPS, 1, other, 255))]
        for count in range(6):
            run = bytes((chip,) * count + (other,) * 4)
            rest = window.START[len(run):]
            for record in records:
                compare_call(lib, "propose", rest + run, record)
                compare_call(lib, "propose", run + rest, record)
            made += 2 * len(records)
    return made


def windows(lib, rng):
    """Each sort of window with each shape of marks and each kind of damage, by the
    calls that take it."""
    made = 0
    for sort in damage.WINDOWS:
        for shape in damage.MARK_SHAPES.values():
            marks = bytes(shape(rng))
            recent = damage.any_window(rng, marks, sort)
            compare_call(lib, "propose", recent, marks)
            compare_call(lib, "clear_window", recent)
            made += 2
        for kind in damage.DAMAGE:
            marks, out = damage.any_marks(rng), rng.randbytes(BLOCK)
            recent = damage.any_window(rng, marks, sort)
            bank = damage.damaged_block(rng, marks, kind)
            compare_call(lib, "get", bank, 0, marks, out, recent)
            compare_call(lib, "patrol", bank, 0, marks, recent)
            for command in registers.CALLS:
                compare_call(lib, "write_register", bytes(8) + marks, 0, command,
                             bank, out, recent)
            made += 2 + len(registers.CALLS)
    return made


def compare_all(lib, rng):
    """All of the above; gives how many calls were made."""
    return (lengths_of_calls(lib, rng) + mark_numbers(lib) + mark_commands(lib)
            + under_each_card(lib, rng) + two_cards_fit(lib, rng)
            + register_addresses(lib, rng)
            + register_lengths(lib, rng) + register_block_numbers(lib, rng)
            + interrupt_bits(lib, rng) + around_four(lib) + windows(lib, rng))
