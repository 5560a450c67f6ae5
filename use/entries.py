"""Seeded entries for the lists of compare.py: calls, register writes and hits.

An entry is a name and arguments, with plain bytes.  Wrong lengths and numbers,
marks that are there or aren't, and chips that were bad before come more often
than by chance.
"""

import damage
import library
import reference as ref
import registers
import single
from reference import BLOCK, CARDS, CHIPS, RECORD

HUGE = (2 ** 64 - 1, 2 ** 64 // 45 + 1, 2 ** 63, 2 ** 32)

COMMAND = {"place_chip": registers.MARK_CHIP, "place_card": registers.MARK_CARD,
           "lift_chip": registers.LIFT_CHIP, "lift_card": registers.LIFT_CARD}


def wrong_or(rng, right, limit=100):
    """The right length, or now and then any other."""
    return right if rng.random() < 0.93 else rng.randrange(limit)


def any_output(rng):
    return rng.randbytes(wrong_or(rng, BLOCK))


def any_number(rng, blocks, beyond=HUGE):
    if rng.random() < 0.93:
        return rng.randrange(blocks)
    return rng.choice([blocks, blocks + 1, *beyond])


def some_chip(rng, book):
    """Any chip, or one of the window: those that go bad do so again."""
    return rng.choice([rng.randrange(BLOCK), *book.run[-3:]])


def wear(rng, book):
    """A block in which a chip or a card goes bad, read again and again: what is
    bad there comes to be proposed, and makes others leave the window."""
    k, chip = rng.randrange(book.blocks), some_chip(rng, book)
    places = rng.choice([[chip], ref.card_places(chip // CHIPS)])
    calls = rng.choice([[("get", k, any_output(rng))], on_block(rng, book, k)])
    return [("put", k, rng.randbytes(RECORD)),
            *(("hit", BLOCK * k + p, rng.randrange(256)) for p in places),
            *calls, *calls[-1:] * rng.randrange(9)]


def hits(rng, book):
    """Damage of any kind to one block as the hits that make it."""
    k = rng.randrange(book.blocks)
    held = bytearray(book.held[k])
    if rng.random() < 0.3:
        held[some_chip(rng, book)] = rng.randrange(256)
    else:
        damage.DAMAGE[rng.choice(list(damage.DAMAGE))](rng, held, book.in_force())
    before = book.held[k]
    return [("hit", BLOCK * k + p, held[p])
            for p in range(BLOCK) if held[p] != before[p]]


def beyond(rng, limit):
    """A chip's or card's number that may be too large, by little or by much;
    256 and a lawful number is one that a byte would cut."""
    return rng.choice([limit, 255, 256, 300, library.WIDEST, rng.randrange(256),
                       256 + rng.randrange(limit),
                       rng.randrange(library.WIDEST)])


def mark_entry(rng, book):
    """Placing or lifting, more often of what is there than by chance."""
    name = rng.choices(["place_chip", "lift_chip", "place_card", "lift_card"],
                       [4, 4, 2, 2])[0]
    if name == "lift_card":
        return (name,)
    if name == "place_card" and book.card is not None and rng.random() < 0.4:
        return name, book.card
    if name == "place_card":
        return name, rng.choice([*range(CARDS), beyond(rng, CARDS)])
    there = list(book.chips)
    if there and rng.random() < 0.6:
        return name, rng.choice(there)
    return name, (beyond(rng, BLOCK) if rng.random() < 0.1
                  else rng.choice([some_chip(rng, book), *sorted(book.often())]))


# ---------------------------------------------------------- register writes

def any_address(rng):
    """A register, or an address that a narrower number would cut to one."""
    if rng.random() < 0.8:
        return rng.randrange(registers.SIZE)
    return rng.choice([12, 255, 256 + rng.randrange(12), 2 ** 16 + rng.randrange(12),
                       2 ** 31, library.WIDEST, rng.randrange(library.WIDEST)])


def any_write(rng):
    """Any address and value; commands, and the ones beside them, more often."""
    return any_address(rng), rng.choice([rng.randrange(256), rng.randrange(8), 255])


def write(rng, address, value):
    """A write; whatever it does, it is lent an output."""
    return "write_register", address, value, any_output(rng)


def with_bytes(rng, book, command, wanted):
    """A command after the bytes that it needs, where they don't stand yet."""
    writes = [write(rng, address, value) for address, value in wanted.items()
              if book.eight[address] != value]
    rng.shuffle(writes)
    return [*writes, write(rng, registers.COMMAND, command)]


def on_block(rng, book, k):
    """Get or patrol by command."""
    command = rng.choice([registers.GET, registers.GET, registers.PATROL])
    return with_bytes(rng, book, command,
                      {registers.LOW: k % 256, registers.HIGH: k // 256})


def on_a_mark(rng, book):
    """A mark command; lift card ignores what stands in byte 3."""
    name, *asked = mark_entry(rng, book)
    return with_bytes(rng, book, COMMAND[name],
                      {registers.ASKED: min(255, number) for number in asked})


def register_entries(rng, book):
    """A command with what it needs, the interrupt's bits, or any write."""
    what = rng.choices(["block", "mark", "enable", "acknowledge", "any"],
                       [10, 6, 1, 4, 3])[0]
    if what == "block":
        return on_block(rng, book, any_number(rng, book.blocks,
                                              (255, 256, 1024, 65535)))
    if what == "mark":
        return on_a_mark(rng, book)
    bits = rng.choice([1, 2, 3, rng.randrange(256)])
    if what == "enable":
        return [write(rng, registers.ENABLE, bits)]
    if what == "acknowledge":
        return [write(rng, registers.PENDING, bits)]
    return [write(rng, *any_write(rng))]


# ------------------------------------------------- calls on bytes of their own

def loose_marks(rng):
    if rng.random() < 0.1:
        return rng.randbytes(rng.randrange(9))
    return damage.any_marks(rng)


def loose_bank(rng, marks):
    """A small damaged bank, sometimes cut or of a limit's length."""
    bank = damage.damaged_bank(rng, marks, rng.choice([1, 2, 3]))
    sort = rng.randrange(8)
    if sort == 0:
        return bank[:rng.randrange(len(bank))]
    if sort == 1:
        return bank + rng.randbytes(rng.randrange(1, BLOCK))
    return bank


def loose_register_call(rng, name):
    """Any twelve registers, mostly with a command on them."""
    held = damage.any_registers(rng)
    if name == "interrupt":
        return (held,)
    if name == "read_register":
        return held, any_address(rng)
    address, value = any_write(rng)
    if rng.random() < 0.7:
        address, value = registers.COMMAND, rng.choice(list(registers.CALLS))
    marks = held[registers.MARKS]
    return (held, address, value, loose_bank(rng, marks), any_output(rng),
            damage.any_window(rng, marks))


def loose_entry(rng):
    """Any call on bytes of its own: any marks, lengths and block numbers."""
    name = rng.choice([*single.REFERENCE, "write_register"])
    if name in ("write_register", "read_register", "interrupt"):
        return "loose", name, *loose_register_call(rng, name)
    marks = loose_marks(rng)
    record = rng.randbytes(wrong_or(rng, RECORD))
    output = any_output(rng)
    if name == "store":
        return "loose", name, record, output
    if name == "read":
        block = damage.damaged_block(rng, marks)
        block = (block + rng.randbytes(60))[:wrong_or(rng, BLOCK)]
        return "loose", name, block, marks, output
    if name in ("place_chip", "lift_chip", "place_card"):
        limit = CARDS if name == "place_card" else BLOCK
        asked = rng.randrange(limit) if rng.random() < 0.8 else beyond(rng, limit)
        return "loose", name, marks, asked
    if name == "lift_card":
        return "loose", name, marks
    bank, recent = loose_bank(rng, marks), damage.any_window(rng, marks)
    k = any_number(rng, max(1, len(bank) // BLOCK))
    return ("loose", name, *{"clear": (bank,), "put": (bank, k, record),
                             "get": (bank, k, marks, output, recent),
                             "patrol": (bank, k, marks, recent),
                             "report": (bank, marks),
                             "clear_window": (recent,),
                             "propose": (recent, marks)}[name])


# -------------------------------------------------------------- the next ones

def next_entries(rng, book):
    """One call, a command with its writes, or the hits of one kind of damage."""
    what = rng.choices(["hits", "wear", "put", "get", "patrol", "report", "marks",
                        "clear", "clear_window", "registers", "loose"],
                       [20, 6, 10, 14, 10, 3, 14, 0.4, 0.4, 20, 12])[0]
    if what == "hits":
        return hits(rng, book)
    if what == "wear":
        return wear(rng, book)
    if what == "put":
        record = rng.randbytes(wrong_or(rng, RECORD))
        return [("put", any_number(rng, book.blocks), record)]
    if what == "get":
        return [("get", any_number(rng, book.blocks), any_output(rng))]
    if what == "patrol":
        return [("patrol", any_number(rng, book.blocks))]
    if what == "marks":
        return [mark_entry(rng, book)]
    if what == "registers":
        return register_entries(rng, book)
    if what == "loose":
        return [loose_entry(rng)]
    return [(what,)]
