"""Lists of demand 3 on lent bytes, against the book; selftest.py runs them.

The entries are calls, hits and register writes, wrong ones too.  The marks of
the calls are registers 8 to 11, so that both write the same record.  Bank,
registers, window, interrupt and proposal are compared after every entry.
"""

import damage
import reference as ref
import registers
import window
from book import Book
from checking import check
from reference import BLOCK, CARDS, RECORD


def any_call(rng, blocks):
    """An entry of a list: its name and arguments, wrong ones too."""
    k = rng.choice([rng.randrange(blocks)] * 9 + [blocks, blocks + 7])
    chip = rng.choice([rng.randrange(BLOCK), rng.randrange(3), 44, 45, 255])
    card = rng.choice([rng.randrange(CARDS), 1, 5, 255])
    length = rng.choice([RECORD] * 9 + [0, 33, 35])
    output = rng.randbytes(rng.choice([BLOCK] * 9 + [0, 44, 46]))
    return rng.choices(
        [("clear",), ("put", k, rng.randbytes(length)), ("get", k, output),
         ("patrol", k), ("report",), ("place_chip", chip),
         ("place_card", card), ("lift_chip", chip), ("lift_card",),
         ("clear_window",), ("hits", k % blocks),
         ("write", *any_write(rng, blocks), output)],
        [1, 12, 20, 10, 4, 6, 3, 6, 3, 1, 30, 60])[0]


def any_write(rng, blocks):
    """An address and a value: mostly a command, or a byte that one needs."""
    asked = rng.choice([rng.randrange(BLOCK), rng.randrange(CARDS), 45, 255])
    return rng.choices(
        [(0, rng.choice([1, 1, 1, 2, 2, 3, 4, 5, 6])), (1, rng.randrange(blocks)),
         (2, 0), (3, asked), (6, rng.randrange(256)), (7, rng.randrange(256)),
         (rng.randrange(20), rng.randrange(256))],
        [10, 4, 2, 4, 1, 2, 1])[0]


def any_hits(rng, book, k):
    """Hits that leave block k with some kind of damage: (byte, value)."""
    block = bytearray(book.held[k])
    kind = rng.choice(list(damage.DAMAGE))
    damage.DAMAGE[kind](rng, block, book.in_force())
    return [(BLOCK * k + p, block[p]) for p in ref.changed(block, book.held[k])]


class Both:
    """One list of demand 3: the calls on lent bytes beside the book."""

    def __init__(self, blocks):
        self.book, self.bank = Book(blocks), bytearray(BLOCK * blocks)
        self.registers = bytearray(registers.START)
        self.marks = memoryview(self.registers)[registers.MARKS]
        self.window = bytearray(window.START)

    def do(self, call, *asked):
        """One entry, or some hits: the same answer and the same bytes after it."""
        if call == "hits":
            got = wanted = self.hits(*asked)
        elif call == "get":
            got, wanted = self.get(*asked)
        elif call == "write":
            got, wanted = self.write(*asked)
        else:
            got = self.on_lent_bytes(call, *asked)
            wanted = getattr(self.book, call)(*asked)
        name = f"{call} {asked}"
        check(name, got, wanted)
        check(name + ": bank, registers, window",
              (bytes(self.bank), bytes(self.registers), bytes(self.window)),
              (self.book.bank(), self.book.registers(), self.book.window()))
        check(name + ": interrupt",
              registers.interrupt(self.registers), self.book.interrupt())
        check(name + ": proposal",
              window.propose(self.window, self.marks), (0, self.book.proposal()))

    def on_lent_bytes(self, call, *asked):
        if call in ("clear", "put"):
            return getattr(ref, call)(self.bank, *asked)
        if call == "patrol":
            return window.patrol(self.bank, *asked, self.marks, self.window)
        if call == "report":
            return ref.report(self.bank, self.marks)
        if call == "clear_window":
            return window.clear(self.window)
        return getattr(ref, call)(self.marks, *asked)

    def hits(self, *hits):
        for at, value in hits:
            self.book.hit(at, value)
            self.bank[at] = value

    def get(self, k, before):
        output = bytearray(before)
        got = window.get(self.bank, k, output, self.marks, self.window)
        check_promise(self.book, k, got, output)
        return (got, bytes(output)), self.book.get(k, before)

    def write(self, address, value, before):
        output = bytearray(before)
        number, got = registers.write(self.registers, address, value, self.bank,
                                      output, self.window)
        if got is not None and value == registers.GET:
            check_promise(self.book, self.book.block_number(), got, output)
        return ((number, got, bytes(output)),
                self.book.write_register(address, value, before))


def run_list(rng, entries):
    """A list of any entries."""
    blocks = rng.choice([1, 2, 5])
    both = Both(blocks)
    for _ in range(entries):
        call, *asked = any_call(rng, blocks)
        if call == "hits":
            asked = any_hits(rng, both.book, *asked)
        both.do(call, *asked)


def check_promise(book, k, got, output):
    """Demand 3's last sentence, for a get by call or by command."""
    promise = book.promise(k) if k < book.blocks else None
    if promise and len(output) == BLOCK:
        good, may_be_several = promise
        kept = got.number == 0 and bytes(output) == good
        check(f"promise for block {k}",
              kept or (got.number == 11 and may_be_several))
        part = bytes(ref.record_part(output, got))
        check(f"record of block {k}", part, good[:RECORD] if kept else b"")


def check_lists(rng):
    for _ in range(60):
        run_list(rng, 150)
