"""The library beside the book: a bank, registers and a window under the library's
calls, and second/book.py fed the same entries.

Every answer is compared, and after every entry but a hit every byte of bank, output,
registers (8 to 11 are the marks) and window, the interrupt and the proposal.
"""

import reference as ref
import registers
import single
import window
from agree import Difference, expect, expect_answer
from book import Book
from reference import BLOCK, RECORD
from seen import Seen


class Run:
    """A bank, registers and a window under the library, beside 01's book."""

    def __init__(self, lib, blocks):
        self.lib = lib
        self.book = Book(blocks)
        self.bank = bytearray(BLOCK * blocks)
        self.registers = bytearray(registers.START)
        # The same four bytes: what a call is lent, and what a command uses.
        self.marks = memoryview(self.registers)[registers.MARKS]
        self.window = bytearray(window.START)
        self.seen = Seen()

    def do(self, entry):
        """One entry: a call's or hit's name and arguments, with plain bytes.

        Gives what the library said of a get, a patrol, a report or a write, with the
        output after it where there is one.
        """
        name, *arguments = entry
        self.seen.to_come(self.book, name, *arguments)
        said = getattr(self, "_" + name)(*arguments)
        if name != "hit":              # in which the library has no part
            self._compare()
        return said

    def _compare(self):
        """All that stands after an entry, and what is said of it."""
        expect("bank after it", self.bank, self.book.bank())
        expect("registers after it", self.registers, self.book.registers())
        expect("window after it", self.window, self.book.window())
        expect("interrupt after it", self.lib.call("interrupt", self.registers),
               int(self.book.interrupt()))
        chip = self.book.proposal()
        expect("proposal after it", self.lib.call("propose", self.window, self.marks),
               (0, chip))
        self.seen.entry(self.book, chip)

    def _hit(self, at, value):
        self.bank[at] = value
        self.book.hit(at, value)

    def _clear(self):
        said = self.lib.call("clear", self.bank)
        expect_answer("answer", said, self.book.clear())

    def _put(self, k, record):
        said = self.lib.call("put", self.bank, k, record)
        expect_answer("answer", said, self.book.put(k, record))

    def _get(self, k, output):
        after = bytearray(output)
        said = self.lib.call("get", self.bank, k, self.marks, after, self.window)
        wanted, wanted_after = self.book.get(k, output)
        expect_answer("answer", said, wanted)
        self.seen.answered("call", wanted)
        expect("output after it", after, wanted_after)
        self._promise(k, said.number, after)
        return said, after

    def _promise(self, k, number, after):
        """Demand 3's last sentence: the record last put, or "several"."""
        if len(after) != BLOCK or k >= self.book.blocks:
            return
        promised = self.book.promise(k)
        if promised is None:
            return
        good, may_be_several = promised
        if number == 0:
            expect("the record last put", after[:RECORD], good[:RECORD])
        elif number != ref.SEVERAL or not may_be_several:
            raise Difference(f"allowed damage, but the answer is {number}")

    def _patrol(self, k):
        said = self.lib.call("patrol", self.bank, k, self.marks, self.window)
        wanted = self.book.patrol(k)
        expect_answer("answer", said, wanted)
        self.seen.answered("call", wanted)
        return said

    def _clear_window(self):
        said = self.lib.call("clear_window", self.window)
        expect_answer("answer", said, self.book.clear_window())

    def _report(self):
        said = self.lib.call("report", self.bank, self.marks)
        expect_answer("answer", said, self.book.report())
        return said

    def _mark(self, name, *asked):
        said = self.lib.call(name, self.marks, *asked)
        expect_answer("answer", said, getattr(self.book, name)(*asked))

    def _place_chip(self, chip):
        self._mark("place_chip", chip)

    def _lift_chip(self, chip):
        self._mark("lift_chip", chip)

    def _place_card(self, card):
        self._mark("place_card", card)

    def _lift_card(self):
        self._mark("lift_card")

    def _write_register(self, address, value, output):
        after = bytearray(output)
        said = self.lib.call("write_register", self.registers, address, value,
                             self.bank, after, self.window)
        number, answer, wanted_after = self.book.write_register(
            address, value, output)
        expect("number", said, number)
        self.seen.answered("command", answer)
        expect("output after it", after, wanted_after)
        if answer is not None and value == registers.GET:
            self._promise(self.book.block_number(),
                          registers.refusal_in(self.registers), after)
        return said, after

    def _loose(self, name, *arguments):
        """A call on bytes of its own, which leaves bank and registers alone."""
        single.compare_call(self.lib, name, *arguments)


def shown(entry):
    return " ".join(part.hex() or "(empty)" if isinstance(part, bytes)
                    else str(part) for part in entry)
