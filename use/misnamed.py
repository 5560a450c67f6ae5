"""Readings that name another card with 11, planted around the library for
test_compare.py."""

import reference as ref
import registers
from reference import BLOCK, CHIPS


def without_marks(fit, marks, block):
    """The lowest that fits as if no chip were marked; with none, the lowest."""
    return min(ref.fitting_cards(block, marks._replace(chips=())) or fit)


def off_the_marks(fit, marks, block):
    """The lowest that has no marked chip; with none, the lowest."""
    marked = {p // CHIPS for p in marks.chips}
    return min([card for card in fit if card not in marked] or fit)


# Of the cards that fit, lowest first: order 6's, and mistakes.
LOWEST = lambda fit, marks, block: fit[0]            # noqa: E731
MISNAMED = {
    "card 0": lambda fit, marks, block: 0,
    "the highest": lambda fit, marks, block: fit[-1],
    "the second": lambda fit, marks, block: fit[1],
    "any": lambda fit, marks, block: fit[sum(block) % len(fit)],
    "the first mark's": lambda fit, marks, block: (*marks.chips, 0)[0] // CHIPS,
    "the lowest without marks": without_marks,
    "the lowest off the marks": off_the_marks,
}


CALLS = "read", "get", "patrol", "write_register"


class Misnamed:
    """The library with another card in the answer of a read, get or patrol, or in
    byte 5 of the registers after a command: in these calls."""

    def __init__(self, lib, named, calls=CALLS):
        self.lib, self.named, self.calls = lib, named, calls

    def call(self, name, *arguments):
        block, marks = self.asked(name, *arguments)
        said = self.lib.call(name, *arguments)
        if name not in self.calls or marks is None:
            return said
        if name == "write_register":
            held = arguments[0]
            if held[registers.LAST] == registers.REFUSED + ref.SEVERAL:
                held[registers.DETAIL] = 16 * self.card(block, marks)
        elif said.number == ref.SEVERAL:
            return said._replace(card=self.card(block, marks))
        return said

    def card(self, block, marks):
        opened = ref.open_marks(marks)
        return self.named(sorted(ref.fitting_cards(block, opened)), opened, block)

    @staticmethod
    def asked(name, *arguments):
        """The bytes that are read, and the marks; None where no block is read."""
        if name == "read":
            return bytes(arguments[0]), bytes(arguments[1])
        if name in ("get", "patrol"):
            bank, k, marks = arguments[:3]
        elif (name == "write_register" and arguments[1] == registers.COMMAND
              and arguments[2] in (registers.GET, registers.PATROL)):
            held, bank = arguments[0], arguments[3]
            k = held[registers.LOW] + 256 * held[registers.HIGH]
            marks = held[registers.MARKS]
        else:
            return None, None
        return bytes(bank[BLOCK * k:BLOCK * k + BLOCK]), bytes(marks)
