"""Document 01's book, with order 1's registers and order 2's window, for the lists
of demand 3.

It uses none of the calls of reference.py, registers.py and window.py, so that
each can be compared with it.
"""

from functools import lru_cache

import reference
from reference import (Answer, BLOCK, CARDS, CHIPS, MOST_BLOCKS, Marks, RECORD,
                       changed, close_marks, is_allowed, is_chip_kind, store,
                       total_of)

# A block may be read many times before it or the marks change; S is found once.
read_opened = lru_cache(maxsize=256)(reference.read_opened)


class Book:
    """01's book: fed the calls' arguments and the hits, it gives the answers.

    For each block it keeps good and held; beside them the marks in force,
    which are registers 8 to 11 as well, the eight registers before those, and
    the whole run of corrected positions since the window's last clear.
    """

    def __init__(self, blocks):
        assert 1 <= blocks <= MOST_BLOCKS
        self.blocks = blocks
        self.card = None
        self.chips = []
        self.eight = bytearray(8)      # registers 0 to 7
        self.run = []
        self.clear()

    # What stands after each entry.

    def bank(self):
        """The held blocks: the bank after the last entry."""
        return b"".join(self.held)

    def marks(self):
        """The mark record after the last entry."""
        return close_marks(self.in_force())

    def in_force(self):
        return Marks(self.card, tuple(self.chips))

    def registers(self):
        """Order 1's twelve bytes after the last entry."""
        return bytes(self.eight) + self.marks()

    def interrupt(self):
        """Order 1: raised "while bytes 6 and 7 share a set bit"."""
        return self.eight[6] & self.eight[7] != 0

    def window(self):
        """The last 64 of the run, oldest first; 255s before them make up 64."""
        return bytes(self.run[-64:]).rjust(64, b"\xFF")

    def often(self):
        """The chips that stand in the window four times or more."""
        last = bytes(self.run[-64:])
        return {chip for chip in set(last) if last.count(chip) >= 4}

    def is_marked(self, chip):
        return chip in self.chips or chip // CHIPS == self.card

    def proposal(self):
        """The lowest of those, neither it nor its card being marked; 255 for none."""
        return min((chip for chip in self.often() if not self.is_marked(chip)),
                   default=255)

    # The entries.

    def clear(self):
        self.good = [bytes(BLOCK) for _ in range(self.blocks)]
        self.held = [bytearray(BLOCK) for _ in range(self.blocks)]
        self.patrols_allowed = [True] * self.blocks
        return Answer()

    def put(self, k, record):
        if len(record) != RECORD:
            return Answer(3)
        if k >= self.blocks:
            return Answer(5)
        self.good[k] = store(record)
        self.held[k] = bytearray(self.good[k])
        self.patrols_allowed[k] = True
        return Answer()

    def hit(self, at, value):
        """Set byte `at` of the bank."""
        self.held[at // BLOCK][at % BLOCK] = value

    def get(self, k, output):
        """(answer, output after)."""
        before = bytes(output)
        if len(before) != BLOCK:
            return Answer(2), before
        if k >= self.blocks:
            return Answer(5), before
        answer, member = self._read(k)
        return answer, (before if member is None else member)

    def patrol(self, k):
        if k >= self.blocks:
            return Answer(5)
        self.patrols_allowed[k] &= self.damage_allowed(k)
        answer, member = self._read(k)
        if member is not None:
            self.held[k] = bytearray(member)
        return answer

    def _read(self, k):
        """(answer, member or None); a get and a patrol alone add to the run."""
        answer, member = read_opened(bytes(self.held[k]), self.in_force())
        if member is not None:
            self.run += changed(self.held[k], member)
        return answer, member

    def clear_window(self):
        self.run = []
        return Answer()

    def report(self):
        """(answer, totals)."""
        said = [total_of(read_opened(bytes(block), self.in_force())[0])
                for block in self.held]
        return Answer(), tuple(said.count(which) for which in range(5))

    def place_chip(self, chip):
        if chip >= BLOCK:
            return Answer(6)
        if len(set(self.chips) | {chip}) == 3:
            return Answer(8)
        if chip not in self.chips:
            self.chips.append(chip)
        return Answer()

    def place_card(self, card):
        if card >= CARDS:
            return Answer(6)
        if self.card not in (None, card):
            return Answer(8)
        self.card = card
        return Answer()

    def lift_chip(self, chip):
        if chip >= BLOCK:
            return Answer(6)
        if chip not in self.chips:
            return Answer(9)
        self.chips.remove(chip)
        return Answer()

    def lift_card(self):
        if self.card is None:
            return Answer(9)
        self.card = None
        return Answer()

    # A register write, an entry too: a command may stand for its call.

    def write_register(self, address, value, output):
        """(number, answer of the command or None if none ran, output after)."""
        output = bytes(output)
        if address > 11:
            return 12, None, output
        if address in (4, 5) or address > 7:
            return 13, None, output
        if address == 0:
            if value == 0 or value > 6:
                return 14, None, output
            return 0, *self._command(value, output)
        if address == 7:
            self.eight[7] -= self.eight[7] & value
        else:
            self.eight[address] = value
        return 0, None, output

    def block_number(self):
        """Order 1: "1 and 2 block number, low byte first"."""
        return int.from_bytes(self.eight[1:3], "little")

    def _command(self, command, output):
        """(answer, output after) of the entry that the command stands for."""
        asked = self.eight[3]
        if command == 1:
            answer, output = self.get(self.block_number(), output)
        elif command == 2:
            answer = self.patrol(self.block_number())
        elif command == 3:
            answer = self.place_chip(asked)
        elif command == 4:
            answer = self.place_card(asked)
        elif command == 5:
            answer = self.lift_chip(asked)
        else:
            answer = self.lift_card()
        self.eight[0] = command
        if answer.number == 0:
            self._done(answer.kind if command <= 2 else 3, answer)
        else:
            self._refused(answer)
        return answer, output

    def _done(self, said, answer):
        self.eight[4] = said
        self.eight[5] = answer.n + 16 * answer.card
        self.eight[7] |= 1

    def _refused(self, answer):
        self.eight[4] = 16 + answer.number
        self.eight[5] = 16 * answer.card
        self.eight[7] |= 2

    # Demand 3's last sentence.

    def damage(self, k):
        """01: "the damage to a block", as the positions that differ."""
        return changed(self.good[k], self.held[k])

    def damage_allowed(self, k):
        return is_allowed(self.damage(k), self.in_force())

    def promise(self, k):
        """What a get of block k must give now: (good block, may it be several).

        None where demand 3 promises nothing for this block.
        """
        if not (self.patrols_allowed[k] and self.damage_allowed(k)):
            return None
        marks = self.in_force()
        sure = marks.card is not None or is_chip_kind(self.damage(k), marks)
        return self.good[k], not sure
