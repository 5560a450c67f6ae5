"""A bank patrolled in memory, and what the window then holds and proposes.

The bank, the window and the proposal are the library's.  Here the window's
positions are counted, and nothing is decided.
"""

from collections import Counter

from readings import CHIPS, Refused, library

NOWHERE = 255        # in the window no position yet, as a proposal no chip
OFTEN = 4            # the times from which the library proposes a chip


class Patrolled:
    """Every block patrolled once, from block 0 and an empty window on, under
    the marks that the bank was seen under.  Raises Refused."""

    def __init__(self, lib, seen, bank):
        self.seen = seen
        mended, window = bytearray(bank), bytearray(library.WINDOW)
        lib.call("clear_window", window)
        self.answers = [lib.call("patrol", mended, k, seen.marks, window)
                        for k in range(seen.blocks)]
        self.bank = bytes(mended)
        self.added = sum(answer.n for answer in self.answers
                         if answer.number == 0)
        self.held = [p for p in window if p != NOWHERE]
        self.times = Counter(self.held)
        self.proposed = proposed(lib, window, seen.marks)

    def by_times(self):
        """Positions that stand in the window, the most often first."""
        return sorted(self.times, key=lambda p: (-self.times[p], p))

    def often_on(self, card):
        """Chips of a card that stand there often enough for a proposal."""
        return [p for p in self.times
                if p // CHIPS == card and self.times[p] >= OFTEN]

    def passed_over(self, p):
        """What keeps a chip that stands there often from being proposed."""
        if self.times[p] < OFTEN or p == self.proposed:
            return None
        if p in self.seen.marked_chips():
            return "marked"
        if p // CHIPS == self.seen.marked_card():
            return "the card is marked"
        return "a lower one is proposed"


def proposed(lib, window, marks):
    """The chip that the library proposes, or None."""
    proposal = lib.call("propose", window, marks)
    if proposal.number:
        raise Refused(proposal.number)
    return None if proposal.chip == NOWHERE else proposal.chip
