"""Order 2's window, written a second time for comparison.

The window is the last 64 of a run of corrected positions.  It is lent as a
bytearray of 64 bytes, as bank and output are: the positions stand at its end,
the oldest first, and 255 where there is none yet.  Any 64 bytes may be lent; a
byte that is no position is never proposed, and leaves as the others do.
"""

import reference as ref

SIZE = 64
NONE = 255                             # no position yet; no chip to propose
START = bytes([NONE]) * SIZE
OFTEN = 4                              # order 2: "four times or more"


def clear(window):
    """Make the window empty; nothing is refused."""
    window[:] = START
    return ref.Answer()


def add(window, block, member):
    """Add the positions of a correction, lowest first; the oldest leave."""
    run = bytes(window) + bytes(ref.changed(block, member))
    window[:] = run[-SIZE:]


def get(bank, k, output, marks, window):
    """reference.py's get; if it corrects, its positions are added."""
    answer = ref.get(bank, k, output, marks)
    if answer.number == 0:
        add(window, ref.block_of(bank, k), output)
    return answer


def patrol(bank, k, marks, window):
    """reference.py's patrol, likewise."""
    block = ref.block_of(bank, k)
    answer = ref.patrol(bank, k, marks)
    if answer.number == 0:
        add(window, block, ref.block_of(bank, k))
    return answer


def propose(window, marks):
    """(number, chip): 255 if no chip is proposed.  Refusals 6, 7, with 0."""
    number = ref.marks_cause(marks)
    if number:
        return number, 0
    now = ref.open_marks(marks)
    for chip in range(ref.BLOCK):
        marked = chip in now.chips or chip // ref.CHIPS == now.card
        if window.count(chip) >= OFTEN and not marked:
            return 0, chip
    return 0, NONE
