"""The bank program of document 01, written a second time for comparison.

Standard input: 4 mark bytes, then a bank.  Standard output: the lines that
01 prescribes, each ended by a newline.
"""

import sys
from functools import lru_cache

import reference as ref

MARKS = 4
LONGEST = MARKS + ref.BLOCK * ref.MOST_BLOCKS

# A bank may hold one block many times; it is read once.
reading = lru_cache(maxsize=64)(ref.reading)


def block_line(k, answer):
    """The line of a block that is not clean."""
    if answer.number == ref.NONE:
        return f"{k} none"
    if answer.number == ref.SEVERAL:
        return f"{k} several {answer.card}"
    if answer.kind == ref.IN_CHIPS:
        return f"{k} chips {answer.n}"
    return f"{k} card {answer.card} {answer.n}"


def lines(data):
    """The lines for the whole of standard input."""
    if len(data) < MARKS:
        # Too short for a mark record is 6, although the bank is missing too.
        return ["refused 6"]
    marks, bank = data[:MARKS], data[MARKS:]
    number = ref.lowest(ref.bank_cause(bank), ref.marks_cause(marks))
    if number:
        return [f"refused {number}"]
    blocks = len(bank) // ref.BLOCK
    totals = [0] * 5
    said = [f"blocks {blocks}"]
    for k in range(blocks):
        answer, _ = reading(ref.block_of(bank, k), marks)
        which = ref.total_of(answer)
        totals[which] += 1
        if which != ref.CLEAN:
            said.append(block_line(k, answer))
    names = ("clean", "chips", "card", "none", "several")
    said.append(" ".join(f"{name} {total}" for name, total in zip(names, totals)))
    said.append(f"sound {ref.sound_per_thousand(totals)}")
    return said


def text(data):
    return "".join(line + "\n" for line in lines(data))


def main():
    # One byte beyond the longest bank tells "too long"; an endless input
    # must not keep the program from ending.
    data = sys.stdin.buffer.read(LONGEST + 1)
    sys.stdout.write(text(data))


if __name__ == "__main__":
    main()
