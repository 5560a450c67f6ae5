"""How the blocks of a bank read, for the tools that show it.

The answers and the corrected bytes are the library's, or with FromSecond those
of second/.  Nothing is decided here: a byte counts as changed where the
corrected block differs from the block read.
"""

import contextlib
import sys
from collections import namedtuple
from pathlib import Path

ROOT = Path(__file__).resolve().parent.parent
sys.path[:0] = [str(ROOT / "use"), str(ROOT / "second")]

import library  # noqa: E402

CARDS, CHIPS, BLOCK = 5, 9, 45
MOST_BLOCKS = 1024
LARGEST = BLOCK * MOST_BLOCKS
TOTALS = ("clean", "chips", "card", "none", "several")

# One block that is not clean: its number, the reading's word and n, the card
# (with "card" the corrected one, with "several" the lowest that fits) and the
# positions changed.
Unclean = namedtuple("Unclean", "k word card n changed")


class Refused(Exception):
    """A refusal's number from document 01."""

    def __init__(self, number):
        super().__init__(number)
        self.number = number


# --------------------------------------------------------------- the answers

class FromLibrary:
    """The report and the readings by the library's C interface."""

    def __init__(self, lib):
        self.lib = lib

    def report(self, bank, marks):
        return self.lib.call("report", bank, marks)

    def read(self, block, marks):
        out = bytearray(BLOCK)
        answer = self.lib.call("read", block, marks, out)
        return answer, bytes(out)


class FromSecond:
    """The same by the second implementation."""

    def __init__(self):
        import reference
        self.ref = reference

    def report(self, bank, marks):
        answer, totals = self.ref.report(bank, marks)
        return answer.number, totals

    def read(self, block, marks):
        return self.ref.reading(block, marks)


@contextlib.contextmanager
def source(archive, second=False):
    if second:
        yield FromSecond()
    else:
        with library.open_library(archive) as lib:
            yield FromLibrary(lib)


# ---------------------------------------------------------------- the summary

def word_of(answer):
    if answer.number:
        return {10: "none", 11: "several"}[answer.number]
    return TOTALS[answer.kind]


class Seen:
    """What the bank's readings say.  Raises Refused."""

    def __init__(self, answers, marks, bank, step=lambda done: None):
        number, self.totals = answers.report(bank, marks)
        if number:
            raise Refused(number)
        self.marks = bytes(marks)
        self.blocks = len(bank) // BLOCK
        self.unclean = []
        for k in range(self.blocks):
            self._add(k, bank[BLOCK * k:BLOCK * k + BLOCK], answers)
            step(k + 1)
        self._count()

    def _add(self, k, block, answers):
        answer, corrected = answers.read(block, self.marks)
        changed = ()
        if answer.number == 0:
            changed = tuple(p for p in range(BLOCK) if block[p] != corrected[p])
        word = word_of(answer)
        if word != "clean":
            self.unclean.append(Unclean(k, word, answer.card, answer.n, changed))

    def _count(self):
        self.unread = [u for u in self.unclean if u.word in ("none", "several")]
        self.read = self.blocks - len(self.unread)
        self.changed = [0] * BLOCK        # blocks in which a chip was changed
        self.touched = [0] * CARDS        # blocks with a change on the card
        self.as_card = [0] * CARDS        # blocks read as "card j"
        for u in self.unclean:
            for p in u.changed:
                self.changed[p] += 1
            for j in {p // CHIPS for p in u.changed}:
                self.touched[j] += 1
            if u.word == "card":
                self.as_card[u.card] += 1

    def total(self, word):
        return self.totals[TOTALS.index(word)]

    def marked_card(self):
        return self.marks[0] if self.marks[0] < CARDS else None

    def marked_chips(self):
        return list(self.marks[2:2 + self.marks[1]])


# ------------------------------------------------------------------- in words

def plural(count, what):
    return f"{count:,} {what}" + ("" if count == 1 else "s")


def chip_words(p):
    return f"chip {p % CHIPS} of card {p // CHIPS}"


def marks_in_words(seen):
    parts = []
    if seen.marked_card() is not None:
        parts.append(f"card {seen.marked_card()}")
    parts += [chip_words(p) for p in seen.marked_chips()]
    return ("Marked: " + ", ".join(parts)) if parts else "No marks"
