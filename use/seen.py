"""What the lists of compare.py show of proposals, of marks placed again and of cards
named with 11, counted by their entries."""

from collections import Counter

import reference as ref
import registers
import window

WITH = "with a proposal"
HIDDEN = "with one hidden by a mark"
LEFT = "at which one left the window"
AGAIN = {(what, how): f"that placed {what} again by {how}"
         for what in ("a chip", "one of two chips", "a card")
         for how in ("call", "command")}
NAMED = {how: f"that named a card above 0 with 11 by {how}"
         for how in ("call", "command")}
ALL = WITH, HIDDEN, LEFT, *AGAIN.values(), *NAMED.values()


def placed(book, name, *arguments):
    """What an entry places: "chip" or "card", or None, and which."""
    if name in ("place_chip", "place_card"):
        return name[-4:], arguments[0]
    if name == "write_register" and arguments[0] == registers.COMMAND:
        kind = {registers.MARK_CHIP: "chip", registers.MARK_CARD: "card"}
        return kind.get(arguments[1]), book.eight[registers.ASKED]
    return None, None


def again(book, name, *arguments):
    """What an entry that is to come places although it is there, and how; or None."""
    kind, asked = placed(book, name, *arguments)
    how = "command" if name == "write_register" else "call"
    if kind == "card" and asked == book.card:
        return "a card", how
    if kind == "chip" and asked in book.chips:
        return "a chip" if len(book.chips) == 1 else "one of two chips", how
    return None


class Seen(Counter):
    """Entries of one list, or of several after update."""

    proposed = window.NONE             # after the entry before

    def entry(self, book, chip):
        """One more entry, after which the book proposes this chip."""
        often = book.often()
        self[WITH] += chip != window.NONE
        self[HIDDEN] += chip != min(often, default=window.NONE)
        # After a clear of the window no run is left.
        self[LEFT] += bool(book.run) and self.proposed not in {window.NONE, *often}
        self.proposed = chip

    def to_come(self, book, name, *arguments):
        """One more entry, before it is made."""
        made = again(book, name, *arguments)
        if made:
            self[AGAIN[made]] += 1

    def answered(self, how, answer):
        """The answer of a get or a patrol, or of a command; None of another write."""
        if answer is not None and answer.number == ref.SEVERAL:
            self[NAMED[how]] += answer.card > 0

    def words(self):
        return ", ".join(f"{self[what]} {what}" for what in ALL)

    def lacking(self):
        return [what for what in ALL if self[what] == 0]
