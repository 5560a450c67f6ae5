"""Mistakes in placing marks, and in placing one that is there above all, planted
around the library for test_compare.py."""

import library
import registers


class Misplaced:
    """The library with one mistake in placing marks, by call, or by command, where
    the pending bits of a mark that was there may be mistaken too."""

    def __init__(self, lib, mistake, by_command=False, pending=None):
        self.lib, self.mistake = lib, mistake
        self.by_command, self.pending = by_command, pending

    def call(self, name, *arguments):
        marks, kind, asked = self._placing(name, arguments)
        if kind is None:
            return self.lib.call(name, *arguments)
        first = bytes(arguments[0])        # the record, or the registers
        before = bytes(marks)
        said = self.lib.call(name, *arguments)
        number = self._number(said, arguments)
        wrong, marks[:] = self.mistake(kind, before, asked, number, bytes(marks))
        if not self.by_command:
            return said if wrong == number else library.Answer(wrong, 0, 0, 0)
        self._tell(arguments[0], first[registers.PENDING], wrong)
        if self.pending and there(kind, before, asked, number):
            arguments[0][registers.PENDING] = self.pending(first[registers.PENDING])
        return said

    def _tell(self, held, pending, number):
        held[registers.LAST] = registers.REFUSED + number if number else 3
        held[registers.PENDING] = pending | (2 if number else 1)

    def _placing(self, name, arguments):
        """The record, "chip" or "card", and which; no kind where nothing is placed."""
        if not self.by_command:
            kind = {"place_chip": "chip", "place_card": "card"}.get(name)
            return (arguments[0], kind, arguments[1]) if kind else (b"", None, 0)
        if name != "write_register" or arguments[1] != registers.COMMAND:
            return b"", None, 0
        kind = {registers.MARK_CHIP: "chip", registers.MARK_CARD: "card"}
        held = arguments[0]
        return (memoryview(held)[registers.MARKS], kind.get(arguments[2]),
                held[registers.ASKED])

    def _number(self, said, arguments):
        if not self.by_command:
            return said.number
        return registers.refusal_in(arguments[0])


def there(kind, before, asked, number):
    """Whether the mark was there, in a lawful record."""
    return number == 0 and asked in (before[2:2 + before[1]] if kind == "chip"
                                     else before[:1])


def placing(when, number, record):
    """Where `when` holds, this number, and the record made of the one before."""
    def mistake(kind, before, asked, real, after):
        if not when(kind, before, asked, real):
            return real, after
        return number, record(before, asked)
    return mistake


def unchanged(before, asked):
    return before


def again(kind, least=0):
    """Of a chip or card that is there, where at least so many chips are."""
    return lambda what, before, asked, number: (
        what == kind and there(what, before, asked, number) and before[1] >= least)


NOTHING_MISPLACED = placing(lambda *_: False, 0, unchanged)
MISPLACED = {
    "a chip that is there is 7": placing(again("chip"), 7, unchanged),
    "one of two that are there is 7": placing(again("chip", 2), 7, unchanged),
    "one of two that are there is 8": placing(again("chip", 2), 8, unchanged),
    "a card that is there is 7": placing(again("card"), 7, unchanged),
    "a card that is there is 8": placing(again("card"), 8, unchanged),
    "a chip stands there twice": placing(
        lambda *asked: again("chip")(*asked) and asked[1][1] == 1, 0,
        lambda before, asked: bytes((before[0], 2, asked, asked))),
    "a chip moves to the end": placing(
        again("chip", 2), 0, lambda before, asked: before[:2] + bytes(
            (before[2] + before[3] - asked, asked))),
    "a card lifts the chips": placing(
        again("card", 1), 0, lambda before, asked: bytes((asked, 0, 255, 255))),
    "another card takes its place": placing(
        lambda kind, before, asked, number: kind == "card" and number == 8, 0,
        lambda before, asked: bytes((asked,)) + before[1:]),
    "a third chip takes the second's place": placing(
        lambda kind, before, asked, number: kind == "chip" and number == 8, 0,
        lambda before, asked: before[:3] + bytes((asked,))),
}
# What becomes of the pending bits, by command, of a mark that was there.
PENDING = {
    "no bit is set": lambda before: before, "bit 1 is set": lambda before: before | 2,
    "both bits are set": lambda before: before | 3,
    "the other bit goes": lambda before: 1,
}
# Seen only under a record that no call makes.
EQUAL_CHIPS = {
    "one of two equal chips is no fault": placing(
        lambda kind, before, asked, number: kind == "chip" and number == 7
        and asked == before[2], 0, unchanged),
    "the card beside equal chips is no fault": placing(
        lambda kind, before, asked, number: kind == "card" and number == 7
        and asked == before[0], 0, unchanged),
    "equal chips are made one": placing(
        lambda kind, before, asked, number: number == 7, 0,
        lambda before, asked: bytes((before[0], 1, before[2], 255))),
    "a card outside its range that is there is no fault": placing(
        lambda kind, before, asked, number: kind == "card" and number == 6
        and len(before) == 4 and asked == before[0], 0, unchanged),
}
