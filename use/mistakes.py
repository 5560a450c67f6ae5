"""Mistakes with the window, planted around the library for test_compare.py."""

import library


class Mistaken:
    """The library with one mistake.  It keeps the window lent last, so that a
    call which isn't lent one can err there too."""

    def __init__(self, lib, mistake):
        self.lib, self.mistake, self.window = lib, mistake, bytearray(64)

    def call(self, name, *arguments):
        for kind, value in zip(library.CALLS[name][1], arguments):
            if kind.endswith("64"):
                self.window = value
        before = bytes(self.window)
        said = self.lib.call(name, *arguments)
        return self.mistake(name, said, arguments, self.window, before)


def is_marked(chip, marks):
    return chip in marks[2:] or chip // 9 == marks[0]


def proposing(times=4, choose=min, hidden=is_marked, since=0):
    """A propose that goes by these."""
    def mistake(name, said, arguments, window, before):
        if name != "propose" or said.number:
            return said
        chips = [chip for chip in range(45) if window.count(chip, since) >= times
                 and not hidden(chip, arguments[1])]
        return library.Proposal(0, choose(chips, default=255))
    return mistake


def leaving(other, *names, when=lambda said, arguments: True):
    """Calls of these names that leave another window: it is made of the one after
    the real call and the one before it."""
    def mistake(name, said, arguments, window, before):
        if name in names and when(said, arguments):
            window[:] = other(bytes(window), before)
        return said
    return mistake


def refused(*numbers):
    """By call, or by command, of which byte 4 of the registers tells."""
    return lambda said, arguments: (
        (arguments[0][4] - 16 if said == 0 else said) if isinstance(said, int)
        else said.number) in numbers


def as_before(after, before):
    return before


def one_more(after, before):
    return after[1:] + b"\x07"


def emptied(after, before):
    return b"\xFF" * 64


def turned_round(after, before):
    """What was added, highest first."""
    added = next(n for n in range(65) if after == before[n:] + after[64 - n:])
    return after[:64 - added] + after[64 - added:][::-1]


READING = "get", "patrol", "write_register"
NO_MISTAKE = proposing()

PROPOSED = {
    "the highest": proposing(choose=max), "three times": proposing(times=3),
    "five times": proposing(times=5), "not over the oldest": proposing(since=1),
    "a marked chip": proposing(hidden=lambda chip, marks: chip // 9 == marks[0]),
    "a chip marked second": proposing(
        hidden=lambda chip, marks: chip == marks[2] or chip // 9 == marks[0]),
    "a chip of the marked card": proposing(
        hidden=lambda chip, marks: chip in marks[2:]),
}
ADDED = {
    "highest first": leaving(turned_round, *READING),
    "to 63": leaving(lambda after, before: b"\xFF" + after[1:], *READING),
    "while there is room": leaving(
        lambda after, before: after if 255 in before else before, *READING),
    "by no get": leaving(as_before, "get"),
    "by no patrol": leaving(as_before, "patrol"),
    "by no command": leaving(as_before, "write_register"),
    "by a clean get": leaving(one_more, "get",
                              when=lambda said, _: said == (0, 0, 0, 0)),
    "with none": leaving(one_more, *READING, when=refused(10)),
    "with several": leaving(one_more, *READING, when=refused(11)),
    "when refused": leaving(one_more, *READING, when=refused(*range(1, 10))),
    "and not cleared": leaving(as_before, "clear_window"),
}
# Seen only where one call follows another.
BETWEEN_CALLS = {
    "no get adds again": leaving(
        lambda after, before: before if after[63] == before[63] else after, "get"),
    "a report adds": leaving(one_more, "report"),
    "a put adds": leaving(one_more, "put"),
    "a clear of the bank clears it": leaving(emptied, "clear"),
    "a mark clears it": leaving(emptied, "place_chip"),
    "a lift clears it": leaving(emptied, "lift_card"),
    "proposing clears it": leaving(emptied, "propose"),
}
