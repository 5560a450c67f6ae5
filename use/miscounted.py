"""Readings that count the chip marks otherwise under a card mark, planted around the
library for test_compare.py."""

from functools import lru_cache
from unittest import mock

import library
import reference as ref
from reference import BLOCK, CHIPS


def off(marks):
    """The marked chips outside the marked card, in the record's order."""
    return [p for p in marks.chips if p // CHIPS != marks.card]


# How many chip marks count under a card mark: order 5's, and mistakes.
COUNTED = ref.counted
MISCOUNTED = {
    "every one": lambda marks: len(marks.chips),
    "those on the card": lambda marks: len(marks.chips) - len(off(marks)),
    "none": lambda marks: 0,
    "all but the first on the card": lambda marks:
        len(marks.chips) - (len(off(marks)) < len(marks.chips)),
    "none where one is on the card": lambda marks:
        len(marks.chips) if len(off(marks)) == len(marks.chips) else 0,
    "the first": lambda marks: len(off(marks._replace(chips=marks.chips[:1]))),
    "the last": lambda marks: len(off(marks._replace(chips=marks.chips[-1:]))),
}


class Miscounted:
    """The library with reads and gets under a card mark by another count, answer and
    output; what a get adds to the window is the library's."""

    def __init__(self, lib, counted):
        self.lib, self.counted = lib, counted
        self.sets = lru_cache(maxsize=None)(ref.allowed_sets.__wrapped__)

    def call(self, name, *arguments):
        if name == "read":
            block, marks, output = arguments
        elif name == "get":
            bank, k, marks, output = arguments[:4]
            block = bank[BLOCK * k:BLOCK * k + BLOCK]
        else:
            return self.lib.call(name, *arguments)
        block, before = bytes(block), bytes(output)
        said = self.lib.call(name, *arguments)
        if said.number in (0, ref.NONE) and marks[0] != ref.UNUSED:
            opened = ref.open_marks(marks)
            if len(off(opened)) < 2:        # else no rule is left for one more chip
                said, output[:] = self.read(block, opened, before)
        return said

    def read(self, block, marks, before):
        with mock.patch.object(ref, "counted", self.counted), \
                mock.patch.object(ref, "allowed_sets", self.sets):
            found = ref.lawful_blocks(block, marks)
        if not found:
            return library.Answer(ref.NONE, 0, 0, 0), before
        member = min(found)             # by too low a count there are more than one
        answer = ref.describe(ref.changed(block, member), marks)
        return library.Answer(*answer), member
