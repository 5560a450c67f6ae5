"""Which arrays are words of the output.

A byte string is lowered as an array of numbers like any other, so that what is done
with it tells: it is lent to `text::Text::put`, which is proved to put it into the
output as it is, or to a function that only hands it on there; and nothing else.  Its
bytes are characters and ends of lines, and none is a digit: those would be numbers,
written out.
"""

from lowered import SLICE, called
from terms import items, parts
from tables import place

PUT = ("text::Text::put", 2)    # what puts words into the output, and as which parameter
DIGITS = range(ord("0"), ord("9") + 1)


def are_characters(values):
    return all(isinstance(value, int) and (value == ord("\n") or 32 <= value < 127)
               and value not in DIGITS for value in values)


def mentioned(term):
    """The values that a term mentions."""
    return {int(part[1]) for part in parts(term) if part[0] == "place"}


def is_length(what):
    """Whether a slice's length is all that is copied."""
    return (what[0] == "rv_opd" and what[1][0] == "copy"
            and items(what[1][1][2]) == [["field", "1"]])


def goes_on(function, to, what):
    """Whether what is copied or lent goes, whole, where it can only be read."""
    value, part = place(to)
    kind = function.values[value]
    if part or value == 0 or what[0] not in ("rv_opd", "addr_of", "aggregate"):
        return False
    kind = items(kind[2])[0] if kind[:2] == SLICE else kind
    return kind[0] == "ty_array" or (kind[0] == "ty_ref" and kind[1] == "imm")


def hands(step, values, put):
    """Whether a call hands these on only as words."""
    return not values & mentioned(step[3]) and all(
        (called(step), at) in put for at, handed in enumerate(items(step[2]), 1)
        if values & mentioned(handed))


def is_only_put(function, value, put):
    """Whether all that is done with a value is to put it out."""
    values, found = {value}, 0
    while len(values) > found:
        found = len(values)
        for step in function.steps:
            if step[0] == "call":
                if not hands(step, values, put):
                    return False
            elif values & mentioned(step[2]) and not is_length(step[2]):
                if not goes_on(function, *step[1:]):
                    return False
                values.add(place(step[1])[0])
    return True


def are_words(function, to, values, put):
    """Whether an array of these values is words, which is written out at this place."""
    value, part = place(to)
    return (are_characters(values) and not part and value != 0
            and is_only_put(function, value, put))


def all_that_put(program):
    """The functions that only hand a parameter on to PUT, and which parameter."""
    found = {PUT}
    while True:
        more = {(function.name, at) for function in program.functions.values()
                for at in range(1, 1 + function.handed)
                if function.values[at][:2] == SLICE
                and is_only_put(function, at, found)}
        if more <= found:
            return found
        found |= more
