"""Which values of a function are tables: filled with constants, and never written
afterwards, so that no byte of a block can be there.

Constants count only in the functions that are named as making a table.  Anywhere
else a table is the result of one of these, or a copy of a table.
"""

from lowered import called, written_by
from terms import items, parts


def place(term):
    """The value that a place is in or behind, and whether it is only a part of it."""
    return int(term[1]), bool(items(term[2]))


def whole(what):
    """The value of which all is copied, if that is what is written."""
    if what[0] == "rv_opd" and what[1][0] == "copy":
        value, part = place(what[1][1])
        return None if part else value
    return None


def writes(function):
    """Every write: the value, whether into a part of it or behind it, and what."""
    for step in function.steps:
        yield *place(written_by(step)), step[2] if step[0] == "assign" else step


# ---- by its address

def pointed(what):
    """The value whose address is taken, or the pointer that is moved."""
    if what[0] == "addr_of":
        return place(what[1])[0]
    if what[0] == "op2" and what[1] == "offset":
        return place(what[2][1])[0]
    return None


def copied(what):
    """The values of which all is copied into what is written."""
    return {place(term[1])[0] for term in parts(what)
            if term[0] == "copy" and not place(term[1])[1]}


def is_only_read(function, value):
    """Whether nothing can come into a value by way of its address: that goes into
    references that only read, and into pointers that are moved and read through."""
    pointers, found = set(), -1
    while len(pointers) > found:
        found = len(pointers)
        for to, part, what in writes(function):
            if part and to in pointers:
                return False
            if pointed(what) is None and copied(what) & pointers:
                return False
            if pointed(what) in pointers | {value}:
                kind = function.values[to]
                if kind == "ty_ptr":
                    pointers.add(to)
                elif part or kind[0] != "ty_ref" or kind[1] != "imm":
                    return False
    return True


# ---- what fills it

def is_constant(what):
    """Whether what is written is numbers that stand in the source."""
    numbers = {"aggregate": items, "repeat": lambda number: [number]}.get(what[0])
    return bool(numbers) and all(number[0] == "int" for number in numbers(what[1]))


def is_table(function, value, others, makers):
    """Whether a value is filled by whole tables and nothing else, and then only read."""
    into = [not part and ((function.name in makers and is_constant(what))
                          or (what[0] == "call" and called(what) in makers)
                          or whole(what) in others)
            for to, part, what in writes(function) if to == value]
    return bool(into) and all(into) and is_only_read(function, value)


def tables(function, values, makers):
    """Of these values, those that are tables.  They may be copies of each other."""
    found = {value for value in values if not 1 <= value <= function.handed}
    while True:
        kept = {value for value in found if is_table(function, value, found, makers)}
        if kept == found:
            return found
        found = kept
