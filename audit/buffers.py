#!/usr/bin/env python3
"""No call of the reading has a buffer for a whole block (document 02, order 4).

Follows every function that read, get, patrol, report and a register write can reach,
down into the kit's own, and looks at each value that it has: its result, its
parameters, what it names and what it does not.  Refused, since 45 bytes of a block
could be there:

- a value of 45 bytes or more: an array, a part that is copied, a struct, or a
  parameter that is handed over by value;
- parameters by value that come to 45 bytes together;
- a block in pieces: in a function that is lent bytes, arrays that come to 45 bytes
  together, those inside structs too; and a function that can reach itself, since
  each of its turns could have a piece.

The card search is held to the nine row sums, the two label sums and the marks: it is
handed no more, and the crate it is in is lent a block only to make the change there.
What it reaches knows no more than that, so that pieces do not count there.

Bytes that are lent, as the block received and the output are, are referred to and not
held.  A function that is lent none has only what it is handed: less than a block.

Size alone decides, so that 45 bytes of anything else are refused too.  Aside are the
tables that TABLES names, each with its reason: constants that the function of that
name fills in and nobody writes afterwards, which is looked at here as well.

Not seen are pieces in single numbers, in structs of fewer than 45 bytes without an
array, or in several functions; and a block in lent bytes that are neither the block
received nor the output, as the window is.

    audit/buffers.py [--crates DIR] [--list]

--crates DIR  the crates to look at (default: this repository's)
--list        show each function that is followed, and its longest value
"""

import sys

sys.dont_write_bytecode = True

from asked import asked
from lowered import lower
from terms import Unreadable
from tables import tables

BLOCK = 45

# The calls of the reading, the same from C, and the register write, which runs some.
CALLS = ("block::read", "bank::get", "bank::patrol", "bank::report",
         *(f"capi::livomashen_{call}"
           for call in ("read", "get", "patrol", "report", "write_register")))

# A register write has many copies of the registers, which count as no pieces.
REGISTERS = {"registers::Registers"}

# The card search, and the bytes of each thing that it is handed; and what makes the
# change that it gives.
SEARCH = "decode::decode"
HANDED = {"sums::Sums": 9 + 2, "marks::Marks": 5}
MAKES = "decode::Correction::apply"

TABLES = {
    "code::labels":
        "the 45 labels, a byte each: constants, and it is handed nothing",
    "sums::words::card_words":
        "nine words of a card's labels: constants, and it is handed the card's number",
}


# ---- what is refused

def role(function, value):
    if value == 0:
        return "its result"
    return f"parameter {value}" if value <= function.handed else "a value of its own"


def sizes(function, measure):
    """The size of each value that is no table."""
    found = dict(enumerate(map(measure, function.values)))
    long = {value for value, size in found.items() if size >= BLOCK}
    apart = tables(function, long, TABLES)
    return {value: size for value, size in found.items() if value not in apart}


def alone(program, function):
    """Values that are long enough for a block."""
    for value, size in sizes(function, program.size).items():
        if size >= BLOCK:
            kind = program.written(function.values[value])
            yield f"{function.name}: {role(function, value)} is {kind}, {size} bytes"


def handed(program, function):
    """Parameters by value that are long enough together."""
    size = sum(map(program.size, function.parameters))
    if size >= BLOCK:
        yield f"{function.name}: it is handed {size} bytes by value"


def turns(program, function):
    """A function that can reach itself."""
    if function.name in {reached.name for reached in program.reached(function.callees)}:
        yield f"{function.name}: it can reach itself"


def is_lent(program, function):
    return any(map(program.refers, function.parameters))


def pieces(program, function):
    """Arrays that are long enough together, where bytes are lent."""
    size = sum(size for value, size in sizes(function, program.array_bytes).items()
               if program.written(function.values[value]) not in REGISTERS)
    if size >= BLOCK and is_lent(program, function):
        yield f"{function.name}: its arrays are {size} bytes together"


def search(program, followed):
    """A card search that has more than the sums and the marks."""
    if SEARCH not in program.functions:
        return
    kinds = program.functions[SEARCH].parameters
    found = {program.written(kind): program.size(kind) for kind in kinds}
    if found != HANDED:
        yield f"{SEARCH}: it is handed {found}"
    crate = SEARCH.split("::")[0] + "::"
    for name in sorted({name for function in followed for name in function.calls
                        if name.startswith(crate) and not function.name.startswith(crate)}):
        if name != MAKES and is_lent(program, program.functions[name]):
            yield f"{name}: it is lent bytes"


def reads(program, function):
    return SEARCH in program.mentioned([function.name])


def missed(program, followed):
    """What should be followed, and is not."""
    met = {function.name for function in followed}
    for name in (*TABLES, SEARCH):
        if name not in met:
            yield f"{name}: it is not reached"
    for function in program.functions.values():
        if function.name not in met and reads(program, function):
            yield f"{function.name}: it reads, and is not followed"


def refusals(program):
    """Every reason for which the source is refused."""
    followed = program.reached(CALLS)
    beside = program.reached(CALLS, beside={SEARCH})
    return [*(line for function in followed for rule in (alone, handed, turns)
              for line in rule(program, function)),
            *(line for function in beside for line in pieces(program, function)),
            *search(program, followed), *missed(program, followed)]


def main():
    options = asked(__doc__)
    try:
        program = lower(options.crates)
        found = refusals(program)
    except Unreadable as reason:
        sys.exit(f"audit/buffers: {reason}")
    if found:
        sys.exit("\n".join([*found, f"audit/buffers: {len(found)} refused"]))
    longest = {function.name: max(sizes(function, program.size).values(), default=0)
               for function in program.reached(CALLS)}
    if options.list:
        for name, size in sorted(longest.items()):
            print(f"{size:2} bytes at most: {name}")
    print(f"audit/buffers: {len(longest)} functions followed, and no value is as long as "
          f"a block: {max(longest.values())} bytes at most, beside the tables of "
          f"{' and '.join(TABLES)}")


if __name__ == "__main__":
    main()
