#!/usr/bin/env python3
"""Every constant table of the crates is named in one statement (document 02, order 12).

The statement is the record EveryTable in crates/constants/specs/EveryTable.antt, which
says of each table what it is: the limits of slips are order 8's, and every other is what
the numbers of the tables program give.  audit/statement.py has how it names a function.
Here all functions of all crates of crates.txt are looked at, those of the programs too,
as the compiler lowers them.  The kit's are not: they are no part of the library.

A function has a constant table if it has one of these.  A number counts as one of the
source also if it is worked out from such numbers alone, by operations or by calls that
are handed nothing else.

- An array written out, wherever it goes: its elements are numbers of the source, truth
  values, or arrays, structs and forms of an enum with such inside, and not all equal.
  If all are, it is an empty buffer: `[0; 20]`, or eight zeros.
- An array that is filled in steps: all that is written into it is such, at indexes that
  are numbers of the source, and two are different.
- Four different numbers of the source in an array beside elements that are not, in a
  struct, or handed to one call.  Fewer are taken for a value of that shape: a slip has
  three at most, a mark record two.
- A match on a number, or several on the same, with three arms or more that each put one
  or more numbers of the source into the same place, not all of them equal.  The place
  may be a parameter of a function, or one side of an operation.  A match on an enum
  says what its forms mean, and is no table.
- Tests of one number against numbers of the source, by `if` or by ranges in a match, by
  which three different numbers come into the same place.
- A number of the source with two bits or more that is shifted by an amount that is not
  one: a table packed into a word.

Words of the output are no table: audit/words.py tells them by what is done with them.

Refused are a function that has a constant table and is not named; one that is named and
has none, since the statement is then out of date; and a statement without its theorem.
So is a function with a table that the tables program can reach, itself included: it is
to work out its numbers from none.

Not seen are:

- single numbers, and fewer than four in each of several structs or calls;
- a table in two steps, from a number to a form of an enum and from that to a number;
- a match or tests that say yes or no; a match of two arms, and tests with two results;
- tests of what a call works out anew for each of them;
- a word that is taken apart otherwise than by shifting it, by quotients or by a mask
  that is shifted;
- words of the output that mean numbers, and have no digit;
- a constant that no function uses;
- one more table in a function that is named, and what the statement says of it: that is
  for its reader.

    audit/constants.py [--crates DIR] [--list]

--crates DIR  the crates to look at, the statement among them (default: this
              repository's)
--list        show each table: function, length and first numbers
"""

import sys
from dataclasses import dataclass

sys.dont_write_bytecode = True

from asked import asked
from known import walked
from lowered import lower_all
from statement import LINE, STATEMENT, THEOREM, is_proved, named
from tables import place, whole
from terms import Unreadable
from values import EACH, Sign, is_known, leaves, numbers
from words import all_that_put, are_words

PRINTER = "tables::main"
MIXED = 4       # so many different numbers are a table: beside others, or in a struct
ARMS = 3        # so many arms of a match are one, and so many results of tests
SHOWN = 4


@dataclass(frozen=True)
class Table:
    function: str
    form: str
    values: tuple

    def __str__(self):
        shown = numbers(self.values) or leaves(self.values, Sign)
        first = ", ".join(map(str, shown[:SHOWN])) + ", .." * (len(shown) > SHOWN)
        return f"{self.function}: {self.form}: {first}"


# ---- what is a table

def differ(values, count=2):
    return len(set(values)) >= count


def arrays(walk, put):
    """Arrays written out that are tables."""
    for to, kind, values in walk.made:
        constant = tuple(filter(is_known, values))
        if kind[0] != "ty_array":
            continue
        if len(constant) == len(values) and differ(values):
            if not are_words(walk.function, to, values, put):
                yield f"an array of {len(values)}", values
        elif differ(constant, MIXED):
            yield f"an array of {len(values)} with {len(constant)} numbers", constant


def beside(walk):
    """Numbers beside each other in a struct, or handed to one call."""
    structs = [values for _, kind, values in walk.made if kind[0] != "ty_array"]
    for form, made in (("struct", structs), ("call", walk.handed)):
        for values in made:
            single = tuple(number for number in values if isinstance(number, int))
            if differ(single, MIXED):
                yield f"a {form} with {len(single)} numbers", single


def filled(walk):
    """Arrays that are filled in steps."""
    for writes in walk.written.values():
        constant = [write for write in writes if is_known(write)]
        values = tuple(value for _, value in constant)
        at = {at for at, _ in constant} - {EACH}
        if at and differ(values, 2 if len(constant) == len(writes) else MIXED):
            yield "an array filled in steps", values


def same_place(function):
    """For each value the lowest of those that are copies of each other."""
    lowest = list(range(len(function.values)))
    for step in function.steps:
        if step[0] == "assign" and whole(step[2]) is not None and not place(step[1])[1]:
            one, other = lowest[whole(step[2])], lowest[place(step[1])[0]]
            lowest = [min(one, other) if at in (one, other) else at for at in lowest]
    return {f"value {value}": f"value {at}" for value, at in enumerate(lowest)}


def handed_out(walk, apart):
    """What tests of one number put into one place, apart from these."""
    same, found = same_place(walk.function), {}
    for where, value, tests in walk.given:
        if is_known(value) and numbers(value) and value not in apart:
            innermost = {test[0]: test for test in tests if test[0]}
            for of, by, arm in innermost.values():
                ways = found.setdefault((same.get(where, where), of), {})
                ways[arm] = value, by
    for ways in found.values():
        values = tuple(value for value, _ in ways.values())
        matched = [value for value, by in ways.values() if by == "switch"]
        if differ(values, ARMS) or (len(matched) >= ARMS and differ(matched)):
            form = "a match" if len(matched) == len(ways) else "tests"
            yield f"{form} with {len(ways)} results", values


def packed(walk):
    """Numbers that are shifted by what is not known."""
    for value in walk.shifted:
        if not isinstance(value, int) or bin(value).count("1") > 1:
            yield "a number that is shifted", (value,)


def tables(program):
    """Every constant table of a program."""
    put, found = all_that_put(program), []
    for name, function in sorted(program.functions.items()):
        walk = walked(program, function)
        written_out = list(arrays(walk, put))
        by_tests = handed_out(walk, {values for _, values in written_out})
        found += [Table(name, *table) for table in (
            *written_out, *beside(walk), *filled(walk), *by_tests, *packed(walk))]
    return found


# ---- what is refused

def refusals(found, names, proved):
    """Every reason for which the source or the statement is refused."""
    for table in found:
        if table.function not in names:
            yield f"{table}; crates/{STATEMENT} does not name it"
    for function in sorted(set(names) - {table.function for table in found}):
        yield (f"{function}: crates/{STATEMENT} names it, as {names[function]}, and it "
               "has no constant table")
    if not proved:
        yield f"crates/{THEOREM}: it has no line `{LINE}`"


def leaning(program, found):
    """The tables that the tables program can look its numbers up in."""
    reached = program.mentioned([PRINTER])
    for name in sorted({table.function for table in found} & reached):
        yield f"{PRINTER}: it can reach {name}, which has a constant table"


def main():
    options = asked(__doc__)
    try:
        program = lower_all(options.crates)
        found = tables(program)
        if options.list:
            print("\n".join(map(str, found)))
        refused = [*refusals(found, named(options.crates), is_proved(options.crates)),
                   *leaning(program, found)]
    except Unreadable as reason:
        sys.exit(f"audit/constants: {reason}")
    if refused:
        sys.exit("\n".join([*refused, f"audit/constants: {len(refused)} refused"]))
    names = sorted({table.function for table in found})
    print(f"audit/constants: {len(found)} constant tables in {len(names)} functions, "
          f"all named in crates/{STATEMENT}, and {PRINTER} reaches none of them: "
          f"{', '.join(names)}")


if __name__ == "__main__":
    main()
