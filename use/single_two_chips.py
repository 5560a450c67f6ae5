"""Two bad chips and no marks, order 11, through the library.

Every pair of positions: reads with all the values of second/two_chips.py, and banks
whose blocks are put, hit, got, patrolled and counted, by call and by command.  What
the library does is compared twice, with the second implementation and with what the
order expects.  Beside it one bad chip, and three.
"""

from itertools import cycle, islice

import damage
import reference as ref
import registers
import single
import two_chips
from agree import Difference
from with_book import Run, shown
from reference import Answer, BLOCK, FRESH, IN_CHIPS, RECORD
from two_chips import LIMITS, PAIRS, damaged

BLOCKS = 4                                  # of a bank: a case of a_few in each
ONE_CHIP = Answer(kind=IN_CHIPS, n=1)       # what 01 says of one bad chip
OPENED = ref.open_marks(FRESH)


def as_expected(what, said, after, expected, before):
    """The answer, and the bytes after it: the block that comes out, or where none does
    those that stood there before.  No word of the second implementation's is in it."""
    answer, member = expected
    wanted = before if member is None else member
    if (said, after) != (answer, wanted):
        raise Difference(f"{what}\n  library  {said} {after.hex(' ')}\n"
                         f"  expected {answer} {wanted.hex(' ')}")


# ---------------------------------------------------------------------- reads

def compare_read(lib, rng, block, expected=None):
    """A read without marks into any bytes: by the second implementation, and by what
    is expected, if that is given."""
    before = rng.randbytes(BLOCK)
    said, *_, after = single.compare_call(lib, "read", block, FRESH, before)
    if expected is not None:
        as_expected(f"read {block.hex()}", said, after, expected, before)


def reads(lib, rng, pairs=PAIRS):
    """Every case of each pair."""
    made = 0
    for good, held in two_chips.cases(rng, pairs):
        compare_read(lib, rng, damaged(good, held), two_chips.expected(good, held))
        made += 1
    return made


def one_chip(lib, rng):
    """Each position changed alone: the limits, and two values more."""
    made = 0
    for good, p in zip(cycle(two_chips.lawful_blocks(rng)), range(BLOCK)):
        for change in (*LIMITS, rng.randrange(1, 256), rng.randrange(1, 256)):
            block = damaged(good, {p: good[p] ^ change})
            compare_read(lib, rng, block, (ONE_CHIP, good))
            made += 1
    return made


def three_chips(lib, rng):
    """Each pair and one chip more; three of one card that fit every card; and three
    of a lawful difference of four, which are one chip from another lawful block.  The
    order does not speak of these."""
    made = 0
    for good, held in two_chips.cases(rng, PAIRS, lambda rng, p, q: [
            two_chips.at_random(rng)]):
        further = rng.choice([p for p in range(BLOCK) if p not in held])
        held[further] = good[further] ^ rng.randrange(1, 256)
        compare_read(lib, rng, damaged(good, held))
        made += 1
    for _ in range(30):
        good = ref.store(rng.randbytes(RECORD))
        fitting, row = bytearray(good), damage.lawful_in_one_row(rng)
        damage.three_chips_that_fit_every_card(rng, fitting, OPENED)
        left = rng.choice([p for p in range(BLOCK) if row[p]])
        near = damaged(good, {p: good[p] ^ row[p] for p in range(BLOCK) if p != left})
        for block in bytes(fitting), near:
            compare_read(lib, rng, block)
            made += 1
    return made


# ---------------------------------------------------------------------- banks

def as_they_stand(rng, good, held):
    return list(held.items())


def the_other_first(rng, good, held):
    return list(held.items())[::-1]


def one_set_back(rng, good, held):
    """A third chip is hit first, and last has its byte again."""
    third = rng.choice([p for p in range(BLOCK) if p not in held])
    return [(third, good[third] ^ rng.randrange(1, 256)), *held.items(),
            (third, good[third])]


HITS = as_they_stand, the_other_first, one_set_back


class Listed(Run):
    """A run that keeps its entries, to show them with a difference."""

    def __init__(self, lib, blocks):
        super().__init__(lib, blocks)
        self.entries = []

    def enter(self, *entry):
        self.entries.append(entry)
        return self.do(entry)

    def calls(self):
        return sum(entry[0] != "hit" for entry in self.entries)

    def command(self, command, k, output):
        """A get or a patrol by command: the answer in the registers, and the output."""
        self.enter("write_register", registers.LOW, k, output)
        _, after = self.enter("write_register", registers.COMMAND, command, output)
        last, detail = self.registers[registers.LAST], self.registers[registers.DETAIL]
        number = registers.refusal_in(self.registers)
        return Answer(number, 0 if number else last, detail >> 4, detail & 15), after


def put_and_hit(run, rng, cases, hits):
    """Each case in a block of its own, and the report of them all."""
    totals = [0] * 5
    for k, (good, held) in enumerate(cases):
        run.enter("put", k, good[:RECORD])
        for at, value in next(hits)(rng, good, held):
            run.enter("hit", BLOCK * k + at, value)
        answer, _ = two_chips.expected(good, held)
        totals[ref.total_of(answer)] += 1
    said = run.enter("report")
    if said != (0, tuple(totals)):
        raise Difference(f"report\n  library  {said}\n  expected {totals}")


def got_and_patrolled(run, rng, k, good, held):
    """A get by call and by command, and a patrol by one of the two; then one chip is
    good and the other bad, and it is got again."""
    expected, before = two_chips.expected(good, held), rng.randbytes(BLOCK)
    as_expected("get", *run.enter("get", k, before), expected, before)
    as_expected("get by command", *run.command(registers.GET, k, before), expected,
                before)
    if k % 2:
        said, _ = run.command(registers.PATROL, k, before)
    else:
        said = run.enter("patrol", k)
    as_expected("patrol", said, ref.block_of(run.bank, k), expected,
                damaged(good, held))
    bad, mended = rng.sample(list(held), 2)
    run.enter("hit", BLOCK * k + bad, held[bad])
    run.enter("hit", BLOCK * k + mended, good[mended])
    as_expected("get of one bad chip", *run.enter("get", k, before), (ONE_CHIP, good),
                before)


def banks(lib, rng, pairs=PAIRS):
    """For each pair a bank with a few of its cases, in any order, so that each sort of
    case comes to a patrol by call and to one by command; the ways to hit take turns."""
    made, hits = 0, cycle(HITS)
    cases = two_chips.cases(rng, pairs, two_chips.a_few)
    for _ in pairs:
        run = Listed(lib, BLOCKS)
        its_cases = rng.sample(list(islice(cases, BLOCKS)), BLOCKS)
        try:
            put_and_hit(run, rng, its_cases, hits)
            for k, case in enumerate(its_cases):
                got_and_patrolled(run, rng, k, *case)
        except Difference as difference:
            entries = "\n".join("  " + shown(entry) for entry in run.entries)
            raise Difference(f"{entries}\n{difference}") from None
        made += run.calls()
    return made


def compare_all(lib, rng):
    """All of the above; gives how many calls were made."""
    return (reads(lib, rng) + one_chip(lib, rng) + three_chips(lib, rng)
            + banks(lib, rng))
