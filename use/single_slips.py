"""Slips written and read, the library's against second/slips.py.

Every slice of up to four bytes over the values at the limits, at every offset;
slips with bytes bent and cut; every outcome, written and read back, and at
every offset around a slice's end; codes that are no reading's; seeded runs;
and what gets of damaged banks give, written as it came.
"""

import itertools

import damage
import library
import slips
import window
from agree import Difference
from reference import Answer, BLOCK, CARDS, MOST_BLOCKS, NONE, SEVERAL

# The five maps, the numbers beside them, and the limits of the fields.
VALUES = (3, 11, 15, 17, 21, 2, 4, 10, 12, 14, 16, 18, 20, 22, 0, 1, 5, 9, 255)
FAR = (256, 2 ** 31, 2 ** 32 - 1, 2 ** 32, 2 ** 63, 2 ** 64 - 6, 2 ** 64 - 4,
       2 ** 64 - 1)
NUMBERS = (0, 1, 255, 256, 1023)
TOO_LARGE = (1024, 1025, 1279, 65535, 65536, 2 ** 24, 2 ** 32, 2 ** 32 + 5,
             2 ** 63, 2 ** 64 - 1)

READINGS = (Answer(), Answer(NONE),
            *(Answer(SEVERAL, card=card) for card in range(CARDS)),
            *(Answer(kind=1, n=n) for n in (1, 2)),
            *(Answer(kind=2, card=card, n=n)
              for card in range(CARDS) for n in range(1, 12)))
ONE_OF_EACH = (Answer(), Answer(kind=1, n=2), Answer(kind=2, card=4, n=11),
               Answer(NONE), Answer(SEVERAL, card=4))


def differ(call, said, wanted):
    raise Difference(f"{call}\n  library   {said}\n  reference {wanted}")


def shown(part):
    return part.hex(" ") or "(empty)"


def compare_read(lib, part, at):
    said, wanted = lib.call("read_slip", part, at), slips.read(part, at)
    if said != wanted:
        differ(f"read_slip {shown(part)} at {at}", said, wanted)
    return said


def compare_write(lib, part, at, k, answer):
    """The slice after it, too."""
    ours, theirs = bytearray(part), bytearray(part)
    code = library.answer_code(answer)
    said = lib.call("write_slip", ours, at, k, code)
    wanted = slips.write(theirs, at, k, answer)
    if said != wanted or ours != theirs:
        differ(f"write_slip {shown(part)} at {at}, {k}, {answer}",
               (said, shown(ours)), (wanted, shown(theirs)))
    return bytes(ours)


def read_back(lib, part, at, k, answer):
    """What was written is read; gives where the next slip stands."""
    said = compare_read(lib, part, at)
    if said.number or (said.k, said.reading) != (k, answer):
        differ(f"written and read back from {at}", said, (k, answer))
    return said.offset


# -------------------------------------------------------------------- slices

def short_slices(lib):
    """Every slice of up to four bytes over these values, at every offset in it
    and at two behind it, and at far ones."""
    far, made = itertools.cycle(FAR), 0
    for length in range(5):
        for part in map(bytes, itertools.product(VALUES, repeat=length)):
            for at in (*range(length + 2), next(far)):
                compare_read(lib, part, at)
        made += (length + 3) * len(VALUES) ** length
    return made


def longer_slips(lib):
    """Five and six bytes behind each map that has as many, over the same."""
    made = 0
    for bits, count in ((11, 2), (21, 2), (15, 2), (15, 3)):
        for rest in itertools.product((0, 255), (0, 3, 4, 255),
                                      *[VALUES] * count):
            compare_read(lib, bytes((bits, *rest)), 0)
            made += 1
    return made


def bent_and_cut(lib):
    """A slip of each map with each byte set to each value, cut at each length,
    behind two bytes."""
    made = 0
    for answer in ONE_OF_EACH:
        whole = slips.slip_of(1023, answer)
        for at, value in itertools.product(range(len(whole)), range(256)):
            bent = b"\3\0" + whole[:at] + bytes([value]) + whole[at + 1:]
            for length in range(2 + at, len(bent) + 1):
                compare_read(lib, bent[:length], 2)
                made += 1
    return made


# ------------------------------------------------------------------ outcomes

def outcomes(lib):
    """Each block number with each reading, written and read back."""
    for k, answer in itertools.product(range(MOST_BLOCKS), READINGS):
        part = compare_write(lib, bytes(7), 1, k, answer)
        read_back(lib, part, 1, k, answer)
    return 2 * MOST_BLOCKS * len(READINGS)


def around_the_end(lib, rng):
    """Each reading written at each offset of slices that are too short for it,
    just long enough and longer, and at far offsets; 16 comes before 17."""
    made = 0
    numbers = (*NUMBERS, *TOO_LARGE)
    for answer, length in itertools.product(READINGS, range(9)):
        for at in (*range(length + 2), *FAR):
            for k in (rng.choice(NUMBERS), rng.choice(numbers)):
                compare_write(lib, rng.randbytes(length), at, k, answer)
                made += 1
    for answer, k in itertools.product(ONE_OF_EACH, numbers):
        for at, length in ((0, 0), (0, 6), (1, 6), (7, 6), (2 ** 64 - 1, 6)):
            compare_write(lib, rng.randbytes(length), at, k, answer)
            made += 1
    return made


def no_readings(lib, rng):
    """Codes around those of readings: every number with kinds, cards and n of
    any sort, and each reading's code with each bit turned over."""
    sorts = itertools.product(range(256), (0, 1, 2, 3, 255),
                              (0, 1, 4, 5, 255), (0, 1, 2, 3, 11, 12, 255))
    turned = (library.answer_of(library.answer_code(answer) ^ 1 << bit)
              for answer in READINGS for bit in range(32))
    made = 0
    for answer in itertools.chain(map(library.Answer._make, sorts), turned):
        at, length = rng.choice(((0, 6), (1, 7), (0, 3), (0, 0), (9, 6)))
        compare_write(lib, rng.randbytes(length), at, rng.choice(NUMBERS),
                      answer)
        made += 1
    return made


# ---------------------------------------------------------------------- runs

def some_run(rng):
    """Some outcomes, and their slips one behind another."""
    run = [(rng.randrange(MOST_BLOCKS), rng.choice(READINGS))
           for _ in range(rng.randrange(20))]
    return run, b"".join(slips.slip_of(*one) for one in run)


def runs(lib, rng):
    """Runs written into slices that they fill, and read back."""
    made = 0
    for _ in range(300):
        run, whole = some_run(rng)
        part, at = rng.randbytes(len(whole)), 0
        for k, answer in run:
            part = compare_write(lib, part, at, k, answer)
            at = read_back(lib, part, at, k, answer)
        if part != whole:
            differ("a run of slips", shown(part), shown(whole))
        compare_read(lib, whole, at)
        compare_write(lib, whole, at, 0, Answer())
        made += 2 * len(run) + 2
    return made


def bent_runs(lib, rng):
    """Runs with some bytes bent, put in or left out, read at every offset."""
    made = 0
    for _ in range(300):
        part = bytearray(some_run(rng)[1])
        for _ in range(rng.randrange(1, 4)):
            at = rng.randrange(len(part) + 1)
            value = rng.choice((*VALUES, rng.randrange(256)))
            part[at:at + rng.randrange(2)] = bytes([value] * rng.randrange(2))
        for at in range(len(part) + 2):
            compare_read(lib, bytes(part), at)
            made += 1
    return made


# ----------------------------------------------------------- readings as given

def from_gets(lib, rng):
    """Gets and patrols of blocks with each kind of damage under each shape of
    marks, written as they came: a refusal is no reading."""
    made = 0
    for shape, kind in itertools.product(damage.MARK_SHAPES.values(),
                                         damage.DAMAGE):
        marks, k = bytes(shape(rng)), rng.randrange(4)
        bank = damage.damaged_bank(rng, marks, 4, kind)
        for name, *more in (("get", bytearray(BLOCK)), ("patrol",)):
            answer = lib.call(name, bytearray(bank), k, marks, *more,
                              bytearray(window.START))
            slip = compare_write(lib, bytes(6), 0, k, answer)
            made += 2
            if answer.number in (0, NONE, SEVERAL):
                read_back(lib, slip, 0, k, answer)
                made += 1
    return made


def compare_all(lib, rng):
    """All of the above; gives how many calls were made."""
    return (short_slices(lib) + longer_slips(lib) + bent_and_cut(lib)
            + outcomes(lib) + around_the_end(lib, rng) + no_readings(lib, rng)
            + runs(lib, rng) + bent_runs(lib, rng) + from_gets(lib, rng))
