"""Order 8's figures, for slips.py; selftest.py runs them.

Slips and causes are worked out by hand from the order's words, here as bytes
by their place, which slips.py has not.  Where the order leaves a point open,
they are those of the reading taken.
"""

from itertools import product

import slips
from checking import check
from reference import Answer, CARDS

CLEAN, TEN = Answer(), Answer(10)
CHIPS = [Answer(0, 1, 0, n) for n in (1, 2)]
CARD = [Answer(0, 2, card, n) for card in range(CARDS) for n in range(1, 12)]
ELEVEN = [Answer(11, 0, card, 0) for card in range(CARDS)]
READINGS = [CLEAN, *CHIPS, *CARD, TEN, *ELEVEN]

LIMITS = (0, 1, 2, 3, 4, 254, 255, 256, 257, 511, 512, 767, 768, 1022, 1023)
BEYOND = (1024, 1025, 1279, 1280, 2047, 4096, 32768, 65535, 65536, 65537,
          2 ** 24, 2 ** 32, 2 ** 63, 2 ** 64 - 1)
FAR = (2 ** 16, 2 ** 32, 2 ** 63, 2 ** 64 - 6, 2 ** 64 - 4, 2 ** 64 - 1)
VALUES = (0, 1, 2, 3, 4, 5, 9, 10, 11, 12, 15, 17, 21, 255)
MAPS = (3, 11, 15, 17, 21)


def slip(k, reading):
    """An outcome's slip byte by byte."""
    low, high = k % 256, k // 256
    number, kind, card, n = reading
    if number == 11:
        return bytes((21, low, high, card, 11))
    if number == 10:
        return bytes((17, low, high, 10))
    if kind == 2:
        return bytes((15, low, high, 2, card, n))
    if kind == 1:
        return bytes((11, low, high, 1, n))
    return bytes((3, low, high, 0))


# What each byte of a slip may be, by its map.
ANY, HIGH = range(256), range(4)
RIGHT = {
    3: ([3], ANY, HIGH, [0]),
    11: ([11], ANY, HIGH, [1], (1, 2)),
    15: ([15], ANY, HIGH, [2], range(5), range(1, 12)),
    17: ([17], ANY, HIGH, [10]),
    21: ([21], ANY, HIGH, range(5), [11]),
}


def first_cause(part):
    """(number, offset) of the slip that begins a part, by these places."""
    if not part:
        return 15, 0
    for at, right in enumerate(RIGHT.get(part[0], ([],))):
        if at == len(part):
            return 15, at
        if part[at] not in right:
            return 16, at
    return 0, len(RIGHT[part[0]])


# ------------------------------------------------------------------- figures

# Bytes, offset, and what is read: number, offset, k, reading.
READ = (
    ((3, 0, 0, 0), 0, (0, 4, 0, CLEAN)),
    ((3, 255, 3, 0), 0, (0, 4, 1023, CLEAN)),
    ((11, 1, 2, 1, 2), 0, (0, 5, 513, Answer(0, 1, 0, 2))),
    ((15, 255, 3, 2, 4, 11), 0, (0, 6, 1023, Answer(0, 2, 4, 11))),
    ((17, 0, 1, 10), 0, (0, 4, 256, TEN)),
    ((21, 7, 0, 4, 11), 0, (0, 5, 7, Answer(11, 0, 4, 0))),
    ((9, 9, 3, 5, 0, 0), 2, (0, 6, 5, CLEAN)),
    ((15, 0, 4), 0, (16, 2)), ((15, 0), 0, (15, 2)),
    ((3, 0, 0, 1), 0, (16, 3)), ((), 0, (15, 0)), ((), 9, (15, 0)),
    ((3, 0, 0, 0), 4, (15, 4)), ((3, 0, 0, 0), 5, (15, 4)),
    ((3, 0, 0), 0, (15, 3)), ((3,), 0, (15, 1)), ((0,), 0, (16, 0)),
    ((3, 255, 4, 9), 0, (16, 2)), ((3, 0, 255, 9), 0, (16, 2)),
    ((3, 255, 3, 9), 0, (16, 3)), ((11, 0, 0, 2, 0), 0, (16, 3)),
    ((11, 0, 0, 1, 0), 0, (16, 4)), ((11, 0, 0, 1, 3), 0, (16, 4)),
    ((15, 0, 0, 1, 5, 0), 0, (16, 3)), ((15, 0, 0, 2, 5, 0), 0, (16, 4)),
    ((15, 0, 0, 2, 4, 0), 0, (16, 5)), ((15, 0, 0, 2, 4, 12), 0, (16, 5)),
    ((15, 0, 0, 2, 5), 0, (16, 4)), ((15, 0, 0, 2, 4), 0, (15, 5)),
    ((17, 0, 0, 11), 0, (16, 3)), ((17, 0, 0, 9), 0, (16, 3)),
    ((21, 0, 0, 5, 11), 0, (16, 3)), ((21, 0, 0, 5, 10), 0, (16, 3)),
    ((21, 0, 0, 0, 10), 0, (16, 4)), ((9, 9, 15, 0, 4, 9), 2, (16, 4)),
    ((9, 9, 15, 0), 2, (15, 4)), ((3, 0, 0, 0, 1), 4, (16, 4)),
)


def check_figures():
    for part, at, wanted in READ:
        check(f"{part} at {at}", slips.read(bytes(part), at),
              slips.Slip(*wanted))
    for bits in range(256):
        wanted = (15, 1) if bits in MAPS else (16, 0)
        check(f"map {bits}", slips.read(bytes([bits]), 0)[:2], wanted)
    for at in FAR:
        for part in (b"", b"\3\0\0\0", b"\0" * 9):
            check(f"{part.hex()} at {at}", slips.read(part, at),
                  slips.Slip(15, len(part)))


# ------------------------------------------------------------- every outcome

def check_outcomes():
    """Each outcome has one slip, and each slip that is read one outcome."""
    check("readings", len(set(READINGS)), 1 + 2 + 55 + 1 + 5)
    of = {slip(k, reading): (k, reading)
          for reading in READINGS for k in range(1024)}
    check("a slip for each outcome", len(of), 64 * 1024)
    for reading in READINGS:
        for k in LIMITS if reading in CARD else range(1024):
            part = slip(k, reading)
            lent = bytearray(b"\xA5" * len(part))
            check(f"write {k}, {reading}",
                  (slips.write(lent, 0, k, reading), lent),
                  ((0, len(part)), part))
            check(f"read {part.hex()}", slips.read(part, 0),
                  (0, len(part), k, reading))
    check_each_that_reads(of)


def check_each_that_reads(of):
    """Six bytes over the limits' values: those that read begin with the slip
    of the outcome read, and with no other, and it is written so."""
    wrong, read = [], set()
    for bits, low, high, *rest in product(MAPS, (0, 255), (0, 3, 4, 255),
                                          VALUES, VALUES, VALUES):
        part = bytes((bits, low, high, *rest))
        said = slips.read(part, 0)
        begins = [part[:end] for end in range(7) if part[:end] in of]
        if said.number == 0:
            read.add(part[:said.offset])
            right = begins == [part[:said.offset]] \
                and of[begins[0]] == (said.k, said.reading) \
                and slips.slip_of(said.k, said.reading) == begins[0]
        else:
            right = not begins
        if not right or said[:2] != first_cause(part):
            wrong.append(part.hex())
    check("what reads, and as what", wrong, [])
    # Of the values, n has 1 to 2, and 1, 2, 3, 4, 5, 9, 10, 11 for a card.
    check("how many of them read", len(read), 4 * (1 + 2 + 5 * 8 + 1 + 5))


# ---------------------------------------------------------- the first cause

def check_short_slices():
    """Every slice of up to three bytes, at every offset: none holds a slip."""
    wrong = []
    for part in map(bytes, (part for length in range(4) for part in product(
            (*VALUES, 14, 16, 20, 22), repeat=length))):
        for at in range(len(part) + 2):
            left = part[at:]
            if left and left[0] not in MAPS:
                wanted = 16, at
            elif len(left) == 3 and left[2] > 3:
                wanted = 16, at + 2
            else:
                wanted = 15, len(part)
            if slips.read(part, at) != slips.Slip(*wanted):
                wrong.append((part.hex(), at))
    check("slices of up to three bytes", wrong, [])


def with_byte(part, at, value):
    return part[:at] + bytes([value]) + part[at + 1:]


def check_bent_and_cut():
    """One slip of each map with each byte set to each value, and some of those
    with a second byte bent, cut at every length."""
    wrong = []
    for bits in MAPS:
        whole = bytes(right[-1] for right in RIGHT[bits])
        for at, value in product(range(len(whole)), range(256)):
            bent = with_byte(whole, at, value)
            wrong += unlike_first_cause(bent)
            if value in VALUES:
                for other in product(range(len(whole)), (0, 255)):
                    wrong += unlike_first_cause(with_byte(bent, *other))
    check("bent and cut slips", wrong, [])


def unlike_first_cause(part):
    """Where a slip cut at each length is not read so, behind other bytes."""
    for length in range(len(part) + 1):
        for before in (b"", b"\3\0\0"):
            number, offset = first_cause(part[:length])
            said = slips.read(before + part[:length], len(before))
            if said[:2] != (number, len(before) + offset):
                yield (before + part[:length]).hex()


# ---------------------------------------------------------------- the writer

# Against the rules, each with any block number.
NO_READINGS = (
    Answer(0, 0, 0, 1), Answer(0, 0, 1, 0), Answer(0, 1, 0, 0),
    Answer(0, 1, 0, 3), Answer(0, 1, 0, 255), Answer(0, 1, 1, 1),
    Answer(0, 2, 0, 0), Answer(0, 2, 4, 12), Answer(0, 2, 5, 1),
    Answer(0, 2, 255, 11), Answer(0, 3, 0, 0), Answer(0, 3, 0, 1),
    Answer(0, 255, 0, 1), Answer(10, 1, 0, 0), Answer(10, 0, 1, 0),
    Answer(10, 0, 0, 1), Answer(11, 0, 5, 0), Answer(11, 0, 255, 0),
    Answer(11, 0, None, 0), Answer(11, 1, 0, 0), Answer(11, 0, 0, 1),
    Answer(11, 2, 0, 1),
    *(Answer(number) for number in range(1, 256) if number not in (10, 11)),
)


def check_refused():
    """16 before 17, and no byte changes."""
    def refused(at, k, reading, length, number):
        lent = bytearray(b"\xA5" * length)
        said = slips.write(lent, at, k, reading)
        check(f"write {k}, {reading} at {at} of {length}", (said, lent),
              ((number, at), b"\xA5" * length))

    places = (0, 0), (0, 3), (0, 9), (1, 9), (9, 9), (10, 9), (FAR[-1], 9)
    for at, length in places:
        for reading in NO_READINGS:
            refused(at, 5, reading, length, 16)
        for k in BEYOND:
            for reading in (CLEAN, CHIPS[1], CARD[-1], TEN, ELEVEN[-1]):
                refused(at, k, reading, length, 16)
    for reading in READINGS:
        size = len(slip(5, reading))
        for length in range(9):
            for at in (*range(max(0, length - size + 1), length + 3), *FAR):
                refused(at, 5, reading, length, 17)


def check_written():
    """Exactly the slip's bytes change, wherever there is space for it."""
    for reading, length, k in product(READINGS, range(4, 10), (0, 1023)):
        part = slip(k, reading)
        for at in range(length - len(part) + 1):
            lent = bytearray(b"\xA5" * length)
            said = slips.write(lent, at, k, reading)
            end = at + len(part)
            check(f"write {k}, {reading} at {at} of {length}", (said, lent),
                  ((0, end), b"\xA5" * at + part + b"\xA5" * (length - end)))


# ---------------------------------------------------------------------- runs

def check_runs(rng):
    """Slips one behind another, in a slice that they fill."""
    for _ in range(200):
        run = [(rng.randrange(1024), rng.choice(READINGS))
               for _ in range(rng.randrange(12))]
        whole = b"".join(slip(k, reading) for k, reading in run)
        lent, at = bytearray(rng.randbytes(len(whole))), 0
        for k, reading in run:
            number, at = slips.write(lent, at, k, reading)
            check("a run is written", number, 0)
        check("a run's bytes", (lent, at), (whole, len(whole)))
        check("a full slice", slips.write(lent, at, 0, CLEAN), (17, at))
        check("a full slice as it was", lent, whole)
        read, said = [], slips.read(lent, 0)
        while said.number == 0:
            read.append((said.k, said.reading))
            said = slips.read(lent, said.offset)
        check("a run is read", (read, said), (run, slips.Slip(15, at)))


def check_slips(rng):
    check_figures()
    check_outcomes()
    check_short_slices()
    check_bent_and_cut()
    check_refused()
    check_written()
    check_runs(rng)
