"""Order 8's fault slips, written a second time for comparison.

A slip is one reading of one block: a bit map byte, then only the fields whose
bit stands, in bit order.  Slips stand in a lent bytearray, one behind another;
a call writes or reads the one at an offset.  A reading is reference.py's
Answer: clean, chips with n, a card with its number and n, 10, or 11 with a
card; its other parts are 0.
"""

from collections import namedtuple

from reference import (Answer, CARDS, CLEAN, IN_CARD, IN_CHIPS, MOST_BLOCKS,
                       NONE, SEVERAL)

BLOCK_NUMBER, KIND, CARD, N, REFUSAL = range(5)     # the bits of a map

# Order 8: "the only maps are", each with what its slips say.
MAPS = {
    3: Answer(kind=CLEAN),
    11: Answer(kind=IN_CHIPS),
    15: Answer(kind=IN_CARD),
    17: Answer(NONE),
    21: Answer(SEVERAL),
}

# offset: with 0 that of the next slip; with a reader's refusal that of its
# cause, with a writer's the one that was asked for.
Written = namedtuple("Written", "number offset")
Slip = namedtuple("Slip", "number offset k reading", defaults=(0, Answer()))


def fields(bits):
    """The bits that stand in a map, in bit order."""
    return [bit for bit in range(5) if bits >> bit & 1]


def width(bit):
    """Order 8: "block number, two bytes (the others one)"."""
    return 2 if bit == BLOCK_NUMBER else 1


def fits(bits, bit, value):
    """May this field have this value in a slip with this map?"""
    says = MAPS[bits]
    if bit == BLOCK_NUMBER:
        return value < MOST_BLOCKS
    if bit == KIND:
        return value == says.kind
    if bit == CARD:
        return value in range(CARDS)
    if bit == N:
        return 1 <= value <= (2 if says.kind == IN_CHIPS else 11)
    return value == says.number


def map_of(reading):
    """The only map whose slips say such a reading, or None."""
    for bits, says in MAPS.items():
        if (says.number, says.kind) == (reading.number, reading.kind):
            return bits
    return None


def slip_of(k, reading):
    """The bytes of an outcome's only slip, or None if it is no outcome."""
    bits = map_of(reading)
    if bits is None:
        return None
    slip, there = bytes([bits]), fields(bits)
    given = k, reading.kind, reading.card, reading.n, reading.number
    for bit, value in enumerate(given):
        if not (fits(bits, bit, value) if bit in there else value == 0):
            return None
        if bit in there:
            slip += value.to_bytes(width(bit), "little")
    return slip


def write(slips, at, k, reading):
    """Write the slip of one outcome at an offset.  Refusals 16, 17."""
    slip = slip_of(k, reading)
    if slip is None:
        return Written(16, at)
    end = at + len(slip)
    if end > len(slips):
        return Written(17, at)
    slips[at:end] = slip
    return Written(0, end)


def read(slips, at):
    """Read the slip at an offset.  Refusals 15, 16: the earliest cause.

    The fields are gone through as they stand, so that the first one which is
    cut or does not fit decides; what does not fit stands at its last byte.
    """
    if at >= len(slips):
        return Slip(15, len(slips))
    bits = slips[at]
    if bits not in MAPS:
        return Slip(16, at)
    found, end = {}, at + 1
    for bit in fields(bits):
        start, end = end, end + width(bit)
        if end > len(slips):
            return Slip(15, len(slips))
        found[bit] = int.from_bytes(slips[start:end], "little")
        if not fits(bits, bit, found[bit]):
            return Slip(16, end - 1)
    reading = MAPS[bits]._replace(card=found.get(CARD, 0), n=found.get(N, 0))
    return Slip(0, end, found[BLOCK_NUMBER], reading)
