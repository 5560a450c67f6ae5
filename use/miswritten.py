"""Mistakes with slips, planted around the library for test_compare_slips.py.

A mistake is given the real call and its arguments, and says what is said.
"""

import library

SIZE = {3: 4, 11: 5, 15: 6, 17: 4, 21: 5}      # bytes of a slip, by its map
HIGH = 2                                       # a block number's high byte


class Miswritten:
    """The library with one mistake in one call."""

    def __init__(self, lib, name, mistake):
        self.lib, self.name, self.mistake = lib, name, mistake

    def call(self, name, *arguments):
        if name != self.name:
            return self.lib.call(name, *arguments)
        return self.mistake(
            lambda *given: self.lib.call(name, *given), *arguments)


def no_mistake(call, *arguments):
    return call(*arguments)


def with_byte(part, at, value):
    return part[:at] + bytes([value]) + part[at + 1:]


def swapped(part, at):
    """The two bytes of a block number, the other way round."""
    return part[:at + 1] + part[at + 1:at + 3][::-1] + part[at + 3:]


# ------------------------------------------------------------------- reading

def saying(other, *numbers):
    """What is said with one of these numbers, otherwise."""
    def mistake(call, part, at):
        said = call(part, at)
        return other(said, part, at) if said.number in numbers else said
    return mistake


def taking(bits, place, wrong, right):
    """A wrong value of a byte, so far behind this map, is taken for a right
    one."""
    def mistake(call, part, at):
        if part[at:at + 1] == bytes([bits]) \
                and part[at + place:at + place + 1] == bytes([wrong]):
            part = with_byte(part, at + place, right)
        return call(part, at)
    return mistake


def high_first(call, part, at):
    return call(swapped(part, at), at)


def low_blamed(said, part, at):
    return said._replace(offset=at + 1) if said.offset == at + HIGH else said


def later_wins(call, part, at):
    """A cause behind the first one, which is put right to find it."""
    said = call(part, at)
    if said.number == 16 and said.offset > at:
        for value in range(12):
            after = call(with_byte(part, said.offset, value), at)
            if after.number and after.offset > said.offset:
                return after
    return said


def cut_first(call, part, at):
    """15 wherever the slip is cut, before its values are looked at."""
    if at < len(part) and len(part) - at < SIZE.get(part[at], 0):
        return library.Slip(15, len(part), 0, library.Answer(0, 0, 0, 0))
    return call(part, at)


def map_cut_to_five_bits(call, part, at):
    if at < len(part):
        part = with_byte(part, at, part[at] & 31)
    return call(part, at)


def wrapping(call, part, at):
    """An offset that is taken for one of fewer bits."""
    return call(part, at % 2 ** 32)


# Seen in slices of four bytes or less.
SHORT_READ = {
    "high byte first": high_first,
    "low byte blamed": saying(low_blamed, 16),
    "the later cause wins": later_wins,
    "15 before a bad value": cut_first,
    "1024 is a block number": taking(3, HIGH, 4, 3),
    "a kind that disagrees": taking(3, 3, 1, 0),
    "a refusal that disagrees": taking(17, 3, 11, 10),
    "9 is a refusal": taking(17, 3, 9, 10),
    "map 1 is 17": taking(1, 0, 1, 17),
    "map 2 is 3": taking(2, 0, 2, 3),
    "map 16 is 17": taking(16, 0, 16, 17),
    "the next one off": saying(
        lambda said, part, at: said._replace(offset=said.offset + 1), 0),
    "a cause within the slip": saying(
        lambda said, part, at: said._replace(offset=said.offset - at), 16),
    "15 at the slip": saying(
        lambda said, part, at: said._replace(offset=at), 15),
    "15 at the slice's last byte": saying(
        lambda said, part, at: said._replace(offset=len(part) - 1), 15),
    "a number behind the end is 16": saying(
        lambda said, part, at: said._replace(number=16)
        if at >= len(part) else said, 15),
    "a block number with a refusal": saying(
        lambda said, part, at: said._replace(k=1), 16),
    "a reading with a refusal": saying(
        lambda said, part, at: said._replace(
            reading=library.Answer(10, 0, 0, 0)), 15),
    "none is 11": saying(
        lambda said, part, at: said._replace(
            reading=library.Answer(11, 0, 0, 0))
        if said.reading.number == 10 else said, 0),
}
# Seen only far behind the slice, and only in five bytes or more.
FAR_READ = {"the offset's high bits are cut": wrapping}
LONGER_READ = {
    "n = 0 in chips": taking(11, 4, 0, 1),
    "n = 3 in chips": taking(11, 4, 3, 1),
    "n = 0 in a card": taking(15, 5, 0, 1),
    "n = 12 in a card": taking(15, 5, 12, 11),
    "card 5": taking(15, 4, 5, 4),
    "card 5 with several": taking(21, 3, 5, 4),
    "card 255 with several": taking(21, 3, 255, 4),
    "10 with several": taking(21, 4, 10, 11),
    "clean with n": taking(11, 3, 0, 1),
    "a card where the map has chips": taking(11, 3, 2, 1),
    "chips where the map has a card": taking(15, 3, 1, 2),
    "other bits of the map": map_cut_to_five_bits,
    "the slip's length, not the next offset": saying(
        lambda said, part, at: said._replace(offset=said.offset - at), 0),
    "several without its card": saying(
        lambda said, part, at: said._replace(
            reading=said.reading._replace(card=0))
        if said.reading.number == 11 else said, 0),
    "card and n changed about": saying(
        lambda said, part, at: said._replace(reading=said.reading._replace(
            card=said.reading.n, n=said.reading.card)), 0),
    "chips with n in the card's place": saying(
        lambda said, part, at: said._replace(reading=said.reading._replace(
            card=said.reading.n, n=0)) if said.reading.kind == 1 else said, 0),
}


# ------------------------------------------------------------------- writing

def taken(when, **instead):
    """Where `when` says so of block number and answer, these are taken."""
    def mistake(call, part, at, k, code):
        answer = library.answer_of(code)
        if when(k, answer):
            k = instead.get("k", k)
            answer = answer._replace(**{name: value for name, value
                                        in instead.items() if name != "k"})
        return call(part, at, k, library.answer_code(answer))
    return mistake


def answered(**parts):
    """Of an answer that has these parts."""
    return lambda k, answer: all(getattr(answer, name) == value
                                 for name, value in parts.items())


def slip_by(call, k, code):
    """The bytes that the real call writes; none where it refuses."""
    room = bytearray(6)
    said = call(room, 0, k, code)
    return bytes(room[:said.offset])


def written(change):
    """A call after which the slice is changed: it is given the slice, its
    bytes before, the offset, what is said, and the slip's bytes."""
    def mistake(call, part, at, k, code):
        before = bytes(part)
        said = call(part, at, k, code)
        change(part, before, at, said, slip_by(call, k, code))
        return said
    return mistake


def in_part(part, before, at, said, slip):
    """A slip that has no space, as far as it goes."""
    if said.number == 17 and at < len(part):
        part[at:] = slip[:len(part) - at]


def the_map_first(part, before, at, said, slip):
    if said.number == 16 and at < len(part):
        part[at] = 3


def one_byte_more(part, before, at, said, slip):
    if said.number == 0 and said.offset < len(part):
        part[said.offset] = 0


def high_written_first(part, before, at, said, slip):
    if said.number == 0:
        part[:] = swapped(part, at)


def high_left(part, before, at, said, slip):
    if said.number == 0:
        part[at + HIGH] = before[at + HIGH]


def space_first(call, part, at, k, code):
    """17 before the values are looked at."""
    if at + 4 > len(part):
        return library.Written(17, at)
    return call(part, at, k, code)


def with_room(spare):
    """Space for the slip and so many bytes more is asked for."""
    def mistake(call, part, at, k, code):
        room = spare(len(slip_by(call, k, code)))
        if room and at + room > len(part):
            return library.Written(17, at)
        return call(part, at, k, code)
    return mistake


def wrapped(call, part, at, k, code):
    """The slip's end, where it is beyond 64 bits, taken for a small one."""
    slip = slip_by(call, k, code)
    if slip and at < 2 ** 64 <= at + len(slip):
        return library.Written(0, at + len(slip))
    return call(part, at, k, code)


def one_off(call, part, at, k, code):
    said = call(part, at, k, code)
    return said if said.number else said._replace(offset=said.offset + 1)


def moved_on(call, part, at, k, code):
    """A refusal that has a length."""
    said = call(part, at, k, code)
    return said._replace(offset=at + 4) if said.number else said


WRITE = {
    "high byte first": written(high_written_first),
    "the high byte is left": written(high_left),
    "17 before 16": space_first,
    "a slip in part": written(in_part),
    "the map before the values": written(the_map_first),
    "one byte more": written(one_byte_more),
    "1024 is a block number": taken(lambda k, answer: k == 1024, k=0),
    "a block number's low 16 bits": taken(lambda k, answer: k == 65536, k=0),
    "a block number's low 32 bits": taken(lambda k, answer: k == 2 ** 32, k=0),
    "n = 0 in chips": taken(answered(number=0, kind=1, n=0), n=1),
    "n = 3 in chips": taken(answered(number=0, kind=1, n=3), n=2),
    "n = 0 in a card": taken(answered(number=0, kind=2, n=0), n=1),
    "n = 12 in a card": taken(answered(number=0, kind=2, n=12), n=11),
    "card 5": taken(answered(number=0, kind=2, card=5), card=4),
    "card 5 with several": taken(answered(number=11, card=5), card=4),
    "kind 3": taken(answered(number=0, kind=3), kind=0, card=0, n=0),
    "clean with n": taken(answered(number=0, kind=0, card=0), n=0),
    "chips with a card": taken(answered(number=0, kind=1), card=0),
    "none with a card": taken(answered(number=10, kind=0, n=0), card=0),
    "several with a kind": taken(answered(number=11, n=0), kind=0),
    "several with n": taken(answered(number=11, kind=0), n=0),
    "another refusal is none": taken(answered(number=9), number=10),
    "another refusal is several": taken(answered(number=12), number=11),
    "the next one off": one_off,
    "a length with a refusal": moved_on,
    "space for one byte more": with_room(lambda size: size and size + 1),
    "space for the longest": with_room(lambda size: size and 6),
    "an end beyond 64 bits": wrapped,
}
