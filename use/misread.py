"""Wrong readings of two bad chips, planted around the library for
test_compare_two_chips.py.

A mistake is given the block, and the library's answer and the block that it hands
out, or None; it returns both as the wrong library would.
"""

from unittest import mock

import library
import reference as ref
import single
from reference import Answer, BLOCK, CARDS, CHIPS, IN_CARD, IN_CHIPS, NONE, SEVERAL
from two_chips import left_by

CALLS = "read", "get", "patrol", "write_register", "report"


class Misread:
    """The library with one mistake in what these calls read: output, bank, registers,
    window and totals are as the second implementation makes them of such a reading."""

    def __init__(self, lib, mistake, calls=CALLS):
        self.lib, self.mistake, self.calls = lib, mistake, calls

    def call(self, name, *arguments):
        if name not in self.calls:
            return self.lib.call(name, *arguments)
        with mock.patch.object(ref, "read_opened", self.read_opened):
            said = single.REFERENCE[name](*arguments)
        if name == "report":
            return library.Report(said[0].number, said[1])
        return said[0] if name == "write_register" else said

    def read_opened(self, block, marks):
        out = bytearray(BLOCK)
        said = self.lib.call("read", block, ref.close_marks(marks), out)
        return self.mistake(bytes(block), Answer(*said),
                            None if said.number else bytes(out))


def no_mistake(block, said, member):
    return said, member


def where(holds, other):
    """Where `holds` is true of the answer, this in its place."""
    def mistake(block, said, member):
        return other(block, said, member) if holds(said) else (said, member)
    return mistake


# --------------------------------------------------------- two chips of one card

def on_one_card(other):
    return where(lambda said: (said.kind, said.n) == (IN_CARD, 2), other)


def with_card(card):
    """Its number otherwise, the rest as it is."""
    return on_one_card(lambda block, said, member: (
        said._replace(card=card(said.card)), member))


def one_mended(which):
    """Of the two chips only the first is mended, or only the second (1)."""
    def other(block, said, member):
        p = ref.changed(block, member)[which]
        return said, block[:p] + member[p:p + 1] + block[p + 1:]
    return on_one_card(other)


def several_by(which):
    """Another card is taken to fit too, where this label sum alone says so."""
    def other(block, said, member):
        others = [card for card in range(CARDS) if card != said.card
                  and left_by(card, block)[1][which] == 0]
        if others:
            return Answer(SEVERAL, card=min(said.card, *others)), None
        return said, member
    return on_one_card(other)


ONE_CARD = {
    "chips 2": on_one_card(lambda block, said, member: (
        Answer(kind=IN_CHIPS, n=2), member)),
    "several": on_one_card(lambda block, said, member: (
        Answer(SEVERAL, card=said.card), None)),
    "none": on_one_card(lambda block, said, member: (Answer(NONE), None)),
    "clean": on_one_card(lambda block, said, member: (Answer(), member)),
    "n = 1": on_one_card(lambda block, said, member: (said._replace(n=1), member)),
    "n = 3": on_one_card(lambda block, said, member: (said._replace(n=3), member)),
    "n = 9": on_one_card(lambda block, said, member: (said._replace(n=9), member)),
    "the next card": with_card(lambda card: (card + 1) % CARDS),
    "the card by its number from 1": with_card(lambda card: card + 1),
    "card 0": with_card(lambda card: 0),
    "card 3 for 4": with_card(lambda card: min(card, 3)),
    "the block as it was": on_one_card(lambda block, said, member: (said, block)),
    "the first chip mended alone": one_mended(0),
    "the second chip mended alone": one_mended(1),
    "several by the first label sum": several_by(0),
    "several by the second label sum": several_by(1),
}


# ------------------------------------------------------- two chips of two cards

def on_two_cards(other):
    return where(lambda said: said.number == NONE, lambda block, *_: other(block))


def by_sums(*looked_at):
    """The lowest card for which these label sums are 0, and what it makes: another
    record, since both are never 0."""
    def other(block):
        for card in range(CARDS):
            made, sums = left_by(card, block)
            if not any(sums[which] for which in looked_at):
                n = len(ref.changed(block, made))
                return Answer(kind=IN_CARD, card=card, n=n), made
        return Answer(NONE), None
    return on_two_cards(other)


def clean_by_rows(block):
    """No row sum sees two changes alike in one row."""
    if any(ref.sums(block)[:CHIPS]):
        return Answer(NONE), None
    return Answer(), block


TWO_CARDS = {
    "several": on_two_cards(lambda block: (Answer(SEVERAL), None)),
    "several, card 4": on_two_cards(lambda block: (Answer(SEVERAL, card=4), None)),
    "none with a card": on_two_cards(lambda block: (Answer(NONE, card=1), None)),
    "none with n": on_two_cards(lambda block: (Answer(NONE, n=2), None)),
    "clean": on_two_cards(lambda block: (Answer(), block)),
    "clean where the row sums are 0": on_two_cards(clean_by_rows),
    "chips 2": on_two_cards(lambda block: (Answer(kind=IN_CHIPS, n=2), block)),
    "a card by the row sums alone": by_sums(),
    "a card by the first label sum": by_sums(0),
    "a card by the second label sum": by_sums(1),
}
# No answer tells of these; where nothing is handed out there is nothing to see.
HANDED_OUT = {
    "none, and the block as it is": on_two_cards(lambda block: (Answer(NONE), block)),
    "none, and zeros": on_two_cards(lambda block: (Answer(NONE), bytes(BLOCK))),
    "none, and a record by the row sums": on_two_cards(
        lambda block: (Answer(NONE), left_by(0, block)[0])),
}


# ------------------------------------------------------------ one chip, and three

def its_card(block, said, member):
    card = ref.changed(block, member)[0] // CHIPS
    return Answer(kind=IN_CARD, card=card, n=1), member


ONE_OR_THREE = {
    "one chip is its card": where(
        lambda said: said.kind == IN_CHIPS, its_card),
    "one chip is none": where(
        lambda said: said.kind == IN_CHIPS, lambda *_: (Answer(NONE), None)),
    "three chips are two": where(
        lambda said: (said.kind, said.n) == (IN_CARD, 3),
        lambda block, said, member: (said._replace(n=2), member)),
    "several is the lowest": where(
        lambda said: said.number == SEVERAL,
        lambda block, said, member: (Answer(kind=IN_CARD, card=said.card, n=3),
                                     left_by(said.card, block)[0])),
}
