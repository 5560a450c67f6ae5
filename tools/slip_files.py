"""Files of slips for tools/inspect: a slip of each reading of a bank, and such
a file in words, or as JSON.

Each slip is written and read by the library, one behind another.  Nothing is
decided here: which rule of a slip is broken goes by the byte that it names.
"""

import json
from collections import namedtuple

import files
from readings import TOTALS, library, plural, word_of
from reference import sound_per_thousand
from words import part, reading_object, reading_words, totals, wrapped

LONGEST = 6                  # bytes of the longest slip, that of a card
MOST = 2 ** 20               # bytes of a file that is read back
NONE = "no record fits under the marks of that reading"

# What a byte of a slip must be: its first, then by that one and the place.
A_MAP = ("a slip begins with 3 (clean), 11 (chips), 15 (card), 17 (none) or "
         "21 (several)")
HIGH = "the high byte of a block number, which is below 1,024, is 0 to 3"
A_CARD = "a card is 0 to 4"
RULES = {
    3: {2: HIGH, 3: "the kind behind map 3 is 0, clean"},
    11: {2: HIGH, 3: "the kind behind map 11 is 1, chips",
         4: "n is 1 to 2 for chips"},
    15: {2: HIGH, 3: "the kind behind map 15 is 2, card", 4: A_CARD,
         5: "n is 1 to 11 for a card"},
    17: {2: HIGH, 3: "the refusal behind map 17 is 10, none"},
    21: {2: HIGH, 3: A_CARD, 4: "the refusal behind map 21 is 11, several"},
}

# A slip that begins at byte `at`, and its reading; a refusal of the slip
# there, the byte at which its cause stands, and why.
Found = namedtuple("Found", "at k word card n")
Fault = namedtuple("Fault", "number at byte why")


def slips_of(lib, answers):
    """The slips of these answers, which are those of blocks 0, 1, 2 and on."""
    slips, at = bytearray(LONGEST * len(answers)), 0
    for k, answer in enumerate(answers):
        number, at = lib.call("write_slip", slips, at, k,
                              library.answer_code(answer))
        if number:
            raise files.Unusable(f"the slip of block {k} is refused by "
                                 f"{number}")
    return bytes(slips[:at])


class ReadBack:
    """The slips of a file up to its end, or to the fault that ends them."""

    def __init__(self, lib, data, step=lambda done: None):
        self.length, self.slips, self.fault = len(data), [], None
        at = self._read(lib, data, 0)
        while self.fault is None and at < len(data):
            at = self._read(lib, data, at)
            step(at)
        words = [slip.word for slip in self.slips]
        self.totals = tuple(words.count(word) for word in TOTALS)
        self.blocks = len(words)
        self.read = sum(self.totals[:3])

    def _read(self, lib, data, at):
        """Takes one slip; gives where the next one begins.  No more is lent
        than a slip can have, so that a long file is not copied each time."""
        said = lib.call("read_slip", data[at:at + LONGEST], 0)
        end = at + said.offset
        if said.number:
            why = rule(data, at, end) if said.number == 16 else ending(at, end)
            self.fault = Fault(said.number, at, end, why)
        else:
            answer = said.reading
            self.slips.append(Found(at, said.k, word_of(answer), answer.card,
                                    answer.n))
        return end


# ------------------------------------------------------------------ its fault

def rule(data, at, byte):
    must = RULES[data[at]][byte - at] if byte > at else A_MAP
    return f"it is {data[byte]}, and {must}"


def ending(at, byte):
    if byte == 0:
        return "the file is empty, and has no slip"
    return f"the file ends within the slip that begins at byte {at}"


def sentence(name, fault):
    return f"{name}: {fault.number} at byte {fault.byte}: {fault.why}"


# ------------------------------------------------------------------- in words

def heading(name, found):
    slips = plural(found.blocks, "slip")
    if found.fault is None:
        return f"{name}: {slips}, {plural(found.length, 'byte')}."
    return (f"{name}: {slips}, then a fault at byte {found.fault.byte}; what "
            "stands behind them is not read.")


def in_words(name, found):
    """Nothing, where no slip could be read."""
    if not found.slips:
        return ""
    lines = [wrapped(heading(name, found), "")]
    lines += part("What the slips say", totals(found, none=NONE))
    lines += part("Slips, by the byte at which each begins",
                  [f"  byte {slip.at}, block {slip.k}: {reading_words(slip)}"
                   for slip in found.slips])
    return "\n".join(lines) + "\n"


def in_json(name, found):
    share = sound_per_thousand(found.totals) if found.slips else None
    return json.dumps({
        "slips_file": name,
        "bytes": found.length,
        "totals": dict(zip(TOTALS, found.totals)),
        "sound": found.read,
        "sound_per_thousand": share,
        "slips": [{"byte": slip.at, **reading_object(slip)}
                  for slip in found.slips],
        "fault": found.fault and {"number": found.fault.number,
                                  "slip": found.fault.at,
                                  "byte": found.fault.byte,
                                  "why": found.fault.why},
    }, indent=2) + "\n"
