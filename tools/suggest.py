"""What the figures of a bank suggest: the data sheet's rules on marking and
lifting, by number and in its own words, each with the fact that calls for it.

Nothing is concluded here beyond which rule a fact belongs to.
"""

import re
from collections import namedtuple

from readings import BLOCK, CARDS, CHIPS, ROOT, chip_words, plural

PAGE = ROOT / "docs" / "DATA-SHEET.md"
HEADING = "## When to mark and when to lift"

Suggestion = namedtuple("Suggestion", "rule because text")


def rules(page=PAGE):
    """The numbered rules of the data sheet as {number: text}."""
    part = page.read_text(encoding="utf-8").split(HEADING + "\n", 1)[1]
    part = part.split("\n## ", 1)[0]
    found = re.findall(r"^(\d+)\. (.+?)(?=^\d+\. |\Z)", part, re.M | re.S)
    return {int(number): " ".join(text.replace("**", "").split())
            for number, text in found}


# ------------------------------------------------------------------ the facts

def _listed(parts):
    return ", ".join(parts)


def _unread_words(seen):
    parts = [f'{seen.total(word):,} as "{word}"' for word in ("none", "several")
             if seen.total(word)]
    return f"{plural(len(seen.unread), 'block')} unread: {_listed(parts)}"


def _cards_changed(seen):
    """Blocks read with a change on each card; says so where there is none."""
    parts = [f"card {j} changed in {seen.touched[j]:,}" for j in range(CARDS)
             if seen.touched[j]]
    return _listed(parts) or "no card changed in any"


def _single_chips(seen):
    """Unmarked chips changed in blocks corrected in single chips."""
    counts = [0] * BLOCK
    for u in seen.unclean:
        if u.word == "chips":
            for p in u.changed:
                counts[p] += 1
    for p in seen.marked_chips():
        counts[p] = 0
    order = sorted(range(BLOCK), key=lambda p: (-counts[p], p))
    return [f"{chip_words(p)} in {plural(counts[p], 'block')}"
            for p in order if counts[p]]


# ------------------------------------------------- facts and the rules' numbers

def _about_no_marks(seen):
    if any((seen.marks[0] < CARDS, seen.marks[1])):
        return
    if not seen.unread:
        yield 1, "Nothing is marked, and every block gives a record."
    corrected = seen.read - seen.total("clean")
    if corrected:
        yield 3, (f"Nothing is marked, and {plural(corrected, 'block')} "
                  "would be put right.")


def _about_unread(seen):
    if seen.unread and seen.marked_card() is None:
        yield 2, f"No card is marked; {_unread_words(seen)}."
        yield 4, (f"Of {plural(seen.read, 'block')} read: "
                  f"{_cards_changed(seen)}.")


def _about_card_mark(seen):
    j = seen.marked_card()
    if j is None:
        return
    yield 4, (f"Card {j} is marked. Of {plural(seen.read, 'block')} read: "
              f"{_cards_changed(seen)}.")
    on = [p for p in seen.marked_chips() if p // CHIPS == j]
    yield 5, f"Card {j} is marked" + (
        f", and on it {_listed(map(chip_words, on))}." if on else ".")
    if seen.total("none"):
        yield 6, (f'{plural(seen.total("none"), "block")} read as "none" while '
                  f"card {j} is marked.")
    if len(seen.marked_chips()) - len(on) == 2:
        yield 8, f"Card {j} and two chips off it are marked."


def _about_chips(seen):
    idle = [chip_words(p) for p in seen.marked_chips() if not seen.changed[p]]
    if idle:
        yield 1, f"Marked, and changed in no block read: {_listed(idle)}."
    if seen.marked_card() is not None:
        return
    single = _single_chips(seen)
    if single:
        yield 7, f"Single chips changed, not marked: {_listed(single)}."
    if len(seen.marked_chips()) == 2 and seen.total("several"):
        yield 7, f"Two chips are marked; {_unread_words(seen)}."


def _as_bad_cards(patrolled):
    """Unmarked cards of which blocks were read as the card, and more than one
    chip stands in the window often: a bad card shows as its chips."""
    seen = patrolled.seen
    return [j for j in range(CARDS) if seen.as_card[j] and seen.marks[0] != j
            and len(patrolled.often_on(j)) > 1]


def _about_window(patrolled):
    seen, p = patrolled.seen, patrolled.proposed
    cards = _as_bad_cards(patrolled)
    for j in cards:
        yield 2, (f"{len(patrolled.often_on(j))} chips of card {j} stand in the "
                  "window four times or more, and "
                  f"{plural(seen.as_card[j], 'block')} read as card {j}: a bad card "
                  "shows so.")
    if p is None or p // CHIPS in cards:
        return
    if seen.marked_card() is None:
        yield 7, f"Proposed, not marked: {chip_words(p)}."
    else:
        yield 1, (f"Proposed beside marked card {seen.marked_card()}: "
                  f"{chip_words(p)}, mended as the one further chip.")


def suggestions(patrolled):
    seen, texts = patrolled.seen, rules()
    facts = [*_about_no_marks(seen), *_about_unread(seen),
             *_about_card_mark(seen), *_about_chips(seen),
             *_about_window(patrolled)]
    facts.sort(key=lambda fact: fact[0])
    return [Suggestion(rule, because, texts[rule]) for rule, because in facts]
