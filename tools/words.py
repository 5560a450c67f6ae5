"""What tools/inspect says of a bank: in words, and the same as JSON."""

import json
import textwrap
from itertools import groupby

from readings import BLOCK, CARDS, CHIPS, TOTALS, marks_in_words, plural
from reference import sound_per_thousand

WIDTH = 79
MEANING = {
    "clean": "no byte changed",
    "chips": "corrected in single chips",
    "card": "corrected in one card, and in marked or one further chip",
    "none": "no record fits under these marks",
    "several": "two records or more fit, and none is guessed",
}


def wrapped(text, indent="  "):
    return textwrap.fill(text, WIDTH, initial_indent=indent,
                         subsequent_indent=indent + "  ")


# ------------------------------------------------------------------ the parts

def places(changed):
    """Changed positions card by card: `card 1 chips 0, 2 (9, 11)`."""
    parts = []
    for j in range(CARDS):
        on = [p for p in changed if p // CHIPS == j]
        if len(on) == CHIPS:
            parts.append(f"card {j} all chips ({on[0]} to {on[-1]})")
        elif on:
            word = "chip" if len(on) == 1 else "chips"
            parts.append(f"card {j} {word} {listed(p % CHIPS for p in on)} "
                         f"({listed(on)})")
    return "; ".join(parts)


def listed(numbers):
    return ", ".join(str(number) for number in numbers)


def reading_words(u):
    """A reading without the positions that were changed."""
    if u.word == "several":
        return (f"several; card {u.card} is the lowest whose change reaches a "
                "record")
    if u.word in ("chips", "card"):
        what = "chips" if u.word == "chips" else f"card {u.card}"
        return f"{what}, {plural(u.n, 'byte')}"
    return u.word


def block_line(u):
    where = f": {places(u.changed)}" if u.changed else ""
    return wrapped(f"block {u.k}: {reading_words(u)}{where}")


def totals(seen, **meaning):
    """A line for each; some may mean something else than above."""
    share = sound_per_thousand(seen.totals)
    meaning = {**MEANING, **meaning}
    lines = [f"  {word:<8}{total:>5}   {meaning[word]}"
             for word, total in zip(TOTALS, seen.totals)]
    lines.append(f"  {'sound':<8}{seen.read:>5}   of {seen.blocks:,}: {share} per "
                 "thousand give a record")
    return lines


def chips_by_count(seen):
    """Positions that were changed, the most often changed first."""
    return sorted((p for p in range(BLOCK) if seen.changed[p]),
                  key=lambda p: (-seen.changed[p], p))


def chip_lines(seen):
    lines = []
    for p in chips_by_count(seen):
        mark = ", marked" if p in seen.marked_chips() else ""
        lines.append(f"  card {p // CHIPS} chip {p % CHIPS} (position {p}{mark}): "
                     f"in {plural(seen.changed[p], 'block')}")
    return lines


def card_lines(seen):
    return [f"  card {j}: changed in {plural(seen.touched[j], 'block')}, "
            f"{seen.as_card[j]:,} of them read as card {j}"
            + (", marked" if j == seen.marked_card() else "")
            for j in range(CARDS) if seen.touched[j]]


def suggestion_lines(suggested):
    """The facts that call for a rule, then the rule, once."""
    lines = []
    for (rule, text), facts in groupby(suggested, lambda s: (s.rule, s.text)):
        lines += [wrapped(fact.because) for fact in facts]
        lines.append(wrapped(f'Rule {rule}: "{text}"', "    "))
    return lines


# ----------------------------------------------------------------- the window

def proposal_words(patrolled):
    """The proposal, and where it is not alone the chips of its card beside it."""
    p = patrolled.proposed
    if p is None:
        return "No chip is proposed."
    card, chip = divmod(p, CHIPS)
    said = f"Proposed: card {card} chip {chip} (position {p})."
    often = len(patrolled.often_on(card))
    if often > 1:
        said += (f" Of card {card}, {often} chips stand in the window four times "
                 "or more.")
    return said


def added_words(patrolled):
    """How many positions were added, and how many of them are held."""
    added, held = patrolled.added, len(patrolled.held)
    said = f"The patrol added {plural(added, 'position')}"
    if added > held:
        said += f"; the last {held} are held, and {added - held:,} have left"
    elif added:
        said += ", all held"
    unread = len(patrolled.seen.unread)
    if unread:
        said += f"; {plural(unread, 'unread block')} added nothing"
    return said + "."


def standing(patrolled, p):
    """What is said behind a position that stands in the window."""
    if p == patrolled.proposed:
        return "; proposed"
    why = patrolled.passed_over(p)
    return f"; passed over, {why}" if why else ""


def count_lines(patrolled):
    """Positions in the window, those that are alike in one line."""
    alike = {}
    for p in patrolled.by_times():
        key = patrolled.times[p], standing(patrolled, p)
        alike.setdefault(key, []).append(p)
    return [wrapped(f"{plural(times, 'time')}: {places(found)}{said}", "    ")
            for (times, said), found in alike.items()]


def window_lines(patrolled):
    return [wrapped(proposal_words(patrolled)), wrapped(added_words(patrolled)),
            *count_lines(patrolled),
            wrapped("The lowest chip that stands there four times or more, "
                    "unmarked and on an unmarked card, is proposed. No mark is "
                    "placed: docs/DATA-SHEET.md says when to, and what a "
                    "proposal does not mean.")]


# ------------------------------------------------------------------ the whole

def part(title, lines):
    return ["", title, *lines] if lines else []


def written_lines(seen, written):
    """What the output files hold; none without its option."""
    lines = []
    if written["mended"]:
        lines.append(wrapped(
            f"{written['mended']}: the bank as a patrol leaves it, with "
            f"{plural(len(seen.unread), 'unread block')} as before"))
    if written["picture"]:
        lines.append(wrapped(f"{written['picture']}: the picture"))
    if written["slips"]:
        lines.append(wrapped(
            f"{written['slips']}: {plural(seen.blocks, 'slip')}, one of each "
            "block's reading"))
    return lines


def in_words(name, patrolled, suggested, written):
    seen = patrolled.seen
    lines = [wrapped(f"{name}: {plural(seen.blocks, 'block')}. "
                     f"{marks_in_words(seen)}.", "")]
    lines += part("How the blocks read", totals(seen))
    lines += part("Blocks that are not clean; positions in brackets",
                  [block_line(u) for u in seen.unclean])
    lines += part(f"Cards changed, of {plural(seen.read, 'block')} read",
                  card_lines(seen))
    lines += part(f"Chips changed, of {plural(seen.read, 'block')} read",
                  chip_lines(seen))
    lines += part("What the window proposes after a patrol in memory",
                  window_lines(patrolled))
    lines += part("What the figures suggest, by the rules in docs/DATA-SHEET.md",
                  suggestion_lines(suggested))
    lines += part("Written", written_lines(seen, written))
    lines += part("Damage beyond the marks can give a record that was never "
                  "stored;", ["docs/DATA-SHEET.md says how often."])
    return "\n".join(lines) + "\n"


def chip_object(p, **more):
    return {"position": p, "card": p // CHIPS, "chip": p % CHIPS, **more}


def reading_object(u):
    made = {"block": u.k, "reading": u.word}
    if u.word == "several":
        made["card_that_fits"] = u.card
    if u.word == "card":
        made["card"] = u.card
    if u.word in ("chips", "card"):
        made["n"] = u.n
    return made


def block_object(u):
    made = reading_object(u)
    if u.changed:
        made["changed"] = [chip_object(p) for p in u.changed]
    return made


def count_object(patrolled, p):
    made = chip_object(p, times=patrolled.times[p])
    if patrolled.passed_over(p):
        made["passed_over"] = patrolled.passed_over(p)
    return made


def window_object(patrolled):
    return {"added": patrolled.added,
            "positions": patrolled.held,
            "counts": [count_object(patrolled, p) for p in patrolled.by_times()]}


def in_json(name, patrolled, suggested, written):
    seen, p = patrolled.seen, patrolled.proposed
    return json.dumps({
        "dump": name,
        "blocks": seen.blocks,
        "marks": {"card": seen.marked_card(), "chips": seen.marked_chips(),
                  "record": list(seen.marks)},
        "totals": dict(zip(TOTALS, seen.totals)),
        "sound": seen.read,
        "sound_per_thousand": sound_per_thousand(seen.totals),
        "not_clean": [block_object(u) for u in seen.unclean],
        "cards": [{"card": j, "blocks_changed": seen.touched[j],
                   "blocks_read_as_card": seen.as_card[j]}
                  for j in range(CARDS) if seen.touched[j]],
        "chips": [chip_object(p, blocks_changed=seen.changed[p])
                  for p in chips_by_count(seen)],
        "window": window_object(patrolled),
        "proposal": None if p is None else chip_object(p),
        "suggestions": [s._asdict() for s in suggested],
        "written": {what: str(path) for what, path in written.items() if path},
    }, indent=2) + "\n"
