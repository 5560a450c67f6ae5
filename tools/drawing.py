"""The picture of a bank as an SVG: five cards of nine chips, and how many bytes
of each chip had to be changed over the bank.
"""

from html import escape

from readings import CARDS, CHIPS, TOTALS, marks_in_words, plural


# ------------------------------------------------------------------- colours

# Up to this share of the blocks read: fill, ink, words of the legend.
NO_HEAT = ("#eef1f4", "#8a96a3", "0")
HEAT = (
    (0.01, "#fff3bf", "#3b3200", "up to 1 %"),
    (0.03, "#ffd166", "#3b2600", "to 3 %"),
    (0.10, "#fb923c", "#2b1200", "to 10 %"),
    (0.30, "#dc2f1f", "#ffffff", "to 30 %"),
    (1.00, "#7f0d1f", "#ffffff", "over 30 %"),
)
INK, SOFT, LINE, MARK = "#1d2733", "#5b6875", "#c9d1d9", "#1663d6"
BARS = {"clean": "#4c9f70", "chips": "#fb923c", "card": "#dc2f1f",
        "none": "#4a4f58", "several": "#8a5cc2"}


def heat(count, read):
    if count == 0:
        return NO_HEAT[:2]
    share = count / read
    return next((fill, ink) for limit, fill, ink, _ in HEAT if share <= limit)


# ------------------------------------------------------------------- drawing

CHIP_W, CHIP_H, GAP = 62, 50, 7
CARD_W = CHIPS * (CHIP_W + GAP) + GAP
CARD_H, CARD_GAP = CHIP_H + 2 * GAP + 6, 14
LEFT, TOP = 92, 118
SIDE = LEFT + CARD_W + 146            # where the side panel begins
WIDTH, HEIGHT = SIDE + 232, TOP + CARDS * (CARD_H + CARD_GAP) + 96


def text(x, y, words, size=13, fill=INK, anchor="start", weight=400):
    return (f'<text x="{x}" y="{y}" font-size="{size}" fill="{fill}" '
            f'text-anchor="{anchor}" font-weight="{weight}">'
            f"{escape(str(words))}</text>")


def box(x, y, w, h, fill, stroke="none", width=1, radius=4):
    return (f'<rect x="{x}" y="{y}" width="{w}" height="{h}" rx="{radius}" '
            f'fill="{fill}" stroke="{stroke}" stroke-width="{width}"/>')


def heading(seen):
    total = sum(seen.changed)
    said = f"{plural(seen.blocks, 'block')}, {seen.read:,} read, " \
           f"{plural(total, 'byte')} changed"
    return [text(24, 42, "Bytes changed per chip", 24, weight=600),
            text(24, 68, f"{said}. {marks_in_words(seen)}.", 14, SOFT)]


def chip(seen, p):
    """One chip: its count, coloured by its share, outlined if marked."""
    card, at = divmod(p, CHIPS)
    x = LEFT + GAP + at * (CHIP_W + GAP)
    y = TOP + card * (CARD_H + CARD_GAP) + GAP
    count = seen.changed[p]
    fill, ink = heat(count, seen.read)
    marked = p in seen.marked_chips()
    hover = f"card {card}, chip {at}, position {p}: {plural(count, 'byte')} " \
            f"changed in {plural(seen.read, 'block')} read" \
            + (", marked" if marked else "")
    parts = ["<g>", f"<title>{escape(hover)}</title>",
             box(x, y, CHIP_W, CHIP_H, fill, MARK if marked else "#aab4be",
                 4 if marked else 1),
             text(x + CHIP_W / 2, y + CHIP_H / 2 + 6, f"{count:,}", 19, ink,
                  "middle", 600 if count else 400),
             text(x + 6, y + 12, p, 9, ink)]
    if marked:
        parts.append(text(x + CHIP_W / 2, y + CHIP_H - 6, "marked", 9, ink,
                          "middle", 600))
    return parts + ["</g>"]


def card(seen, j):
    """One card: a board with a contact edge, its nine chips and its sums."""
    y = TOP + j * (CARD_H + CARD_GAP)
    marked = j == seen.marked_card()
    parts = [box(LEFT, y, CARD_W, CARD_H, "#dbe7df", MARK if marked else "#9fb3a6",
                 4 if marked else 1, 7)]
    for pin in range(LEFT + 10, LEFT + CARD_W - 12, 12):
        parts.append(box(pin, y + CARD_H - 7, 6, 4, "#c9a94f", radius=1))
    parts.append(text(LEFT - 14, y + 34, f"card {j}", 16, INK, "end", 600))
    if marked:
        parts.append(text(LEFT - 14, y + 52, "marked", 12, MARK, "end", 600))
    for at in range(CHIPS):
        parts += chip(seen, CHIPS * j + at)
    return parts + card_sums(seen, j, LEFT + CARD_W + 16, y)


def card_sums(seen, j, x, y):
    """Beside a card: its bytes, the blocks they are in, and as a card."""
    total = sum(seen.changed[CHIPS * j:CHIPS * j + CHIPS])
    parts = [text(x, y + 22, plural(total, "byte"), 14, INK, weight=600),
             text(x, y + 40, f"in {plural(seen.touched[j], 'block')}", 12, SOFT)]
    if seen.as_card[j]:
        parts.append(text(x, y + 57, f"{seen.as_card[j]:,} as a card", 12, SOFT))
    return parts


def chip_numbers():
    return [text(LEFT + GAP + at * (CHIP_W + GAP) + CHIP_W / 2, TOP - 10,
                 f"chip {at}", 12, SOFT, "middle") for at in range(CHIPS)]


def readings(seen):
    """The side panel: how the blocks read."""
    parts = [text(SIDE, TOP + 4, "How the blocks read", 15, weight=600)]
    for row, (name, total) in enumerate(zip(TOTALS, seen.totals)):
        y = TOP + 20 + row * 34
        width = 200 * total / seen.blocks
        parts += [text(SIDE, y + 12, name, 13),
                  text(SIDE + 200, y + 12, f"{total:,}", 13, INK, "end", 600),
                  box(SIDE, y + 17, 200, 6, "#e6eaee", radius=3)]
        if total:
            parts.append(box(SIDE, y + 17, max(3, round(width, 1)), 6,
                             BARS[name], radius=3))
    return parts


def unread(seen):
    """Beside the cards: blocks whose bytes could not be told, by number."""
    y = TOP + 214
    count = len(seen.unread)
    parts = [text(SIDE, y, f"Unread: {plural(count, 'block')}", 15,
                  "#b3261e" if count else INK, weight=600)]
    if not count:
        return parts + [text(SIDE, y + 20, "every block gives a record", 12, SOFT)]
    parts.append(text(SIDE, y + 20, "not counted in the chips", 12, SOFT))
    shown = seen.unread[:12]
    for at, block in enumerate(shown):
        parts.append(text(SIDE + 100 * (at // 6), y + 42 + 17 * (at % 6),
                          f"{block.k} {block.word}", 12))
    if count > len(shown):
        parts.append(text(SIDE, y + 46 + 17 * 6,
                          f"and {count - len(shown):,} more", 12, SOFT))
    return parts


def legend(seen):
    y = TOP + CARDS * (CARD_H + CARD_GAP) + 14
    parts = [text(LEFT, y + 15, "Changed, of the blocks read:", 12, SOFT)]
    x = LEFT + 190
    for fill, words in [(NO_HEAT[0], NO_HEAT[2])] + [(h[1], h[3]) for h in HEAT]:
        parts += [box(x, y, 22, 20, fill, "#aab4be", radius=3),
                  text(x + 28, y + 15, words, 12)]
        x += 42 + 7 * len(words)
    y += 32
    parts += [box(LEFT + 2, y + 2, 20, 16, "none", MARK, 4, 3),
              text(LEFT + 32, y + 15, "marked card or chip", 12),
              text(LEFT + 190, y + 15, "small number: position, 9 x card + chip. "
                   "as a card: blocks corrected as that card.", 12, SOFT)]
    return parts


def drawing(seen):
    parts = [f'<svg xmlns="http://www.w3.org/2000/svg" width="{WIDTH}" '
             f'height="{HEIGHT}" viewBox="0 0 {WIDTH} {HEIGHT}" '
             'font-family="DejaVu Sans, Verdana, Helvetica, sans-serif">',
             "<title>Bytes changed per chip over the bank</title>",
             box(0, 0, WIDTH, HEIGHT, "#ffffff", radius=0)]
    parts += heading(seen) + chip_numbers()
    for j in range(CARDS):
        parts += card(seen, j)
    parts += readings(seen) + unread(seen) + legend(seen)
    return "\n".join(parts + ["</svg>"]) + "\n"
