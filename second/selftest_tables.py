"""Order 12's tables, as tables.py prints them; selftest.py runs these checks.

The lines are held against document 01's figures, against each other, and against
reference.py, which has its product and its labels another way.
"""

import reference as ref
import tables
from checking import check
from reference import BLOCK, CARDS, CHIPS

# Exponent and power: by 01, the labels of chip 0, then those of chip 8 of cards 0
# and 1; by hand, the last power below the modulus, and the last of all, since g
# times 142 is 0x11C, which is 1 once reduced.
BY_HAND = ((0, 1), (17, 152), (34, 78), (51, 10), (68, 153), (8, 29), (25, 3),
           (1, 2), (7, 128), (254, 142))


def parts():
    """Powers, logarithms and labels, each a list, by the headings' lines."""
    said = tables.text().splitlines()
    at = [said.index(heading) for heading in ("powers", "logs", "labels")]
    check("lines of the headings", at, [0, 256, 512])
    return [[int(line) for line in said[a + 1:b]]
            for a, b in zip(at, (*at[1:], None))]


def check_text():
    text = tables.text()
    check("lines of the tables", text.count("\n"), 3 + 255 + 255 + 45)
    check("the last line is ended", text[-1], "\n")
    numbers = {str(n) for n in range(256)}
    check("lines that are no plain number", set(text.splitlines()) - numbers,
          {"powers", "logs", "labels"})


def check_by_hand(powers, logs):
    for e, value in BY_HAND:
        check(f"g^{e}", powers[e], value)
        check(f"logarithm of {value}", logs[value - 1], e)


def check_undone(powers, logs):
    check("powers, all different", sorted(powers), list(range(1, 256)))
    check("logarithms, all different", sorted(logs), list(range(255)))
    for e, value in enumerate(powers):
        check(f"logarithm of g^{e}", logs[value - 1], e)
    for value, e in enumerate(logs, 1):
        check(f"g to the logarithm of {value}", powers[e], value)


def check_printed_labels(powers, labels):
    check("printed labels of chip 0", labels[::CHIPS], [1, 152, 78, 10, 153])
    check("printed labels of chip 8", labels[8:18:9], [29, 3])
    check("how many labels", len(labels), BLOCK)
    for j in range(CARDS):
        for i in range(CHIPS):
            check(f"label of card {j}, chip {i}", labels[9 * j + i],
                  powers[i + 17 * j])


def check_by_reference(powers, logs, labels):
    for a in range(256):
        check(f"products by {a}", bytes(tables.product(a, b) for b in range(256)),
              ref.TIMES[a])
    check("g^0", powers[0], 1)
    for e in range(254):
        check(f"g^{e} times g", ref.product(powers[e], ref.G), powers[e + 1])
    check("g^254 times g", ref.product(powers[254], ref.G), 1)
    check("logarithms by reference.py", logs,
          [ref.EXPONENT[value] for value in range(1, 256)])
    check("labels by reference.py", labels, ref.LABEL)


def check_tables():
    check_text()
    powers, logs, labels = parts()
    check_by_hand(powers, logs)
    check_undone(powers, logs)
    check_printed_labels(powers, labels)
    check_by_reference(powers, logs, labels)
