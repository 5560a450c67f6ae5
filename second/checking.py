"""What the parts of selftest.py share: a check, and the counts of all checks."""

from reference import BLOCK

counts = {"done": 0, "failed": 0}


def check(what, got, wanted=True):
    counts["done"] += 1
    if got != wanted:
        counts["failed"] += 1
        print(f"failed: {what}: got {got!r}, wanted {wanted!r}")


def zeros_with(changes):
    """45 zeros with some bytes set."""
    block = bytearray(BLOCK)
    for p, value in changes.items():
        block[p] = value
    return bytes(block)


def marks(card=255, *chips):
    return bytes([card, len(chips), *chips, *[255] * (2 - len(chips))])
