"""The program of order 12, written a second time for comparison.

It reads nothing.  Standard output: the powers of g from 0 to 254, the logarithms of
1 to 255 and the 45 labels in position order, as decimal numbers, one a line, after a
heading line each.

It keeps no table of powers or logarithms, and each part goes its own way from document
01's field.  Since g is the polynomial x, its power e is what long division of x^e by the
modulus leaves.  A logarithm is put together from its remainders by the prime factors of
255.  A label is g, squared and multiplied up to its exponent.
"""

import argparse
import sys
from functools import lru_cache

MODULUS = 0x11D                # x^8 + x^4 + x^3 + x^2 + 1
G = 2                          # 01: "let g be 2"
ORDER = 255                    # 01: "its powers run through all 255 nonzero values"
FACTORS = 3, 5, 17             # of 255
CARDS, CHIPS = range(5), range(9)
ONES = int(15 * "1", 16)       # the lowest bit of each of 15 hexadecimal digits


# ---------------------------------------------------------------- the field

def remainder(value):
    """What long division of a polynomial over bits by the modulus leaves."""
    for degree in reversed(range(8, value.bit_length())):
        if value >> degree & 1:
            value ^= MODULUS << (degree - 8)
    return value


def product(a, b):
    """01's product of two bytes.

    With the bits as hexadecimal digits, a product of whole numbers counts at each
    digit the terms that meet there.  They are eight at most, so nothing is carried,
    and their sum over bits is whether the count is odd.
    """
    counts = int(f"{a:b}", 16) * int(f"{b:b}", 16)
    return remainder(int(f"{counts & ONES:x}", 2))


def power(a, exponent):
    """a^exponent, squaring and multiplying, the highest bit first."""
    result = 1
    for bit in f"{exponent:b}":
        result = product(result, result)
        if bit == "1":
            result = product(result, a)
    return result


@lru_cache(maxsize=None)
def roots(q):
    """The q values whose power q is 1, as powers 0 to q - 1 of one of them."""
    root = power(G, ORDER // q)
    return [power(root, k) for k in range(q)]


# --------------------------------------------------------------- the tables

def power_of_g(e):
    """g^e, since g is x."""
    return remainder(1 << e)


def logarithm(a):
    """The e below 255 with g^e = a.

    a^(255/q) is power e of g^(255/q), hence which of the q roots it is says e mod q.
    These remainders fix e, by the Chinese remainder theorem: 255/q times its inverse
    mod q is 1 mod q, and 0 mod the other two factors.
    """
    e = 0
    for q in FACTORS:
        rest = ORDER // q
        e += roots(q).index(power(a, rest)) * rest * pow(rest, -1, q)
    return e % ORDER


def label(card, chip):
    """01: "the label of card j, chip i is g^(i + 17 j)"."""
    return power(G, chip + 17 * card)


# -------------------------------------------------------------- the program

def lines():
    return ["powers", *map(power_of_g, range(ORDER)),
            "logs", *map(logarithm, range(1, ORDER + 1)),
            "labels", *(label(card, chip) for card in CARDS for chip in CHIPS)]


def text():
    return "".join(f"{line}\n" for line in lines())


def main():
    argparse.ArgumentParser(
        description="Print the powers of g from 0 to 254, the logarithms of 1 to 255 "
                    "and the 45 labels, as decimal numbers, one a line, after a "
                    "heading line each.  Nothing is read.").parse_args()
    sys.stdout.write(text())


if __name__ == "__main__":
    main()
