"""Values as audit/known.py knows them.

A value is a number that stands in the source; a tuple of values, which is an array, a
struct or a form of an enum; one of the following; or a text, which says of anything
else what it is of.
"""

from dataclasses import dataclass


@dataclass(frozen=True)
class Sign:
    """A truth value, or which form of an enum it is: in the source, and no number."""
    text: str

    def __str__(self):
        return self.text


@dataclass(frozen=True)
class Made:
    """What comes of an operation or a call, by its name."""
    name: str
    of: tuple


@dataclass(frozen=True)
class At:
    """An address: of all of what has this text, or of an element of it."""
    text: str
    value: int = None       # the function's value that it is in, if in one
    index: object = None

    def __str__(self):
        return self.text if self.index is None else f"{self.text}[{self.index}]"


@dataclass(frozen=True)
class Asked:
    """Whether what has this text is equal to a number of the source, or below one."""
    of: str


EACH = Sign("each")     # in place of an index: any element


def is_known(value):
    if isinstance(value, tuple):
        return all(map(is_known, value))
    if isinstance(value, Made):
        return is_known(value.of)
    return isinstance(value, (int, Sign))


def leaves(value, kind):
    """What a value is made of, as far as it is of this kind."""
    inside = value.of if isinstance(value, Made) else value
    if isinstance(inside, tuple):
        return [leaf for part in inside for leaf in leaves(part, kind)]
    return [value] if isinstance(value, kind) else []


def numbers(value):
    """The numbers of the source that a value is made of."""
    return leaves(value, int)
