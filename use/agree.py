"""When the library and second/ say the same, for compare.py and its parts."""

import library


class Difference(Exception):
    pass


def same_answer(said, wanted):
    """The library's answer against the reference's."""
    if isinstance(said, library.Report):
        answer, totals = wanted
        return said == (answer.number, totals or (0,) * 5)
    return said == wanted


def expect(what, got, wanted):
    if got != wanted:
        got, wanted = ([part.hex(" ") if isinstance(part, (bytes, bytearray))
                        else part for part in (got, wanted)])
        raise Difference(f"{what}\n  library   {got}\n  reference {wanted}")


def expect_answer(what, said, wanted):
    if not same_answer(said, wanted):
        raise Difference(f"{what}\n  library   {said}\n  reference {wanted}")
