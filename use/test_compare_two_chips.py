"""The comparison of two bad chips: each planted mistake is found, by the order alone
too, and every pair of positions is compared."""

import contextlib
import io
import random
import re
import sys
import unittest
from collections import Counter
from unittest import mock

import library
from kit import ARCHIVE

import compare as comparison     # which finds second/ for single_two_chips.py too
import book
import misread
import mistakes
import reference as ref
import single_two_chips
import two_chips
from misread import CALLS, HANDED_OUT, ONE_CARD, ONE_OR_THREE, TWO_CARDS, Misread
from single_two_chips import banks, one_chip, reads, three_chips
from two_chips import PAIRS, damaged

SOME = random.Random(1).sample(PAIRS, 90)   # in which a mistake must be found


def part_with(call):
    return reads if call == "read" else banks


def difference(part, lib):
    """What a part of the comparison says differs, or None; of two chips within SOME."""
    which = {"pairs": SOME} if part in (reads, banks) else {}
    try:
        part(lib, random.Random(1), **which)
    except single_two_chips.Difference as found:
        return str(found)
    return None


class OnTheLibrary(unittest.TestCase):
    @classmethod
    def setUpClass(cls):
        opened = library.open_library(ARCHIVE)
        cls.lib = opened.__enter__()
        cls.addClassCleanup(opened.__exit__, None, None, None)

    def found(self, part, mistake, calls=CALLS):
        return difference(part, Misread(self.lib, mistake, calls))


class Mistakes(OnTheLibrary):
    def each_is_found(self, all_of_them, *calls):
        for what, mistake in all_of_them.items():
            for call in calls:
                with self.subTest(what, call=call):
                    self.assertTrue(self.found(part_with(call), mistake, (call,)))

    def test_where_there_is_none(self):
        lib = Misread(self.lib, misread.no_mistake)
        for part in reads, banks, one_chip, three_chips:
            self.assertIsNone(difference(part, lib))

    def test_of_two_chips_on_one_card(self):
        self.each_is_found(ONE_CARD, "read", "get", "patrol", "write_register")

    def test_of_two_chips_on_two_cards(self):
        self.each_is_found(TWO_CARDS, "read", "get", "patrol", "write_register")

    def test_of_totals(self):
        self.each_is_found({what: ONE_CARD[what] for what in (
            "chips 2", "several", "none", "clean", "several by the first label sum",
            "several by the second label sum")}, "report")
        self.each_is_found({what: mistake for what, mistake in TWO_CARDS.items()
                            if not what.startswith("none")}, "report")

    def test_of_what_comes_out_with_none(self):
        self.each_is_found(HANDED_OUT, "read", "get", "write_register")
        # A patrol that writes the block as it is writes what stands there.
        self.each_is_found({what: HANDED_OUT[what] for what in HANDED_OUT
                            if "as it is" not in what}, "patrol")

    def test_of_one_chip_and_of_three(self):
        for what, (part, mistake) in {
                "one": (one_chip, ONE_OR_THREE["one chip is its card"]),
                "one, got": (banks, ONE_OR_THREE["one chip is its card"]),
                "one is none": (one_chip, ONE_OR_THREE["one chip is none"]),
                "one, near another block": (three_chips, ONE_OR_THREE["one chip is none"]),
                "three": (three_chips, ONE_OR_THREE["three chips are two"]),
                "three that fit": (three_chips, ONE_OR_THREE["several is the lowest"]),
                }.items():
            with self.subTest(what):
                self.assertTrue(self.found(part, mistake))

    def test_of_the_window(self):
        for what in ("highest first", "by no get", "by no patrol", "by no command",
                     "with none"):
            with self.subTest(what):
                lib = mistakes.Mistaken(self.lib, mistakes.ADDED[what])
                self.assertIn("window after it", difference(banks, lib))

    def test_of_another_block(self):
        for name, bank in (("get", 0), ("patrol", 0), ("write_register", 3)):
            class Touching(Misread):
                def call(self, called, *arguments):
                    said = super().call(called, *arguments)
                    if called == name:
                        arguments[bank][-1] ^= 1
                    return said

            with self.subTest(name):
                lib = Touching(self.lib, misread.no_mistake, ())
                self.assertIn("bank after it", difference(banks, lib))


class BothLegs(OnTheLibrary):
    """The order and the second implementation each find a mistake that the other shares."""

    MISTAKES = ONE_CARD["chips 2"], TWO_CARDS["several"]

    def test_the_order_alone(self):
        for mistake in self.MISTAKES:
            def read_opened(block, marks, real=ref.read_opened, mistake=mistake):
                return mistake(block, *real(block, marks))

            for call in CALLS:
                with self.subTest(call), self.second_errs(call, read_opened):
                    found = self.found(part_with(call), mistake, (call,))
                    self.assertRegex(found, r"\n  expected .*$")

    @staticmethod
    def second_errs(call, read_opened):
        """The second implementation reads so in this call, or entry, alone."""
        if call == "read":
            return mock.patch.object(ref, "read_opened", read_opened)
        real = getattr(book.Book, call)

        def erring(*arguments):
            with mock.patch.object(book, "read_opened", read_opened):
                return real(*arguments)
        return mock.patch.object(book.Book, call, erring)

    def test_the_second_implementation_alone(self):
        for mistake in self.MISTAKES:
            def expected(good, held, real=two_chips.expected, mistake=mistake):
                return mistake(damaged(good, held), *real(good, held))

            with mock.patch.object(two_chips, "expected", expected):
                for part in reads, banks:
                    with self.subTest(part.__name__):
                        self.assertRegex(self.found(part, mistake),
                                         r"\n  reference .*$")


class Compared(OnTheLibrary):
    def test_every_pair_is_read(self):
        with mock.patch.object(single_two_chips, "compare_read") as read:
            made = reads(None, random.Random(1))
        self.assertEqual(made, len(read.mock_calls))
        pairs = Counter()
        for case, call in zip(two_chips.cases(random.Random(1)), read.mock_calls):
            self.assertEqual(call.args[2:], (damaged(*case), two_chips.expected(*case)))
            pairs[tuple(case[1])] += 1
        self.assertEqual(pairs, {(p, q): 19 if p // 9 == q // 9 else 17
                                 for p, q in PAIRS})

    def test_every_pair_is_in_a_bank(self):
        with mock.patch.object(single_two_chips, "put_and_hit") as put, \
                mock.patch.object(single_two_chips, "got_and_patrolled") as got:
            banks(None, random.Random(1))
        self.assertEqual(Counter(tuple(held) for _, _, cases, _ in (
            call.args for call in put.mock_calls) for _, held in cases),
            dict.fromkeys(PAIRS, 4))
        self.assertEqual(Counter((k, *held) for _, _, k, _, held in (
            call.args for call in got.mock_calls)),
            {(k, *pair): 1 for k in range(4) for pair in PAIRS})

    def test_each_way_to_hit_comes(self):
        ways = [mock.Mock(side_effect=way) for way in single_two_chips.HITS]
        with mock.patch.object(single_two_chips, "HITS", ways):
            banks(self.lib, random.Random(1), SOME[:3])
        self.assertEqual([way.call_count for way in ways], [4, 4, 4])
        good, held = two_chips.lawful_blocks(random.Random(1))[2], {5: 1, 40: 2}
        orders = []
        for way in single_two_chips.HITS:
            hits = way(random.Random(1), good, held)
            orders.append([p for p, _ in hits])
            self.assertEqual(damaged(good, dict(hits)), damaged(good, held))
        third = orders[2][0]
        self.assertNotIn(third, held)
        self.assertEqual(orders, [[5, 40], [40, 5], [third, 5, 40, third]])

    def test_every_sort_of_reading_of_three(self):
        said = []

        class Listening(Misread):
            def call(self, name, *arguments):
                answer = super().call(name, *arguments)
                said.append((answer.number, answer.kind))
                return answer

        three_chips(Listening(self.lib, misread.no_mistake, ()), random.Random(1))
        for sort in ((0, 1), (0, 2), (10, 0), (11, 0)):
            self.assertGreater(said.count(sort), 10, sort)

    def printed(self, lib):
        """What the whole comparison prints, with nothing but two bad chips."""
        with mock.patch.object(sys, "argv", ["compare", "--lists", "0"]), \
                mock.patch.object(library, "open_library",
                                  return_value=contextlib.nullcontext(lib)), \
                mock.patch.object(comparison, "single_calls"), \
                mock.patch.object(comparison, "slip_calls"), \
                contextlib.redirect_stdout(io.StringIO()) as said, \
                self.assertRaises(SystemExit) as ended:
            comparison.main()
        self.assertEqual(ended.exception.code, 1)
        return said.getvalue()

    def test_a_difference_is_printed(self):
        words = r"Answer\(number=0, kind=2, card=0, n={}\)"
        differ = (rf"answer\n  library   {words.format(3)}\n"
                  rf"  reference {words.format(2)}\n")
        lib = Misread(self.lib, ONE_CARD["n = 3"], ("read",))
        self.assertRegex(self.printed(lib), re.compile(
            r"difference: --seed 1\nread \['0101(00){43}', 'ff00ffff', '\w{90}'\]: "
            rf"{differ}\Z"))
        lib = Misread(self.lib, ONE_CARD["n = 3"], ("get",))
        with mock.patch.object(single_two_chips, "reads", return_value=0):
            self.assertRegex(self.printed(lib), re.compile(
                r"difference: --seed 1\n"
                r"(  put \d \w{68}\n(  hit \d+ \d+\n){2,4}){4}"
                rf"  report\n  get 0 \w{{90}}\n{differ}\Z"))


if __name__ == "__main__":
    unittest.main(verbosity=2)
