"""The comparison of slips: each planted mistake is found, and every sort of
reading is compared; and what library.py makes of the calls' codes."""

import contextlib
import io
import random
import sys
import unittest
from unittest import mock

import library
from kit import ARCHIVE

import compare as comparison     # which finds second/ for single_slips.py too
import miswritten
import single_slips
from miswritten import FAR_READ, LONGER_READ, SHORT_READ, WRITE, Miswritten
from single_slips import (around_the_end, bent_and_cut, bent_runs, from_gets,
                          longer_slips, no_readings, outcomes, runs,
                          short_slices)

SEEDED = around_the_end, no_readings, runs, bent_runs, from_gets
NO_MISTAKE = miswritten.no_mistake


class OnTheLibrary(unittest.TestCase):
    def setUp(self):
        opened = library.open_library(ARCHIVE)
        self.lib = opened.__enter__()
        self.addCleanup(opened.__exit__, None, None, None)

    def found(self, name, mistake, *parts):
        """Whether one of these parts of the comparison finds it."""
        lib = Miswritten(self.lib, name, mistake)
        try:
            for part in parts:
                part(lib, *[random.Random(1)] * (part in SEEDED))
        except single_slips.Difference:
            return True
        return False


class Mistakes(OnTheLibrary):
    def each_is_found(self, name, mistakes, *parts):
        for what, mistake in mistakes.items():
            with self.subTest(what):
                self.assertTrue(self.found(name, mistake, *parts))

    def test_where_there_is_none(self):
        for name in ("read_slip", "write_slip"):
            self.assertFalse(self.found(name, NO_MISTAKE, bent_and_cut,
                                        *SEEDED))

    def test_of_the_reader_in_short_slices(self):
        self.each_is_found("read_slip", {**SHORT_READ, **FAR_READ},
                           short_slices)

    def test_of_the_reader_in_bent_slips(self):
        self.each_is_found("read_slip", {**SHORT_READ, **LONGER_READ},
                           bent_and_cut)

    def test_of_the_reader_at_the_fields_limits(self):
        fields = {what: mistake for what, mistake in LONGER_READ.items()
                  if what.startswith(("n = ", "card ", "10 "))}
        self.assertEqual(len(fields), 9)
        self.each_is_found("read_slip", fields, longer_slips)

    def test_of_the_writer(self):
        self.each_is_found("write_slip", WRITE, around_the_end, no_readings)

    def test_in_outcomes_runs_and_readings_as_given(self):
        for part in outcomes, runs, from_gets:
            for name, mistakes in (("read_slip", SHORT_READ),
                                   ("write_slip", WRITE)):
                same = {what: mistakes[what]
                        for what in ("high byte first", "the next one off")}
                self.each_is_found(name, same, part)

    def test_in_bent_runs(self):
        self.each_is_found("read_slip", {
            what: SHORT_READ[what]
            for what in ("low byte blamed", "the later cause wins",
                         "15 before a bad value", "a cause within the slip",
                         "15 at the slip")}, bent_runs)


class Compared(OnTheLibrary):
    def test_every_sort_of_reading_is_got(self):
        said = []

        class Listening(Miswritten):
            def call(self, name, *arguments):
                answer = super().call(name, *arguments)
                if name in ("get", "patrol"):
                    said.append((name, answer.number, answer.kind))
                return answer

        from_gets(Listening(self.lib, "", NO_MISTAKE), random.Random(1))
        for name in ("get", "patrol"):
            for sort in ((0, 0), (0, 1), (0, 2), (10, 0), (11, 0), (6, 0)):
                self.assertGreater(said.count((name, *sort)), 5, (name, sort))

    def test_a_difference_is_printed(self):
        lib = Miswritten(self.lib, "write_slip", WRITE["high byte first"])
        opened = contextlib.nullcontext(lib)
        with mock.patch.object(sys, "argv", ["compare", "--lists", "0"]), \
                mock.patch.object(library, "open_library",
                                  return_value=opened), \
                mock.patch.object(comparison, "single_calls"), \
                mock.patch.object(single_slips, "short_slices"), \
                contextlib.redirect_stdout(io.StringIO()) as said, \
                self.assertRaises(SystemExit) as ended:
            comparison.main()
        self.assertEqual(ended.exception.code, 1)
        done = "(Written(number=0, offset=5), "
        self.assertEqual(
            said.getvalue(), "difference: --seed 1\n"
            "write_slip 00 00 00 00 00 00 00 at 1, 1, "
            "Answer(number=0, kind=0, card=0, n=0)\n"
            f"  library   {done}'00 03 00 01 00 00 00')\n"
            f"  reference {done}'00 03 01 00 00 00 00')\n")


class Library(OnTheLibrary):
    def test_what_the_slips_calls_say(self):
        part = bytearray(b"\xA5" * 9)
        several = library.answer_code((11, 0, 3, 0))
        self.assertEqual(several, 0x0003000B)
        self.assertEqual(library.answer_of(several), (11, 0, 3, 0))
        self.assertEqual(self.lib.call("write_slip", part, 2, 513, several),
                         (0, 7))
        self.assertEqual(part, bytes.fromhex("A5A5 15 0102 03 0B A5A5"))
        self.assertEqual(self.lib.call("write_slip", part, 5, 513, several),
                         (17, 5))
        self.assertEqual(self.lib.call("write_slip", part, 5, 1024, several),
                         (16, 5))
        self.assertEqual(self.lib.call("read_slip", part, 2),
                         (0, 7, 513, (11, 0, 3, 0)))
        nothing = 0, (0, 0, 0, 0)
        self.assertEqual(self.lib.call("read_slip", part, 9),
                         (15, 9, *nothing))
        self.assertEqual(self.lib.call("read_slip", part, 2 ** 64 - 1),
                         (15, 9, *nothing))
        part[6] = 10
        self.assertEqual(self.lib.call("read_slip", part, 2),
                         (16, 6, *nothing))
        self.assertEqual(self.lib.call("read_slip", part[:5], 2),
                         (15, 5, *nothing))

    def test_no_bit_of_a_code_is_passed_over(self):
        part = bytes.fromhex("0F FF03 02 04 0B")
        for call in (("read_slip", part, 0), ("read_slip", part, 6),
                     ("read_slip", b"\0", 0),
                     ("write_slip", bytearray(6), 0, 0, 0),
                     ("write_slip", bytearray(1), 0, 0, 0)):
            said, code = self.lib.call(*call), self.lib.code(*call)
            for bit in range(64 if call[0] == "read_slip" else 32):
                other = code ^ 1 << bit
                with mock.patch.object(self.lib, "code", return_value=other):
                    self.assertNotEqual(self.lib.call(*call), said, bit)

    def test_numbers_that_the_calls_cannot_take(self):
        for name, *arguments in (("read_slip", -1), ("read_slip", 2 ** 64),
                                 ("write_slip", 2 ** 64, 0, 0),
                                 ("write_slip", 0, 2 ** 64, 0),
                                 ("write_slip", 0, 0, 2 ** 32),
                                 ("write_slip", 0, 0, -1)):
            with self.assertRaises(library.Beyond):
                self.lib.call(name, bytearray(6), *arguments)


if __name__ == "__main__":
    unittest.main(verbosity=2)
