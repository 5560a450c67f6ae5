"""use/compare.py, library.py and check_plain.py: their options, what they refuse,
and that they find a fault."""

import contextlib
import io
import random
import re
import sys
import unittest
from unittest import mock

import library
from kit import ARCHIVE, C_FLAGS, KIT, ROOT, InFolder, needs, run, try_run

import compare as comparison     # which finds second/ for single.py too
import miscounted
import misnamed
import misplaced
import mistakes
import seen
import single

COMPARE = ROOT / "use" / "compare.py"
CHECK_PLAIN = ROOT / "use" / "rust" / "check_plain.py"
LISTS = 150         # in which a mistake must be found

# A patrol of block 1 of 2 that also writes into block 0.
IN_PATROL = """
#include "livomashen.h"
uint32_t real_patrol(uint8_t *, size_t, size_t, const uint8_t *, size_t, uint8_t *);
uint32_t livomashen_patrol(uint8_t *bank, size_t bank_len, size_t k,
                           const uint8_t *marks, size_t marks_len, uint8_t *window)
{
    uint32_t code = real_patrol(bank, bank_len, k, marks, marks_len, window);
    if (bank_len == 90 && k == 1 && (code & 0xFFu) == 0)
        bank[7] ^= 1;
    return code;
}
"""

# A get by command, done on a bank of seven blocks, that drops the refused bit.
IN_COMMAND = """
#include "livomashen.h"
uint32_t real_write_register(uint8_t *, uint32_t, uint8_t, uint8_t *, size_t,
                             uint8_t *, size_t, uint8_t *);
uint32_t livomashen_write_register(uint8_t *registers, uint32_t address,
                                   uint8_t value, uint8_t *bank, size_t bank_len,
                                   uint8_t *out, size_t out_len, uint8_t *window)
{
    uint32_t number = real_write_register(registers, address, value, bank,
                                          bank_len, out, out_len, window);
    if (number == 0 && address == 0 && value == 1 && registers[4] < 3
        && bank_len == 315)
        registers[7] &= 0xFDu;
    return number;
}
"""

# A proposal that writes one byte, which one it is told by the first of the marks.
IN_PROPOSE = """
#include "livomashen.h"
uint32_t livomashen_propose(const uint8_t *window, const uint8_t *marks,
                            size_t marks_len)
{
    uint8_t *bytes = (uint8_t *)window;
    if (marks[0] == 0)
        bytes[-1] = 1;
    if (marks[0] == 1)
        bytes[0] = 1;
    if (marks[0] == 2)
        bytes[LIVOMASHEN_WINDOW] = 1;
    if (marks[0] == 3)
        ((uint8_t *)marks)[marks_len - 1] = 1;
    if (marks[0] == 4)
        ((uint8_t *)marks)[marks_len] = 1;
    return 0;
}
"""


def compare(*options):
    return try_run(sys.executable, "-B", COMPARE, *options)


class WithFaults(InFolder):
    def faulty(self, call, fault):
        """The archive with a call that makes the real one and then errs."""
        made, source = self.folder / "faulty.a", self.folder / "fault.c"
        source.write_text(fault)
        run("gcc", *C_FLAGS, "-I", KIT, "-c", source, "-o", self.folder / "fault.o")
        run("objcopy", "--redefine-sym", f"livomashen_{call}=real_{call}",
            ARCHIVE, made)
        run("ar", "r", made, self.folder / "fault.o")
        return made


class Compare(WithFaults):
    def test_every_option(self):
        done = compare("--library", ARCHIVE, "--seed", 5, "--lists", 3,
                       "--from-list", 10, "--entries", 20)
        self.assertEqual(done.returncode, 0, done.stdout)
        found = re.search(r"agree: seed 5, (\d+) calls of every length and address, "
                          r"(\d+) calls on slips, (\d+) calls on two bad chips, "
                          r"3 lists, (\d+) entries", done.stdout)
        self.assertGreater(int(found[1]), 20_000)
        self.assertGreater(int(found[2]), 1_000_000)
        self.assertGreater(int(found[3]), 40_000)
        self.assertLess(60 - 1, int(found[4]))
        self.assertLess(int(found[4]), 3 * (20 + 45))

    @needs("gcc", "objcopy", "ar")
    def test_a_fault_is_found_and_the_list_is_short(self):
        faulty = self.faulty("patrol", IN_PATROL)
        done = compare("--library", faulty, "--lists", 200)
        self.assertEqual(done.returncode, 1)
        found = re.search(r"--seed 1, list (\d+), a bank of 2 blocks, (\d+) entries:",
                          done.stdout)
        self.assertEqual(found[2], "1")
        self.assertIn("\n  patrol 1\nbank after it\n", done.stdout)
        # The list with that number alone shows it again.
        again = compare("--library", faulty, "--from-list", found[1], "--lists", 1)
        self.assertEqual(again.stdout, done.stdout)

    @needs("gcc", "objcopy", "ar")
    def test_a_fault_of_a_command_is_found(self):
        done = compare("--library", self.faulty("write_register", IN_COMMAND),
                       "--lists", 200)
        self.assertEqual(done.returncode, 1)
        # A refused command and what it needs, then a get that is done.
        self.assertRegex(done.stdout, r"a bank of 7 blocks, [2-4] entries:\n"
                                      r"(?:  .*\n){1,3}"
                                      r"  write_register 0 1 \w{90}\n"
                                      r"registers after it\n")

    def test_no_library(self):
        done = compare("--library", self.folder / "none.a")
        self.assertEqual(done.returncode, 1)
        self.assertIn("none.a is not there", done.stderr)

    def main_of(self, *options):
        """The exit and what is printed, with no slips and no two bad chips compared."""
        words = ["compare", "--library", str(ARCHIVE), *map(str, options)]
        with mock.patch.object(sys, "argv", words), \
                mock.patch.object(comparison, "slip_calls", return_value=0), \
                mock.patch.object(comparison, "two_chip_calls", return_value=0), \
                contextlib.redirect_stdout(io.StringIO()) as said:
            try:
                comparison.main()
            except SystemExit as ended:
                return ended.code, said.getvalue()
        return 0, said.getvalue()

    def run_of(self, lists, *entries):
        """The same, where each list has these entries alone."""
        with mock.patch.object(single, "compare_all", return_value=0), \
                mock.patch.object(comparison, "next_entries", return_value=entries):
            return self.main_of("--lists", lists, "--entries", 1)

    def test_all_that_is_counted_comes(self):
        ended, said = self.main_of("--lists", comparison.ENOUGH)
        self.assertEqual(ended, 0, said)
        for what in seen.ALL:
            self.assertRegex(said, rf", [1-9]\d* {what}, ")

    def test_many_lists_in_which_something_lacks_do_not_pass(self):
        def lacking(*there):
            return 1, "500 lists, but no entry " + ", none ".join(
                what for what in seen.ALL if what not in there) + "\n"

        four_times = ("hit", 20, 7), *[("get", 0, bytes(45))] * 4
        card_twice = [("place_card", 2)] * 2                    # that of chip 20
        by_command = ("write_register", 3, 2, b""), ("write_register", 0, 4, b"")
        self.assertEqual(len(seen.ALL), 11)
        self.assertEqual(self.run_of(500, ("report",)), lacking())
        self.assertEqual(self.run_of(500, *four_times), lacking(seen.WITH))
        there = seen.WITH, seen.HIDDEN, "that placed a card again by call"
        self.assertEqual(self.run_of(500, *four_times, *card_twice), lacking(*there))
        self.assertEqual(
            self.run_of(500, *four_times, *card_twice, *by_command),
            lacking(*there, "that placed a card again by command"))
        self.assertEqual(
            self.run_of(500, *[("place_chip", 7)] * 2, *[("place_chip", 8)] * 2),
            lacking("that placed a chip again by call",
                    "that placed one of two chips again by call"))
        for entries, shown in ((("report",),), "0"), (four_times, "499"):
            ended, said = self.run_of(499, *entries)
            self.assertEqual(ended, 0)
            self.assertIn(f" entries, {shown} with a proposal, 0 with ", said)


class OnTheLibrary(unittest.TestCase):
    def setUp(self):
        opened = library.open_library(ARCHIVE)
        self.lib = opened.__enter__()
        self.addCleanup(opened.__exit__, None, None, None)

    def found_in_lists(self, lib):
        with contextlib.redirect_stdout(io.StringIO()) as said:
            agree = all(comparison.run_list(lib, 1, number, 120)
                        for number in range(LISTS))
        self.assertEqual("difference: --seed 1, list " in said.getvalue(), not agree)
        return not agree


class MarkMistakes(OnTheLibrary):
    def lib_with(self, mistake, by_command, pending=None):
        return misplaced.Misplaced(self.lib, mistake, by_command, pending)

    def found_by_single_calls(self, lib):
        calls = single.mark_commands if lib.by_command else single.mark_numbers
        try:
            calls(lib)
        except single.Difference:
            return True
        return False

    def test_each_is_found(self):
        in_lists, alone = misplaced.MISPLACED, misplaced.EQUAL_CHIPS
        for by_command in (False, True):
            none = self.lib_with(misplaced.NOTHING_MISPLACED, by_command)
            self.assertFalse(self.found_by_single_calls(none))
            self.assertFalse(self.found_in_lists(none))
            for what, mistake in {**in_lists, **alone}.items():
                with self.subTest(what, by_command=by_command):
                    lib = self.lib_with(mistake, by_command)
                    self.assertTrue(self.found_by_single_calls(lib))
                    if what in in_lists:
                        self.assertTrue(self.found_in_lists(lib))

    def test_each_of_the_pending_bits_is_found(self):
        for what, pending in misplaced.PENDING.items():
            with self.subTest(what):
                lib = self.lib_with(misplaced.NOTHING_MISPLACED, True, pending)
                self.assertTrue(self.found_by_single_calls(lib))
                self.assertTrue(self.found_in_lists(lib))


class CountMistakes(OnTheLibrary):
    def found_by_single_calls(self, lib):
        try:
            single.under_each_card(lib, random.Random(1))
        except single.Difference:
            return True
        return False

    def test_each_is_found(self):
        right = miscounted.Miscounted(self.lib, miscounted.COUNTED)
        self.assertFalse(self.found_by_single_calls(right))
        self.assertFalse(self.found_in_lists(right))
        for what, counted in miscounted.MISCOUNTED.items():
            with self.subTest(what):
                lib = miscounted.Miscounted(self.lib, counted)
                self.assertTrue(self.found_by_single_calls(lib))
                self.assertTrue(self.found_in_lists(lib))


class NameMistakes(OnTheLibrary):
    def found_by_single_calls(self, lib):
        try:
            single.two_cards_fit(lib, random.Random(1))
        except single.Difference:
            return True
        return False

    def test_each_is_found(self):
        right = misnamed.Misnamed(self.lib, misnamed.LOWEST)
        self.assertFalse(self.found_by_single_calls(right))
        self.assertFalse(self.found_in_lists(right))
        for what, named in misnamed.MISNAMED.items():
            for call in misnamed.CALLS:
                with self.subTest(what, call=call):
                    lib = misnamed.Misnamed(self.lib, named, (call,))
                    self.assertTrue(self.found_by_single_calls(lib))
                    if call != "read":      # lists have no entry that is a read alone
                        self.assertTrue(self.found_in_lists(lib))

    def test_all_that_can_be_named_is(self):
        named = []
        lib = misnamed.Misnamed(self.lib, lambda fit, marks, block: (
            named.append((len(marks.chips), fit[0])) or fit[0]))
        single.two_cards_fit(lib, random.Random(1))
        for chips, highest in ((1, 3), (2, 2)):
            for card in range(highest + 1):
                self.assertGreater(named.count((chips, card)), 50, (chips, card))


class WindowMistakes(OnTheLibrary):
    def found_by_lists(self, mistake):
        return self.found_in_lists(mistakes.Mistaken(self.lib, mistake))

    def found_by_single_calls(self, mistake):
        lib = mistakes.Mistaken(self.lib, mistake)
        try:
            single.windows(lib, random.Random(1))
            single.around_four(lib)
        except single.Difference:
            return True
        return False

    def test_each_is_found(self):
        self.assertFalse(self.found_by_lists(mistakes.NO_MISTAKE))
        self.assertFalse(self.found_by_single_calls(mistakes.NO_MISTAKE))
        for what, mistake in {**mistakes.PROPOSED, **mistakes.ADDED}.items():
            with self.subTest(what):
                self.assertTrue(self.found_by_lists(mistake))
                self.assertTrue(self.found_by_single_calls(mistake))
        for what, mistake in mistakes.BETWEEN_CALLS.items():
            with self.subTest(what):
                self.assertTrue(self.found_by_lists(mistake))


class Library(WithFaults):
    def test_registers_are_twelve_windows_64_and_values_bytes(self):
        part, start = bytearray(45), bytearray(library.REGISTERS)
        recent = bytearray(library.WINDOW)
        with library.open_library(ARCHIVE) as lib:
            def beyond(*call):
                with self.assertRaises(library.Beyond):
                    lib.call(*call)

            for wrong in map(bytearray, (0, 11, 13)):
                beyond("interrupt", wrong)
                beyond("read_register", wrong, 0)
                beyond("write_register", wrong, 1, 9, part, part, recent)
            for wrong in map(bytearray, (0, 63, 65)):
                beyond("propose", wrong, part)
                beyond("clear_window", wrong)
                beyond("get", part, 0, part, part, wrong)
                beyond("patrol", part, 0, part, wrong)
                beyond("write_register", start, 1, 9, part, part, wrong)
            for address, value in ((2 ** 32, 0), (-1, 0), (1, 256), (1, -1)):
                beyond("write_register", start, address, value, part, part, recent)
        self.assertEqual(start + recent, bytes(library.REGISTERS + library.WINDOW))

    @needs("gcc", "objcopy", "ar")
    def test_a_byte_that_must_not_change(self):
        with library.open_library(self.faulty("propose", IN_PROPOSE)) as lib:
            for which in range(5):
                with self.assertRaises(library.Overrun):
                    lib.call("propose", bytearray(64), bytearray((which, 0, 0, 0)))
            lib.call("propose", bytearray(64), bytearray((5, 0, 0, 0)))

    def test_what_the_window_s_calls_say(self):
        recent, fresh = bytearray((9, 9, 9, 7) * 16), bytearray((255, 0, 255, 255))
        with library.open_library(ARCHIVE) as lib:
            self.assertEqual(lib.call("propose", recent, fresh), (0, 7))
            self.assertEqual(lib.call("propose", recent, fresh[:3]), (6, 0))
            self.assertEqual(lib.call("clear_window", recent), (0, 0, 0, 0))
            self.assertEqual(lib.call("propose", recent, fresh), (0, 255))
        self.assertEqual(recent, b"\xFF" * 64)

    def test_what_the_register_calls_say(self):
        held = bytearray((9, 8, 7, 6, 5, 4, 3, 2, 255, 0, 255, 255))
        with library.open_library(ARCHIVE) as lib:
            self.assertEqual(lib.call("read_register", held, 4), (0, 5))
            self.assertEqual(lib.call("read_register", held, 12), (12, 0))
            self.assertEqual(lib.call("interrupt", held), 1)
            self.assertEqual(lib.call("write_register", held, 7, 2, bytearray(),
                                      bytearray(), bytearray(64)), 0)
            self.assertEqual(lib.call("interrupt", held), 0)
        self.assertEqual(held[7], 0)


class CheckPlain(InFolder):
    def check(self, script, *options):
        program = self.folder / "program"
        program.write_text("#!/bin/sh\n" + script)
        program.chmod(0o755)
        return try_run(sys.executable, "-B", CHECK_PLAIN, program, *options)

    def test_cases(self):
        counts = [int(re.match(r"(\d+) cases, but 0 answers", self.check(
            "cat >/dev/null", "--cases", cases).stderr)[1]) for cases in (0, 7)]
        self.assertEqual(counts[1] - counts[0], 7)

    def test_seed_and_a_difference(self):
        done = self.check("sed 's/.*/x/'", "--seed", 9, "--cases", 1)
        self.assertEqual(done.returncode, 1)
        self.assertTrue(done.stderr.startswith("seed 9: read "), done.stderr)
        self.assertIn("\n  got    x\n", done.stderr)


if __name__ == "__main__":
    unittest.main(verbosity=2)
