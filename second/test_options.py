"""The options of the commands in second/, and how a comparison fails."""

import random
import re
import subprocess
import sys
import tempfile
import unittest
from contextlib import redirect_stdout
from fractions import Fraction
from io import StringIO
from itertools import islice
from math import ceil, floor
from pathlib import Path
from types import SimpleNamespace
from unittest import mock

sys.dont_write_bytecode = True
HERE = Path(__file__).resolve().parent
sys.path.insert(0, str(HERE))

import bank             # noqa: E402
import compare          # noqa: E402
import damage           # noqa: E402
import figures          # noqa: E402
import reference as ref  # noqa: E402


def run(name, *options, **more):
    return subprocess.run([sys.executable, "-B", HERE / name, *map(str, options)],
                          capture_output=True, **more)


class Damage(unittest.TestCase):
    def test_every_option(self):
        said = run("damage.py", "--seed", 3, "--blocks", 5, "--marks", "2,0,255,255",
                   "--kind", "marked_card").stdout
        marks = bytes((2, 0, 255, 255))
        bank = damage.damaged_bank(random.Random(3), marks, 5, "marked_card")
        self.assertEqual(said, marks + bank)

    def test_what_each_default_is(self):
        wanted = run("damage.py", "--seed", 0, "--blocks", 16,
                     "--marks", "255,0,255,255").stdout
        self.assertEqual(run("damage.py").stdout, wanted)
        self.assertEqual(len(wanted), 4 + 16 * 45)

    def test_each_option_matters(self):
        base = run("damage.py").stdout
        for options in (("--seed", 1), ("--blocks", 15), ("--marks", "0,0,255,255"),
                        ("--kind", "random_bytes")):
            self.assertNotEqual(run("damage.py", *options).stdout, base, options)

    def test_refused(self):
        for options in (("--marks", "1,2,3"), ("--marks", "255,0,255,256"),
                        ("--kind", "nothing_of_the_sort"), ("--blocks", "x")):
            done = run("damage.py", *options)
            self.assertEqual((done.returncode, done.stdout), (2, b""), options)


class Figures(unittest.TestCase):
    def made(self, *options):
        """(figures made, what each was given), with no figure run."""
        calls = []
        names = {name: lambda rng, args, name=name: calls.append(
            (name, rng.random(), args.trials, args.every)) for name in figures.FIGURES}
        with mock.patch.dict(figures.FIGURES, names), redirect_stdout(StringIO()) as out, \
                mock.patch.object(sys, "argv", ["figures.py", *options]):
            figures.main()
        return calls, out.getvalue()

    def test_one_figure_or_all(self):
        self.assertEqual([call[0] for call in self.made()[0]], list("abcde"))
        self.assertEqual([call[0] for call in self.made("--figure", "c")[0]], ["c"])

    def test_seed_trials_and_every(self):
        first = random.Random(7).random()
        calls, said = self.made("--figure", "d", "--seed", "7", "--trials", "40", "--every")
        self.assertEqual(calls, [("d", first, 40, True)])
        self.assertEqual(said, "(d) python3 second/figures.py --figure d --seed 7 "
                               "--trials 40 --every\n")
        self.assertEqual(self.made("--figure", "a")[0],
                         [("a", random.Random(1).random(), 50_000, False)])

    def test_a_run(self):
        said = run("figures.py", "--figure", "a", "--trials", 40, text=True).stdout
        self.assertIn("no marks: 40 readings\n    that card, right record", said)


class Compare(unittest.TestCase):
    def setUp(self):
        folder = tempfile.TemporaryDirectory()
        self.addCleanup(folder.cleanup)
        self.program = Path(folder.name) / "program"

    def compare(self, script, *options):
        self.program.write_text("#!/bin/sh\n" + script)
        self.program.chmod(0o755)
        return run("compare.py", "--program", self.program, *options, text=True)

    def test_a_program_that_agrees(self):
        done = self.compare(f"exec '{sys.executable}' -B '{HERE}/bank.py'", "--only", 17)
        self.assertEqual((done.returncode, done.stdout), (0, "1 inputs, 0 differ\n"))

    def test_programs_that_differ(self):
        for script in ("cat >/dev/null; echo refused 6", "cat >/dev/null; exit 1",
                       f"'{sys.executable}' -B '{HERE}/bank.py'; echo", "exit 0"):
            done = self.compare(script, "--only", 3, "--seed", 8)
            self.assertEqual(done.returncode, 1, script)
            self.assertIn("seed 8: bank 3: ", done.stdout)

    def test_no_program(self):
        done = run("compare.py", "--program", self.program, text=True)
        self.assertEqual(done.returncode, 1)
        self.assertIn("rt run, in crates/cabinet", done.stdout)

    def test_banks_and_seed(self):
        def inputs(banks, seed):
            wanted = SimpleNamespace(only=None, banks=banks, seed=seed)
            return [parts for _, parts, _ in compare.all_inputs(wanted)]

        none, five, other = inputs(0, 1), inputs(5, 1), inputs(5, 2)
        self.assertEqual((len(five) - len(none), five[:len(none)]), (5, none))
        self.assertNotEqual(five[len(none):], other[len(none):])

    def test_other_roundings_are_found(self):
        """The texts of order 7's first banks tell each other figure apart."""
        def nearest(order):
            """To the nearest; of two as near, the first by this order."""
            def figure(totals):
                share = 1000 * Fraction(sum(totals[:3]), sum(totals))
                return min(floor(share), ceil(share),
                           key=lambda q: (abs(share - q), order(q)))
            return figure

        even = nearest(lambda q: q % 2)
        others = {
            "halves up": nearest(lambda q: -q),
            "halves down": nearest(lambda q: q),
            "halves to the odd": nearest(lambda q: (q + 1) % 2),
            "always down": lambda totals: 1000 * sum(totals[:3]) // sum(totals),
            "always up": lambda totals: -(-1000 * sum(totals[:3]) // sum(totals)),
            "not sound": lambda totals: 1000 - even(totals),
            "clean alone": lambda totals: even((totals[0], 0, 0, sum(totals[1:]))),
            "per hundred": lambda totals: even(totals) // 10,
        }
        banks = list(islice(compare.roundings(), 60))
        for name, data, text in banks:
            self.assertEqual(bank.text(data), text, name)
        for other, figure in others.items():
            with mock.patch.object(ref, "sound_per_thousand", figure):
                self.assertTrue(any(bank.text(data) != text for _, data, text in banks),
                                other)

    def test_every_exact_half(self):
        halves = list(compare.halves())
        self.assertEqual((len(halves), len(set(halves))), (1216, 1216))
        for sound, blocks, figure in halves:
            share = 1000 * Fraction(sound, blocks)
            self.assertEqual((abs(share - figure), figure % 2), (Fraction(1, 2), 0))
        self.assertEqual(len(list(compare.roundings())), 17 + 5 + 1216)

    def test_sizes_of_banks(self):
        sizes = {(len(compare.seeded(1, at)[1]) - 4) // ref.BLOCK
                 for at in range(len(compare.PAIRS))}
        self.assertTrue(all(1 <= size <= ref.MOST_BLOCKS for size in sizes))
        self.assertGreater(len([size for size in sizes if size > 16]), 20)
        self.assertEqual(list(compare.SIZES), list(range(1, 1025)))
        self.assertTrue(all(weight > 0 for weight in compare.SIZE_WEIGHTS))


class Bank(unittest.TestCase):
    def test_from_standard_input(self):
        done = run("bank.py", input=ref.FRESH + bytes(45))
        self.assertRegex(done.stdout.decode(), re.compile("^blocks 1\nclean 1 "))


if __name__ == "__main__":
    unittest.main()
