"""tools/odds.py: its two options."""

import unittest

from trying import ROOT, run

ODDS = ROOT / "tools" / "odds.py"


class Odds(unittest.TestCase):
    def test_seed_and_trials(self):
        said = run(ODDS, "--seed", 4, "--trials", 30).out
        self.assertTrue(said.startswith(
            "python3 tools/odds.py --seed 4 --trials 30\n"))
        self.assertEqual(said, run(ODDS, "--seed", 4, "--trials", 30).out)
        self.assertIn("30   100 %", said)
        other = run(ODDS, "--seed", 5, "--trials", 30).out
        self.assertNotEqual(said.splitlines()[1:], other.splitlines()[1:])

    def test_refused(self):
        self.assertEqual(run(ODDS, "--trials", "many").status, 2)


if __name__ == "__main__":
    unittest.main()
