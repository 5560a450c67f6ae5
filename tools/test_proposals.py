"""tools/proposals.py: its figures are the data sheet's, and its options."""

import re
import unittest

from trying import ROOT, run

PROPOSALS = ROOT / "tools" / "proposals.py"
SHEET = ROOT / "docs" / "DATA-SHEET.md"


class Proposals(unittest.TestCase):
    def test_the_sheet_has_what_it_prints(self):
        page = SHEET.read_text(encoding="utf-8")
        shown = re.search(r"^(python3 tools/proposals\.py ([^\n]*)\n.*?)^```", page,
                          re.M | re.S)
        self.assertEqual(run(PROPOSALS, *shown[2].split()).out, shown[1])
        for share in re.findall(r"exact (\S+ %)", shown[1])[1:]:
            self.assertEqual(page.count(share), 2, share)

    def test_seed_and_trials(self):
        said = run(PROPOSALS, "--seed", 4, "--trials", 9).out
        self.assertTrue(said.startswith(
            "python3 tools/proposals.py --seed 4 --trials 9\n"))
        self.assertIn("of 9, exact 95.65 %\n", said)
        self.assertEqual(run(PROPOSALS, "--trials", "many").status, 2)


if __name__ == "__main__":
    unittest.main()
