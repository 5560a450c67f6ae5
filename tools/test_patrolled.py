"""The window and its proposal in tools/inspect, against second/."""

import json
import re
import unittest

from trying import (ARCHIVE, CARD, CHIPS, CLEAN, NONE, SEVERAL, InFolder, block,
                    damage, damaged, library, ref)

import window
from patrolled import proposed
from readings import Refused

LOW_CHIP = block((5, 9))
BAD_CARD = block(*[(p, 3 + p) for p in range(27, 36)])


def by_second(bank, record):
    """The JSON's positions, added and proposed position, from second/."""
    mended, held, run = bytearray(bank), bytearray(window.START), 0
    for k in range(len(bank) // ref.BLOCK):
        run += window.patrol(mended, k, record, held).n
    number, chip = window.propose(held, record)
    assert number == 0
    return ([p for p in held if p != window.NONE], run,
            None if chip == window.NONE else chip)


class Found(InFolder):
    """Dumps whose window is known."""

    def found(self, bank, *options):
        return json.loads(self.inspect(bank, "--json", *options).out)

    def proposed(self, bank, *options):
        proposal = self.found(bank, *options)["proposal"]
        return proposal and proposal["position"]

    def said(self, bank, *options):
        """The part on the window, its lines joined where they were broken."""
        said = self.inspect(bank, *options).out
        part = said.split("What the window proposes after a patrol in memory\n")[1]
        return re.sub(r"\n +(?=\S)", " ", part.split("\n\n")[0])

    def passed_over(self, bank, *options):
        return {one["position"]: one["passed_over"]
                for one in self.found(bank, *options)["window"]["counts"]
                if "passed_over" in one}


class Json(Found):
    def test_says_what_second_says(self):
        for seed in range(12):
            shape = damage.LAWFUL_SHAPES[seed % 11]
            record = bytes(shape(damage.random.Random(seed)))
            kind = ("allowed_in_full", "marked_card", None)[seed % 3]
            bank = damaged(seed, 30, record, kind)
            got = self.found(bank, "--marks", ",".join(map(str, record)))
            held, added, chip = by_second(bank, record)
            self.assertEqual(got["window"]["positions"], held)
            self.assertEqual(got["window"]["added"], added)
            self.assertEqual(got["proposal"] and got["proposal"]["position"], chip)
            times = {one["position"]: one["times"]
                     for one in got["window"]["counts"]}
            self.assertEqual(times, {p: held.count(p) for p in held})

    def test_a_failing_chip_whole(self):
        got = self.found(CARD + CHIPS * 4 + NONE)
        chip = {"position": 20, "card": 2, "chip": 2}
        self.assertEqual(got["proposal"], chip)
        self.assertEqual(got["window"], {
            "added": 6, "positions": [0, 1, 20, 20, 20, 20],
            "counts": [{**chip, "times": 4},
                       {"position": 0, "card": 0, "chip": 0, "times": 1},
                       {"position": 1, "card": 0, "chip": 1, "times": 1}]})

    def test_nothing_added(self):
        for bank in (CLEAN, CLEAN * 9, NONE + SEVERAL):
            got = self.found(bank)
            self.assertEqual(got["window"], {"added": 0, "positions": [],
                                             "counts": []})
            self.assertIsNone(got["proposal"])


class Proposal(Found):
    def test_from_four_times_on(self):
        self.assertIsNone(self.proposed(CHIPS * 3))
        self.assertEqual(self.proposed(CHIPS * 4), 20)
        self.assertEqual(self.proposed(CHIPS * 3 + CLEAN + NONE + CHIPS), 20)

    def test_the_lowest_and_not_the_most_often(self):
        self.assertEqual(self.proposed(CHIPS * 9 + LOW_CHIP * 4), 5)
        self.assertEqual(self.passed_over(CHIPS * 9 + LOW_CHIP * 4),
                         {20: "a lower one is proposed"})

    def test_marks_pass_over(self):
        bank = LOW_CHIP * 5 + CHIPS * 4
        for options, chip, why in (
                (("--chip", 5), 20, {5: "marked"}),
                (("--card", 0), 20, {5: "the card is marked"}),
                (("--card", 0, "--chip", 20), None,
                 {5: "the card is marked", 20: "marked"}),
                (("--chip", 5, "--chip", 20), None, {5: "marked", 20: "marked"})):
            self.assertEqual(self.proposed(bank, *options), chip, options)
            self.assertEqual(self.passed_over(bank, *options), why, options)

    def test_a_bad_card_is_nine_chips(self):
        self.assertIsNone(self.proposed(BAD_CARD * 3))
        for blocks in (4, 7, 8, 40):
            self.assertEqual(self.proposed(BAD_CARD * blocks), 27)
        self.assertIsNone(self.proposed(BAD_CARD * 40, "--card", 3))

    def test_a_wrong_record_adds_a_sound_chip(self):
        # Three bytes of the four that make a lawful block: the fourth is taken
        # for the bad one.
        lawful = damage.lawful_in_one_row(damage.random.Random(1))
        *bad, sound = [p for p in range(ref.BLOCK) if lawful[p]]
        self.assertEqual(
            self.proposed(block(*[(p, lawful[p]) for p in bad]) * 4), sound)

    def test_the_oldest_leave(self):
        # Chip 20 twelve times, then 63 positions in turn, each once or twice.
        others = b"".join(block((at % 45, 1)) for at in range(63))
        got = self.found(CHIPS * 12 + others)
        self.assertEqual((got["window"]["added"], got["proposal"]), (75, None))
        self.assertEqual(got["window"]["positions"],
                         [20] + [at % 45 for at in range(63)])
        self.assertEqual(next(chip["blocks_changed"] for chip in got["chips"]
                              if chip["position"] == 20), 13)


    def test_unlawful_marks_are_refused(self):
        with library.open_library(ARCHIVE) as lib:
            for record, number in ((b"\5\0\xff\xff", 6), (b"\xff\2\7\7", 7)):
                with self.assertRaises(Refused) as refused:
                    proposed(lib, bytearray(window.START), record)
                self.assertEqual(refused.exception.number, number)


class Words(Found):
    def test_a_failing_chip(self):
        said = self.said(CARD + CHIPS * 4)
        self.assertIn("Proposed: card 2 chip 2 (position 20). The patrol added 6 "
                      "positions, all held. 4 times: card 2 chip 2 (20); proposed "
                      "1 time: card 0 chips 0, 1 (0, 1) ", said)
        self.assertIn("No mark is placed", said)

    def test_a_bad_card(self):
        said = self.said(BAD_CARD * 8)
        self.assertIn("Proposed: card 3 chip 0 (position 27). Of card 3, 9 chips "
                      "stand in the window four times or more.", said)
        self.assertIn("added 72 positions; the last 64 are held, and 8 have left.",
                      said)
        self.assertIn("8 times: card 3 chip 8 (35); passed over, a lower one is "
                      "proposed 7 times: card 3 chip 0 (27); proposed ", said)

    def test_under_marks(self):
        self.assertIn("No chip is proposed. The patrol added 36 positions, all "
                      "held. 4 times: card 3 all chips (27 to 35); passed over, "
                      "the card is marked ", self.said(BAD_CARD * 4, "--card", 3))
        self.assertIn("4 times: card 2 chip 2 (20); passed over, marked ",
                      self.said(CHIPS * 4, "--chip", 20))

    def test_nothing_added(self):
        self.assertIn("No chip is proposed. The patrol added 0 positions. ",
                      self.said(CLEAN))
        self.assertIn("added 0 positions; 2 unread blocks added nothing. ",
                      self.said(NONE + CLEAN + SEVERAL))

    def test_the_rules_agree_with_it(self):
        chip = self.inspect(CHIPS * 4).out
        self.assertIn("  Proposed, not marked: chip 2 of card 2.\n    Rule 7:", chip)
        self.assertEqual(chip.count("Rule 7:"), 1)
        card = self.inspect(BAD_CARD * 4).out
        self.assertIn("  9 chips of card 3 stand in the window four times or more, "
                      "and 4 blocks read\n    as card 3: a bad card shows so.\n"
                      "    Rule 2:", card)
        self.assertNotIn("Rule 7:", card)
        beside = self.inspect(BAD_CARD * 4 + CHIPS * 4, "--card", 3).out
        self.assertIn("  Proposed beside marked card 3: chip 2 of card 2, mended as "
                      "the one further\n    chip.\n    Rule 1:", beside)


if __name__ == "__main__":
    unittest.main()
