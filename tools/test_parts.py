"""The parts of the tools: the data sheet's rules, the bar, new files."""

import io
import re
import unittest
from pathlib import Path

from trying import (ARCHIVE, CARD, CHIPS, CLEAN, NONE, ROOT, SEVERAL, InFolder,
                    block, library, marks)

import files
import suggest
from patrolled import Patrolled
from progress import Progress
from readings import FromLibrary, Seen

LAST_CARD = block(*[(p, 3 + p) for p in range(36, 45)])


def suggested(lib, record, bank):
    seen = Seen(FromLibrary(lib), record, bank)
    return suggest.suggestions(Patrolled(lib, seen, bank))


class Rules(unittest.TestCase):
    def test_all_eight_in_the_page_s_words(self):
        page = (ROOT / "docs" / "DATA-SHEET.md").read_text(encoding="utf-8")
        plain = re.sub(r"\s+", " ", page.replace("**", ""))
        found = suggest.rules()
        self.assertEqual(list(found), list(range(1, 9)))
        for number, text in found.items():
            self.assertIn(f"{number}. {text}", plain)
        self.assertTrue(found[8].endswith("for a while."))

    def test_which_rules_a_bank_calls_for(self):
        with library.open_library(ARCHIVE) as lib:
            for record, bank, wanted in (
                    (marks(), CLEAN, [1]),
                    (marks(), CLEAN + CHIPS, [1, 3, 7]),
                    (marks(), CLEAN + CARD, [1, 3]),
                    (marks(), CLEAN + NONE, [2, 4]),
                    (marks(), CLEAN + SEVERAL, [2, 4]),
                    (marks(), CHIPS + NONE, [2, 3, 4, 7]),
                    (marks(255, 20), CHIPS, []),
                    (marks(255, 20), CHIPS + CARD, []),
                    (marks(255, 21), CHIPS, [1, 7]),
                    (marks(255, 0, 9), NONE + CHIPS, [2, 4, 7]),
                    (marks(4), LAST_CARD, [4, 5]),
                    (marks(1), CLEAN + CHIPS + block((1, 1), (20, 1), (40, 3)),
                     [4, 5, 6]),
                    (marks(4, 44), LAST_CARD, [4, 5]),
                    (marks(4, 0), LAST_CARD + block((0, 1)), [4, 5]),
                    (marks(4, 0, 1), LAST_CARD + block((0, 1), (1, 1)), [4, 5, 8]),
                    (marks(4, 0, 44), LAST_CARD + block((0, 1)), [4, 5]),
                    # With a proposal: a failing chip, a bad card, both, a
                    # chip beside a marked card, two chips of one card.
                    (marks(), CHIPS * 4, [1, 3, 7, 7]),
                    (marks(), LAST_CARD * 4, [1, 2, 3]),
                    (marks(), LAST_CARD * 4 + CHIPS * 4, [1, 2, 3, 7, 7]),
                    (marks(4), LAST_CARD * 4 + CHIPS * 4, [1, 4, 5]),
                    (marks(), (CHIPS + block((19, 1))) * 4, [1, 3, 7, 7])):
                got = [s.rule for s in suggested(lib, record, bank)]
                self.assertEqual(got, wanted, (tuple(record), bank.hex()))

    def test_the_facts(self):
        with library.open_library(ARCHIVE) as lib:
            found = suggested(lib, marks(), CHIPS + CHIPS + NONE + SEVERAL)
        self.assertEqual([s.because for s in found], [
            'No card is marked; 2 blocks unread: 1 as "none", 1 as "several".',
            "Nothing is marked, and 2 blocks would be put right.",
            "Of 2 blocks read: card 2 changed in 2.",
            "Single chips changed, not marked: chip 2 of card 2 in 2 blocks."])

    def test_chips_marked_on_the_marked_card(self):
        for chips, words in (((), "Card 4 is marked."),
                             ((0,), "Card 4 is marked."),
                             ((44,), "Card 4 is marked, and on it chip 8 of card 4."),
                             ((0, 44), "Card 4 is marked, and on it chip 8 of card 4."),
                             ((44, 36), "Card 4 is marked, and on it chip 8 of card 4, "
                                        "chip 0 of card 4.")):
            with library.open_library(ARCHIVE) as lib:
                found = suggested(lib, marks(4, *chips), LAST_CARD)
            self.assertEqual([s.because for s in found if s.rule == 5], [words])


class Terminal(io.StringIO):
    def isatty(self):
        return True


class Bar(unittest.TestCase):
    def shown(self, stream, seconds_each):
        now = 0.0

        def clock():
            return now

        with Progress(40, "blocks", stream, clock) as step:
            for done in range(1, 41):
                now += seconds_each
                step(done)
        return stream.getvalue()

    def test_a_long_task_on_a_terminal(self):
        said = self.shown(Terminal(), 0.125)
        self.assertTrue(said.startswith(
            "\r[########................................] 8 of 40 blocks"))
        self.assertIn(f"[{'#' * 40}] 40 of 40 blocks", said)
        self.assertTrue(said.endswith("\r\033[K"))

    def test_not_drawn_at_every_step(self):
        self.assertLess(self.shown(Terminal(), 0.05).count("["), 15)

    def test_a_short_task_shows_nothing(self):
        self.assertEqual(self.shown(Terminal(), 0.02), "")

    def test_nothing_where_there_is_no_terminal(self):
        self.assertEqual(self.shown(io.StringIO(), 1), "")


class NewFiles(InFolder):
    def test_a_full_disk_leaves_nothing(self):
        if not Path("/dev/full").exists():
            self.skipTest("no /dev/full here")
        opened, real = self.folder / "a", open

        def full(path, mode):
            real(path, mode).close()
            return real("/dev/full", "wb")

        files.open = full
        self.addCleanup(delattr, files, "open")
        with self.assertRaisesRegex(files.Unusable, "no space"):
            files.write_new({opened: b"x" * 100_000})
        self.assertEqual(self.names(), [])

    def test_a_file_that_comes_up_meanwhile_stays(self):
        late = self.file("late", b"as it was")
        before = files.check_new
        files.check_new = lambda paths: None
        self.addCleanup(setattr, files, "check_new", before)
        with self.assertRaises(files.Unusable):
            files.write_new({self.folder / "first": b"1", late: b"2"})
        self.assertEqual((self.names(), late.read_bytes()), (["late"], b"as it was"))


if __name__ == "__main__":
    unittest.main()
