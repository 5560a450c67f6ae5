"""tools/picture.py: the picture's words, its options and what it refuses."""

import re
import unittest
from xml.etree import ElementTree

from trying import (ARCHIVE, CARD, CHIPS, CLEAN, FIVE, NONE, PICTURE, InFolder,
                    damaged, marks, run)


def texts(svg):
    root = ElementTree.fromstring(svg)
    return [node.text for node in root.iter() if node.tag.endswith("}text")]


class Picture(InFolder):
    def draw(self, bank, *options, record=marks()):
        return run(PICTURE, "--library", ARCHIVE, *options, given=record + bank)

    def test_from_the_library_and_from_second(self):
        for seed, record in ((1, marks()), (2, marks(3, 5)), (3, marks(255, 1, 2))):
            bank = damaged(seed, 40, record)
            ours = self.draw(bank, record=record)
            theirs = self.draw(bank, "--second", record=record)
            self.assertEqual(ours, theirs)
            self.assertEqual((ours.status, ours.err), (0, ""))

    def test_a_file_name_and_an_output(self):
        given, out = self.file("input", marks() + FIVE), self.folder / "a.svg"
        for option in ("-o", "--output"):
            said = run(PICTURE, given, option, out, "--library", ARCHIVE)
            self.assertEqual(said, (0, "", ""))
            self.assertEqual(out.read_text(), self.draw(FIVE).out)
            out.unlink()

    def test_an_output_that_is_there(self):
        there = self.file("a.svg", b"as it was")
        said = self.draw(FIVE, "-o", there)
        self.assertEqual(said.status, 1)
        self.assertIn("there already", said.err)
        self.assertEqual(there.read_bytes(), b"as it was")

    def test_words_of_a_bank_that_is_read(self):
        said = texts(self.draw(CLEAN + CHIPS).out)
        self.assertIn("every block gives a record", said)
        self.assertIn("Unread: 0 blocks", said)

    def test_bytes_and_blocks_do_not_contradict(self):
        said = texts(self.draw(CHIPS + CARD).out)
        self.assertFalse([words for words in said if words.startswith("bad in")])
        # One byte on card 2, corrected in chips; two on card 0, as a card.
        at = said.index("1 byte")
        self.assertEqual(said[at + 1], "in 1 block")
        at = said.index("2 bytes")
        self.assertEqual(said[at + 1:at + 3], ["in 1 block", "1 as a card"])

    def test_unread_blocks_are_named(self):
        said = texts(self.draw(CLEAN + NONE * 14).out)
        self.assertIn("12 none", said)
        self.assertNotIn("13 none", said)
        self.assertIn("and 2 more", said)

    def test_marks_are_drawn(self):
        said = texts(self.draw(CLEAN, record=marks(4, 3)).out)
        self.assertIn("1 block, 1 read, 0 bytes changed. "
                      "Marked: card 4, chip 3 of card 0.", said)
        self.assertEqual(said.count("marked"), 2)

    def test_refused(self):
        for data, words in ((b"", "refused 6"), (marks(), "refused 4"),
                            (marks() + CLEAN[1:], "refused 4"),
                            (b"\5\0\xff\xff" + CLEAN, "refused 6"),
                            (b"\xff\2\7\7" + CLEAN, "refused 7"),
                            (marks() + bytes(46_125), "refused 4")):
            out = self.folder / "out.svg"
            said = run(PICTURE, "--library", ARCHIVE, "-o", out, given=data)
            self.assertEqual(said, (1, "", words + "\n"))
            self.assertFalse(out.exists())

    def test_an_input_that_is_not_there(self):
        said = run(PICTURE, self.folder / "missing", "--library", ARCHIVE)
        self.assertEqual((said.status, said.out), (1, ""))
        self.assertRegex(said.err, re.compile("cannot be read: no such file"))


if __name__ == "__main__":
    unittest.main()
