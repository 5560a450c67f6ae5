"""tools/inspect: what it says, writes and refuses, against second/."""

import json
import os
import re
import unittest
from pathlib import Path

from trying import (ARCHIVE, CARD, CHIPS, CLEAN, FIVE, INSPECT, NONE, PICTURE,
                    ROOT, SEVERAL, InFolder, block, damage, damaged, marks, ref,
                    run, run_shell)


def patrolled(bank, record):
    """The bank with every block patrolled by the second implementation."""
    mended = bytearray(bank)
    for k in range(len(bank) // ref.BLOCK):
        ref.patrol(mended, k, record)
    return bytes(mended)


def not_clean(bank, record):
    """The JSON's list, by the second implementation."""
    made = []
    for k in range(len(bank) // ref.BLOCK):
        read = ref.block_of(bank, k)
        answer, member = ref.reading(read, record)
        word = ("clean", "chips", "card", "none", "several")[ref.total_of(answer)]
        one = {"block": k, "reading": word}
        if word == "several":
            one["card_that_fits"] = answer.card
        if word == "card":
            one["card"] = answer.card
        if word in ("chips", "card"):
            one["n"] = answer.n
            one["changed"] = [{"position": p, "card": p // 9, "chip": p % 9}
                              for p in ref.changed(read, member)]
        if word != "clean":
            made.append(one)
    return made


class Words(InFolder):
    def test_every_reading_in_words(self):
        said = self.inspect(FIVE).out
        for line in ("dump: 5 blocks. No marks.",
                     "  clean       1   no byte changed",
                     "  several     1   two records or more fit, and none is guessed",
                     "  sound       3   of 5: 600 per thousand give a record",
                     "  block 1: chips, 1 byte: card 2 chip 2 (20)",
                     "  block 2: card 0, 2 bytes: card 0 chips 0, 1 (0, 1)",
                     "  block 3: none",
                     "  block 4: several; card 0 is the lowest whose change reaches a "
                     "record",
                     "  card 0: changed in 1 block, 1 of them read as card 0",
                     "  card 2 chip 2 (position 20): in 1 block"):
            self.assertIn(line + "\n", said)

    def test_a_half_goes_to_the_even_number(self):
        for sound, share in ((1, 62), (3, 188)):
            bank = sound * CARD + (16 - sound) * NONE
            self.assertIn(f"of 16: {share} per thousand give a record\n",
                          self.inspect(bank).out)
            got = json.loads(self.inspect(bank, "--json").out)
            self.assertEqual(got["sound_per_thousand"], share)

    def test_a_whole_card_is_said_shortly(self):
        bank = block(*[(p, p) for p in range(27, 36)])
        self.assertIn("card 3, 9 bytes: card 3 all chips (27 to 35)\n",
                      self.inspect(bank).out)

    def test_exit(self):
        self.assertEqual(self.inspect(CLEAN + CHIPS + CARD).status, 0)
        self.assertEqual(self.inspect(CLEAN + NONE).status, 1)
        self.assertEqual(self.inspect(CLEAN + SEVERAL).status, 1)
        self.assertEqual(self.inspect(b"").status, 2)

    def test_a_reader_that_stops_is_no_complaint(self):
        dump = self.file("dump", NONE * 1024)
        line = f"'{INSPECT}' '{dump}' --library '{ARCHIVE}' | head -n 1"
        said = run_shell(line)
        self.assertIn("1,024 blocks", said.out)
        self.assertEqual(said.err, "")


    def test_an_answer_that_cannot_be_written_is_not_an_unread_block(self):
        dump = self.file("dump", CLEAN)
        said = run_shell(f"'{INSPECT}' '{dump}' --library '{ARCHIVE}' >/dev/full")
        self.assertEqual(said.status, 2)
        self.assertIn("cannot be written: no space left", said.err)
        self.assertEqual(len(said.err.splitlines()), 1)

    def test_a_name_that_is_no_text(self):
        dump = os.fsencode(self.folder / "a") + b"\xff"
        with open(dump, "wb") as file:
            file.write(CLEAN)
        said = self.inspect(Path(os.fsdecode(dump)))
        self.assertEqual((said.status, said.err), (0, ""))
        self.assertIn("\\udcff: 1 block", said.out)


class Json(InFolder):
    def test_says_what_second_says(self):
        for seed in range(12):
            record = bytes(damage.LAWFUL_SHAPES[seed % 11](damage.random.Random(seed)))
            bank = damaged(seed, 30, record)
            said = self.inspect(bank, "--json", "--marks",
                                ",".join(map(str, record)))
            got = json.loads(said.out)
            totals = ref.report(bank, record)[1]
            self.assertEqual(got["not_clean"], not_clean(bank, record))
            self.assertEqual(tuple(got["totals"].values()), totals)
            self.assertEqual(got["sound_per_thousand"],
                             ref.sound_per_thousand(totals))
            self.assertEqual(said.status, 1 if sum(totals[3:]) else 0)

    def test_the_card_with_several_is_the_lowest(self):
        got = json.loads(self.inspect(CHIPS, "--json", "--chip", 0, "--chip", 9).out)
        self.assertEqual(got["not_clean"][0]["card_that_fits"], 2)

    def test_counts(self):
        got = json.loads(self.inspect(FIVE, "--json").out)
        self.assertEqual((got["blocks"], got["sound"]), (5, 3))
        self.assertEqual(got["marks"], {"card": None, "chips": [],
                                        "record": [255, 0, 255, 255]})
        self.assertEqual([chip["position"] for chip in got["chips"]], [0, 1, 20])
        self.assertEqual(got["cards"][0], {"card": 0, "blocks_changed": 1,
                                           "blocks_read_as_card": 1})
        self.assertEqual([s["rule"] for s in got["suggestions"]], [2, 3, 4, 7])


class Marks(InFolder):
    def record(self, *options):
        said = self.inspect(CLEAN, "--json", *options)
        return json.loads(said.out)["marks"]["record"]

    def test_card_and_chips(self):
        self.assertEqual(self.record("--card", 4), [4, 0, 255, 255])
        self.assertEqual(self.record("--chip", 44), [255, 1, 44, 255])
        self.assertEqual(self.record("--chip", 9, "--card", 0, "--chip", 3),
                         [0, 2, 9, 3])
        self.assertEqual(self.record("--chip", 1, "--chip", 1), [255, 1, 1, 255])
        self.assertEqual(self.record("--chip", 1, "--chip", 2, "--chip", 1, "--chip", 2),
                         [255, 2, 1, 2])
        self.assertEqual(self.record("--card", 2, "--card", 2), [2, 0, 255, 255])
        self.assertEqual(self.record("--marks", "1,1,20,255"), [1, 1, 20, 255])

    def test_refused(self):
        for options, words in (
                (("--card", 5), "outside its range"),
                (("--card", 255), "outside its range"),
                (("--chip", 45), "outside its range"),
                (("--chip", 300), "outside its range"),
                (("--chip", 2 ** 32), "outside its range"),
                (("--chip", -1), "outside its range"),
                (("--chip", 1, "--chip", 2, "--chip", 3), "a third chip"),
                (("--card", 1, "--card", 2), "a second card"),
                (("--chip", "x"), "invalid int value"),
                (("--marks", "5,0,255,255"), "outside its range"),
                (("--marks", "255,2,7,7"), "marked twice"),
                (("--marks", "255,0,255"), "four numbers"),
                (("--marks", "255,0,255,256"), "four numbers"),
                (("--marks", "255,0,255,-1"), "four numbers"),
                (("--marks", "a,b,c,d"), "four numbers"),
                (("--marks", "255,0,255,255", "--card", 1), "in place of"),
                (("--marks", "255,0,255,255", "--chip", 1), "in place of")):
            out = self.folder / "out"
            said = self.inspect(CLEAN, *options, "--mend", out)
            self.assertEqual((said.status, said.out), (2, ""), options)
            self.assertIn(words, said.err)
            self.assertFalse(out.exists())


class Outputs(InFolder):
    def test_mend(self):
        for record in (marks(), marks(2), marks(255, 20, 3)):
            bank = damaged(5, 40, record)
            out = self.folder / "mended"
            said = self.inspect(bank, "--marks", ",".join(map(str, record)),
                                "--mend", out)
            self.assertIn(said.status, (0, 1))
            self.assertEqual(out.read_bytes(), patrolled(bank, record))
            self.assertEqual((self.folder / "dump").read_bytes(), bank)
            out.unlink()

    def test_picture_is_that_of_picture_py(self):
        bank, out = damaged(3, 20, marks(1)), self.folder / "bank.svg"
        self.inspect(bank, "--card", 1, "--picture", out)
        drawn = run(PICTURE, "--library", ARCHIVE, given=marks(1) + bank)
        self.assertEqual(out.read_text(), drawn.out)

    def test_it_says_what_it_wrote(self):
        mended, drawn = self.folder / "m", self.folder / "p"
        outs = "--mend", mended, "--picture", drawn
        said = self.inspect(FIVE, *outs).out
        self.assertIn(f"\nWritten\n  {mended}: the bank as a patrol leaves it", said)
        self.assertIn(f"\n  {drawn}: the picture\n", said)
        mended.unlink(), drawn.unlink()
        got = json.loads(self.inspect(FIVE, *outs, "--json").out)
        self.assertEqual(got["written"], {"mended": str(mended), "picture": str(drawn)})
        self.assertNotIn("Written", self.inspect(FIVE).out)

    def test_never_over_a_file(self):
        for option in ("--mend", "--picture"):
            there = self.file("there", b"as it was")
            said = self.inspect(FIVE, option, there)
            self.assertEqual((said.status, said.out), (2, ""))
            self.assertIn("there already", said.err)
            self.assertEqual(there.read_bytes(), b"as it was")

    def test_never_over_the_dump(self):
        said = self.inspect(FIVE, "--mend", self.folder / "dump")
        self.assertEqual(said.status, 2)
        self.assertEqual((self.folder / "dump").read_bytes(), FIVE)

    def test_a_link_to_nowhere_is_there(self):
        link = self.folder / "link"
        link.symlink_to(self.folder / "nowhere")
        self.assertEqual(self.inspect(FIVE, "--mend", link).status, 2)
        self.assertFalse((self.folder / "nowhere").exists())

    def test_all_or_none(self):
        good, bad = self.folder / "good", self.folder / "no" / "folder"
        for mend, picture in ((good, bad), (bad, good), (good, good)):
            said = self.inspect(FIVE, "--mend", mend, "--picture", picture)
            self.assertEqual((said.status, said.out), (2, ""))
            self.assertEqual(self.names(), ["dump"])


class BadInput(InFolder):
    def refused(self, dump, words):
        before = self.names()
        said = self.inspect(dump, "--mend", self.folder / "a",
                            "--picture", self.folder / "b")
        self.assertEqual((said.status, said.out), (2, ""))
        self.assertIn(words, said.err)
        self.assertEqual(len(said.err.splitlines()), 1)
        self.assertLessEqual(set(self.names()), {*before, "dump"})

    def test_lengths(self):
        for length, words in ((0, "has 0 bytes"), (44, "has 44 bytes"),
                              (46, "has 46 bytes"), (46_081, "more than 46,080"),
                              (46_125, "more than 46,080"), (200_000, "more than")):
            self.refused(bytes(length), words)
        self.assertEqual(self.inspect(bytes(46_080)).status, 0)

    def test_mark_bytes_before_the_bank(self):
        self.refused(marks() + CLEAN, "tail -c +5")

    def test_files(self):
        self.refused(self.folder / "missing", "cannot be read: no such file")
        self.refused(self.folder, "cannot be read: is a directory")

    def test_no_library(self):
        dump = self.file("dump", CLEAN)
        for archive in (self.folder / "none.a", self.file("bad.a", b"no archive")):
            said = run(INSPECT, dump, "--library", archive)
            self.assertEqual((said.status, said.out), (2, ""))
            self.assertIn(archive.name, said.err)
            self.assertNotIn("Traceback", said.err)

    def test_no_dump_named(self):
        self.assertEqual(run(INSPECT).status, 2)


class Manual(unittest.TestCase):
    page = (ROOT / "docs" / "inspect.1").read_text()

    def test_it_has_every_option(self):
        help_text = run(INSPECT, "--help").out
        wanted = set(re.findall(r"--[a-z-]+", help_text)) - {"--help"}
        options = self.page.split(".SH OPTIONS")[1].split(".SH")[0]
        found = re.findall(r"^\.BI? (--[a-z-]+)", options.replace("\\-", "-"), re.M)
        self.assertEqual((set(found), len(found)), (wanted, len(wanted)))

    def test_its_example_is_what_is_said(self):
        example = re.search(r'^\.\\" example\n(.*?)^\.EE', self.page, re.M | re.S)[1]
        made, shown, *wanted = example.replace("\\-", "-").replace("\\e", "\\") \
            .replace("\\&", "").replace("\\\n", "").splitlines()
        shown = shown.replace("inspect", f"inspect --library '{ARCHIVE}'", 1)
        said = run_shell(f"set -e; cd '{ROOT}'; f=$(mktemp -d); trap 'rm -r $f' EXIT;"
                         f"{made[2:].replace('bank.dump', '$f/bank.dump')};"
                         f"{shown[2:].replace('bank.dump', '$f/bank.dump')}")
        got = re.sub(r"\S*/bank\.dump", "bank.dump", said.out)
        self.assertEqual(got.splitlines(), wanted)


if __name__ == "__main__":
    unittest.main()
