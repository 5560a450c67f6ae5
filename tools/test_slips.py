"""Slips in tools/inspect, written and read back, against second/."""

import json
import random
import re
import unittest

from trying import (ARCHIVE, CARD, CHIPS, CLEAN, FIVE, INSPECT, NONE, ROOT,
                    InFolder, damage, damaged, library, marks, ref, run,
                    run_shell)

import files
import slip_files
import slips

WORDS = "clean", "chips", "card", "none", "several"
OF_FIVE = bytes((3, 0, 0, 0, 11, 1, 0, 1, 1, 15, 2, 0, 2, 0, 2, 17, 3, 0, 10,
                 21, 4, 0, 0, 11))
READINGS = (ref.Answer(), ref.Answer(10),
            *(ref.Answer(11, card=card) for card in range(5)),
            *(ref.Answer(kind=1, n=n) for n in (1, 2)),
            *(ref.Answer(kind=2, card=card, n=n)
              for card in range(5) for n in range(1, 12)))


def by_second(bank, record):
    """The slips of a bank's readings."""
    answers = [ref.reading(ref.block_of(bank, k), record)[0]
               for k in range(len(bank) // ref.BLOCK)]
    return b"".join(slips.slip_of(*one) for one in enumerate(answers))


def some_slips(rng):
    """Outcomes of any blocks, and their slips one behind another."""
    run = [(rng.randrange(1024), rng.choice(READINGS)) for _ in range(40)]
    return run, b"".join(slips.slip_of(*one) for one in run)


def objects(run):
    """The JSON's list of these outcomes."""
    made, at = [], 0
    for k, answer in run:
        word = WORDS[ref.total_of(answer)]
        one = {"byte": at, "block": k, "reading": word}
        one.update({"several": {"card_that_fits": answer.card},
                    "card": {"card": answer.card, "n": answer.n},
                    "chips": {"n": answer.n}}.get(word, {}))
        made.append(one)
        at += len(slips.slip_of(k, answer))
    return made


class OnSlips(InFolder):
    def read_back(self, data, *options):
        """--read-slips on these bytes, or on a file that is there."""
        path = self.file("slips", data) if isinstance(data, bytes) else data
        return run(INSPECT, "--read-slips", path, "--library", ARCHIVE,
                   *options)


class Written(OnSlips):
    def setUp(self):
        super().setUp()
        self.out = self.folder / "out"

    def written(self, bank, *options):
        said = self.inspect(bank, "--slips", self.out, *options)
        content = self.out.read_bytes()
        self.out.unlink()
        return said, content

    def test_each_reading(self):
        said, content = self.written(FIVE)
        self.assertEqual((said.status, content), (1, OF_FIVE))
        self.assertEqual((self.folder / "dump").read_bytes(), FIVE)
        for bank, wanted in ((CLEAN, (3, 0, 0, 0)), (NONE, (17, 0, 0, 10)),
                             (CARD, (15, 0, 0, 2, 0, 2)),
                             (CHIPS * 2, (11, 0, 0, 1, 1, 11, 1, 0, 1, 1))):
            self.assertEqual(self.written(bank)[1], bytes(wanted))

    def test_says_what_second_says(self):
        for seed in range(11):
            shape = damage.LAWFUL_SHAPES[seed]
            record = bytes(shape(damage.random.Random(seed)))
            bank = damaged(seed, 40, record)
            _, content = self.written(bank, "--marks",
                                      ",".join(map(str, record)))
            self.assertEqual(content, by_second(bank, record), tuple(record))

    def test_the_largest_bank(self):
        for bank in (CARD * 1024, FIVE * 204 + CLEAN * 4):
            said, content = self.written(bank)
            self.assertEqual(content, by_second(bank, marks()))
            back = self.read_back(content)
            self.assertEqual((back.status, back.err), (said.status, ""))
            self.assertIn(f"slips: 1,024 slips, {len(content):,} bytes.\n",
                          back.out)

    def test_it_says_what_it_wrote(self):
        said = self.inspect(FIVE, "--slips", self.out).out
        self.assertIn(f"\nWritten\n  {self.out}: 5 slips, one of each", said)
        self.out.unlink()
        got = json.loads(self.inspect(FIVE, "--slips", self.out, "--json").out)
        self.assertEqual(got["written"], {"slips": str(self.out)})

    def test_with_the_other_outputs(self):
        mended, drawn = self.folder / "m", self.folder / "p"
        said, content = self.written(FIVE, "--mend", mended,
                                     "--picture", drawn)
        self.assertEqual((said.status, content), (1, OF_FIVE))
        self.assertEqual(self.names(), ["dump", "m", "p"])

    def test_never_over_a_file_and_all_or_none(self):
        there, nowhere = self.file("there", b"as it was"), self.folder / "no"
        for others in ((), ("--mend", self.folder / "m")):
            for path in (there, self.folder / "dump", nowhere / "out"):
                said = self.inspect(FIVE, "--slips", path, *others)
                self.assertEqual((said.status, said.out), (2, ""))
                self.assertEqual(self.names(), ["dump", "there"])
        said = self.inspect(FIVE, "--slips", self.out, "--mend", self.out)
        self.assertIn("named for two outputs", said.err)
        self.assertEqual(there.read_bytes(), b"as it was")
        self.assertEqual((self.folder / "dump").read_bytes(), FIVE)

    def test_nothing_of_a_refused_dump(self):
        for bank, *options in ((b"",), (FIVE[1:],), (FIVE, "--card", 5)):
            said = self.inspect(bank, "--slips", self.out, *options)
            self.assertEqual((said.status, said.out), (2, ""))
            self.assertFalse(self.out.exists())

    def test_an_answer_that_has_no_slip(self):
        with library.open_library(ARCHIVE) as lib, \
                self.assertRaisesRegex(files.Unusable, "1 is refused by 16"):
            slip_files.slips_of(lib, [ref.Answer(), ref.Answer(5)])


class Words(OnSlips):
    def test_each_reading_in_words(self):
        said = self.read_back(OF_FIVE)
        self.assertEqual((said.status, said.err), (1, ""))
        self.assertEqual(said.out, f"""{self.folder}/slips: 5 slips, 24 bytes.

What the slips say
  clean       1   no byte changed
  chips       1   corrected in single chips
  card        1   corrected in one card, and in marked or one further chip
  none        1   no record fits under the marks of that reading
  several     1   two records or more fit, and none is guessed
  sound       3   of 5: 600 per thousand give a record

Slips, by the byte at which each begins
  byte 0, block 0: clean
  byte 4, block 1: chips, 1 byte
  byte 9, block 2: card 0, 2 bytes
  byte 15, block 3: none
  byte 19, block 4: several; card 0 is the lowest whose change reaches a record
""")

    def test_exit(self):
        for status, reading, line in (
                (0, ref.Answer(), "clean"), (1, ref.Answer(10), "none"),
                (0, ref.Answer(kind=1, n=2), "chips, 2 bytes"),
                (0, ref.Answer(kind=2, card=4, n=1), "card 4, 1 byte"),
                (0, ref.Answer(kind=2, card=3, n=11), "card 3, 11 bytes"),
                (1, ref.Answer(11, card=4), "several; card 4 is the lowest "
                                            "whose change reaches a record")):
            said = self.read_back(slips.slip_of(1023, reading))
            self.assertEqual((said.status, said.err), (status, ""))
            self.assertIn(f"\n  byte 0, block 1023: {line}\n", said.out)

    def test_a_line_for_each(self):
        several = slips.slip_of(1023, ref.Answer(11, card=4))
        said = self.read_back(several * 3000)
        lines = said.out.split("each begins\n")[1].splitlines()
        self.assertEqual(len(lines), 3000)
        self.assertTrue(lines[-1].startswith(
            "  byte 14995, block 1023: several; card 4 is the lowest whose"))

    def test_json(self):
        for seed in range(6):
            outcomes, data = some_slips(random.Random(seed))
            said = self.read_back(data, "--json")
            got = json.loads(said.out)
            words = [one["reading"] for one in got["slips"]]
            self.assertEqual(got["slips"], objects(outcomes))
            self.assertEqual(got["totals"],
                             {word: words.count(word) for word in WORDS})
            self.assertEqual((got["bytes"], got["fault"]), (len(data), None))
            self.assertEqual(
                got["sound_per_thousand"],
                ref.sound_per_thousand(tuple(got["totals"].values())))
            self.assertEqual(got["slips_file"], str(self.folder / "slips"))

    def test_a_reader_that_stops_is_no_complaint(self):
        path = self.file("slips", OF_FIVE * 9000)
        said = run_shell(f"'{INSPECT}' --read-slips '{path}' --library "
                         f"'{ARCHIVE}' | head -n 1")
        self.assertIn("45,000 slips", said.out)
        self.assertEqual(said.err, "")


# A slip's bytes, and of the refusal its number, place in them and why.
CUT = "the file ends within the slip that begins at byte {}"
FAULTS = (
    ((0,), 16, 0, "it is 0, and a slip begins with 3 (clean), 11 (chips), 15 "
                  "(card), 17 (none) or 21 (several)"),
    ((3, 0, 4, 9), 16, 2, "it is 4, and the high byte of a block number, "
                          "which is below 1,024, is 0 to 3"),
    ((15, 0, 255), 16, 2, "it is 255, and the high byte of a block number, "
                          "which is below 1,024, is 0 to 3"),
    ((3, 0, 0, 1), 16, 3, "it is 1, and the kind behind map 3 is 0, clean"),
    ((11, 0, 0, 2, 1), 16, 3,
     "it is 2, and the kind behind map 11 is 1, chips"),
    ((11, 0, 0, 1, 3), 16, 4, "it is 3, and n is 1 to 2 for chips"),
    ((15, 0, 0, 1, 0, 1), 16, 3,
     "it is 1, and the kind behind map 15 is 2, card"),
    ((15, 0, 0, 2, 5, 0), 16, 4, "it is 5, and a card is 0 to 4"),
    ((15, 0, 0, 2, 4, 12), 16, 5, "it is 12, and n is 1 to 11 for a card"),
    ((17, 0, 0, 11), 16, 3,
     "it is 11, and the refusal behind map 17 is 10, none"),
    ((21, 0, 0, 5), 16, 3, "it is 5, and a card is 0 to 4"),
    ((21, 0, 0, 4, 10), 16, 4,
     "it is 10, and the refusal behind map 21 is 11, several"),
    ((3, 0, 0), 15, 3, CUT), ((15, 0), 15, 2, CUT), ((21,), 15, 1, CUT),
)


class Faults(OnSlips):
    def test_each_in_words(self):
        with library.open_library(ARCHIVE) as lib:
            for before in (b"", OF_FIVE):
                for bent, number, place, why in FAULTS:
                    found = slip_files.ReadBack(lib, before + bytes(bent))
                    at = len(before)
                    self.assertEqual(found.fault, (number, at, at + place,
                                                   why.format(at)))
                    self.assertEqual(found.blocks, 5 if before else 0)

    def test_what_is_said_of_one(self):
        for before in (b"", OF_FIVE):
            for bent, number, place, why in (FAULTS[0], FAULTS[-1]):
                said = self.read_back(before + bytes(bent))
                at = len(before)
                self.assertEqual(said.status, 2)
                self.assertEqual(said.err, f"inspect: {self.folder}/slips: "
                                 f"{number} at byte {at + place}: "
                                 f"{why.format(at)}\n")
                self.assertEqual(said.out == "", before == b"")

    def test_what_stands_before_it_is_said(self):
        said = self.read_back(OF_FIVE + b"\3\0\0\1" + OF_FIVE)
        self.assertIn("slips: 5 slips, then a fault at byte 27; what stands "
                      "behind", re.sub(r"\s+", " ", said.out))
        self.assertEqual(said.out.count("\n  byte "), 5)
        self.assertIn("  byte 19, block 4: several;", said.out)

    def test_json(self):
        said = self.read_back(OF_FIVE + b"\x15\0\0\5", "--json")
        got = json.loads(said.out)
        self.assertEqual((said.status, len(got["slips"])), (2, 5))
        self.assertEqual(got["fault"],
                         {"number": 16, "slip": 24, "byte": 27,
                          "why": "it is 5, and a card is 0 to 4"})
        got = json.loads(self.read_back(b"\0", "--json").out)
        self.assertEqual((got["slips"], got["sound_per_thousand"]), ([], None))

    def test_every_cause_has_its_rule(self):
        """Each byte of each slip set to each value; and each rule is said."""
        said = set()
        with library.open_library(ARCHIVE) as lib:
            for reading in (READINGS[0], READINGS[1], READINGS[6], READINGS[8],
                            READINGS[-1]):
                whole = slips.slip_of(1023, reading)
                for at in range(len(whole)):
                    for value in range(256):
                        bent = whole[:at] + bytes([value]) + whole[at + 1:]
                        found = slip_files.ReadBack(lib, bent)
                        wanted = slips.read(bent, 0)
                        if wanted.number == 0:
                            self.assertEqual(found.slips[0].at, 0)
                            continue
                        fault = found.fault
                        self.assertEqual((fault.number, fault.byte),
                                         wanted[:2])
                        said.add(re.sub(r"^it is \d+, and ", "", fault.why))
        rules = [slip_files.A_MAP]
        for places in slip_files.RULES.values():
            rules += places.values()
        self.assertLessEqual(set(rules), said)

    def test_an_empty_file(self):
        said = self.read_back(b"")
        self.assertEqual((said.status, said.out), (2, ""))
        self.assertIn("slips: 15 at byte 0: the file is empty", said.err)

    def test_files(self):
        for path, why in ((self.folder / "missing", "no such file"),
                          (self.folder, "is a directory")):
            said = self.read_back(path)
            self.assertEqual((said.status, said.out), (2, ""))
            self.assertIn(f"cannot be read: {why}", said.err)
        said = self.read_back(CLEAN[:4] * (slip_files.MOST // 4 + 1))
        self.assertEqual((said.status, said.out), (2, ""))
        self.assertIn("more than 1,048,576 bytes", said.err)

    def test_what_does_not_go_with_it(self):
        dump, out = self.file("dump", FIVE), self.folder / "out"
        for others in ((dump,), ("--card", 0), ("--chip", 0), ("--mend", out),
                       ("--marks", "255,0,255,255"), ("--picture", out),
                       ("--slips", out)):
            said = self.read_back(OF_FIVE, *others)
            self.assertEqual((said.status, said.out), (2, ""), others)
            self.assertIn("--read-slips goes with --json", said.err)
            self.assertFalse(out.exists())

    def test_neither_dump_nor_slips(self):
        said = run(INSPECT, "--json")
        self.assertEqual((said.status, said.out), (2, ""))
        self.assertIn("name a DUMP", said.err)


class Manual(InFolder):
    def test_its_example_is_what_is_said(self):
        page = (ROOT / "docs" / "inspect.1").read_text().replace("\\-", "-")
        example = re.search(r'^\.\\" example of slips\n(.*?)^\.EE', page,
                            re.M | re.S)[1]
        lines = [line[2:] for line in example.splitlines()
                 if line.startswith("$ ")]
        script = "\n".join([f"cd '{self.folder}'", *lines])
        script = script.replace("second/", f"{ROOT}/second/").replace(
            "tools/inspect", f"'{INSPECT}' --library '{ARCHIVE}'")
        wanted = example.split("\n", len(lines))[-1]
        # The bank has blocks of every reading, so some are unread.
        self.assertEqual(run_shell(script), (1, wanted, ""))


if __name__ == "__main__":
    unittest.main()
