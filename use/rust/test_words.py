"""The calls in words, plain/words.rs, against plain.rs: they agree on seeded
inputs of every sort, and each planted mistake is found."""

import shutil
import sys
import unittest
from pathlib import Path

HERE = Path(__file__).resolve().parent
sys.path.insert(0, str(HERE.parent))

from kit import InFolder, needs, run, try_run      # noqa: E402

ROUNDS = 100_000        # five readings each, and the other calls
TO_FIND = 4_000         # in which a mistake must be found
DIFFERS, PANICS = 1, 101
SORTS = ["clean", "chips", "card", "none", "several", "refused"]

# The line of check_words.rs and the lines of plain.rs that name a version.
WORDS = '("words", calls!(words))'
MODULE = '#[path = "plain/{0}.rs"]\npub mod {0};\n'

# Mistake to a piece of words.rs, which stands there once, and the mistaken one.
ARE_ZERO = "self.rows | (self.last | self.first | self.second) as u64 == 0"
SUMS = {
    "x^8 is another": ("* 0x1D", "* 0x1B"),
    "one of two bits doesn't come back": (
        "^ top * 20", "^ (top & all(1)) * 20"),
    "x^4 times has a bit of x^8 less": ("^ top << 3 ^ top << 2", "^ top << 2"),
    "152 is 156": ("by_152 ^ by_x ^ by_68 ^", "by_x ^ by_68 ^"),
    "a card has another's factor": ("c2, c2 ^ c3)", "c2, c3)"),
    "a square is another": ("c1 ^ c3 ^ c4, c1 ^ c4)", "c1 ^ c3, c1 ^ c4)"),
    "chip 8 of the cards is left out": ("as_eight(low[j], last[j])", "low[j]"),
    "chip 8 is taken as x^7": (
        "0x0000_0001_0101_0001", "0x0100_0000_0000_0000"),
    "the squares' upper half by x^4": ("times_x4(upper >> 32)", "upper >> 32"),
    "the last step by x^2": ("times_x(once >> 8)", "times_x2(once >> 8)"),
    "row 8 is not looked at": (
        ARE_ZERO, "self.rows | (self.first | self.second) as u64 == 0"),
    "the label sums are not looked at": (
        ARE_ZERO, "self.rows | self.last as u64 == 0"),
}
ONE_MORE = "(_, 0) => bad.one_more(j)"
SEARCH = {
    "the first card that fits is taken": (
        "bad.once == LOG_OF_ZERO && bad.twice == LOG_OF_ZERO", "false"),
    "several by the first label sum": ("&& bad.twice == LOG_OF_ZERO", ""),
    "one label sum is enough": (
        "bad.without_card(*j) == (0, 0)", "bad.without_card(*j).0 == 0"),
    "the first that fits with a marked chip": (
        "&& fitting.next().is_some()", "&& false"),
    "marked chips alone are several": (
        "change.places() & !marked != 0 &&", ""),
    "the highest card is named": ("let card = lowest as u8;", "let card = 4;"),
    "a chip on the marked card counts": (
        ONE_MORE, "(_, 0) if marks.count == 0 => bad.one_more(j)"),
    "a chip off the marked card doesn't count": (
        ONE_MORE, "(_, 0 | 1) => bad.one_more(j)"),
    "a further chip on the marked card": (
        "if p / CHIPS != j {", "if p != 46 {"),
    "one label sum is enough under a card mark": (
        "(t2 == 0).then_some", "true.then_some"),
    "the card keeps the further chip's row": (
        "i => rows ^= (value as u64) << (8 * i)", "_ => {}"),
    "the card keeps the further chip's row 8": (
        "8 => last ^= value", "8 => {}"),
}
IS_ONE = "answer(&change, change.n() == 1)"
SAID = {
    "a card's one chip is the card": (IS_ONE, "answer(&change, false)"),
    "two chips of a card are chips": (
        IS_ONE, "answer(&change, change.n() < 3)"),
    "one more beside a marked chip is the card": (
        "others & others.wrapping_sub(1) == 0", "others == 0"),
    "a marked card that doesn't change is said": (
        "change.rows | change.last as u64 == 0", "false"),
    "n without chip 8": ("on_card + (self.last != 0) as u8", "on_card"),
    "n without the second further chip": ("+ (w != 0) as u8", ""),
}
ON_PATROL = "change.make(block);\n            change.note(window);"
CALLS = {
    "unlawful marks are taken": ("Marks::open(marks)?;", ""),
    "byte 34 for byte 35": (
        "output[RECORD] = at_34", "output[RECORD] = at_35"),
    "card 4 without byte 34": ("low[4] ^ (at_34 as u64) << 56", "low[4]"),
    "card 4 without byte 35": ("last[4] ^ at_35", "last[4]"),
    "a factor without its divisor": (
        "(510 - d - both) % 255", "(510 - both) % 255"),
    "nothing is changed off the card": (
        "block[p] ^= value", "block[p] ^= value & 0"),
    "a clean block isn't handed out": ("correct(None);", ""),
    "the output is written where none fits": (
        "Err(answer) => answer,", "Err(answer) => { correct(None); answer }"),
    "a get adds nothing": ("|change| change.note(window)", "|_| _ = window"),
    "a patrol adds nothing": (ON_PATROL, "change.make(block); _ = &window;"),
    "a patrol puts nothing back": (
        ON_PATROL, "change.note(window); _ = &block;"),
    "the window isn't moved": ("window.copy_within(n.., 0)", "let _ = n"),
    "the highest position first": (
        "places.trailing_zeros() as u8", "63 - places.leading_zeros() as u8"),
    "a report by no marks": (
        "look(sums(block), marks, |_| {})",
        "look(sums(block), NO_MARKS, |_| {})"),
}
MISTAKES = {**SUMS, **SEARCH, **SAID, **CALLS}


@needs("rustc")
class Words(InFolder):
    def setUp(self):
        super().setUp()
        shutil.copytree(HERE / "plain", self.folder / "plain")
        for source in ("plain.rs", "random.rs", "check_words.rs"):
            shutil.copy(HERE / source, self.folder)

    def replaced(self, file, right, wrong):
        """The text of a file with a piece that stands there once replaced."""
        text = (self.folder / file).read_text()
        self.assertEqual(text.count(right), 1, right)
        return text.replace(right, wrong)

    def compiled(self, *options):
        program = self.folder / "check_words"
        run("rustc", *options, "--edition", "2021", "-o", program,
            self.folder / "check_words.rs")
        return program

    def test_they_agree(self):
        said = run(self.compiled("-O", "-D", "warnings"), "words", 1, ROUNDS)
        sorts = dict(line.split() for line in said.splitlines())
        self.assertEqual(list(sorts), SORTS)
        for sort, times in sorts.items():
            self.assertGreater(int(times), ROUNDS // 10, sort)

    def with_mistakes(self):
        """One program with a version for each mistake, and the right one."""
        versions, modules = [WORDS], [MODULE.format("words")]
        for at, (mistake, pieces) in enumerate(MISTAKES.items()):
            name = f"words_{at}"
            (self.folder / "plain" / f"{name}.rs").write_text(
                self.replaced("plain/words.rs", *pieces))
            modules.append(MODULE.format(name))
            versions.append(f'("{mistake}", calls!({name}))')
        for file, one, all_of_them in (
                ("plain.rs", modules[0], "".join(modules)),
                ("check_words.rs", WORDS, ", ".join(versions))):
            text = self.replaced(file, one, all_of_them)
            (self.folder / file).write_text(text)
        return self.compiled("-A", "warnings")

    def test_each_mistake_is_found(self):
        program = self.with_mistakes()
        self.assertEqual(try_run(program, "words", 1, TO_FIND).returncode, 0)
        for mistake in MISTAKES:
            with self.subTest(mistake):
                done = try_run(program, mistake, 1, TO_FIND)
                self.assertIn(done.returncode, (DIFFERS, PANICS), done.stdout)


if __name__ == "__main__":
    unittest.main(verbosity=2)
