"""audit/constants.py finds a constant table in every form, wherever it is planted, and
refuses it if the statement does not name it; and a statement that names no table."""

import functools
import os
import shutil
import subprocess
import sys
import unittest
from pathlib import Path

sys.dont_write_bytecode = True

import forms
import plants
from constants import leaning, refusals, tables
from compiled import plain, printed
from lowered import lower_all, program
from planted import InFolder, Planted, planted, replaced, tests_of
from plants import Plant, before, behind
from source import ROOT, listed
from stated import state
from statement import LINE, STATEMENT, THEOREM, is_proved, named

TABLES = ["code::labels", "field::table::inverses_from", "slip::limits::behind",
          "sums::words::card_words"]
UNNAMED = f"; crates/{STATEMENT} does not name it"

OUTPUT = "    let mut out = [0u8; "
PRINTS = "    print_sheet(&mut rt.stdout())"

KIND = """
fn weight(k: Kind) -> u8 {
    match k {
        Kind::Clean => 3,
        Kind::Chips(_) => 1,
        Kind::OneCard(_, _) => 2,
    }
}
"""

TEN = """
fn ten_to(n: u8) -> u64 {
    match n {
        0 => 1,
        1 => 10,
        _ => 100,
    }
}
"""

PLANTS = {
    "const array": Plant(
        [behind("field", "\nconst SQUARES: [u8; 5] = [1, 4, 16, 64, 29];\n"
                         "\npub fn square(i: usize) -> u8 {\n    SQUARES[i]\n}\n")],
        ("field::square: an array of 5: 1, 4, 16, 64, .." + UNNAMED,)),
    "const array of another crate": Plant(
        [behind("code", "\npub const CARDS: [u8; 2] = [1, 152];\n"),
         before("decode", plants.NO_MARKS, "    let factors = code::CARDS;\n")],
        ("decode::no_marks: an array of 2: 1, 152" + UNNAMED,)),
    "local array": Plant(
        [before("block", plants.COPY, "        let steps = [1u8, 9, 17];\n")],
        ("block::copy_sixteen: an array of 3: 1, 9, 17" + UNNAMED,)),
    "array as an argument": Plant(
        [behind("bank", "\nfn first(t: [u8; 3]) -> u8 {\n    t[0]\n}\n"),
         before("bank", plants.PATROL, "    first([3, 1, 2]);\n")],
        ("bank::patrol: an array of 3: 3, 1, 2" + UNNAMED,)),
    "arrays in the programs": Plant(
        [before("cabinet", OUTPUT, "    let t = [2, 3u8];\n", "main"),
         before("tables", OUTPUT, "    let t = [1, 4u8];\n", "main"),
         before("tables", PRINTS, "    let t = [5, 6u8];\n", "main")],
        ("cabinet::print_reading: an array of 2: 2, 3" + UNNAMED,
         "tables::main: an array of 2: 5, 6" + UNNAMED,
         "tables::print_sheet: an array of 2: 1, 4" + UNNAMED,
         "tables::main: it can reach tables::main, which has a constant table",
         "tables::main: it can reach tables::print_sheet, which has a constant table")),
    "array in a crate that had no code": Plant(
        [behind("base", "\npub fn bits() -> [u8; 2] {\n    [1, 2]\n}\n")],
        ("base::bits: an array of 2: 1, 2" + UNNAMED,)),
    "match on a number": Plant(
        [behind("rounding", TEN)],
        ("rounding::ten_to: a match with 3 results: 1, 10, 100" + UNNAMED,)),
    "fill and words": Plant(
        [before("lines", "    text.number_line(b\"blocks \"",
                "    let empty = [255u8; 64];\n"
                "    text.put(b\"of \");\n")],
        ()),
    "tables that the printing program leans on": Plant(
        [("sheet", "lib", "power(u16::from(p % 9) + 17 * u16::from(p / 9))",
          "code::labels()[(p % 45) as usize]"),
         ("sheet", "lib", "1, 255, log);", "1, 255, |a| field::invert(a));")],
        ("tables::main: it can reach code::labels, which has a constant table",
         "tables::main: it can reach field::table::inverses_from, which has ")),
    "match on an enum": Plant([behind("reading", KIND)], ()),
    "array that is gone": Plant(
        [("code", "lib", "    LABELS\n", "    [0; 45]\n")],
        (f"code::labels: crates/{STATEMENT} names it, as Table0, and it has no ",)),
}


class Forms(InFolder):
    def test_each(self):
        found = {}
        for table in tables(self.lowered()):
            _, module, _ = table.function.split("::")
            found.setdefault(module, []).append(str(table).partition(": ")[2])
        for name, (_, said) in forms.read().items():
            with self.subTest(name):
                self.assertEqual(found.pop(self.module(name), []), said)
        self.assertEqual(found, {})

    def module(self, name):
        return "form_" + name.replace(" ", "_")

    def lowered(self):
        modules = [f"mod {self.module(name)} {{\nuse crate::*;\n{code}\n}}\n"
                   for name, (code, _) in forms.read().items()]
        files = plain(ROOT / "crates", ["text"])
        files[Path("forms/src/lib.rt")] = forms.AROUND + "".join(modules)
        return program(printed(files, ["std", "io"]))


@functools.cache
def everything():
    return lower_all()


def source():
    """The tables of this repository's source."""
    return tables(everything())


def refused(found, crates):
    return list(refusals(found, named(crates), is_proved(crates)))


class Tables(Planted):
    """With a small statement that names every table of the source."""

    starts = list(listed())

    def said(self, crates):
        state(crates, TABLES)
        lowered = lower_all(crates)
        found = tables(lowered)
        return [*refused(found, crates), *leaning(lowered, found)]


tests_of(PLANTS, Tables)
del Planted


class Source(InFolder):
    """With the repository's statement."""

    def setUp(self):
        super().setUp()
        crates = ROOT / "crates"
        for path in (*crates.glob("*/proofs/Constants.antt"), crates / STATEMENT,
                     crates / THEOREM):
            to = self.crates / path.relative_to(crates)
            to.parent.mkdir(parents=True, exist_ok=True)
            shutil.copy(path, to)

    def test_its_tables(self):
        self.assertEqual(sorted({table.function for table in source()}), TABLES)

    def test_it_is_not_refused(self):
        self.assertEqual(refused(source(), self.crates), [])
        self.assertEqual(list(leaning(everything(), source())), [])

    def test_each_field_is_needed(self):
        whole = (self.crates / STATEMENT).read_text()
        fields = [line for line in whole.splitlines()
                  if line.startswith("  pub ") and "Table " in line]
        for line, function in zip(fields, self.in_order(fields), strict=True):
            with self.subTest(line):
                (self.crates / STATEMENT).write_text(
                    whole.replace(f"\n{line}\n", f"\n  --{line}\n"))
                found = refused(source(), self.crates)
                self.assertTrue(found)
                for said in found:
                    self.assertRegex(said, f"^{function}: .*{UNNAMED}$")

    def in_order(self, fields):
        """The functions that the fields are said of."""
        names = {name: function for function, name in named(self.crates).items()}
        return [names[line.split()[3]] for line in fields]

    def test_no_theorem(self):
        replaced(self.crates / THEOREM, LINE, f"-- {LINE}")
        self.assertEqual(refused(source(), self.crates),
                         [f"crates/{THEOREM}: it has no line `{LINE}`"])

    def test_no_crate_is_left_out(self):
        crates = {name.split("::")[0] for name in everything().functions}
        self.assertLessEqual({"cabinet", "capi", "sheet", "tables"}, crates)
        for crate in set(listed()) - crates:
            for path in (ROOT / "crates" / crate / "src").rglob("*.rt"):
                self.assertNotRegex(path.read_text(), r"(?m)^[^/\n]*\bfn\b")


class Run(InFolder):
    def run_it(self, *words, **more):
        return subprocess.run([sys.executable, ROOT / "audit" / "constants.py", *words],
                              env={**os.environ, **more}, text=True,
                              capture_output=True)

    def copy(self, *edits):
        planted(edits, self.crates, listed())
        state(self.crates, TABLES)
        return "--crates", self.crates

    def test_on_the_source(self):
        done = self.run_it("--list")
        self.assertEqual((done.returncode, done.stderr), (0, ""))
        *lines, last = done.stdout.splitlines()
        self.assertIn("code::labels: an array of 45: 1, 2, 4, 8, ..", lines)
        self.assertEqual(last, f"audit/constants: {len(lines)} constant tables in "
                               f"{len(TABLES)} functions, all named in "
                               f"crates/{STATEMENT}, and tables::main reaches none "
                               f"of them: {', '.join(TABLES)}")

    def test_on_a_planted_one(self):
        done = self.run_it(*self.copy(*PLANTS["const array"].edits))
        self.assertEqual((done.returncode, done.stdout), (1, ""))
        self.assertEqual(done.stderr, PLANTS["const array"].says[0]
                         + "\naudit/constants: 1 refused\n")

    def test_without_a_statement(self):
        words = self.copy()
        (self.crates / STATEMENT).unlink()
        done = self.run_it(*words)
        self.assertEqual((done.returncode, done.stdout, done.stderr),
                         (1, "", f"audit/constants: crates/{STATEMENT} is not there\n"))

    def test_on_source_that_the_compiler_does_not_take(self):
        done = self.run_it(*self.copy(behind("sums", "\nfn broken( {\n")))
        self.assertEqual((done.returncode, done.stdout), (1, ""))
        self.assertIn("audit/constants: the compiler does not take", done.stderr)

    def test_without_the_compiler(self):
        done = self.run_it(PATH="")
        self.assertEqual((done.returncode, done.stderr),
                         (1, "audit/constants: rt is not installed\n"))


if __name__ == "__main__":
    unittest.main()
