"""audit/buffers.py refuses a buffer for a block, wherever it is planted, and nothing else."""

import os
import re
import subprocess
import sys
import unittest

sys.dont_write_bytecode = True

import plants
from buffers import CALLS, TABLES, refusals
from lowered import lower
from planted import InFolder, Planted, planted, tests_of
from source import ROOT, needs


class Buffers(Planted):
    starts = ["capi"]

    def said(self, crates):
        return refusals(lower(crates))


tests_of(plants.ALL, Buffers)
del Planted


class Source(unittest.TestCase):
    @classmethod
    def setUpClass(cls):
        cls.program = lower()
        cls.followed = {function.name for function in cls.program.reached(CALLS)}

    def test_it_is_not_refused(self):
        self.assertEqual(refusals(self.program), [])

    def test_every_function_of_it_is_there(self):
        written = set()
        for crate in needs()[0]:
            for path in (ROOT / "crates" / crate / "src").glob("*.rt"):
                module = crate if path.stem == "lib" else f"{crate}::{path.stem}"
                written |= {f"{module}::{name}" for name in re.findall(
                    r'^(?:pub(?:\(crate\))? )?(?:extern "C" )?fn (\w+)', path.read_text(), re.M)}
        self.assertGreater(len(written), 100)
        self.assertEqual(written - set(self.program.functions), set())

    def test_the_search_is_followed(self):
        self.assertLessEqual({"sums::of_block", "sums::built_in::gather_card", "decode::no_marks",
                              "decode::over_cards", "decode::beside_card",
                              "decode::equations::Equations::with_two", "change::apply",
                              "block::copy_sixteen", "window::add", "core::slice::edits::slice+T::copy_from_slice<u8>",
                              *TABLES}, self.followed)

    def test_other_calls_are_not(self):
        self.assertFalse({"store::store", "bank::put", "window::propose",
                          "registers::interrupt"} & self.followed)

    def test_the_calls_are_those_of_the_header(self):
        header = (ROOT / "use" / "c" / "livomashen.h").read_text()
        for name in CALLS:
            if name.startswith("capi::"):
                self.assertRegex(header, rf"(?m)^uint\d+_t {name[6:]}\(")


class Run(InFolder):
    def run_it(self, *words, **more):
        return subprocess.run([sys.executable, ROOT / "audit" / "buffers.py", *words],
                              text=True, capture_output=True, env={**os.environ, **more})

    def test_on_the_source(self):
        done = self.run_it()
        self.assertEqual((done.returncode, done.stderr), (0, ""))
        self.assertRegex(done.stdout, r"^audit/buffers: \d+ functions followed, and no")

    def test_list(self):
        lines = self.run_it("--list").stdout.splitlines()
        self.assertIn("16 bytes at most: block::copy_sixteen", lines)
        self.assertIn(" 0 bytes at most: code::labels", lines)
        self.assertRegex(lines[-1], f"^audit/buffers: {len(lines) - 1} functions")

    def test_on_a_planted_one(self):
        planted(plants.ALL["array"].edits, self.crates, needs()[0])
        done = self.run_it("--crates", self.crates)
        self.assertEqual((done.returncode, done.stdout), (1, ""))
        self.assertIn("block::correct: a value of its own is [u8; 45], 45 bytes\n",
                      done.stderr)
        self.assertIn("\naudit/buffers: 2 refused\n", done.stderr)

    def test_on_source_that_the_compiler_does_not_take(self):
        planted([plants.behind("sums", "\nfn broken( {\n")], self.crates, needs()[0])
        done = self.run_it("--crates", self.crates)
        self.assertEqual((done.returncode, done.stdout), (1, ""))
        self.assertIn("audit/buffers: the compiler does not take the source", done.stderr)
        self.assertIn("sums/src/lib.rt:", done.stderr)

    def test_without_the_compiler(self):
        done = self.run_it(PATH="")
        self.assertEqual((done.returncode, done.stderr),
                         (1, "audit/buffers: rt is not installed\n"))


if __name__ == "__main__":
    unittest.main()
